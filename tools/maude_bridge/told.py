"""What the lines mean with which fvn refuses a module, a problem or bindings."""
import re

LEFT_OUT = {"import": "imports are left out", "membership": "memberships are left out",
            "condition": "conditions are left out", "rule": "rules are left out",
            "name": "the name of an operator is one word", "assoc": "`assoc` stands only beside `comm`",
            "identity": "an identity stands only as `assoc comm id:`",
            "attribute": "it has an attribute that is left out",
            "equation": "equations are for unification only: write `[variant]`"}
FAULTS = [(r"module 14", "the text has over 1,048,576 bytes"),
          (r"module 1 .*", "a byte outside ASCII may stand in comments alone"),
          (r"module 3 .*", "it is not read as a statement"),
          (r"module 4 .*", "a sort or a name means nothing there"),
          (r"module 5 .*", "a variable has two sorts, or the name of a constant"),
          (r"module 9\.9", "it has over 64 sorts or 256 operators, or an operator of over 8 arguments"),
          (r"module 9\.1 (.*)", r"sort \1 is below itself"),
          (r"module 9\.2 (.*)", r"the declarations of \1 differ in the number or the kinds of arguments"),
          (r"module 9\.3 (.*)", r"the axioms of \1 ask for two arguments of one kind, and `assoc` for a result of it"),
          (r"module 9\.4 (.*)", r"the declarations of \1 differ in their axioms"),
          (r"module 9\.5 (.*)", r"the identity of \1 is no constant of its kind"),
          (r"module 9\.6 (\S+) (.*)", r"over the sorts \2 the operator \1 has no least result"),
          (r"module 9\.7 (\S+) (.*)", r"the sort of a sum of \2 by \1 depends on its brackets"),
          (r"module 9\.8 (\S+) (.*)", r"\2 is not at or below the sort of its sum by \1 with the identity"),
          (r"module 6 .*", "an operator has a wrong number of arguments"),
          (r"module 7 .*", "an argument or a side is of a wrong kind"),
          (r"module 11 .*", "its right side has a variable that its left side has not"),
          (r"module 13 statement .*", "it is the 257th equation"),
          (r"module 13 equation .*", "a side has over 400 symbols, or its left side too many instances"),
          (r"module 10 .*", "its left side becomes a variable, where some variables are identities"),
          (r"module 12 .*", "its left side becomes an identity, where some variables are identities; drop `id:`, and "
           "write equations for it"),
          (r"problem 1", "a byte outside ASCII may stand in comments alone"),
          (r"problem 2", "it has not the form of a problem or of bindings, or binds a variable twice"),
          (r"problem 3", "a name means nothing"),
          (r"problem 4", "an operator has a wrong number of arguments"),
          (r"problem 5", "an argument or a side is of a wrong kind"),
          (r"problem 6", "the sides together have over 400 symbols, or a bound term over 1,000"),
          (r"problem 7", "a variable of the problem begins with #"),
          (r"problem 8", "a term is not of the sort of its variable")]


def meaning(line):
    """The sentence for a line with which fvn refuses a text."""
    match = re.fullmatch(r"module 8 statement \d+ (\w+)", line)
    if match:
        return LEFT_OUT.get(match[1], "it is left out")
    for form, words in FAULTS:
        match = re.fullmatch(form, line)
        if match:
            return match.expand(words)
    return "it is refused"
