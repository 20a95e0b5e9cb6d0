"""What fvn leaves out of Maude's modules, and what is dropped since no equation means anything else without it."""
import re

from .flat import quoted_sorts

# Attributes of operators that fvn takes, that say nothing of the equations, and that are put in other words.
TAKEN = {"assoc", "comm", "id:", "ctor", "prec", "gather", "format"}
DROPPED = {"memo", "frozen", "metadata", "latex", "config", "object", "obj", "message", "msg", "portal"}
# Built-in constants that are no more than their names.
PLAIN = re.compile(r"\(\s*id-hook System(True|False)\s*\)")
FORMS = {"mb": "memberships are left out by fvn", "cmb": "memberships are left out by fvn",
         "ceq": "conditions are left out by fvn", "cq": "conditions are left out by fvn",
         "sd": "strategies are left out by fvn", "csd": "strategies are left out by fvn",
         "strat": "strategies are left out by fvn"}
# The words of the statements of BOOL, of the module below it and of what these put into every module.
BOOLEAN = {"==", "=/=", "if", "then", "else", "fi", "true", "false", "and", "or", "xor", "not", "implies", "and-then",
           "or-else", "Bool"}


class Fault:
    """A statement of the flattened module that fvn does not take, and the reason."""

    def __init__(self, statement, reason):
        self.statement, self.reason = statement, reason


class Ruled:
    """The text of a flattened module for fvn: its lines, the statements of each, what was dropped, and the faults."""

    def __init__(self, flat, name):
        self.flat = flat
        self.lines, self.origins = [f"fmod {name} is"], [""]
        self.notes, self.faults = [], []
        self.rules = 0
        self.used = used_names(flat)
        self.gone = set()
        for statement in flat.statements:
            self.statement(statement)
        self.lines.append("endfm")
        self.origins.append("")
        self.judge_names()

    def statement(self, statement):
        """Writes a statement, or leaves it out, or tells why neither can be."""
        word = statement.split()[0]
        if word in ("rl", "crl"):
            self.rules += 1
        elif statement in self.flat.operators:
            self.operator(statement, self.flat.operators[statement])
        elif statement in self.flat.equations:
            self.equation(statement, self.flat.equations[statement])
        elif word in FORMS:
            self.faults.append(Fault(statement, FORMS[word]))
        elif word in ("sort", "sorts", "subsort", "subsorts", "var"):
            self.write(statement, quoted_sorts(statement))
        else:
            self.faults.append(Fault(statement, "fvn has no such statement"))

    def write(self, statement, text):
        self.lines.append("  " + text)
        self.origins.append(statement)

    def drop(self, statement, text):
        if text not in (it for _, it in self.notes):
            self.notes.append((statement, text))

    def operator(self, statement, operator):
        """Writes an operator with the attributes that fvn takes."""
        kept, special = [], dict(operator.attributes).get("special")
        if special and not PLAIN.fullmatch(special):
            if operator.name in self.used:
                self.faults.append(Fault(statement, f"{operator.name} is built into Maude, and an equation uses it"))
            else:
                self.gone.add(operator.name)
                self.drop(statement, f"{operator.name} is built into Maude and in no equation: it is left out")
            return
        for name, more in operator.attributes:
            if name in TAKEN:
                kept.append((name, more))
            elif name == "strat":
                self.strategy(statement, operator, more)
            elif name in DROPPED or name == "special":
                self.drop(statement, f"{name} of {operator.name} is dropped")
            elif name == "iter":
                self.drop(statement, f"iter of {operator.name} is dropped: each use of it is written out")
            elif name not in ("left id:", "right id:"):
                self.faults.append(Fault(statement, f"fvn leaves out the attribute {name}"))
        self.judge_axioms(statement, operator)
        self.write(statement, operator.text(kept))

    def strategy(self, statement, operator, more):
        """Drops a strategy that rewrites the arguments and then the whole, or in a module without equations any."""
        order = more.strip("()").split()
        if order == [*map(str, range(1, len(operator.arguments) + 1)), "0"]:
            return
        if self.flat.equations and (order[-1:] != ["0"] or len(set(order)) <= len(operator.arguments)):
            reason = f"its strategy {more} does not rewrite each argument and then the whole, as fvn does"
            self.faults.append(Fault(statement, reason))
        else:
            self.drop(statement, f"strat of {operator.name} is dropped")

    def judge_axioms(self, statement, operator):
        """Tells of axioms that fvn leaves out."""
        if operator.has("assoc") and not operator.has("comm"):
            self.faults.append(Fault(statement, "fvn takes `assoc` only beside `comm`"))
        one_sided = operator.has("left id:") or operator.has("right id:")
        if one_sided or operator.has("id:") and not (operator.has("assoc") and operator.has("comm")):
            self.faults.append(Fault(statement, "fvn takes an identity only as `assoc comm id:`"))

    def equation(self, statement, equation):
        """Writes an equation that may be used in unification."""
        kept = [it for it in equation.attributes if it[0] in ("variant", "label")]
        for name, _ in equation.attributes:
            if name in ("metadata", "print"):
                self.drop(statement, f"{name} of an equation is dropped")
            elif name not in ("variant", "label"):
                self.faults.append(Fault(statement, f"fvn leaves out the attribute {name} of equations"))
        if not equation.has("variant") and not equation.has("owise"):
            self.faults.append(Fault(statement, "fvn reads only equations for unification: write `[variant]`"))
        self.write(statement, equation.text(sorted(kept, key=lambda it: it[0] != "variant"), self.flat.iterated))

    def judge_names(self):
        """Tells of bytes outside ASCII, and of one name with several numbers or kinds of arguments."""
        for line, statement in zip(self.lines, self.origins):
            odd = re.search(r"[^ ]*[^ -~][^ ]*", line)
            if odd:
                reason = f"the name {odd[0]} has a byte outside ASCII, which fvn reads in comments alone"
                self.faults.append(Fault(statement, reason))
        kinds, first = kinds_of(self.flat), {}
        for statement, operator in self.flat.operators.items():
            if operator.name in self.gone:
                continue
            shape = ([kinds.get(sort_in(it)) for it in operator.arguments], kinds.get(sort_in(operator.result)))
            if first.setdefault(operator.name, shape) != shape:
                reason = f"the name {operator.name} is in two kinds, or has two numbers of arguments, and fvn takes one"
                self.faults.append(Fault(statement, reason))

    def text(self):
        return "\n".join(self.lines) + "\n"

    def statement_of(self, line):
        """The statement of which a line of fvn speaks that refuses the module, as far as the line tells."""
        words = line.split()
        number = int(words[3]) if len(words) > 3 and words[3].isdigit() else 0
        if words[2:3] == ["statement"]:
            return self.origins[number]
        if words[2:3] == ["equation"]:
            return [it for it in self.origins if it in self.flat.equations][number - 1]
        if words[2:3] == ["byte"]:
            return self.origins[self.text()[:number].count("\n")]
        named = [it for it, operator in self.flat.operators.items() if operator.name == "".join(words[2:3])]
        return named[0] if named else ""


def used_names(flat):
    """The operators that some equation, or some identity, is written with."""
    names = set()
    for it in flat.equations.values():
        names |= it.left.names() | it.right.names()
    for it in flat.operators.values():
        if not it.has("special"):
            names |= {more for name, more in it.attributes if name.endswith("id:")}
    return names | {re.sub(r"\^[0-9]+$", "", it) for it in names}


def sort_in(text):
    """A sort of the kind in these brackets, or the sort itself."""
    return re.split(r",(?![^{]*\})", text.strip("[]"))[0]


def kinds_of(flat):
    """A number for each sort; sorts that subsort declarations join have one."""
    kind = {it: it for it in flat.sorts}
    for statement in flat.statements:
        if statement.startswith("subsort"):
            joined = [it for it in statement.split()[1:-1] if it != "<"]
            old = {kind[it] for it in joined}
            kind.update({it: kind[joined[0]] for it in kind if kind[it] in old})
    return kind
