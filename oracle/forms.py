"""Flat terms over the signatures of tests, written with each operator after its arguments. A variable is its word, a sort and a
byte for its number, counted from `0`; any other term is an operator, whether it is a sum of several summands, and its arguments."""


def is_variable(t):
    return isinstance(t, str)


def number(x):
    return ord(x[1]) - ord("0")


def order(t):
    if is_variable(t):
        return (0, number(t), t[0])
    return (1, t[0], t[1], tuple(order(u) for u in t[2]))


def in_order(args):
    return tuple(sorted(args, key=order))


def total(sig, op, summands):
    """The sum of these, none of which is a sum or the identity; none where there are none and no identity."""
    unit = sig.ops[op]["id"]
    if not summands:
        return None if unit is None else (unit, False, ())
    return summands[0] if len(summands) == 1 else (op, True, in_order(summands))


def over(sig, op, args):
    """The operator over flat terms."""
    axioms = sig.ops[op]["axioms"]
    if axioms == "comm":
        return (op, False, in_order(args))
    if axioms == "free" or not args:
        return (op, False, tuple(args))
    unit = sig.ops[op]["id"]
    summands = []
    for t in args:
        if not is_variable(t) and t[0] == op and t[1]:
            summands += t[2]
        elif unit is None or t != (unit, False, ()):
            summands.append(t)
    return total(sig, op, summands)


def read(sig, text):
    terms = []
    for word in text.split(" "):
        if word[0].isupper():
            terms.append(word)
        else:
            count = sig.arity(word)
            args = terms[len(terms) - count :]
            terms = terms[: len(terms) - count] + [over(sig, word, args)]
    assert len(terms) == 1, text
    return terms[0]


def variables(t, found):
    """The variables of a term, in order of first occurrence, behind those that were found."""
    if is_variable(t):
        return found if t in found else found + [t]
    for u in t[2]:
        found = variables(u, found)
    return found


def sort(sig, t, way):
    """The least sort of a term, where `way` says which sort a variable has."""
    if is_variable(t):
        return way(t)
    op, joined, args = t
    sorts = [sort(sig, u, way) for u in args]
    if not joined:
        return sig.result(op, sorts)
    whole = sorts[0]
    for s in sorts[1:]:
        whole = sig.result(op, [whole, s])
    return whole


def show(t):
    """A term as tests show it: of the number of a variable the last digit."""
    if is_variable(t):
        return t[0] + str(number(t) % 10)
    if not t[2]:
        return t[0]
    inside = " ".join(map(show, t[2]))
    return t[0] + ("[" + inside + "]" if t[1] else "(" + inside + ")")
