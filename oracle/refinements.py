#!/usr/bin/env python3
"""Answers to the rows of the tests of refinements, found by trying all sorts for all variables.

    python3 oracle/refinements.py < ROWS

The input is a table as refinements.rt of crates/fvn_tests_matching has it: blocks, each with a signature in its first line.
A way gives each variable that occurs in a value of the listed variables a sort of its kind; it fits where no value has a
higher sort than its variable. The maximal ones are kept, in lexicographic order of the numbers of the sorts in order of
first occurrence in the substitution, kinds after sorts. Variables that share no value are tried apart.
"""

import itertools
import sys

from forms import in_order, is_variable, over, read, show, sort, variables
from signatures import of_row


def at(sig, t, way):
    """A term with its variables at these sorts."""
    if is_variable(t):
        return way[t] + t[1:]
    args = [at(sig, u, way) for u in t[2]]
    return over(sig, t[0], args) if not t[1] else (t[0], True, in_order(args))


def maximal(sig, goals, names):
    """All maximal ways for these variables, over goals in which no other stands."""
    fits = []
    for row in itertools.product(*[[s for s in sig.all if sig.kind[s] == sig.kind[x[0]]] for x in names]):
        way = dict(zip(names, row))
        if all(sig.leq(sort(sig, t, way.get), x[0]) for x, t in goals):
            fits.append(row)
    best = [r for r in fits if not any(q != r and all(map(sig.leq, r, q)) for q in fits)]
    return [dict(zip(names, row)) for row in best]


def apart(goals):
    """The goals in groups that share no variable, each with its variables."""
    groups = []
    for goal in goals:
        mine, names = [goal], variables(goal[1], [])
        for group in [g for g in groups if set(g[1]) & set(names)]:
            groups.remove(group)
            mine, names = group[0] + mine, group[1] + [x for x in names if x not in group[1]]
        groups.append((mine, names))
    return groups


def answer(sig, row):
    left, right = row.split(" | ") if " | " in row else ("", row)
    pairs = [pair.split(" ", 1) for pair in right.split("; ")]
    bound = {x: read(sig, word) for x, word in pairs}
    every = []
    for t in bound.values():
        every = variables(t, every)
    groups = [maximal(sig, goals, names) for goals, names in apart([(x, bound[x]) for x in left.split(", ") if x])]
    ways = []
    for some in itertools.product(*groups):
        way = {x: sig.kind[x[0]] for x in every}
        for part in some:
            way.update(part)
        ways.append(way)
    ways.sort(key=lambda way: [sig.all.index(way[x]) for x in every])
    return " & ".join("; ".join(show(at(sig, t, way)) for t in bound.values()) for way in ways) or "no"


def told(text):
    """The table with its answers."""
    blocks = []
    for block in text.rstrip("\n").split("\n\n"):
        lines = block.split("\n")
        sig = of_row(lines[0])
        rows = [line.partition(" => ")[0] for line in lines[1:]]
        blocks.append("\n".join(lines[:1] + [row + " => " + answer(sig, row) for row in rows]))
    return "\n\n".join(blocks) + "\n"


if __name__ == "__main__":
    sys.stdout.write(told(sys.stdin.read()))
