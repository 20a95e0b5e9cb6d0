#!/usr/bin/env python3
"""Answers to the rows of the tests of matching, found by trying all substitutions.

    python3 oracle/matchers.py < ROWS

The input is a table as patterns.rt of crates/fvn_tests_matching has it: blocks, each with a signature in its first line.
The values that are tried for a variable are the parts of the targets: each subterm, each choice of summands of a sum, and
each constant. A substitution answers a row where each pattern under it has the flat form of its target, and no value has
a higher sort than its variable.
"""

import itertools
import sys

from forms import is_variable, over, read, show, sort, total, variables
from signatures import of_row


def instance(sig, by, t):
    return by[t] if is_variable(t) else over(sig, t[0], [instance(sig, by, u) for u in t[2]])


def values(sig, t):
    """All parts of a target."""
    found = {t}
    if not is_variable(t):
        for u in t[2]:
            found |= values(sig, u)
        if t[1]:
            for count in range(2, len(t[2])):
                found |= {total(sig, t[0], list(some)) for some in itertools.combinations(t[2], count)}
    return found


def answers(sig, patterns, targets):
    names = []
    for t in patterns:
        names = variables(t, names)
    tried = {(op, False, ()) for op in sig.ops if sig.arity(op) == 0}
    for t in targets:
        tried |= values(sig, t)
    fit = [[v for v in tried if sig.leq(sort(sig, v, lambda x: x[0]), x[0])] for x in names]
    found = []
    for choice in itertools.product(*fit):
        by = dict(zip(names, choice))
        if all(instance(sig, by, t) == u for t, u in zip(patterns, targets)):
            found.append(by)
    return names, found


def answer(sig, row):
    left, right = row.split(" | ")
    patterns, targets = [[read(sig, word) for word in side.split(", ")] for side in (left, right)]
    assert len(patterns) == len(targets)
    names, found = answers(sig, patterns, targets)
    if not found:
        return "no"
    if len(found) > 1 or not names:
        return "yes"
    return "; ".join(show(x) + " " + show(found[0][x]) for x in names)


def told(text):
    """The table with its answers."""
    blocks = []
    for block in text.rstrip("\n").split("\n\n"):
        lines = block.split("\n")
        sig = of_row(lines[0])
        rows = [line.partition(" => ")[0] for line in lines[1:]]
        blocks.append("\n".join(lines[:1] + [row + " => " + answer(sig, row) for row in rows]))
    return "\n\n".join(blocks) + "\n"


if __name__ == "__main__":
    sys.stdout.write(told(sys.stdin.read()))
