#!/usr/bin/env python3
"""Prints the parts of small problems and all their splits, by the definitions alone.

    python3 oracle/splits.py < PROBLEMS

Each line of the input is a problem as `oracle/partitions.py` reads it. The program adds the nodes of the parts, those
of the parts that have a head, the pairs of commutative nodes and the operators with axioms; then the splits that some
partition of the nodes gives. All partitions of the set of nodes are gone through, and of each all that its classes
leave open. A split is the number of each part's class, the head of each headed part (`F`, or `P`, `S` or `I` with an
operator), and for each pair `x` or `-`; splits stand in the order of their texts.
"""

import itertools
import sys

import partitions as P

HEADS = {"free": lambda f: "F", "comm": lambda f: "P" + f, "sum": lambda f: "S" + f, "unital": lambda f: "S" + f}


def is_var(t):
    return t[0][0] == "A"


def theory(t):
    return "free" if P.AXIOMS[t[0]] == "free" else t[0]


def standing(t, nodes, problem):
    """The theories of the operators that a node stands under."""
    found = {theory(u) for u in nodes if not is_var(u) and t in u[1:]}
    for left, right in problem:
        found |= {theory(u) for u, v in ((left, right), (right, left)) if v == t and not is_var(u)}
    return found


def outline(nodes, problem):
    parts = [t for t in nodes if not is_var(t) and standing(t, nodes, problem) - {theory(t)}]
    faces = {u for p in problem for u, v in (p, p[::-1]) if is_var(u) and is_var(v)}
    shared = [t for t in nodes if is_var(t) and (len(standing(t, nodes, problem)) > 1 or t in faces)]
    headed = [t for t in parts if P.AXIOMS[t[0]] == "unital"] + shared
    pairs = [(nodes[i], nodes[j]) for j in range(len(nodes)) for i in range(j)
             if not is_var(nodes[i]) and nodes[i][0] == nodes[j][0] and P.AXIOMS[nodes[i][0]] == "comm"]
    ops = list(dict.fromkeys(t[0] for t in nodes if not is_var(t) and P.AXIOMS[t[0]] != "free"))
    return parts + shared, headed, pairs, ops


def heads_of(members, units, ops):
    """What can head the value of a class."""
    for t in members:
        if t in units:
            return ["I" + t[0]]
    for t in members:
        if not is_var(t) and P.AXIOMS[t[0]] != "unital":
            return [HEADS[P.AXIOMS[t[0]]](t[0])]
    return ["F"] + [HEADS[P.AXIOMS[f]](f) for f in ops]


def splits(nodes, problem, units, parts, headed, pairs, ops):
    found = set()
    place = {t: i for i, t in enumerate(nodes)}
    for names in P.classes(len(nodes)):
        if not P.is_partition(nodes, problem, names):
            continue
        name = lambda t: names[place[t]]
        of_parts = [name(t) for t in parts]
        numbers = "".join(P.digit(of_parts.index(n)) for n in of_parts)
        open_classes = list(dict.fromkeys(name(t) for t in headed))
        choices = [heads_of([t for t in nodes if name(t) == n], units, ops) for n in open_classes]
        ways = [["-x"[name(t[1]) != name(u[1])]] if name(t) == name(u) else ["-", "x"] for t, u in pairs]
        for chosen in itertools.product(*choices):
            head = dict(zip(open_classes, chosen))
            for crossed in itertools.product(*ways):
                found.add(numbers + ":" + "".join(head[name(t)] for t in headed) + ":" + "".join(crossed))
    return sorted(found)


def shown(text):
    problem = [tuple(P.parsed(side) for side in pair.split(" = ")) for pair in text.split("; ")]
    nodes, subterms, units = P.table(problem)
    parts, headed, pairs, ops = outline(nodes, problem)
    number = {t: P.digit(i) for i, t in enumerate(nodes)}
    given = splits(nodes, problem, [e for _, e in units], parts, headed, pairs, ops)
    return " ".join([
        text, "=>", "".join(number[t] for t in parts), "|", "".join(number[t] for t in headed), "|",
        "".join(number[t] + number[u] for t, u in pairs), "|", "".join(ops), "=>", *given])


for line in sys.stdin.read().splitlines():
    print(shown(line.split(" => ")[0]))
