#!/usr/bin/env python3
"""Prints tables and partitions of small problems, by their definitions alone.

    python3 oracle/partitions.py < PROBLEMS

Each line of the input is a problem so: pairs with `=` between their sides and `; `
between the pairs, each operator after its arguments, sums nested to the right, and all arguments in order. The
program adds the nodes, the sides, the subterms and the identities, and all partitions of the nodes. A partition is
written as the number of the first node of each node's class, and partitions stand in the order in which the first
pair of nodes that is not settled is put into one class before it is kept apart. All partitions of the set of nodes
are gone through, so a problem should have at most ten nodes.
"""

import sys

ARITY = {"f": 0, "g": 0, "h": 1, "i": 2, "j": 2, "k": 2, "l": 2}
AXIOMS = {"f": "free", "g": "free", "h": "free", "i": "free", "j": "comm", "k": "sum", "l": "unital"}
IDENTITY = {"l": "g"}


def parsed(text):
    terms = []
    for word in text.split():
        if word[0] in "AB":
            terms.append((word,))
        else:
            count = ARITY[word]
            args = terms[len(terms) - count:]
            terms = terms[:len(terms) - count] + [(word, *args)]
    assert len(terms) == 1, text
    return terms[0]


def walk(t):
    yield t
    for u in t[1:]:
        yield from walk(u)


def table(problem):
    """The nodes, the sides, the subterms in the order in which they begin, and the identities."""
    nodes = []

    def enter(t):
        for u in t[1:]:
            enter(u)
        if t not in nodes:
            nodes.append(t)

    for pair in problem:
        for t in pair:
            enter(t)
    subterms = list(dict.fromkeys(u for pair in problem for t in pair for u in walk(t)))
    units = []
    for t in list(nodes):
        e = IDENTITY.get(t[0])
        if e and t[0] not in [f for f, _ in units]:
            if (e,) not in nodes:
                nodes.append((e,))
            units.append((t[0], (e,)))
    return nodes, subterms, units


def classes(count):
    """All partitions of so many nodes, each as the first member of each node's class."""
    found = [[]]
    for i in range(count):
        found = [names + [name] for names in found for name in sorted(set(names)) + [i]]
    return found


def meets(t, u, same):
    together = all(same(a, b) for a, b in zip(t[1:], u[1:]))
    if t[0] == u[0] and together and not same(t, u):
        return False
    if not same(t, u):
        return True
    if AXIOMS[t[0]] != "unital" and AXIOMS[u[0]] != "unital" and t[0] != u[0]:
        return False
    if t[0] != u[0]:
        return True
    if AXIOMS[t[0]] == "free":
        return together
    if AXIOMS[t[0]] == "comm":
        return together or (same(t[1], u[2]) and same(t[2], u[1]))
    return True


def is_partition(nodes, problem, names):
    place = {t: i for i, t in enumerate(nodes)}

    def same(t, u):
        return names[place[t]] == names[place[u]]

    applied = [t for t in nodes if t[0][0] not in "AB"]
    return all(same(*pair) for pair in problem) and all(meets(t, u, same) for t in applied for u in applied)


def digit(n):
    return chr(ord("0") + n)


def shown(text):
    problem = [tuple(parsed(side) for side in pair.split(" = ")) for pair in text.split("; ")]
    nodes, subterms, units = table(problem)
    number = {t: digit(i) for i, t in enumerate(nodes)}
    parts = [
        " ".join(t[0] + "".join(number[u] for u in t[1:]) for t in nodes),
        " ".join(number[t] + "=" + number[u] for t, u in problem),
        " ".join(number[t] for t in subterms),
        " ".join(f + number[e] for f, e in units),
    ]
    fitting = [names for names in classes(len(nodes)) if is_partition(nodes, problem, names)]
    pairs = [(i, j) for i in range(len(nodes)) for j in range(i + 1, len(nodes))]
    fitting.sort(key=lambda names: [names[i] != names[j] for i, j in pairs])
    partitions = " ".join("".join(digit(n) for n in names) for names in fitting)
    return text + " => " + " | ".join(parts).rstrip() + " => " + partitions


if __name__ == "__main__":
    for line in sys.stdin.read().splitlines():
        print(shown(line.split(" => ")[0]).rstrip())
