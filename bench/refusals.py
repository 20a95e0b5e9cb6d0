#!/usr/bin/env python3
"""Which share of the pairs of a list is refused by counts before any matching.

Lists of unifiers, variants and unifiers modulo equations are made by Maude, irredundant, so that no member covers another.
For each ordered pair of each list it is asked whether operators refuse (one that has no identity and is none stands more
often in some term of the first than in the second's), and whether variables do (one of the second stands, term by term, at
or above no variable of the first). Instances that are made at random are asked too: none of them may be refused.
Run with the number of problems a theory and a seed: bench/refusals.py 24 1
"""
import random
import re
import subprocess
import sys

ELEMENTS = ["op a : -> S .", "op b : -> S .", "op c : -> S ."]
UNARY = "op g : S -> S ."
FREE = "op p : S S -> S ."
XOR = ["eq x(X, X) = 0 [variant] .", "eq x(X, X, Y) = Y [variant] .", "eq x(X, 0) = X [variant] ."]
DECRYPT = ["eq d(e(X, Y), Y) = X [variant] ."]
BOTH_WAYS = ["eq d(e(X, Y), Y) = X [variant] .", "eq e(d(X, Y), Y) = X [variant] ."]
PAIRS = ["eq l(p(X, Y)) = X [variant] .", "eq r(p(X, Y)) = Y [variant] ."]

# the most members that are looked at of one list, so that no list counts for all
MOST = 40

# name: declarations, equations, operators with an identity and identities, the operators of problems with their arities
THEORIES = {
    "ac": (["op f : S S -> S [assoc comm] ."], [], [], {"f": 2}),
    "ac_g": (["op f : S S -> S [assoc comm] .", UNARY], [], [], {"f": 2, "g": 1}),
    "ac_p": (["op f : S S -> S [assoc comm] .", FREE], [], [], {"f": 2, "p": 2}),
    "two_ac": (["op f : S S -> S [assoc comm] .", "op h : S S -> S [assoc comm] ."], [], [], {"f": 2, "h": 2}),
    "acu": (["op f : S S -> S [assoc comm id: 0] .", "op 0 : -> S ."], [], ["f", "0"], {"f": 2}),
    "acu_g": (["op f : S S -> S [assoc comm id: 0] .", "op 0 : -> S .", UNARY], [], ["f", "0"], {"f": 2, "g": 1}),
    "acu_p": (["op f : S S -> S [assoc comm id: 0] .", "op 0 : -> S .", FREE], [], ["f", "0"], {"f": 2, "p": 2}),
    "acu_ac": (["op f : S S -> S [assoc comm id: 0] .", "op 0 : -> S .", "op h : S S -> S [assoc comm] ."], [], ["f", "0"],
               {"f": 2, "h": 2}),
    "two_acu": (["op f : S S -> S [assoc comm id: 0] .", "op 0 : -> S .", "op h : S S -> S [assoc comm id: 1] .",
                 "op 1 : -> S ."], [], ["f", "0", "h", "1"], {"f": 2, "h": 2}),
    "comm": (["op k : S S -> S [comm] ."], [], [], {"k": 2}),
    "comm_g": (["op k : S S -> S [comm] .", UNARY], [], [], {"k": 2, "g": 1}),
    "comm_ac": (["op k : S S -> S [comm] .", "op f : S S -> S [assoc comm] ."], [], [], {"k": 2, "f": 2}),
    "comm_acu": (["op k : S S -> S [comm] .", "op f : S S -> S [assoc comm id: 0] .", "op 0 : -> S ."], [], ["f", "0"],
                 {"k": 2, "f": 2}),
    "xor": (["op x : S S -> S [assoc comm] .", "op 0 : -> S ."], XOR, [], {"x": 2}),
    "xor_g": (["op x : S S -> S [assoc comm] .", "op 0 : -> S .", UNARY], XOR, [], {"x": 2, "g": 1}),
    "xor_p": (["op x : S S -> S [assoc comm] .", "op 0 : -> S .", FREE], XOR, [], {"x": 2, "p": 2}),
    "decrypt": (["op e : S S -> S .", "op d : S S -> S ."], DECRYPT, [], {"e": 2, "d": 2}),
    "both_ways": (["op e : S S -> S .", "op d : S S -> S ."], BOTH_WAYS, [], {"e": 2, "d": 2}),
    "pairs": ([FREE, "op l : S -> S .", "op r : S -> S ."], PAIRS, [], {"p": 2, "l": 1, "r": 1}),
    "decrypt_ac": (["op e : S S -> S .", "op d : S S -> S .", "op f : S S -> S [assoc comm] ."], DECRYPT, [],
                   {"e": 2, "d": 2, "f": 2}),
}


def random_term(rng, ops, depth):
    if depth == 0 or rng.random() < 0.25:
        return rng.choice(["X", "Y", "Z", "W", "X", "Y", "Z", "W", "a", "b", "c"])
    op, arity = rng.choice(sorted(ops.items()))
    many = arity + (rng.randint(0, 2) if op in "fhx" else 0)
    return "%s(%s)" % (op, ", ".join(random_term(rng, ops, depth - 1) for _ in range(many)))


def parsed(text, place=0):
    """A term (its symbol and its arguments) and the place behind it."""
    found = re.compile(r"[^\s(),]+").match(text, place)
    name, place, args = found.group(0), found.end(), []
    while place < len(text) and text[place] in "(,":
        opened = text[place] == "("
        if not opened and not args:
            break
        term, place = parsed(text, place + (1 if opened else 2))
        args.append(term)
        if text[place] == ")":
            place += 1
            break
    return (name, args), place


def counted(term, sums, counts):
    name, args = term
    counts[name] = counts.get(name, 0) + (len(args) - 1 if name in sums and args else 1)
    for arg in args:
        counted(arg, sums, counts)
    return counts


def answers(module, command):
    try:
        out = subprocess.run(["maude", "-no-banner", "-no-advise", "-no-wrap"], input=module + command + "\nquit\n", text=True,
                             capture_output=True, timeout=3).stdout
    except subprocess.TimeoutExpired:
        return []
    lists, member = [], []
    for line in out.splitlines() + [""]:
        bound = re.match(r"([A-Z]\w*) --> (.*)", line)
        whole = re.match(r"S: (.*)", line)
        if bound:
            member.append((bound.group(1), bound.group(2)))
        elif whole:
            member.append(("", whole.group(1)))
        elif not line.strip() and member:
            lists.append(member)
            member = []
    return lists


def is_variable(name):
    return name[0] in "#%@" or ":" in name


def asked(theory, member):
    declarations, _, without, _ = theory
    sums = [d.split()[1] for d in declarations if "assoc" in d]
    tables = [counted(parsed(text)[0], sums, {}) for _, text in sorted(member)]
    names = sorted({n for t in tables for n in t})
    rows = {n: [t.get(n, 0) for t in tables] for n in names}
    operators = {n: r for n, r in rows.items() if not is_variable(n) and n not in without}
    columns = sorted([r for n, r in rows.items() if is_variable(n)], key=sum)
    return operators, columns


def at_most(few, many):
    return all(m <= n for m, n in zip(few, many))


def refusals(first, second):
    """Refused by operators other than constants, by constants, and by columns."""
    (ops, columns), (others, above) = first, second
    bad = [n for n, row in ops.items() if not at_most(row, others.get(n, [0] * len(row)))]
    constants = [n for n in bad if n in "abc01"]
    by_columns = not all(any(at_most(c, o) for c in columns) for o in above)
    return len(bad) > len(constants), bool(constants), by_columns


def instance(rng, theory, member):
    """The member under a random substitution, as text."""
    chosen = {}

    def value(found):
        name = found.group(0)
        if name not in chosen:
            chosen[name] = random_term(rng, theory[3], 2).translate(str.maketrans("XYZW", "1234"))
            chosen[name] = re.sub(r"\b([1234])\b", r"#\1:S", chosen[name])
        return chosen[name]
    return [(n, re.sub(r"[#%@]\d+:S", value, t)) for n, t in member]


def main():
    number, rng = int(sys.argv[1]), random.Random(int(sys.argv[2]))
    pairs = problems = instances = wrong = 0
    refused = {"operators": 0, "constants": 0, "columns": 0, "operators and constants": 0, "operators and columns": 0, "all": 0}
    for name, theory in THEORIES.items():
        declarations, equations, _, ops = theory
        module = "fmod M is sort S . %s vars X Y Z W : S . %s endfm\n" % (" ".join(ELEMENTS + declarations), " ".join(equations))
        here = left = 0
        for turn in range(number):
            s, t = random_term(rng, ops, 2), random_term(rng, ops, 2)
            if equations and turn % 2:
                command = "filtered variant unify [40] in M : %s =? %s ." % (s, t)
            elif equations:
                command = "get irredundant variants [40] in M : %s ." % random_term(rng, ops, 2)
            else:
                command = "irredundant unify [60] in M : %s =? %s ." % (s, t)
            members = answers(module, command)
            members = rng.sample(members, MOST) if len(members) > MOST else members
            problems += len(members) > 1
            profiles = [asked(theory, m) for m in members]
            for i, first in enumerate(profiles):
                for j, second in enumerate(profiles):
                    if i == j:
                        continue
                    o, k, c = refusals(first, second)
                    here += 1
                    left += not (o or k or c)
                    refused["operators"] += o
                    refused["constants"] += k
                    refused["columns"] += c
                    refused["operators and constants"] += o or k
                    refused["operators and columns"] += o or c
                    refused["all"] += o or k or c
                made = asked(theory, instance(rng, theory, members[i]))
                instances += 1
                wrong += any(refusals(first, made))
        pairs += here
        print("%-12s %7d pairs, %6d not refused" % (name, here, left), flush=True)
    print("%d lists of two members or more, %d pairs" % (problems, pairs))
    for what, count in refused.items():
        print("refused by %-24s %6.2f %%" % (what, 100.0 * count / max(pairs, 1)))
    print("%d instances, %d of them refused" % (instances, wrong))


main()
