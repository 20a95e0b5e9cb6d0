#!/usr/bin/env python3
"""Deep terms at each limit, by each command: the least stack with which the answer comes, and what comes with less of it or with
less memory for the whole program.

Over `./fvn` or the program behind --fvn. Each row is run with 64 MiB, for what it answers, with the usual stack of 8 MiB, with each of
100 to 1,024 KiB (`ulimit -s`, in steps of --step KiB), and with 2.4 to 8 MB of memory (`ulimit -v`, in steps of --space KB); rows that
take over half a second with three of each. A run that ends by a signal in place of an answer or of status 8 is told, with what was given
to it, and at the end the greatest need of each command. With --only WORD the rows whose name has the word; a run ends after --seconds.
"""
import argparse
import collections
import resource
import subprocess
import sys
import time

OPERATORS = ("fmod DEEP is sort S . op a : -> S . ops f g : S -> S . op _+_ : S S -> S [assoc comm] . op p : S S -> S . "
             "op k : S S -> S [comm] . ")


def module(statements=""):
    return OPERATORS + statements + "endfm\n"


def unary(n, leaf="a"):
    return "g(" * n + leaf + ")" * n


def left(n, op):
    return ("%s(" % op) * n + "a" + ",a)" * n


def right(n, op, leaf="a"):
    return ("%s(a," % op) * n + leaf + ")" * n


def sums(n, leaf):
    """Sums with an identity, one within another."""
    return "g(__(a," * n + leaf + "))" * n


def row_of(statement, *words):
    return list(words), module(statement)


def sided(left, bound):
    """A term that is rewritten once, by an equation with this left side."""
    return ["verify", "X:S =? a", "{X:S --> f(%s)}" % bound], module("op _*_ : S S -> S [assoc comm] . eq f(%s) = a [variant] . " % left)


def sum_of(part, n):
    """A sum of so many, with the variables X0, Z0, X1, Z1, .. in them."""
    return "_+_(%s)" % ",".join(part.replace("X", "X%d" % i).replace("Z", "Z%d" % i) for i in range(n))


def alternating(n, leaf):
    """Sums of two operators, one within another."""
    for i in range(n):
        leaf = "_+_(X%d:S,_*_(Z%d:S,%s))" % (i, i, leaf)
    return leaf


def other(term):
    """The term with other variables."""
    return term.replace("X", "Y").replace("Z", "W")


BAGS = "fmod BAGS is sorts E M . subsort E < M . op mt : -> M . op g : M -> M . op __ : M M -> M [assoc comm id: mt] . endfm\n"
COPIES = " /\\ ".join(["T:M =? " + unary(120, "__(X:M,Z:M)"), *("Y%d:M =? T:M" % i for i in range(20))])
TWO = "__(A:E,X:M) =? __(B:E,Z:M)"
CONSTANTS = ",".join("c%d" % i for i in range(1, 21))
NESTS = ("fmod NESTS is sorts E M . subsort E < M . op mt : -> M . ops a %s : -> E . ops f g : M -> M . op k : M M -> M [comm] . "
         "op __ : M M -> M [assoc comm id: mt] . " % CONSTANTS.replace(",", " "))
OPEN = "X:S"
for _ in range(49):
    OPEN = "k(k(_+_(V:S,W:S),_+_(W:S,U:S)),%s)" % OPEN
OPENING = "eq f(%s) = f(X:S) [variant] . " % OPEN
VARIABLES, GROUPS, DEEP_SUMS = sum_of("X:S", 198), sum_of("_*_(X:S,X:S)", 99), alternating(98, "X:S")
SUMMING = "eq f(%s) = f(X:M) [variant] . " % sums(32, "X:M")
TURNING = "eq f(%s) = f(X:S) [variant] . " % right(49, "k", "X:S")
FALLING = "eq f(%s) = f(X:S) [variant] . " % unary(98, "X:S")
EVEN = "eq g(g(a)) = a [variant] . "
STEPS = "eq g(a) = a [variant] . "
LARGE = "eq %s = %s [variant] . " % (unary(399, "X:S"), unary(398, "X:S"))


def valued(term, count):
    """A problem with two unifiers, of which none has the other as an instance, and so many variables more for a term."""
    return " /\\ ".join([TWO, "T:M =? " + term, *("Y%d:M =? T:M" % i for i in range(count - 1))])


def nested(term, count):
    return ["unify", valued(term, count)], NESTS + "endfm\n"


def twelve(sort):
    return "f(X:%s) =? f(Z:%s)" % (sort, sort) + "".join(" /\\ Y%d:%s =? X:%s" % (i, sort, sort) for i in range(10))


# name: words and module
ROWS = {
    "check, sides of 400": row_of(LARGE, "check"),
    "check, a left side of 100,000": row_of("eq %s = a [variant] . " % unary(100_000), "check"),
    "check, 100,000 parentheses": row_of("eq %sg(a)%s = a [variant] . " % ("(" * 100_000, ")" * 100_000), "check"),
    "check, a module of 1 MiB, a side of 349,000": row_of("eq %s = a [variant] . " % unary(349_000), "check"),
    "check, a module of 1 MiB, 500,000 parentheses": row_of("eq %sg(a)%s = a [variant] . " % ("(" * 500_000, ")" * 500_000), "check"),
    "check, 256 equations of 399 symbols": row_of(("eq %s = a [variant] . " % unary(398)) * 256, "check"),
    "check, pairs to the left": row_of("eq %s = a [variant] . " % left(199, "p"), "check"),
    "check, commutative pairs to the right": row_of("eq %s = a [variant] . " % right(199, "k"), "check"),
    "unify, a side of 399": row_of("", "unify", "X:S =? " + unary(398, "Y:S")),
    "unify, two sides of 200": row_of("", "unify", "%s =? %s" % (unary(199, "X:S"), unary(199, "Y:S"))),
    "unify, commutative pairs": row_of("", "unify", "%s =? %s" % (left(99, "k"), right(99, "k"))),
    "unify, a side of 40,000": row_of("", "unify", "X:S =? " + unary(40_000, "Y:S")),
    "unify, 40,000 parentheses": row_of("", "unify", "(" * 40_000 + "X:S" + ")" * 40_000 + " =? a"),
    "unify, 4,096 unifiers": row_of("ops c1 c2 c3 c4 c5 c6 c7 c8 : -> S . ", "unify", "_+_(X:S,Y:S,Z:S) =? _+_(c1,c2,c3,c4,c5,c6,c7,c8)"),
    "variants, a term of 40,000": row_of("", "variants", unary(40_000, "Y:S")),
    "variants, pairs to the left": row_of(EVEN, "variants", left(199, "p")),
    "vunify, a side of 40,000": row_of("", "vunify", "X:S =? " + unary(40_000, "Y:S")),
    "verify, a side of 40,000": row_of("", "verify", "X:S =? " + unary(40_000, "Y:S"), "{}"),
    "verify, a bound term of 40,000": row_of("", "verify", "X:S =? X:S", "{X:S --> %s}" % unary(40_000)),
    "terminates, 12,000 weights": row_of("", "terminates", " , ".join(["g : 1 1"] * 12_000)),
    "terminates, pairs to the left": row_of("eq %s = a [variant] . " % left(199, "p"), "terminates", "p : 1 1 1"),
    "variants, a term of 400": row_of(EVEN, "variants", unary(399, "X:S")),
    "variants, 398 steps": row_of(STEPS, "variants", unary(398)),
    "variants, two workers": row_of(EVEN, "variants", "--workers=2", unary(399, "X:S")),
    "vunify, 398 steps": row_of(STEPS, "vunify", unary(398) + " =? X:S"),
    "vunify, a side of 391": row_of("eq g(g(g(g(a)))) = a [variant] . ", "vunify", unary(390, "X:S") + " =? a"),
    "verify, a term of 1,000": row_of("", "verify", "X:S =? X:S", "{X:S --> %s}" % unary(999)),
    "verify, 499 steps": row_of(EVEN, "verify", "X:S =? X:S", "{X:S --> %s}" % unary(999)),
    "verify, pairs to the left": row_of("", "verify", "X:S =? X:S", "{X:S --> %s}" % left(499, "p")),
    "verify, commutative pairs to the right": row_of("", "verify", "X:S =? X:S", "{X:S --> %s}" % right(499, "k")),
    "verify, a left side of 198 variables": sided(VARIABLES, other(VARIABLES)),
    "verify, a left side of 99 sums beside one another": sided(GROUPS, other(GROUPS)),
    "verify, a left side of 101 sums one within another": sided(
        alternating(50, "_+_(g(U:S),V:S)"), other(alternating(50, "_+_(g(a),%s)" % unary(650)))),
    "verify, a left side of 196 sums one within another": sided(DEEP_SUMS, other(DEEP_SUMS)),
    "terminates, sides of 400": row_of(LARGE, "terminates", "g : 1 1"),
    "verify, 256 equations of 399 symbols": row_of(
        ("eq %s = a [variant] . " % unary(398)) * 256, "verify", "X:S =? a", "{X:S --> %s}" % unary(999)),
    "work": (["work", "4"], ""),
    "work, the largest number": (["work", "6"], ""),
    "unify, 21 values of 120 symbols": (["unify", COPIES + " /\\ __(A:E,X:M) =? __(B:E,Z:M)"], BAGS),
    "unify, 21 values of 201 symbols in commutative pairs": nested(right(100, "k", "X:M"), 21),
    "unify, 71 values of 201 symbols in commutative pairs": nested(right(100, "k", "X:M"), 71),
    "unify, 171 values of sums of 21": nested("g(__(%s,W:M))" % CONSTANTS, 171),
    "unify, 101 values of 25 sums, one within another": nested(sums(25, "W:M"), 101),
    "vunify, two values of 980 symbols": row_of(FALLING, "vunify", "--levels=12", "f(X:S) =? f(Y:S)"),
    "vunify, two values of 980 symbols in commutative pairs": row_of(TURNING, "vunify", "--levels=12", "f(X:S) =? f(Y:S)"),
    "vunify, two values of 960 symbols in sums": (["vunify", "--levels=12", "f(X:M) =? f(Y:M)"], NESTS + SUMMING + "endfm\n"),
    "vunify, two values that leave many choices each": row_of(OPENING, "vunify", "--levels=4", "f(X:S) =? f(Y:S)"),
    "vunify, eighteen values that leave many choices each": row_of(
        OPENING, "vunify", "--levels=4", "f(X:S) =? f(Z:S)" + "".join(" /\\ Y%d:S =? X:S" % i for i in range(16))),
    "vunify, twelve values of 980 symbols": row_of(FALLING, "vunify", "--levels=12", twelve("S")),
    "vunify, twelve values of 980 symbols in commutative pairs": row_of(TURNING, "vunify", "--levels=12", twelve("S")),
    "vunify, twelve values of 960 symbols in sums": (["vunify", "--levels=12", twelve("M")], NESTS + SUMMING + "endfm\n"),
}
MOST = 65_536


def run(fvn, asked, stack, space=None):
    """The status and the text of a run with so many KiB of stack and of memory, or None where the program does not start or end."""
    def limits():
        resource.setrlimit(resource.RLIMIT_STACK, (stack << 10, stack << 10))
        if space:
            resource.setrlimit(resource.RLIMIT_AS, (space << 10, space << 10))
    words, text = asked
    try:
        done = subprocess.run([fvn, *words], input=text.encode(), stdout=subprocess.PIPE, stderr=subprocess.DEVNULL, preexec_fn=limits,
                              timeout=SECONDS[0])
    except (OSError, subprocess.SubprocessError):
        return None
    return done.returncode, done.stdout


def least(fvn, asked, want, most, step):
    """The least stack with which this is answered, to so many KiB."""
    low, high = 32, most
    while high - low > step:
        middle = (low + high) // 2
        if run(fvn, asked, middle) == want:
            high = middle
        else:
            low = middle
    return high


def sorted_out(fvn, asked, want, limits):
    """What comes under each of these limits, and how often."""
    found, signals = collections.Counter(), []
    for stack, space in limits:
        got = run(fvn, asked, stack, space)
        kind = ("not started" if got is None or got[0] == 127 else "answered" if got == want else "refused" if got == (8, b"")
                else "signal" if got[0] < 0 else "otherwise")
        found[kind] += 1
        if kind in ("signal", "otherwise"):
            signals.append(space or stack)
    told = ", ".join("%s %d" % it for it in sorted(found.items()))
    return told + (" (at %d to %d)" % (min(signals), max(signals)) if signals else ""), len(signals)


def tried(asked, name, row):
    """The line of a row, how many of its runs ended by a signal or otherwise, and the least stack."""
    begun = time.time()
    want = run(asked.fvn, row, MOST)
    took = time.time() - begun
    if want is None:
        return "| %s | not ended in %d s | | | |" % (name, asked.seconds), 0, 0
    usual = run(asked.fvn, row, 8_192)
    fits = usual == want
    dear = took > 0.5
    stacks = [256, 512, 1_024] if dear else [*range(100, 1_024, asked.step), 1_024]
    spaces = [2_400, 4_000, 8_000] if dear else range(2_400, 8_001, asked.space)
    in_stack, first = sorted_out(asked.fvn, row, want, [(s, None) for s in stacks])
    in_space, second = sorted_out(asked.fvn, row, want, [(8_192, v) for v in spaces])
    need = least(asked.fvn, row, want, 8_192 if fits else MOST, 64 if dear else 8)
    eight = "" if fits else " (over 8 MiB: status %s)" % (usual and usual[0])
    return "| %s | %d, %.1f s | %d%s | %s | %s |" % (name, want[0], took, need, eight, in_stack, in_space), first + second + (not fits), need


SECONDS = [60]


def main():
    args = argparse.ArgumentParser(description=__doc__)
    args.add_argument("--fvn", default="./fvn")
    args.add_argument("--only", default="")
    args.add_argument("--step", type=int, default=50)
    args.add_argument("--space", type=int, default=100)
    args.add_argument("--seconds", type=int, default=60)
    asked = args.parse_args()
    SECONDS[0] = asked.seconds
    print("| input | status, time | least stack, KiB | stack of 100 to 1,024 KiB | memory of 2.4 to 8 MB |\n|---|---|---|---|---|")
    bad, needs = 0, {}
    for name, row in ROWS.items():
        if asked.only in name:
            line, more, need = tried(asked, name, row)
            bad += more
            needs[row[0][0]] = max(need, needs.get(row[0][0], 0))
            print(line, flush=True)
    print("the greatest need: " + ", ".join("%s %d KiB" % it for it in needs.items()))
    print("stack: %d runs by a signal or otherwise" % bad)
    sys.exit(bad > 0)


main()
