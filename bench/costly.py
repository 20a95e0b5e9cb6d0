#!/usr/bin/env python3
"""Inputs that are small and costly, at the limits of what is read: seconds of processor time, peak memory and the last line,
beside an ordinary input of the same command, and beside Maude, with a ratio where that has the same question.

Six kinds: signatures, equations, matching, sums, sorts of refinements, levels. Over `./fvn` or the program behind --fvn; Maude is the
command `maude`, or FVN_MAUDE, which loads the module where there is no question. With --only WORD the rows whose kind or name has the
word, with --seconds N each run ends after so many, with --alone Maude is not asked. A row is asked once. It needs GNU time. At the end
it says how many rows that do not end with a bound take over 0.1 s and over ten times as long as Maude.
"""
import argparse
import os
import random
import resource
import shlex
import subprocess
import sys
import tempfile

CHAIN = ["S%02d" % i for i in range(1, 16)]


def module(name, *statements):
    return "fmod %s is\n%s\nendfm\n" % (name, "\n".join(s + " ." for s in statements))


def chain_of_sorts(results, left, right):
    """An equation in six variables of the top of 15 sorts, over an operator with these ranks."""
    ranks = ["op f : %s %s -> %s" % (CHAIN[i], CHAIN[j], CHAIN[k]) for i, j, k in results]
    return module("CHAIN", "sorts " + " ".join(CHAIN), "subsorts " + " < ".join(CHAIN), *ranks,
                  "eq %s = %s [variant]" % (left, right))


def nested(op, terms):
    term = terms[0]
    for t in terms[1:]:
        term = "%s(%s,%s)" % (op, term, t)
    return term


SIX = ["X%d:S15" % i for i in range(1, 7)]
HIGHER = [(i, i, i) for i in reversed(range(15))]
LOWER = [(i, j, min(i, j)) for i in range(15) for j in range(15)]
ADDED = [(i, j, min(14, i + j + 1)) for i in range(15) for j in range(15)]
FREE = module("FREE", "sort S", "ops a b : -> S", "op p : S S -> S", "op g : S -> S")
AC = module("AC", "sort S", "ops " + " ".join("c%d" % i for i in range(1, 31)) + " : -> S", "op g : S -> S",
            "op _+_ : S S -> S [assoc comm]")
PARITY = ["sorts E O N", "subsorts E O < N", "op + : N N -> N [assoc comm]", "op + : E E -> E [ditto]",
          "op + : E O -> O [ditto]", "op + : O O -> E [ditto]"]


def total(op, terms):
    return "%s(%s)" % (op, ",".join(terms))


def wide_sorts(n):
    """Two sorts with n common subsorts that no order joins."""
    low = ["L%d" % i for i in range(n)]
    return module("WIDE", "sorts A B " + " ".join(low), "subsorts " + " ".join(low) + " < A", "subsorts " + " ".join(low) + " < B",
                  "op p : A A -> A", "op p : B B -> B" if n < 0 else "op q : A B -> A")


PLUS = module("PLUS", "sort N", "op 0 : -> N", "op s : N -> N", "op + : N N -> N", "vars X Y : N",
              "eq +(0,Y) = Y [variant]", "eq +(s(X),Y) = s(+(X,Y)) [variant]")
SETS = module("SETS", "sort S", "ops " + " ".join("c%d" % i for i in range(1, 31)) + " : -> S", "op e : -> S",
              "op _+_ : S S -> S [assoc comm]", "vars X Y Z W : S", "eq _+_(X,X,Y,Y,Z,Z,W,W) = e [variant]")
PARTS = ["V%d:N" % i for i in range(1, 16)]

# Even and odd numbers with a sum without axioms; and with an operator over them that keeps both, under a sum with axioms.
PARITIES = ["sorts E O N", "subsorts E O < N", "op z : -> E", "op o : -> O"]
FREE_PARITY = module("FREEPARITY", *PARITIES, "op + : N N -> N", "op + : E E -> E", "op + : O O -> E", "op + : E O -> O", "op + : O E -> O")
WRAPPED = module("WRAPPED", *PARITIES, *["op + : %s [%s]" % (r, a) for r, a in (
    ("N N -> N", "assoc comm"), ("E E -> E", "ditto"), ("O O -> E", "ditto"), ("E O -> O", "ditto"))],
    "op k : N -> N", "op k : E -> E", "op k : O -> O")


def leftmost(parts):
    return nested("+", parts)


def rightmost(parts):
    return parts[0] if len(parts) == 1 else "+(%s,%s)" % (parts[0], rightmost(parts[1:]))


def wrapped(n):
    return "X:N" if n == 0 else "k(+(%s,o))" % wrapped(n - 1)


def within(n, summand):
    """Sums within one another under a free operator, each with this summand."""
    return "X:S" if n == 0 else "g(_+_(%s,%s))" % (within(n - 1, summand), summand.replace("@", str(n)))


def beside(n):
    """So many pairs of a variable with a sum of two others."""
    return " /\\ ".join("X%d:S =? _+_(Y%d:S,Z%d:S)" % (i, i, i) for i in range(n))


def common_sorts(n, pairs):
    """So many pairs of variables of two sorts with n common subsorts."""
    return " /\\ ".join("X%d:A =? Y%d:B" % (i, i) for i in range(pairs)), wide_sorts(n)


def edges():
    """30 edges between five and three vertices, each in both directions: no odd cycle."""
    return ["h(u%d,w%d)" % (i, j) for i in range(5) for j in range(3)] + ["h(w%d,u%d)" % (j, i) for i in range(5) for j in range(3)]


def cycle(n):
    """A module whose equation matches a cycle of n edges among others."""
    left = ["h(X%d:V,X%d:V)" % (i, (i + 1) % n) for i in range(n)]
    return module("CYCLE", "sorts V S", "ops u0 u1 u2 u3 u4 w0 w1 w2 : -> V", "op e : -> S", "op h : V V -> S",
                  "op _+_ : S S -> S [assoc comm]", "eq %s = e [variant]" % total("_+_", left))


def tree(leaves):
    """A commutative operator over these, two by two."""
    return leaves[0] if len(leaves) == 1 else "c(%s,%s)" % (tree(leaves[:len(leaves) // 2]), tree(leaves[len(leaves) // 2:]))


def trees(n):
    """An equation whose left side is a tree of n leaves, variables but for the last, a constant."""
    return module("TREES", "sort S", "ops a b e : -> S", "op c : S S -> S [comm]", "op f : S -> S",
                  "eq f(%s) = e [variant]" % tree(["X%d:S" % i for i in range(n - 1)] + ["b"]))


def doubles(n):
    """An equation that takes n elements away, each twice."""
    names = ["X%d:S" % i for i in range(n)]
    return module("DOUBLES", "sort S", "ops " + " ".join("c%d" % i for i in range(1, 31)) + " : -> S", "op e : -> S",
                  "op _+_ : S S -> S [assoc comm]", "eq %s = e [variant]" % total("_+_", names + names))


SHARING = module("SHARING", "sort S", "ops a b c e : -> S", "ops f g h : S -> S", "op p : S S -> S", "op k : S S -> S [comm]",
                 "op _+_ : S S -> S [assoc comm]", "op _*_ : S S -> S [assoc comm]",
                 "eq f(_*_(p(Y1:S,k(a,Y2:S)),g(g(Z3:S)),_+_(Z4:S,Y4:S,Y4:S,X0:S,X3:S,Z2:S,X4:S,Z1:S),g(Z0:S),k(Z5:S,Y1:S),a,"
                 "_+_(Y1:S,Z4:S,X3:S),g(Z4:S),b)) = e [variant]")
SHARED = ("_*_(g(g(_*_(c,c))),b,p(k(c,c),k(g(c),a)),_+_(b,c,c,b,h(_*_(b,a,c)),h(b),_*_(b,b),k(a,a),_*_(k(c,a),h(b),p(b,b)),c,b),a,g(a),"
          "_+_(c,h(_*_(b,a,c)),_*_(b,b)),k(k(c,c),h(a)),g(c))")


def linear(n):
    return module("LINEAR", "sort S", "ops " + " ".join("c%d" % i for i in range(1, 31)) + " : -> S", "op e : -> S",
                  "op _+_ : S S -> S [assoc comm]", "eq %s = e [variant]" % total("_+_", ["X%d:S" % i for i in range(n)]))


def lower(n):
    """An equation that takes n elements away, of a sort below that of sums."""
    return module("LOWER", "sorts A B", "subsort A < B", "ops " + " ".join("c%d" % i for i in range(1, 16)) + " : -> A", "ops d1 d2 e : -> B",
                  "op _+_ : B B -> B [assoc comm]", "eq %s = e [variant]" % total("_+_", ["X%d:A" % i for i in range(n)]))


def elements(twice, once, others=0):
    """So many elements twice, then so many more, and others of a higher sort."""
    names = ["c%d" % i for i in range(1, twice + once + 1)]
    return names[:twice] * 2 + names[twice:] + ["d%d" % i for i in range(1, others + 1)]


# A term whose rewriting takes twice as many steps for each s.
HALVES = module("HALVES", "sort S", "ops 0 a : -> S", "ops s f : S -> S", "op g : S S -> S", "var X : S",
                "eq f(0) = a [variant]", "eq f(s(X)) = g(f(X),f(X)) [variant]", "eq g(a,a) = a [variant]")
LOOP = module("LOOP", "sort S", "op a : -> S", "op f : S -> S", "var X : S", "eq f(X) = f(X) [variant]")
UNARY = "s(" * 16 + "0" + ")" * 16


def asked(text):
    """A sum as Maude takes it, whose operators stand in front here."""
    return "irredundant unify " + text


def right(terms):
    """A free operator over these, nested to the right."""
    return terms[0] if len(terms) == 1 else "p(%s,%s)" % (terms[0], right(terms[1:]))


def applied(op, arity, sort):
    """The operator over variables, which makes Maude judge its sorts."""
    return "%s(%s)" % (op, ", ".join("X%d:%s" % (i, sort) for i in range(arity)))


def in_order(count, *rest):
    """A module of so many sorts, each below the last one."""
    names = ["S%d" % i for i in range(count)]
    return module("ORDER", "sorts " + " ".join(names), "subsorts %s < %s" % (" ".join(names[:-1]), names[-1]), *rest)


def meets(atoms, attributes=""):
    """A sort for each set of atoms, and a rank for each two sorts, with what they have in common."""
    count = 1 << atoms
    below = ["subsort S%d < S%d" % (i, i | 1 << k) for i in range(count) for k in range(atoms) if not i >> k & 1]
    ranks = ["op f : S%d S%d -> S%d%s" % (i, j, i & j, attributes) for i in range(count) for j in range(count)]
    return module("MEETS", "sorts " + " ".join("S%d" % i for i in range(count)), *below, *ranks)


def scattered(count, arity):
    """So many ranks of one operator over 64 sorts, without an order in them."""
    chance = random.Random(1)
    return in_order(64, *["op f : %s -> S63" % " ".join("S%d" % chance.randrange(64) for _ in range(arity)) for _ in range(count)])


def named(count):
    """A module with so many names of variables."""
    return module("NAMES", "sort S", "op a : -> S", "vars " + " ".join("X%d" % i for i in range(count)) + " : S")


def parts(n):
    """So many terms of which each is a sum of a constant and a variable, that may be the identity."""
    return ["_+_(X%d:S,c%d)" % (i, i) for i in range(n)]


def sums_of_pairs(n):
    """So many summands with two variables each."""
    return total("_+_", ["p(X%d:S,X%d:S),c%d" % (i, (i + 1) % n, i) for i in range(n)])


def identities(count, left):
    """So many equations, each with an identity for the variables of its left side."""
    return module("IDENTITIES", "sort S", "ops e a b : -> S", "ops " + " ".join("c%d" % i for i in range(12)) + " : -> S",
                  "ops " + " ".join("d%d" % i for i in range(count)) + " : -> S", "op p : S S -> S",
                  "op _+_ : S S -> S [assoc comm id: e]", *["eq %s = b [variant]" % (left % ("d%d" % i)) for i in range(count)])


def modulo(count, left_parts):
    """Sorts that are added as numbers modulo their count, and an equation in six variables of the sort above all."""
    names = ["N%d" % i for i in range(count)]
    ranks = ["op f : N%d N%d -> N%d" % (i, j, (i + j) % count) for i in range(count) for j in range(count)]
    six = ["X%d:N" % i for i in range(6)] * left_parts
    return module("MODULO", "sorts N " + " ".join(names), "subsorts " + " ".join(names) + " < N", "op f : N N -> N", *ranks,
                  "eq %s = %s [variant]" % (nested("f", six), nested("f", six[::-1])))


def plain_sum(terms):
    """A sum as Maude prints it."""
    return " + ".join(terms)


def variables(name, count, times=1):
    return ["%s%d:S" % (name, i) for i in range(count) for _ in range(times)]


def equal_sums(left, other):
    """A problem of two sums, and the question to Maude."""
    return (["unify", total("_+_", left) + " =? " + total("_+_", other)], AC,
            "irredundant unify " + plain_sum(left) + " =? " + plain_sum(other))


def matched(name, left, terms):
    """An equation that takes this sum away, and a sum of these elements."""
    text = module("MATCHED", "sort S", "ops " + " ".join("c%d" % i for i in range(1, 201)) + " : -> S", "op e : -> S",
                  "op h : S S -> S", "op _+_ : S S -> S [assoc comm]", "eq %s = e [variant]" % total("_+_", left))
    return name, ["verify", "Y:S =? e", "{Y:S --> %s}" % total("_+_", terms)], text, "reduce " + total("_+_", terms)


def choices(count):
    """A module in which a variable has so many values."""
    return module("CHOICES", "sort S", "ops " + " ".join("c%d" % i for i in range(count)) + " : -> S", "op f : S -> S", "op p : S S -> S",
                  *["eq f(c%d) = c%d [variant]" % (i, i) for i in range(count)])


ELEMENTS = ["c%d" % i for i in range(1, 201)]
MANY = module("MANY", "sort S", "op a : -> S", "op g : S -> S", *["eq %s = a [variant]" % ("g(" * 398 + "a" + ")" * 398)] * 256)
WIDE = module("WIDE", "sort S", "ops a b : -> S", "op p : S S -> S",
              *["eq %s = a [variant]" % right(["X%d:S" % i for i in range(150)] + ["b"] * 49)] * 256)
DEEP_TERM = "g(" * 998 + "a" + ")" * 998

# name, words, module, the question to Maude
SIGNATURES = [
    ("check, ordinary", ["check"], PLUS, "reduce 0"),
    ("check, 256 operators of 8 arguments", ["check"],
     in_order(64, *["op f%d : %s -> S%d" % (i, " ".join(["S63"] * 8), i % 64) for i in range(256)]), "reduce " + applied("f0", 8, "S63")),
    ("check, meets of 16 sorts, 256 ranks", ["check"], meets(4), "reduce " + applied("f", 2, "S15")),
    ("check, meets of 32 sorts, 1,024 ranks", ["check"], meets(5), "reduce " + applied("f", 2, "S31")),
    ("check, meets of 64 sorts, 4,096 ranks", ["check"], meets(6), "reduce " + applied("f", 2, "S63")),
    ("check, meets of 64 sorts, a sum", ["check"], meets(6, " [assoc comm]"), "reduce " + applied("f", 2, "S63")),
    ("check, 20,000 ranks of two arguments", ["check"], scattered(20_000, 2), "reduce " + applied("f", 2, "S63")),
    ("check, 20,000 ranks of eight arguments", ["check"], scattered(20_000, 8), "reduce " + applied("f", 8, "S63")),
    ("check, 140,000 names of variables", ["check"], named(140_000), "reduce a"),
    ("check, an operator declared 70,000 times", ["check"], module("AGAIN", "sort S", *["op a : -> S"] * 70_000), "reduce a"),
    ("check, a side of 349,000 symbols", ["check"],
     module("DEEP", "sort S", "op a : -> S", "op g : S -> S", "eq %s = a [variant]" % ("g(" * 349_000 + "a" + ")" * 349_000)), ""),
]
EQUATIONS = [
    ("terminates, ordinary", ["terminates", "+ : 2 1 1 , s : 1 1"], PLUS, ""),
    ("check, 15 sorts, the higher one", ["check"], chain_of_sorts(HIGHER, nested("f", SIX), nested("f", SIX[::-1])), ""),
    ("check, 15 sorts, the lower one", ["check"], chain_of_sorts(LOWER, nested("f", SIX), nested("f", SIX[::-1])), ""),
    ("check, 15 sorts, added", ["check"], chain_of_sorts(ADDED, nested("f", SIX), nested("f", SIX[::-1])), ""),
    ("check, 15 sorts, 390 symbols", ["check"], chain_of_sorts(HIGHER, nested("f", SIX * 32), nested("f", (SIX * 32)[::-1])), ""),
    ("check, even and odd, 15 variables", ["check"],
     module("PARITY", *PARITY, "eq %s = %s [variant]" % (total("+", PARTS), total("+", PARTS[::-1]))), ""),
    ("check, 13 sorts added modulo 13", ["check"], modulo(13, 1), ""),
    ("check, the same with sides of 95 symbols", ["check"], modulo(13, 8), ""),
    ("check, 256 equations of 399 symbols", ["check"], MANY, ""),
    ("terminates, 256 equations of 399 symbols", ["terminates", "g : 1 1"], MANY, ""),
    ("terminates, 256 equations of 150 variables", ["terminates", "p : 1 1 1"], WIDE, ""),
    ("unify, 256 equations of 399 symbols", ["unify", "g(X:S) =? g(a)"], MANY, "irredundant unify g(X:S) =? g(a)"),
    ("verify, 256 equations of 399 symbols", ["verify", "Y:S =? a", "{Y:S --> %s}" % DEEP_TERM], MANY, "reduce " + DEEP_TERM),
    ("variants, 256 equations of 399 symbols", ["variants", "g(X:S)"], MANY, "get irredundant variants g(X:S)"),
    *[(what + ", %d equations of 12 identities" % n, words, identities(n, "p(%s,%%s)" % right(parts(12))), question)
      for n in (1, 16) for what, words, question in (("verify", ["verify", "a =? b", "{}"], "reduce a"),
                                                     ("variants", ["variants", "p(Y:S,d0)"], "get irredundant variants p(Y:S,d0)"))],
    *[("verify, %d sums of 12 identities" % n, ["verify", "a =? b", "{}"], identities(n, "_+_(%s,%%s)" % sums_of_pairs(12)), "reduce a")
      for n in (1, 16)],
]
MATCHING = [
    ("verify, ordinary", ["verify", "+(s(0),0) =? X:N", "{X:N --> s(0)}"], PLUS, "reduce +(s(0), 0)"),
    ("verify, matching four doubles in 30", ["verify", total("_+_", ["c%d" % i for i in range(1, 31)]) + " =? X:S", "{X:S --> e}"],
     SETS, "reduce " + " + ".join("c%d" % i for i in range(1, 31))),
    *[("verify, a cycle of %d among 30 edges" % n, ["verify", total("_+_", edges()) + " =? X:S", "{X:S --> e}"], cycle(n),
       "reduce " + total("_+_", edges())) for n in (3, 5, 7, 9)],
    *[("verify, a commutative tree of %d leaves" % n, ["verify", "f(%s) =? X:S" % tree(["a"] * n), "{X:S --> e}"], trees(n),
       "reduce f(%s)" % tree(["a"] * n)) for n in (8, 16, 32, 64)],
    ("verify, 12 doubles in 30 elements", ["verify", total("_+_", ["c%d" % i for i in range(1, 31)]) + " =? X:S", "{X:S --> e}"],
     doubles(12), "reduce " + total("_+_", ["c%d" % i for i in range(1, 31)])),
    ("verify, 12 doubles in 13 doubles and 4", ["verify", total("_+_", ["c%d" % i for i in range(1, 14)] * 2 + ["c14", "c15", "c16", "c17"])
     + " =? X:S", "{X:S --> e}"], doubles(12), "reduce " + total("_+_", ["c%d" % i for i in range(1, 14)] * 2 + ["c14", "c15", "c16", "c17"])),
    ("verify, 12 doubles in 11 doubles and 8", ["verify", total("_+_", elements(11, 8)) + " =? X:S", "{X:S --> e}"], doubles(12),
     "reduce " + total("_+_", elements(11, 8))),
    *[("verify, 12 variables of a lower sort in %d and %d others" % (n, k), ["verify", total("_+_", elements(0, n, k)) + " =? X:B", "{X:B --> e}"],
       lower(12), "reduce " + total("_+_", elements(0, n, k))) for n, k in ((11, 1), (11, 2), (13, 0), (12, 2))],
    ("verify, 24 variables in 30 elements", ["verify", total("_+_", ["c%d" % i for i in range(1, 31)]) + " =? X:S", "{X:S --> e}"],
     linear(24), "reduce " + total("_+_", ["c%d" % i for i in range(1, 31)])),
    matched("verify, 100 variables in 500 elements", variables("X", 100), (ELEMENTS * 3)[:500]),
    matched("verify, 12 doubles in 200 elements", variables("X", 12, 2), ELEMENTS),
    matched("verify, 12 doubles in 500 elements", variables("X", 12, 2), (ELEMENTS * 3)[:500]),
    matched("verify, 99 doubles in 500 elements", variables("X", 99, 2), (ELEMENTS * 3)[:500]),
    matched("verify, a path of 10 among 160 edges", ["h(X%d:S,X%d:S)" % (i, i + 1) for i in range(10)],
            ["h(c%d,c%d)" % (1 + i, 1 + i * 7 % 50) for i in range(160)]),
    ("verify, sums that share variables", ["verify", "f(%s) =? e" % SHARED, "{}"], SHARING, "reduce f(%s)" % SHARED),
]
SUMS = [
    ("unify, ordinary", ["unify", "p(X:S,b) =? p(a,Y:S)"], FREE, "irredundant unify p(X:S,b) =? p(a,Y:S)"),
    ("unify, a sum of 24 variables", ["unify", "X:S =? " + total("_+_", ["V%d:S" % i for i in range(24)])], AC,
     "irredundant unify X:S =? " + " + ".join("V%d:S" % i for i in range(24))),
    ("unify, doubling terms", ["unify", "p(V0:S,p(V1:S,p(V2:S,p(V3:S,p(V4:S,p(V5:S,p(V6:S,V7:S))))))) =? "
     "p(p(V1:S,V1:S),p(p(V2:S,V2:S),p(p(V3:S,V3:S),p(p(V4:S,V4:S),p(p(V5:S,V5:S),p(p(V6:S,V6:S),p(p(V7:S,V7:S),p(V8:S,V8:S))))))))"],
     FREE, "irredundant unify p(V0:S,p(V1:S,p(V2:S,p(V3:S,p(V4:S,p(V5:S,p(V6:S,V7:S))))))) =? "
     "p(p(V1:S,V1:S),p(p(V2:S,V2:S),p(p(V3:S,V3:S),p(p(V4:S,V4:S),p(p(V5:S,V5:S),p(p(V6:S,V6:S),p(p(V7:S,V7:S),p(V8:S,V8:S))))))))"),
    ("unify, over 4,096 unifiers", ["unify", "_+_(X:S,Y:S,Z:S) =? " + total("_+_", ["c%d" % i for i in range(1, 9)])], AC,
     "irredundant unify X:S + Y:S + Z:S =? " + " + ".join("c%d" % i for i in range(1, 9))),
    *[("unify, %d variables against %d" % (n, k), *equal_sums(variables("X", n), variables("Y", k))) for n, k in ((3, 8), (4, 6), (5, 5))],
    *[("unify, %d times X against %d times Y" % (n, k), *equal_sums(["X:S"] * n, ["Y:S"] * k)) for n, k in ((13, 11), (51, 49), (101, 99))],
    ("unify, 199 times X against Y and Z", *equal_sums(["X:S"] * 199, ["Y:S", "Z:S"])),
    ("unify, 7 X and 5 Y against 3 Z and 2 W", *equal_sums(["X:S"] * 7 + ["Y:S"] * 5, ["Z:S"] * 3 + ["W:S"] * 2)),
    *[("unify, sorts of %d sums, %s" % (n, where), ["unify", "E:E =? " + form(summands)], FREE_PARITY, asked("E:E =? " + form(summands)))
      for n in (10, 40) for where, form, summands in (
          ("constants on the right", leftmost, ["X:N"] + ["o"] * n), ("constants on the left", rightmost, ["o"] * n + ["X:N"]),
          ("one variable on the right", leftmost, ["X:N"] + ["Y:N"] * n), ("constants alone", leftmost, ["o"] * (n + 1)))],
    *[("unify, sorts of %d sums in operators" % n, ["unify", "E:E =? " + wrapped(n)], WRAPPED, asked("E:E =? " + wrapped(n)))
      for n in (10, 40)],
    *[("unify, %d sums within one another, %s" % (n, what), ["unify", "E:S =? " + within(n, summand)], AC, asked("E:S =? " + within(n, summand)))
      for n, what, summand in ((13, "other variables", "V@:S"), (40, "other variables", "V@:S"), (40, "one constant", "c1"), (80, "one constant", "c1"))],
    *[("unify, %d sums beside one another" % n, ["unify", beside(n)], AC, asked(beside(n))) for n in (13, 40)],
]
SORTS = [
    ("unify, 40 common sorts, one pair", ["unify", "X:A =? Y:B"], wide_sorts(40), "irredundant unify X:A =? Y:B"),
    ("unify, 14 common sorts, three pairs", ["unify", "X:A =? Y:B /\\ Z:A =? U:B /\\ V:A =? W:B"], wide_sorts(14),
     "irredundant unify X:A =? Y:B /\\ Z:A =? U:B /\\ V:A =? W:B"),
    *[("unify, %d common sorts, %d pairs" % (n, k), ["unify", common_sorts(n, k)[0]], common_sorts(n, k)[1], asked(common_sorts(n, k)[0]))
      for n, k in ((62, 2), (14, 4))],
    ("unify, 2,048 ways of parities", ["unify", "E:E =? " + rightmost(["X%d:N" % i for i in range(12)])], FREE_PARITY,
     asked("E:E =? " + rightmost(["X%d:N" % i for i in range(12)]))),
    *[("unify, 2 to the %d ways, pairs of sorts" % n, ["unify", common_sorts(2, n)[0]], common_sorts(2, n)[1],
       asked(common_sorts(2, n)[0])) for n in (8, 11, 12, 13, 14)],
]
LEVELS = [
    ("variants, ordinary", ["variants", "+(s(0),X:N)"], PLUS, "get irredundant variants +(s(0), X:N)"),
    ("vunify, ordinary", ["vunify", "+(X:N,s(0)) =? s(s(0))", "--levels", "3"], PLUS, "variant unify [1] +(X:N, s(0)) =? s(s(0))"),
    ("verify, 398 steps", ["verify", "+(%s0%s,0) =? X:N" % ("s(" * 195, ")" * 195), "{X:N --> 0}"], PLUS,
     "reduce +(%s0%s, 0)" % ("s(" * 195, ")" * 195)),
    ("verify, 262,143 steps", ["verify", "f(%s) =? a" % UNARY, "{}", "--steps", "1000000"], HALVES, "reduce f(%s)" % UNARY),
    ("verify, 1,000,000 steps", ["verify", "f(a) =? a", "{}", "--steps", "1000000"], LOOP, ""),
    ("variants, 1,000,000 steps", ["variants", "f(a)", "--steps", "1000000"], LOOP, ""),
    ("variants, 40 levels", ["variants", "--levels", "40", "+(X:N,Y:N)"], PLUS, "get irredundant variants [41] +(X:N, Y:N)"),
    ("variants, 200 levels", ["variants", "--levels", "200", "+(X:N,Y:N)"], PLUS, "get irredundant variants [401] +(X:N, Y:N)"),
    ("variants, 200 levels, 16 workers", ["variants", "--levels", "200", "--workers", "16", "+(X:N,Y:N)"], PLUS,
     "get irredundant variants [401] +(X:N, Y:N)"),
    ("variants, 1,000 levels", ["variants", "--levels", "1000", "--variants", "10000", "+(X:N,Y:N)"], PLUS,
     "get irredundant variants [2001] +(X:N, Y:N)"),
    ("vunify, 200 levels", ["vunify", "--levels", "200", "+(X:N,Y:N) =? s(s(0))"], PLUS, "variant unify [3] +(X:N, Y:N) =? s(s(0))"),
    *[("variants, %d times %d" % (n, n), ["variants", "p(f(X:S),f(Y:S))", "--variants", "10000"], choices(n),
       "get irredundant variants p(f(X:S), f(Y:S))") for n in (15, 31, 98)],
]
KINDS = {"signatures": SIGNATURES, "equations": EQUATIONS, "matching": MATCHING, "sums": SUMS, "sorts of refinements": SORTS, "levels": LEVELS}


def measured(words, text, seconds):
    def limits():
        resource.setrlimit(resource.RLIMIT_CPU, (seconds, seconds + 1))
    with tempfile.NamedTemporaryFile() as told:
        timed = ["/usr/bin/time", "-o", told.name, "-f", "%U %S %M", *words]
        done = subprocess.run(timed, input=text.encode(), stdout=subprocess.PIPE, stderr=subprocess.DEVNULL, preexec_fn=limits)
        with open(told.name) as f:
            user, system, memory = f.read().split()[-3:]
    lines = done.stdout.decode(errors="replace").strip().splitlines()
    took = float(user) + float(system)
    return took, int(memory), lines[-1] if lines else "over %d s" % seconds if took > 0.9 * seconds else ""


def row(name, words, text, question, asked, maude):
    """The line of a row, and whether it takes over 0.1 s and over ten times as long as Maude, and ends with no bound."""
    seconds, memory, last = measured([asked.fvn, *words], text, asked.seconds)
    line = "| %s | %.2f | %.1f | %s |" % (name, seconds, memory / 1024, last[:50])
    if not maude:
        return line + " | | |", False
    other = text + (question + " .\n" if question else "") + "quit\n"
    theirs = measured([*maude, "-no-banner", "-no-wrap", "-no-advise"], other, asked.seconds)
    ended = not theirs[2].startswith("over")
    slow = bool(question) and ended and not last.startswith("bound") and seconds > 0.1 and seconds > 10 * theirs[0]
    ratio = "%.2f" % (seconds / max(theirs[0], 0.01)) if question and ended else ""
    told = "**%s**" % ratio if slow else ratio
    return "%s %.2f%s | %.1f | %s |" % (line, theirs[0], "" if ended else " (over)", theirs[1] / 1024, told), slow


def main():
    args = argparse.ArgumentParser(description=__doc__)
    args.add_argument("--fvn", default="./fvn")
    args.add_argument("--only", default="")
    args.add_argument("--seconds", type=int, default=60)
    args.add_argument("--alone", action="store_true")
    asked = args.parse_args()
    maude = [] if asked.alone else shlex.split(os.environ.get("FVN_MAUDE", "maude"))
    print("| input | fvn, s | MB | answer | Maude, s | MB | ratio |\n|---|---|---|---|---|---|---|")
    count = slow = 0
    for kind, rows in KINDS.items():
        for name, words, text, question in rows:
            if asked.only not in name and asked.only not in kind:
                continue
            line, over = row("%s: %s" % (kind, name), words, text, question, asked, maude)
            count, slow = count + 1, slow + over
            print(line, flush=True)
    print("costly: %d rows, %d of over 0.1 s and over ten times Maude's time" % (count, slow))


main()
