#!/usr/bin/env python3
"""Times `fvn check` beside Maude on modules whose ranks are many, in turn: both read the same text and judge its sorts.

    bench/loading-times.py [--fvn FVN] [--limit SECONDS] [--repeat N] [--rows WORD]

Rows: 256 operators of eight arguments over 64 sorts with some ranks each (plain); 256 sums over one kind of 64 sorts, all
with the same ranks (sums) or with ranks of their own (turned); 64 ranks spread over eight places of a chain, a tree and a
random order, of one operator (spread-1) and of 256 (spread-256). Printed are the median milliseconds of the whole runs, and
their ratio. Maude's run uses each operator once, since only then its sorts are judged; it ends at the limit (60 seconds).
Where Maude (`FVN_MAUDE`, or `maude`) is missing, fvn alone is timed.
"""

import argparse
import os
import shutil
import statistics
import subprocess
import tempfile
import time
from pathlib import Path

HERE = Path(__file__).resolve().parent


def above(order, s, other):
    """The sort right above a sort that is not the first; of a random order the other one of two."""
    if order == "chain":
        return s - 1
    if order == "tree":
        return (s - 1) // 2
    if order == "flat":
        return 0
    return ((s * 48271 + 12345) // 64 % s if not other else (s * 40503 + 977) // 128 % s) & 63


def arg(kind, r, p):
    """The argument of rank r at place p."""
    if kind == "same":
        return r
    if kind == "one-place":
        return r if r % 8 == p else 0
    return (r * 37 + p * (r * 7 + 5) * 3) & 63


def rank(row, what, f, r):
    """The arguments and the result of a rank of an operator."""
    if row.startswith("spread"):
        kind, _, reverse = what.partition("/")
        return [arg(kind, r, p) for p in range(8)], 63 - r if reverse else r
    s = (r * (64 // int(what)) + (f if row == "turned" else 0)) & 63
    return [s] * (8 if row == "plain" else 2), s


def module(row, order, what):
    """The text of the module, and how many operators it has with how many arguments."""
    lines = ["fmod TIMES is", "  sorts " + " ".join(f"S{s}" for s in range(64)) + " ."]
    for s in range(1, 64):
        lines += [f"  subsort S{s} < S{above(order, s, other)} ." for other in (False, True)]
    operators = 1 if row == "spread-1" else 256
    ranks = 64 if row.startswith("spread") else int(what)
    arity = 2 if row in ("sums", "turned") else 8
    axioms = " [assoc comm]" if arity == 2 else ""
    for f in range(operators):
        for r in range(ranks):
            args, result = rank(row, what, f, r)
            lines.append(f"  op f{f} : " + " ".join(f"S{s}" for s in args) + f" -> S{result}{axioms} .")
    return "\n".join(lines + ["endfm", ""]), operators, arity


def rows():
    """The names of the rows: what they are, the order of sorts, and what varies."""
    for ranks in ("1", "4", "16"):
        yield from (("plain", order, ranks) for order in ("chain", "tree", "flat"))
    for row in ("sums", "turned"):
        for ranks in ("1", "4", "16", "64"):
            yield from ((row, order, ranks) for order in ("chain", "tree", "flat", "random"))
    for row in ("spread-1", "spread-256"):
        for order in ("chain", "tree", "random"):
            for kind in ("same", "one-place", "mixed"):
                yield from ((row, order, kind + end) for end in ("", "/reversed"))


def timed(words, text, limit):
    """What a run printed, and its milliseconds; none at the limit."""
    begin = time.perf_counter()
    try:
        done = subprocess.run(words, input=text, stdout=subprocess.PIPE, stderr=subprocess.DEVNULL, text=True, timeout=limit)
    except subprocess.TimeoutExpired:
        return "", None
    return done.stdout, (time.perf_counter() - begin) * 1000


def maude_time(maude, text, operators, arity, limit):
    """The milliseconds of Maude, which loads the module and uses each operator once."""
    uses = "".join(f"red f{f}(" + ", ".join(["X:S63"] * arity) + ") .\n" for f in range(operators))
    with tempfile.NamedTemporaryFile("w", suffix=".maude") as file:
        file.write(text + uses + "quit\n")
        file.flush()
        return timed(maude + ["-no-banner", "-no-advise", file.name], "", limit)[1]


def main():
    parser = argparse.ArgumentParser(description=__doc__, formatter_class=argparse.RawDescriptionHelpFormatter)
    parser.add_argument("--fvn", default=str(HERE.parent / "fvn"))
    parser.add_argument("--limit", type=float, default=60)
    parser.add_argument("--repeat", type=int, default=3)
    parser.add_argument("--rows", default="")
    given = parser.parse_args()
    maude = os.environ.get("FVN_MAUDE", "maude").split()
    there = shutil.which(maude[0]) is not None
    for row, order, what in rows():
        if not row.startswith(given.rows):
            continue
        text, operators, arity = module(row, order, what)
        ours, theirs, answer = [], [], ""
        for turn in range(given.repeat):
            answer, taken = timed([given.fvn, "check"], text, given.limit)
            ours.append(taken or given.limit * 1000)
            if there and (not theirs or theirs[-1] < 2000):
                theirs.append(maude_time(maude, text, operators, arity, given.limit) or given.limit * 1000)
        mine = statistics.median(ours)
        line = f"{row:10} {order:6} {what:18} {mine:9.1f} ms"
        if theirs:
            other = statistics.median(theirs)
            line += f"  Maude {other:9.1f} ms  ratio {mine / other:6.3f}"
        print(f"{line}  {answer.splitlines()[0] if answer else 'no answer'}", flush=True)


main()
