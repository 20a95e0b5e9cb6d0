#!/usr/bin/env python3
"""Times `fvn variants` and `fvn vunify` beside Maude's `get irredundant variants` and `variant unify`, in turn.

    bench/variants-times.py [--fvn FVN] [--before FVN] [--only WORD]... [--repeat N] [--seconds N] [--workers N]
    bench/variants-times.py --clock N [--fvn FVN] [--only WORD]... [--repeat N] [--seconds N]

The modules are those of examples/accepted, and one with an operator more; Maude is given the rules for parts of sums besides, which
fvn adds by itself. Printed is a table: the number of answers, the median milliseconds of processor time of each net of a start alone (in
turn with them), their ratio, and the peak memory of each, in one more run under GNU time. A `!` marks different numbers of answers; a program that
takes too long is asked once, and one is asked no more of a problem after 20 s of it. Where Maude (`FVN_MAUDE`, or `maude`) is
missing, fvn alone is timed. With `--clock N` fvn alone is timed by the clock, with its start-up, with one worker and with N in turn:
the medians and the least of each, and the ratio of the medians; a `!` marks other bytes.
"""

import argparse
import os
import re
import runpy
import shutil
import statistics
from pathlib import Path

HERE = Path(__file__).resolve().parent
SHARED = runpy.run_path(str(HERE / "unify-times.py"))
run, peak, shown_memory = SHARED["run"], SHARED["peak"], SHARED["shown_memory"]
ENOUGH = 20
EMPTY = "fmod E is\nendfm\n"
EXTENDED = {
    "group": """  eq _+_(X,i(X),Z:G) = Z:G [variant] .
  eq _+_(i(X),i(Y),Z:G) = _+_(i(_+_(X,Y)),Z:G) [variant] .
  eq _+_(i(_+_(X,Y)),Y,Z:G) = _+_(i(X),Z:G) [variant] .
"""
}
# Modules that are another one with a declaration more.
DERIVED = {
    "tuple": ("enc", "  op t : Msg Msg -> Msg .\n"),
    "rest": (
        "bag",
        "  op h : Bag Bag -> Bag .\n"
        + "  ops " + " ".join(f"c{i}" for i in range(32)) + " : -> Bag .\n"
        + "  eq _`,_(X,h(a,b)) = _`,_(X,a) [variant] .\n",
    ),
}


def text_of(name, more=""):
    """The module, with these statements before its end."""
    base, declared = DERIVED.get(name, (name, ""))
    text = (HERE.parent / "examples" / "accepted" / f"{base}.maude").read_text(encoding="utf-8")
    return text.replace("endfm", declared + more + "endfm")


def deep(n, keys=True):
    """n nested decryptions, with as many keys or with one."""
    term = "X"
    for i in range(1, n + 1):
        term = f"dec({term},K{i}:Key)" if keys else f"dec({term},k)"
    return term


def beside(n):
    """n decryptions beside each other."""
    term = f"dec(X{n}:Msg,K{n}:Key)"
    for i in range(n - 1, 0, -1):
        term = f"t(dec(X{i}:Msg,K{i}:Key),{term})"
    return term


def alike(n):
    """n times one decryption beside each other."""
    term = "dec(X,K:Key)"
    for _ in range(n - 1):
        term = f"t(dec(X,K:Key),{term})"
    return term


def constants(n):
    """A variable beside n constants."""
    return "_`,_(Y:Bag," + ",".join(f"c{i}" for i in range(n)) + ")"


def number(n):
    return "s(" * n + "0" + ")" * n


def numbers(n, first=0):
    return ",".join(number(i) for i in range(first, n + first))


def variables(n):
    return ",".join(f"X{i}:[NatSet]" for i in range(1, n + 1))


PROBLEMS = [("xor", "variants", f"_*_({variables(n)})", []) for n in (2, 3, 4)]
PROBLEMS += [("xor", "variants", f"_*_(X,{numbers(n)})", []) for n in (1, 2, 3, 4)]
PROBLEMS += [("xor", "variants", f"_*_(X,Y,{numbers(n)})", []) for n in (1, 2, 3)]
PROBLEMS += [("xor", "vunify", f"_*_(X,{numbers(n, 1)}) =? _*_(Y,0)", []) for n in (1, 2, 3)]
PROBLEMS += [
    ("xor", "vunify", text, [])
    for text in (
        "_*_(X,Y) =? mt",
        "_*_(X,Y) =? U:[NatSet]",
        "_*_(X,Y) =? _*_(U:[NatSet],0)",
        "_*_(X,Y,Z) =? mt",
        "_*_(X,Y,Z) =? _*_(0,s(0))",
        "_*_(X,Y) =? U:[NatSet] /\\ _*_(X,0) =? V:[NatSet]",
        "_*_(X,Y) =? 0 /\\ _*_(Y,Z) =? s(0)",
    )
]
PROBLEMS += [("enc", "variants", deep(n), []) for n in (2, 4, 8, 16, 32)]
PROBLEMS += [("enc", "variants", deep(n, keys=False), []) for n in (8, 32)]
PROBLEMS += [("enc", "vunify", f"{deep(n)} =? a", []) for n in (2, 8, 16, 32)]
PROBLEMS += [("enc", "vunify", "dec(X,Y) =? a /\\ dec(dec(M,Y),K) =? X", [])]
PROBLEMS += [("enc", "vunify", "dec(X,Y) =? a /\\ dec(dec(M,Y),K) =? X /\\ dec(M,k) =? X", [])]
PROBLEMS += [("tuple", "variants", beside(n), []) for n in (2, 3, 4, 5, 6)]
PROBLEMS += [("tuple", "vunify", f"{beside(n)} =? U:Msg", []) for n in (2, 4, 6)]
PROBLEMS += [("tuple", "variants", alike(n), []) for n in (8, 32, 64)]
PROBLEMS += [("rest", "variants", constants(n), []) for n in (4, 8, 12, 32)]
PROBLEMS += [("plus", "variants", "+(X,Y)", ["--levels", str(n)]) for n in (1, 2, 4, 8, 16, 32)]
PROBLEMS += [("plus", "vunify", f"+(X,Y) =? {number(n - 1)}", ["--levels", str(n)]) for n in (2, 4, 8)]
PROBLEMS += [("group", "variants", text, []) for text in ("i(X)", "_+_(X,a)", "_+_(X,i(Y))", "_+_(X,Y)")]
PROBLEMS += [
    ("group", "vunify", text, [])
    for text in (
        "_+_(X,a) =? Y",
        "_+_(X,a) =? i(Y)",
        "_+_(X,a) =? _+_(Y,b)",
        "_+_(X,a) =? Y /\\ i(Y) =? X",
        "_+_(X,Y) =? a",
        "_+_(X,Y) =? e",
    )
]


def told_to_maude(command, text, limits):
    """The command for Maude: where fvn has levels, as many answers as it gives of a sum of two numbers."""
    if command == "vunify":
        return f"variant unify {'[' + limits[-1] + '] ' if limits else ''}{text} ."
    if limits:
        return f"get variants [{2 * int(limits[-1]) + 1}] {text} ."
    return f"get irredundant variants {text} ."


def asked(given, maude, problem):
    """What each program is asked, by name."""
    name, command, text, limits = problem
    named = {}
    for who, program in (("fvn", given.fvn), ("before", given.before)):
        if program:
            named[who] = [program, command, text, "--workers", given.workers, *limits], text_of(name)
    if maude:
        named["Maude"] = maude, text_of(name, EXTENDED.get(name, "")) + told_to_maude(command, text, limits) + "\nquit\n"
    return named


def in_turn(named, repeat, seconds):
    """The runs of each, in turn; none in the place of one that took too long, which is the last of its program."""
    found = {who: [] for who in named}
    for _ in range(repeat):
        for who, words in named.items():
            if None not in found[who] and sum(it[2] for it in found[who]) < ENOUGH:
                found[who].append(run(*words, seconds))
    return found


def answers_of(who, out):
    return len(re.findall(r"^(?:Unifier|Variant) \d+$", out, re.MULTILINE)) if who == "Maude" else out.count("\n") - 1


def shown(problem):
    name, command, text, limits = problem
    return " ".join([text if len(text) <= 48 else text[:45] + "..", *limits])


def net(runs, start):
    """The median milliseconds of processor time net of start-up, or none where a run took too long."""
    return None if None in runs else max(statistics.median(it[1] for it in runs) - start, 0) * 1000


def row(given, maude, begun, problem):
    """The line of a problem: its runs in turn with those of a start alone."""
    named = asked(given, maude, problem)
    starts = {who + " alone": begun[who] for who in named}
    runs = in_turn({**starts, **named}, given.repeat, given.seconds)
    start = {who: statistics.median(it[1] for it in runs[who + " alone"]) for who in named}
    took = {who: net(runs[who], start[who]) for who in named}
    counts = {who: answers_of(who, runs[who][0][0]) for who in named if took[who] is not None}
    count = str(counts.get("fvn", "-")) + ("!" if len(set(counts.values())) > 1 else "")
    times = "".join(f"{'over' if ms is None else f'{ms:.1f}':>11}" for ms in took.values())
    ratio = f"{took['fvn'] / took['Maude']:.2f}" if took["fvn"] is not None and took.get("Maude") else "-"
    memory = "".join(f"{shown_memory(peak(*named[who]) if took[who] is not None else None):>11}" for who in named)
    return f"{problem[0]:7}{problem[1]:10}{count:>8}{times}{ratio:>7}{memory}  {shown(problem)}"


def compared(given, problems):
    """The table of processor time and memory."""
    maude = os.environ.get("FVN_MAUDE", "maude").split()
    maude = maude + ["-no-prelude", "-no-banner", "-no-advise", "-no-ansi-color", "-interactive"] if shutil.which(maude[0]) else None
    begun = {"fvn": ([given.fvn, "check"], EMPTY), "before": ([given.before or given.fvn, "check"], EMPTY), "Maude": (maude, EMPTY + "quit\n")}
    named = asked(given, maude, PROBLEMS[0])
    print("peak memory of a start alone, kB: " + ", ".join(f"{who} {shown_memory(peak(*begun[who]))}" for who in named))
    columns = "".join(f"{who + ' ms':>11}" for who in named) + f"{'ratio':>7}" + "".join(f"{who + ' kB':>11}" for who in named)
    print(f"{'module':7}{'command':10}{'answers':>8}{columns}  term or problem")
    for problem in problems:
        print(row(given, maude, begun, problem), flush=True)


def by_the_clock(given, problems):
    """The table of one worker and of several."""
    heads = ("one, ms", "least", f"{given.clock}, ms", "least", "ratio")
    print(f"{'module':7}{'command':10}{'answers':>8}" + "".join(f"{it:>9}" for it in heads) + "  term or problem")
    for problem in problems:
        name, command, text, limits = problem
        named = {n: ([given.fvn, command, text, "--workers", str(n), *limits], text_of(name)) for n in (1, given.clock)}
        runs = in_turn(named, given.repeat, given.seconds)
        if any(None in each for each in runs.values()):
            print(f"{name:7}{command:10}{'-':>8}{'over':>9}  {shown(problem)}", flush=True)
            continue
        clock = {n: [it[2] * 1000 for it in each] for n, each in runs.items()}
        same = len({it[0] for each in runs.values() for it in each}) == 1
        cells = [it for each in clock.values() for it in (statistics.median(each), min(each))]
        ratio = cells[2] / cells[0]
        count = str(answers_of("fvn", runs[1][0][0])) + ("" if same else "!")
        print(f"{name:7}{command:10}{count:>8}" + "".join(f"{it:9.1f}" for it in cells) + f"{ratio:9.2f}  {shown(problem)}", flush=True)


def main():
    ap = argparse.ArgumentParser(description=__doc__, formatter_class=argparse.RawDescriptionHelpFormatter)
    ap.add_argument("--fvn", default=str(HERE.parent / "fvn"))
    ap.add_argument("--before")
    ap.add_argument("--only", action="append", default=[])
    ap.add_argument("--repeat", type=int, default=5)
    ap.add_argument("--seconds", type=float, default=60)
    ap.add_argument("--workers", default="1")
    ap.add_argument("--clock", type=int)
    given = ap.parse_args()
    problems = [it for it in PROBLEMS if not given.only or any(word in f"{it[0]} {it[1]} {it[2]}" for word in given.only)]
    if given.clock:
        by_the_clock(given, problems)
    else:
        compared(given, problems)


if __name__ == "__main__":
    main()
