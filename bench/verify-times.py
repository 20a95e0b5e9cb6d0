#!/usr/bin/env python3
"""Times `fvn verify` beside Maude's `reduce`, in turn, on sums of two numbers: +(s^n(0), s^n(0)) takes n + 1 steps.

    bench/verify-times.py [--fvn FVN] [--repeat N]

`fvn` is asked whether the sum is 0, which it answers by `no 1` once it has the normal form; Maude reduces the sum. Printed are the
median seconds of each net of start-up (measured at n = 0), and their ratio; times below 2 ms are noise. Where Maude
(`FVN_MAUDE`, or `maude`) is missing, fvn alone is timed.
"""

import argparse
import os
import shutil
import statistics
import subprocess
import time
from pathlib import Path

HERE = Path(__file__).resolve().parent
MODULE = (HERE.parent / "examples" / "accepted" / "plus.maude").read_text()


def number(n):
    return "s(" * n + "0" + ")" * n


def run(words, text):
    """Output and seconds of a run."""
    begin = time.perf_counter()
    done = subprocess.run(words, input=text, stdout=subprocess.PIPE, stderr=subprocess.DEVNULL, text=True)
    return done.stdout, time.perf_counter() - begin


def fvn_run(fvn, n):
    out, taken = run([fvn, "verify", f"+({number(n)},{number(n)}) =? 0", "{}"], MODULE)
    if out != ("yes\n" if n == 0 else "no 1\n"):
        raise SystemExit(f"fvn answered {out!r} for {n}")
    return taken


def maude_run(maude, n):
    text = f"{MODULE}\nreduce in PLUS : +({number(n)}, {number(n)}) .\nquit\n"
    out, taken = run(maude + ["-no-banner", "-no-advise", "-no-ansi-color", "-interactive"], text)
    if out.count("s(") < 2 * n:
        raise SystemExit(f"Maude answered {out!r} for {n}")
    return taken


def main():
    parser = argparse.ArgumentParser(description=__doc__, formatter_class=argparse.RawDescriptionHelpFormatter)
    parser.add_argument("--fvn", default=str(HERE.parent / "fvn"))
    parser.add_argument("--repeat", type=int, default=7)
    given = parser.parse_args()
    maude = os.environ.get("FVN_MAUDE", "maude").split()
    there = shutil.which(maude[0]) is not None
    start = None
    for n in (0, 10, 50, 100, 150, 190):
        ours, theirs = [], []
        for _ in range(given.repeat):
            ours.append(fvn_run(given.fvn, n))
            theirs.append(maude_run(maude, n) if there else 0)
        a, b = statistics.median(ours), statistics.median(theirs)
        if start is None:
            start = (a, b)
            print(f"start-up: fvn {a:.4f} s, Maude {b:.4f} s")
            continue
        a, b = max(a - start[0], 0.00005), max(b - start[1], 0.00005)
        print(f"n {n:3}  fvn {a:.4f} s" + (f"  Maude {b:.4f} s  ratio {a / b:.2f}" if there else ""), flush=True)


if __name__ == "__main__":
    main()
