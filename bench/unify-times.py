#!/usr/bin/env python3
"""Times `fvn unify` beside Maude's `irredundant unify`, in turn, on scaled problems.

    bench/unify-times.py [--fvn FVN] [--before FVN] [--only WORD]... [--repeat N] [--seconds N] [--plain]

Each problem of bench/unify/problems.py is solved by both, N times in turn, and by another fvn where `--before` names one, and by
Maude's `unify`, which keeps instances of others, with `--plain`. Printed is a table: the number of answers, the bytes that fvn
printed, the median milliseconds of processor time of each net of start-up (a problem of two constants, in turn with the others), the
ratio of fvn to Maude, and the peak memory of both, each in one more run under GNU time. A `!` marks different numbers of answers; a program
that takes too long is asked once. Where Maude (`FVN_MAUDE`, or `maude`) is missing, fvn alone is timed.
"""

import argparse
import os
import re
import shutil
import signal
import statistics
import subprocess
import sys
import tempfile
import time
from pathlib import Path

HERE = Path(__file__).resolve().parent
sys.path.insert(0, str(HERE / "unify"))
from problems import FAMILIES  # noqa: E402

GNU_TIME = "/usr/bin/time"


def run(words, text, seconds):
    """Output, seconds of processor time and of the clock of a run, or none where it takes too long."""
    with tempfile.TemporaryFile() as source, tempfile.TemporaryFile() as out:
        source.write(text.encode())
        source.seek(0)
        begun, late = time.perf_counter(), []
        child = subprocess.Popen(words, stdin=source, stdout=out, stderr=subprocess.DEVNULL)
        signal.signal(signal.SIGALRM, lambda *_: (late.append(True), os.kill(child.pid, signal.SIGKILL)))
        signal.setitimer(signal.ITIMER_REAL, seconds)
        _, status, usage = os.wait4(child.pid, 0)
        clock = time.perf_counter() - begun
        signal.setitimer(signal.ITIMER_REAL, 0)
        child.returncode = os.waitstatus_to_exitcode(status)
        if late:
            return None
        out.seek(0)
        return out.read().decode(), usage.ru_utime + usage.ru_stime, clock


def peak(words, text):
    """Peak kilobytes of one more run under GNU time, or none: a child that Python starts counts Python's own memory as its."""
    if not os.path.exists(GNU_TIME):
        return None
    with tempfile.NamedTemporaryFile() as told:
        timed = [GNU_TIME, "-f", "%M", "-o", told.name, *words]
        subprocess.run(timed, input=text.encode(), stdout=subprocess.DEVNULL, stderr=subprocess.DEVNULL)
        return int(told.read().split()[-1])


def shown_memory(kilobytes):
    return "-" if kilobytes is None else str(kilobytes)


def asked_of_fvn(fvn, module, problem):
    return [fvn, "unify", problem], module


def asked_of_maude(maude, command, module, problem):
    name = re.search(r"fmod (\S+) is", module).group(1)
    words = maude + ["-no-prelude", "-no-banner", "-no-advise", "-no-ansi-color", "-interactive"]
    return words, f"{module}\n{command} in {name} : {problem} .\nquit\n"


def answers_of(who, out):
    """What a program tells: the number of answers, or the last line of fvn."""
    if who in ("Maude", "plain"):
        return str(len(re.findall(r"^Unifier \d+", out, re.M)))
    lines = out.splitlines()
    return lines[-1].removeprefix("complete ") if lines else "none"


def programs(given):
    """What each program is asked, by the name of its column."""
    maude = os.environ.get("FVN_MAUDE", "maude").split()
    named = {"fvn": lambda *what: asked_of_fvn(given.fvn, *what)}
    if given.before:
        named["before"] = lambda *what: asked_of_fvn(given.before, *what)
    if shutil.which(maude[0]) is None:
        print(f"there is no command {maude[0]}: fvn alone is timed")
        return named
    named["Maude"] = lambda *what: asked_of_maude(maude, "irredundant unify", *what)
    if given.plain:
        named["plain"] = lambda *what: asked_of_maude(maude, "unify", *what)
    return named


def times_of(named, module, problem, repeat, seconds):
    """The runs of each program in turn; none in the place of one that took too long, which is the last of its program."""
    found = {who: [] for who in named}
    for _ in range(repeat):
        for who, asked in named.items():
            if None not in found[who]:
                found[who].append(run(*asked(module, problem), seconds))
    return found


def net(runs, start):
    """The median milliseconds of processor time net of start-up, or none."""
    return None if None in runs else max(statistics.median(r[1] for r in runs) - start, 0.00005) * 1000


def row(named, module, same, problem, given):
    """The cells of a problem behind its name: its runs in turn with those of a problem that takes no time."""
    both = {who + " alone": (lambda module, _, asked=asked: asked(module, same)) for who, asked in named.items()}
    found = times_of({**both, **named}, module, problem, given.repeat, given.seconds)
    start = {who: statistics.median(it[1] for it in found[who + " alone"]) for who in named}
    took = {who: net(found[who], start[who]) for who in named}
    told = {who: answers_of(who, found[who][0][0]) for who in named if took[who] is not None}
    answers = next(iter(told.values()), "none")
    if any(count != answers for who, count in told.items() if who != "plain"):
        answers += " !"
    size = str(len(found["fvn"][0][0])) if took["fvn"] is not None else ""
    cells = [f"over {given.seconds * 1000:.0f}" if ms is None else f"{ms:.1f}" for ms in took.values()]
    ratio = f"{took['fvn'] / took['Maude']:.2f}" if took["fvn"] and took.get("Maude") else ""
    memory = [shown_memory(peak(*named[who](module, problem)) if took.get(who) else None) for who in ("fvn", "Maude")]
    return [answers, size, *cells, ratio, *memory]


def main():
    parser = argparse.ArgumentParser(description=__doc__, formatter_class=argparse.RawDescriptionHelpFormatter)
    parser.add_argument("--fvn", default=str(HERE.parent / "fvn"))
    parser.add_argument("--before")
    parser.add_argument("--only", action="append", default=[])
    parser.add_argument("--repeat", type=int, default=5)
    parser.add_argument("--seconds", type=float, default=60)
    parser.add_argument("--plain", action="store_true")
    given = parser.parse_args()
    named = programs(given)
    heads = ["family", "size", "answers", "bytes", *named, "ratio", "fvn kB", "Maude kB"]
    print("| " + " | ".join(heads) + " |\n" + "|---" * len(heads) + "|")
    for family, name, sizes in FAMILIES:
        if given.only and not any(word in family for word in given.only):
            continue
        module = (HERE / "unify" / f"{name}.maude").read_text()
        constant = {"evens": "0", "fruit": "apple", "parity": "0", "places": "ready"}.get(name, "a")
        for size, problem in sizes.items():
            cells = row(named, module, f"{constant} =? {constant}", problem, given)
            print("| " + " | ".join([family, str(size), *cells]) + " |", flush=True)


if __name__ == "__main__":
    main()
