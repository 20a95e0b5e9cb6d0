#!/usr/bin/env bash
# Times of `check` on a module of about 1 MiB (256 equations with sides of 400 symbols, and comments), beside those of an installed Maude that loads the same text and of one that loads an empty module: medians of 15 runs in turn, processor time. Run at the top of the repository, after ./build; it wants python3.
set -e
here=$(cd "$(dirname "$0")/.." && pwd)
there=$(mktemp -d)
trap 'rm -rf "$there"' EXIT
python3 - "$here/out/fvn" "$there" <<'PROGRAM'
import random
import resource
import shutil
import statistics
import subprocess
import sys

fvn, there = sys.argv[1:]
choice = random.Random(3)


def term(size):
    """A term of this many symbols."""
    if size == 1:
        return choice.choice("XYZab")
    if size == 2:
        return "g(%s)" % term(1)
    left = choice.randint(1, size - 2)
    return "f(%s,%s)" % (term(left), term(size - 1 - left))


def equation():
    left = "a"
    while not all(x in left for x in "XYZ"):
        left = term(400)
    return "  eq %s = %s [variant] .\n" % (left, term(400))


def seconds(words, source=None):
    """The processor time of a run."""
    before = resource.getrusage(resource.RUSAGE_CHILDREN)
    with open(source or "/dev/null") as text:
        subprocess.run(words, stdin=text, stdout=subprocess.DEVNULL, stderr=subprocess.DEVNULL)
    after = resource.getrusage(resource.RUSAGE_CHILDREN)
    return after.ru_utime + after.ru_stime - before.ru_utime - before.ru_stime


text = "fmod BIG is\n  sort S .\n  ops a b : -> S .\n  op g : S -> S .\n  op f : S S -> S .\n  vars X Y Z : S .\n"
text += "".join(equation() for _ in range(256))
comment = "  --- " + "words of a comment " * 5 + "\n"
text += comment * ((1_048_576 - len(text) - 6) // len(comment)) + "endfm\n"
big, empty = there + "/big.maude", there + "/empty.maude"
open(big, "w").write(text)
open(empty, "w").write("fmod EMPTY is sort S . endfm\n")
runs = {"fvn check": ([fvn, "check"], big)}
if shutil.which("maude"):
    maude = ["maude", "-no-banner", "-batch"]
    runs["maude"] = (maude + [big], None)
    runs["maude, an empty module"] = (maude + [empty], None)
times = {name: [] for name in runs}
for _ in range(15):
    for name, (words, source) in runs.items():
        times[name].append(seconds(words, source))
print("%d bytes" % len(text))
for name, list_of_times in times.items():
    print("%-24s %4.0f ms" % (name, 1000 * statistics.median(list_of_times)))
PROGRAM
