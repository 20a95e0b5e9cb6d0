#!/usr/bin/env bash
# Times of weighing 256 equations whose left sides have 400 symbols and right sides 200, with 3 variables and with 150: what `terminates` takes under weights that show termination, less what it takes under weights that it refuses before any equation is weighed; medians of 41 runs in turn, processor time. Run at the top of the repository, after ./build; it wants python3.
set -e
here=$(cd "$(dirname "$0")/.." && pwd)
there=$(mktemp -d)
trap 'rm -rf "$there"' EXIT
python3 - "${FVN:-$here/out/fvn}" "$there" <<'PROGRAM'
import random
import resource
import statistics
import subprocess
import sys

fvn, there = sys.argv[1:]
choice = random.Random(3)


def term(size, leaves):
    """A term of this many symbols, whose leaves are taken from the end of a list as long as there are any."""
    if size == 1:
        return leaves.pop() if leaves else "a"
    if size == 2:
        return "g(%s)" % term(1, leaves)
    left = choice.randint(1, size - 2)
    return "f(%s,%s)" % (term(left, leaves), term(size - 1 - left, leaves))


def rounds(names, count):
    """So many rounds through the names, each in another order."""
    return [name for _ in range(count) for name in choice.sample(names, len(names))]


def module(variables):
    """A module whose equations have so many variables, none of them more often on the right side than on the left one."""
    names = ["X%d" % i for i in range(variables)]
    text = "fmod BIG is\n  sort S .\n  op a : -> S .\n  op g : S -> S .\n  op f : S S -> S .\n  vars %s : S .\n" % " ".join(names)
    for _ in range(256):
        left = term(400, rounds(names, 400 // variables))
        right = term(200, rounds(names[:60], max(1, 60 // variables)))
        text += "  eq %s = %s [variant] .\n" % (left, right)
    return text + "endfm\n"


def milliseconds(path, weights, said):
    """The processor time of a run, which is to say this."""
    before = resource.getrusage(resource.RUSAGE_CHILDREN)
    with open(path) as text:
        ran = subprocess.run([fvn, "terminates", weights], stdin=text, capture_output=True, text=True)
    after = resource.getrusage(resource.RUSAGE_CHILDREN)
    if ran.stdout.strip() != said:
        sys.exit("%s: %s" % (weights, ran.stdout))
    return 1000 * (after.ru_utime + after.ru_stime - before.ru_utime - before.ru_stime)


for variables in (3, 150):
    path = there + "/big.maude"
    open(path, "w").write(module(variables))
    runs = {"weighed": ("f : 1 1 1 , g : 1 1", "terminates"), "refused": ("f : 1 1 1 , g : 0 1", "weights shape g")}
    times = {name: [] for name in runs}
    for _ in range(41):
        for name, (weights, said) in runs.items():
            times[name].append(milliseconds(path, weights, said))
    found = {name: statistics.median(list) for name, list in times.items()}
    print("%d variables: %.1f ms, refused before %.1f ms: weighing %.1f ms" % (variables, found["weighed"], found["refused"], found["weighed"] - found["refused"]))
PROGRAM
