#!/usr/bin/env python3
"""Compares the tables of tests with what the oracles find: each program is given its table, and prints it again with its answers.

    python3 oracle/tables.py [NAME..]    all oracles, or those whose names are told
"""

import subprocess
import sys
from pathlib import Path

HERE = Path(__file__).resolve().parent
CRATES = HERE.parent / "crates"
# The words of each call, and the file and the constant that have its table.
TABLES = [
    (["equations"], "fvn_tests_rules/src/tests/losses.rt", "EQUATIONS"),
    (["rules"], "fvn_tests_rules/src/tests/rules.rt", "RULES"),
    (["matchers"], "fvn_tests_matching/src/tests/patterns.rt", "ROWS"),
    (["refinements"], "fvn_tests_matching/src/tests/refinements.rt", "ROWS"),
    (["splits"], "fvn_tests_combine/src/tests/splits.rt", "SPLITS"),
]


def table(file, name):
    text = (CRATES / file).read_text(encoding="utf-8")
    return text.split("const " + name + ": &str =", 1)[1].split('"', 2)[1] + "\n"


def main(names):
    wrong = 0
    for words, file, name in TABLES:
        if names and words[0] not in names:
            continue
        want = table(file, name)
        call = [sys.executable, "-B", str(HERE / (words[0] + ".py"))] + words[1:]
        got = subprocess.run(call, input=want, stdout=subprocess.PIPE, text=True).stdout
        rows = [(w, g) for w, g in zip(want.splitlines(), got.splitlines()) if w != g]
        rows += [(w, "nothing") for w in want.splitlines()[len(got.splitlines()) :]]
        for stands, found in rows:
            print("  stands: " + stands + "\n  found:  " + found)
        print(" ".join(words) + ": " + str(sum(" =>" in w for w in want.splitlines())) + " rows, " + str(len(rows)) + " differ")
        wrong += len(rows)
    return 1 if wrong else 0


if __name__ == "__main__":
    sys.exit(main(sys.argv[1:]))
