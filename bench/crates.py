#!/usr/bin/env python3
"""Makes a small repository of some crates and those that they stand on, for scripts that work in a copy.

    python3 bench/crates.py FOLDER CRATE.. ["NAME: USES.."..]

Each CRATE stands on what crates.txt says; a line with a colon says instead what a crate stands on, one of the repository or
one that the script is about to make. What is copied is code, specifications and proofs, without edits.
"""

import shutil
import sys
from pathlib import Path

TOP = Path(__file__).resolve().parent.parent


def lines_of(path):
    """What each crate stands on, in the order of crates.txt."""
    told = [line.partition("#")[0].partition(":") for line in path.read_text().splitlines()]
    return {name.strip(): uses.split() for name, colon, uses in told if colon}


def main(folder, words):
    all_crates = lines_of(TOP / "crates.txt")
    wanted = {}
    for word in words:
        name, colon, uses = word.partition(":")
        if not colon and name not in all_crates:
            sys.exit("crates.py: no crate " + name)
        wanted[name] = uses.split() if colon else all_crates[name]
    waiting = list(wanted)
    while waiting:
        for name in wanted[waiting.pop()]:
            if name in all_crates and name not in wanted:
                wanted[name] = all_crates[name]
                waiting.append(name)
    (folder / "crates").mkdir(parents=True, exist_ok=True)
    shutil.copy(TOP / "HANDLES", folder / "HANDLES")
    for name in wanted:
        for part in ("src", "specs", "proofs"):
            if (TOP / "crates" / name / part).is_dir():
                shutil.copytree(TOP / "crates" / name / part, folder / "crates" / name / part)
    order = [name for name in all_crates if name in wanted] + [name for name in wanted if name not in all_crates]
    (folder / "crates.txt").write_text("".join(name + ": " + " ".join(wanted[name]) + "\n" for name in order))


if __name__ == "__main__":
    if len(sys.argv) < 3:
        sys.exit(__doc__)
    main(Path(sys.argv[1]), sys.argv[2:])
