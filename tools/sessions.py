#!/usr/bin/env python3
"""Runs the sessions of the documents, and compares what comes with what stands there, byte for byte.

    tools/sessions.py [PROGRAM]

A session is a block of README.md or docs/*.md with lines `$ command`, each followed by its output. The commands of a block
are run one after another, in a folder where `./fvn` is PROGRAM (else out/fvn where ./build made it, else ./fvn) and
`./from-maude` and `examples` are those of the repository. Blocks that call ./from-maude are left out where Maude
(FVN_MAUDE, or `maude`) is not there. Then each module of examples/accepted has to pass `check`, and each of
examples/refused has to be refused with the line that its first line tells. The status is 0 where all is so.
"""

import os
import re
import shutil
import subprocess
import sys
import tempfile
from pathlib import Path

TOP = Path(__file__).resolve().parent.parent
FENCE = "```"


def blocks(path):
    """The blocks of code with commands, each with the number of its first line."""
    found, inside, start = [], None, 0
    for number, line in enumerate(path.read_text(encoding="utf-8").splitlines(keepends=True), 1):
        if line.startswith(FENCE):
            if inside is not None and any(is_command(told) for told in inside):
                found.append((start, inside))
            inside, start = ([], number + 1) if inside is None else (None, 0)
        elif inside is not None:
            inside.append(line)
    return found


def is_command(line):
    return line.startswith("$ ")


def calls(start, lines):
    """The commands of a block with the numbers of their lines and what should come."""
    found = []
    for number, line in enumerate(lines, start):
        if is_command(line):
            found.append([number, line[2:].rstrip("\n"), ""])
        elif found:
            found[-1][2] += line
    return found


def place(program):
    """A folder in which the commands find what they name."""
    room = Path(tempfile.mkdtemp())
    (room / "fvn").symlink_to(program)
    for name in ("from-maude", "examples"):
        (room / name).symlink_to(TOP / name)
    return room


def output(command, room, program):
    env = dict(os.environ, FVN_PROGRAM=str(program))
    done = subprocess.run(command, shell=True, cwd=room, env=env, stdout=subprocess.PIPE, stderr=subprocess.DEVNULL)
    return done.stdout.decode("utf-8", "replace")


def sessions(program):
    """How many commands gave what stands there, how many something else, and how many were left out."""
    maude = shutil.which(os.environ.get("FVN_MAUDE", "maude"))
    same = other = left = 0
    for path in [TOP / "README.md", TOP / "CONTRIBUTING.md"] + sorted((TOP / "docs").glob("*.md")):
        for start, lines in blocks(path):
            asked = calls(start, lines)
            if maude is None and any("./from-maude" in command for _, command, _ in asked):
                left += len(asked)
                continue
            room = place(program)
            for number, command, want in asked:
                got = output(command, room, program)
                same, other = same + (got == want), other + (got != want)
                if got != want:
                    print(f"{path.relative_to(TOP)}:{number}: {command}\n  comes:  {got!r}\n  stands: {want!r}")
            shutil.rmtree(room)
    return same, other, left


def examples(program):
    """How many modules are accepted or refused as they should be, and how many not."""
    right = wrong = 0
    for path in sorted((TOP / "examples" / "accepted").iterdir()) + sorted((TOP / "examples" / "refused").iterdir()):
        with path.open("rb") as text:
            done = subprocess.run([program, "check"], stdin=text, stdout=subprocess.PIPE, stderr=subprocess.DEVNULL)
        first, said = path.read_text(encoding="utf-8").split("\n", 1)[0], done.stdout.decode()
        if path.parent.name == "refused":
            told = re.match(r"--- (module [^:]*): .", first)
            fine = told is not None and (done.returncode, said) == (3, told.group(1) + "\n")
        else:
            fine = re.match(r"--- .", first) is not None and done.returncode == 0
        right, wrong = right + fine, wrong + (not fine)
        if not fine:
            print(f"{path.relative_to(TOP)}: status {done.returncode}, {said!r}; its first line: {first!r}")
    return right, wrong


def main(words):
    if len(words) > 1 or words[:1] in (["-h"], ["--help"]):
        print(__doc__)
        return 2
    made = TOP / "out" / "fvn"
    program = Path(words[0]).resolve() if words else made if made.exists() else TOP / "fvn"
    same, other, left = sessions(program)
    right, wrong = examples(program)
    without = f", {left} left out without Maude" if left else ""
    print(f"sessions: {same} as they stand, {other} differ{without}; examples: {right} as they should be, {wrong} not")
    return 1 if other or wrong else 0


if __name__ == "__main__":
    sys.exit(main(sys.argv[1:]))
