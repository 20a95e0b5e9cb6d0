#!/usr/bin/env python3
"""The two programs of out/, and the sources that they are of: `fvn`, which ./build proves, and `trial`, the same code built without proof.

Beside each stands its stamp, NAME.from: a checksum of the code and definitions that it was made of, for `fvn` a second one with the proofs. Its time of
change is when these were read, so that ./fvn sees by times alone whether anything was touched since. Run as a script, this file has one of the two be of
the present sources: one that is of the same bytes gets its stamp anew, and else the trial is built."""
import fcntl
import glob
import hashlib
import os
import re
import shutil
import signal
import subprocess
import sys
import tempfile
import time

TOP = os.path.dirname(os.path.dirname(os.path.abspath(__file__)))
OUT = f"{TOP}/out"
PROGRAM = "fvn"
PARTS = ("src", "specs", "proofs")
# A file's time can be some milliseconds behind the clock.
BEHIND = 20_000_000
# How often the program is run while it is built, each of which gives a chance to keep it.
CASES = 5


class Fault(Exception):
    """What keeps a program from being built, in words."""


def say(text):
    print(f"fvn: {text}", file=sys.stderr, flush=True)


def listed(top):
    """Returns what each crate stands on, by crates.txt, with the kit's libraries."""
    with open(f"{top}/crates.txt", encoding="utf-8") as it:
        lines = [line.partition("#")[0].partition(":") for line in it]
    return {name.strip(): words.split() for name, colon, words in lines if colon}


def needed(uses, top=PROGRAM):
    """Returns the crates of the repository that this one is made of, itself first."""
    found = [top]
    for name in found:
        found += [it for it in uses[name] if it in uses and it not in found]
    return found


def sums(top):
    """Returns the checksum of the program's code, contracts and definitions, and the one of these and the proofs."""
    uses = listed(top)
    names = sorted(needed(uses))
    code = hashlib.sha256(repr([(it, uses[it]) for it in names]).encode())
    whole = None
    for part in PARTS:
        if part == "proofs":
            whole = code.copy()
        for name in names:
            read_into(whole or code, top, name, part)
    return code.hexdigest(), whole.hexdigest()


def read_into(sum, top, name, part):
    """Adds the files of a part of a crate to a checksum."""
    for at, folders, files in os.walk(f"{top}/crates/{name}/{part}"):
        folders.sort()
        for file in sorted(files):
            with open(f"{at}/{file}", "rb") as it:
                sum.update(repr((os.path.relpath(f"{at}/{file}", top), it.read())).encode())


def copy(to):
    """Copies what the program is made of and run on to a new folder, as a repository of its own with no edits that are to fail."""
    uses = listed(TOP)
    names = needed(uses)
    os.makedirs(f"{to}/crates")
    for name in names:
        shutil.copytree(f"{TOP}/crates/{name}", f"{to}/crates/{name}", ignore=shutil.ignore_patterns("out", "must-fail", "edits"))
    with open(f"{to}/crates.txt", "w", encoding="utf-8") as it:
        it.writelines(f"{name}: {' '.join(uses[name])}\n" for name in names)
    if os.path.isfile(f"{TOP}/HANDLES"):
        shutil.copy(f"{TOP}/HANDLES", to)


def stamp_of(name):
    """Returns the checksums of the stamp of a program that is there, or none."""
    try:
        with open(f"{OUT}/{name}.from", encoding="utf-8") as it:
            return it.read().split() if os.access(f"{OUT}/{name}", os.X_OK) else []
    except OSError:
        return []


def write_stamp(name, words, since):
    """Writes a program's stamp: these checksums, of sources that were read after this time in nanoseconds."""
    with open(f"{OUT}/{name}.new", "w", encoding="utf-8") as it:
        it.write("\n".join(words) + "\n")
    os.utime(f"{OUT}/{name}.new", ns=(since - BEHIND, since - BEHIND))
    os.replace(f"{OUT}/{name}.new", f"{OUT}/{name}.from")


def place(file, name, words, since):
    """Puts a program into out/ in the place of the one that is there, which stays until then, with its stamp."""
    shutil.copyfile(file, f"{OUT}/{name}.new")
    os.chmod(f"{OUT}/{name}.new", 0o755)
    os.replace(f"{OUT}/{name}.new", f"{OUT}/{name}")
    write_stamp(name, words, since)


def locked(name):
    """Waits for other runs that build this program, and returns what keeps them out until it is closed."""
    os.makedirs(OUT, exist_ok=True)
    held = open(f"{OUT}/{name}.lock", "w", encoding="utf-8")
    fcntl.flock(held, fcntl.LOCK_EX)
    return held


def kit():
    """Returns the path of the kit's command."""
    found = shutil.which("rt")
    if not found:
        raise Fault("rt, the command of Rattle's kit, is not on the path, so nothing can be built")
    return found


def is_settled():
    """Returns whether a program of out/ is of the present sources, by their bytes; its stamp is then of now."""
    since = time.time_ns()
    code = sums(TOP)[0]
    for name in (PROGRAM, "trial"):
        words = stamp_of(name)
        if words[:1] == [code]:
            write_stamp(name, words, since)
            return True
    return False


def catch(ran, room):
    """Keeps the program that a trial builds in this room, which removes it again, and returns its path, or None."""
    kept = f"{room}/program"
    while ran.poll() is None:
        for file in glob.glob(f"{room}/tmp/*/*/program") if not os.path.exists(kept) else []:
            try:
                os.link(file, kept)
                break
            except OSError:
                pass
        time.sleep(0.002)
    return kept if os.path.exists(kept) else None


def try_in(room):
    """Builds the copied tree's program without proof, and returns its path, or None where it could not be kept."""
    os.makedirs(f"{room}/tmp")
    os.makedirs(f"{room}/cases")
    for number in range(CASES):
        with open(f"{room}/cases/{number}", "w", encoding="utf-8"):
            pass
    how = {"cwd": f"{room}/tree/crates/{PROGRAM}", "env": {**os.environ, "TMPDIR": f"{room}/tmp"}, "stdin": subprocess.DEVNULL}
    with open(f"{room}/log", "w+", encoding="utf-8", errors="replace") as log:
        ran = subprocess.Popen([kit(), "try", "--cases", f"{room}/cases"], stdout=log, stderr=subprocess.STDOUT, **how)
        try:
            kept = catch(ran, room)
        finally:
            ran.terminate()
            ran.wait()
        log.seek(0)
        said = log.read()
    ended = re.search(r"^case=0 run=ended status=(\d+) ", said, re.M)
    if not ended:
        raise Fault(f"the build without proof failed:\n{said}")
    if not kept or subprocess.run([kept], stdin=subprocess.DEVNULL, stdout=subprocess.DEVNULL, stderr=subprocess.DEVNULL).returncode != int(ended[1]):
        return None
    return kept


def build_trial():
    """Has out/trial be of the present sources."""
    kit()
    with locked("trial"):
        if is_settled():
            return
        say("no program is built for the present sources; one is built without proof first, which takes a minute or two")
        for _ in range(2):
            with tempfile.TemporaryDirectory(prefix="fvn-trial-") as room:
                since = time.time_ns()
                copy(f"{room}/tree")
                made = try_in(room)
                if made:
                    place(made, "trial", sums(f"{room}/tree")[:1], since)
                    return
        raise Fault("the build without proof ended well, but its program could not be kept")


def end_on_signals():
    """Has the signals that end a run remove what it made."""
    for it in (signal.SIGTERM, signal.SIGHUP, signal.SIGINT):
        signal.signal(it, lambda number, _: sys.exit(128 + number))


def main():
    end_on_signals()
    try:
        if not is_settled():
            build_trial()
    except (Fault, OSError, KeyError) as fault:
        say(fault)
        return 125
    return 0


if __name__ == "__main__":
    sys.exit(main())
