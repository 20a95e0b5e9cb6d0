#!/usr/bin/env python3
"""Wrong bodies that the prover has to refuse: those that the gate tries, crates/NAME/must-fail, and those beside it, crates/NAME/edits.

tools/edits.py --apply-only      says, by text alone, whether each of them still applies exactly once
tools/edits.py --try NAME..      tries those beside the gate of these crates: each has to be refused

The second works in a copy, by `rt must-fail`, over what `rt check` kept in the folders of these crates and of those below; what it kept nothing of is
built first, one crate after another."""
import collections
import os
import re
import shutil
import subprocess
import sys
import tempfile

TOP = os.path.dirname(os.path.dirname(os.path.abspath(__file__)))
GATE, BESIDE = "must-fail", "edits"


def crates():
    """Returns what each crate stands on, by crates.txt."""
    with open(f"{TOP}/crates.txt", encoding="utf-8") as it:
        lines = [line.partition("#")[0].partition(":") for line in it]
    return {name.strip(): words.split() for name, colon, words in lines if colon}


def edits_of(name, folder):
    """Returns the files of a crate's folder of edits, and the faults of their names."""
    at = f"{TOP}/crates/{name}/{folder}"
    found = sorted(os.listdir(at)) if os.path.isdir(at) else []
    odd = [f"crates/{name}/{folder}/{it}: no name of an edit" for it in found if not re.fullmatch(r"[\w-][\w.-]*\.(edit|md)", it)]
    return [f"{at}/{it}" for it in found if it.endswith(".edit")], odd


def fault(edit, crate):
    """Returns why an edit does not apply exactly once to the files of its crate, or None."""
    path, old, texts, changes = None, None, {}, 0
    with open(edit, encoding="utf-8") as it:
        lines = it.read().split("\n")
    for line in lines:
        if line.startswith("file: "):
            path = line[len("file: ") :].strip()
            if os.path.normpath(path) != path or not path.startswith(("src/", "specs/", "proofs/")) or not os.path.isfile(f"{crate}/{path}"):
                return f"there is no file {path}"
            if path not in texts:
                with open(f"{crate}/{path}", encoding="utf-8") as it:
                    texts[path] = it.read()
        elif line.startswith("old: "):
            old = line[len("old: ") :]
        elif line.startswith("new:"):
            new = re.sub(r"\A ", "", line[len("new:") :])
            if not path or not old:
                return "a `new:` line without a `file:` and an `old:` line before it"
            count = texts[path].count(old)
            if count != 1:
                return f"its `old:` text stands {count} times in {path}, and not once: {old.strip()[:80]}"
            if new == old:
                return "it changes nothing"
            texts[path], old, changes = texts[path].replace(old, new), None, changes + 1
        elif line.strip() and not line.startswith(("#", "--", "//")):
            return f"a line that begins with none of `file: `, `old: `, `new:`: {line.strip()[:80]}"
    return None if changes and old is None else "it has no pair of lines `old:` and `new:`, or an `old:` line without its `new:`"


def apply_all():
    """Says which edits do not apply, and returns the status."""
    faults, counts, texts = [], collections.Counter(), collections.defaultdict(list)
    for name in crates():
        for folder in (GATE, BESIDE):
            edits, odd = edits_of(name, folder)
            faults += odd
            counts[folder] += len(edits)
            for edit in edits:
                short = os.path.relpath(edit, TOP)
                with open(edit, "rb") as it:
                    texts[name, it.read()].append(short)
                why = fault(edit, f"{TOP}/crates/{name}")
                faults += [f"{short}: {why}"] if why else []
    faults += [f"{' and '.join(it)} are the same edit" for it in texts.values() if len(it) > 1]
    if os.path.isdir(f"{TOP}/edits"):
        faults.append("edits/: edits beside the gate stand in crates/NAME/edits")
    print(*faults, sep="\n", end="\n" * bool(faults))
    print(f"edits: {counts[GATE]} in the gate and {counts[BESIDE]} beside it; " + (f"{len(faults)} faults" if faults else "each applies exactly once"))
    return 1 if faults else 0


def link(file, to):
    """Links a file of what was kept, or copies it where the copy lies on another disk."""
    try:
        os.link(file, to)
    except OSError:
        shutil.copy2(file, to)


def with_kept(room, names, uses):
    """Gives the copied crates that are named, and those below them, what `rt check` kept."""
    wanted = list(names)
    for name in wanted:
        wanted += [it for it in uses[name] if it in uses and it not in wanted]
    for name in wanted:
        for part in ("rlib", "incremental") if name in names else ("rlib",):
            if os.path.isdir(f"{TOP}/crates/{name}/out/{part}"):
                shutil.copytree(f"{TOP}/crates/{name}/out/{part}", f"{room}/crates/{name}/out/{part}", copy_function=link, symlinks=True)


def try_beside(names):
    """Tries the edits beside the gate of these crates, and returns the status."""
    uses = crates()
    for name in names:
        if name not in uses or not edits_of(name, BESIDE)[0]:
            print(f"edits: {name} is no crate with edits beside the gate", file=sys.stderr)
            return 2
    with tempfile.TemporaryDirectory(prefix="fvn-edits-") as room:
        for file in ("crates.txt", "HANDLES"):
            shutil.copy2(f"{TOP}/{file}", room)
        shutil.copytree(f"{TOP}/crates", f"{room}/crates", ignore=shutil.ignore_patterns("out", GATE, BESIDE))
        for name in names:
            shutil.copytree(f"{TOP}/crates/{name}/{BESIDE}", f"{room}/crates/{name}/{GATE}")
        with_kept(room, names, uses)
        said = ""
        with subprocess.Popen(["rt", "must-fail", *names], cwd=room, stdout=subprocess.PIPE, text=True, errors="replace") as ran:
            for line in ran.stdout:
                said += line
                print(line, end="", flush=True)
    return ran.returncode or int("BAD EDIT" in said)


def main(words):
    if words == ["--apply-only"]:
        return apply_all()
    if words[:1] == ["--try"] and words[1:]:
        return try_beside(list(dict.fromkeys(words[1:])))
    print(__doc__, file=sys.stderr)
    return 2


if __name__ == "__main__":
    sys.exit(main(sys.argv[1:]))
