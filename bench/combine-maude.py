#!/usr/bin/env python3
"""Prints how many unifiers Maude's `unify` gives for problems, how many of these are irredundant, and in how many milliseconds.

    python3 bench/combine-maude.py PROBLEMS [values]

Problems are written as in bench/combine-times.sh: each operator after its arguments, `=` between the sides of a pair, `; `
between pairs. The times are those of the processor with Maude's printing, without its start. With a second word the values
are printed too, each with its arguments behind its operator. Maude is the command `maude`, or FVN_MAUDE.
"""

import os
import re
import resource
import subprocess
import sys

MODULE = """fmod M is
 sort A .
 ops f g : -> A .
 op h : A -> A .
 op i : A A -> A .
 op j : A A -> A [comm] .
 op k : A A -> A [assoc comm] .
 op l : A A -> A [assoc comm id: g] .
 op m : A A -> A [assoc comm id: g] .
 op n : A A -> A [assoc comm] .
endfm
"""
ARITY = dict(f=0, g=0, h=1, i=2, j=2, k=2, l=2, m=2, n=2)
MAUDE = os.environ.get("FVN_MAUDE", "maude").split() + ["-no-banner", "-no-wrap"]
SECONDS = 60
# A variable of the problem that stands in a value gets its number in a table from here on, behind Maude's new variables.
FIRST_OF_PROBLEM = 20


def prefix(text):
    """A term in prefix form."""
    terms = []
    for word in text.split():
        if word[0] == "A":
            terms.append("X%d:A" % (ord(word[-1]) - ord("0")))
        else:
            count = ARITY[word]
            args = terms[len(terms) - count :]
            terms = terms[: len(terms) - count] + [word + ("(" + ",".join(args) + ")" if count else "")]
    assert len(terms) == 1, text
    return terms[0]


def pairs(text):
    """A problem as Maude reads it."""
    sides = [pair.split(" = ") for pair in text.split("; ")]
    return " /\\ ".join(prefix(left) + " =? " + prefix(right) for left, right in sides)


def variables(text):
    return sorted({word for word in re.split(r"[ ;=]+", text) if word.startswith("A")})


def parsed(text):
    """A term that Maude printed: a new variable, a variable of the problem, or an operator with its arguments."""
    text, at = text.replace(" ", ""), 0

    def term():
        nonlocal at
        found = re.compile(r"([#%@X]\d+:A|[f-n])").match(text, at)
        assert found, (text, at)
        at, word, args = found.end(), found.group(1), []
        if word[0] in "#%@X":
            return (word[0] if word[0] == "X" else "new", int(word[1:-2]))
        if text[at : at + 1] == "(":
            while text[at] != ")":
                at += 1
                args.append(term())
            at += 1
        return (word, args)

    made = term()
    assert at == len(text), text
    return made


def postfix(t):
    """A term as tables have it: sums are nested to the left."""
    if t[0] in ("new", "X"):
        return "A" + chr(ord("0") + t[1] + (FIRST_OF_PROBLEM if t[0] == "X" else 0))
    if not t[1]:
        return t[0]
    first, rest = postfix(t[1][0]), [postfix(u) for u in t[1][1:]]
    return first + " " + t[0] if not rest else first + "".join(" " + u + " " + t[0] for u in rest)


def unifiers(text, command):
    """The unifiers that the command gives, each as values by variables, or none where it takes too long."""
    asked = MODULE + command + " in M : " + pairs(text) + " .\nq\n"
    try:
        said = subprocess.run(MAUDE, input=asked, capture_output=True, text=True, timeout=SECONDS).stdout
    except subprocess.TimeoutExpired:
        return None
    found = []
    for line in said.split("\n"):
        if re.match(r"Unifier \d+", line):
            found.append({})
        value = re.match(r"X(\d+):A --> (.*)$", line)
        if value:
            found[-1]["A" + chr(ord("0") + int(value.group(1)))] = postfix(parsed(value.group(2)))
    if not found and "No unifier" not in said:
        print(said, file=sys.stderr)
    return found


def milliseconds(text, times):
    """What one run of the command takes the processor beyond Maude's start, with its printing."""

    def used(count):
        before = resource.getrusage(resource.RUSAGE_CHILDREN)
        asked = MODULE + ("unify in M : " + pairs(text) + " .\n") * count + "q\n"
        subprocess.run(MAUDE, input=asked, stdout=subprocess.DEVNULL, text=True, timeout=SECONDS)
        after = resource.getrusage(resource.RUSAGE_CHILDREN)
        return after.ru_utime + after.ru_stime - before.ru_utime - before.ru_stime

    return 1000 * (used(times + 1) - used(1)) / times


def main(path, with_values):
    for text in open(path, encoding="utf-8").read().splitlines():
        if not text:
            continue
        found = unifiers(text, "unify")
        if found is None:
            print("%s: maude takes more than %d s" % (text, SECONDS))
            continue
        least = unifiers(text, "irredundant unify")
        count = "?" if least is None else str(len(least))
        spent = milliseconds(text, 1 if len(found) > 999 else 100)
        rows = ["; ".join(x + " " + u.get(x, "A9") for x in variables(text)) for u in found]
        values = " | " + " & ".join(rows) if with_values else ""
        print("%s: maude %d, irredundant %s, %.2f ms%s" % (text, len(found), count, spent, values), flush=True)


if __name__ == "__main__":
    if len(sys.argv) < 2:
        sys.exit(__doc__)
    main(sys.argv[1], len(sys.argv) > 2)
