#!/usr/bin/env python3
"""Prints what becomes of the equations of small modules, by trying instances.

    python3 oracle/equations.py < MODULES

Each line of the input has the statements of a module; an answer behind ` => ` is left away. The program adds for each
equation `v` where some, perhaps none, of the variables of its left side may be replaced by identities so that it becomes
a variable, `i` where it becomes an identity and never a variable, and `-` else. Behind a bar comes the number of the first equation that loses a sort, or
0, and behind another the first left side that becomes a variable or an identity. Instances replace variables by
variables of lower sorts, by constants, and by operators over these; sorts are read after identities are removed.
"""

import itertools
import re
import sys

from signatures import Signature, read_statement


class Module(Signature):
    """A signature with variables and equations, each side as its text."""

    def __init__(self, text):
        super().__init__()
        self.vars, self.equations = {}, []
        for statement in re.split(r" \.(?: |$)", text.strip()):
            if statement.strip():
                self.read(statement.split())
        self.close(lambda number, first: "[" + first + "]")
        self.identities = sorted({o["id"] for o in self.ops.values() if o["id"]})

    def read(self, words):
        if read_statement(self, words):
            return
        key, rest = words[0], words[1:]
        if key in ("var", "vars"):
            for name in rest[: rest.index(":")]:
                self.vars[name] = rest[rest.index(":") + 1]
        elif key == "eq":
            text = re.sub(r"^\[[^]]*\] : ", "", " ".join(rest))
            left, right = re.sub(r" \[variant\]$", "", text).split(" = ")
            self.equations.append((left, right))

    def is_sum(self, name):
        return self.ops[name]["axioms"] == "sum"

    def parse(self, text):
        pos = 0

        def term():
            nonlocal pos
            name = re.match(r"[^(),]+", text[pos:]).group(0)
            pos += len(name)
            args = []
            if pos < len(text) and text[pos] == "(":
                pos += 1
                while True:
                    args.append(term())
                    pos += 1
                    if text[pos - 1] == ")":
                        break
            if name in self.vars:
                return ("var", name, self.sort(self.vars[name]))
            if name in self.ops:
                if self.is_sum(name):
                    while len(args) > 2:
                        args[-2:] = [(name, [args[-2], args[-1]])]
                return (name, args)
            name, sort = name.split(":", 1)
            return ("var", name, self.sort(sort))

        return term()

    def sort(self, text):
        return self.kind[text.strip("[]").split(",")[0]] if text[0] == "[" else text

    def plain(self, t):
        """The term without identities."""
        if t[0] == "var":
            return t
        args = [self.plain(a) for a in t[1]]
        e = self.ops[t[0]]["id"]
        if e is not None and len(args) == 2:
            if args[0] == (e, []):
                return args[1]
            if args[1] == (e, []):
                return args[0]
        return (t[0], args)

    def least(self, t):
        """The least sort of a term without identities."""
        if t[0] == "var":
            return t[2]
        return self.result(t[0], [self.least(a) for a in t[1]])

    def variables(self, t, seen):
        if t[0] == "var":
            if t not in seen:
                seen.append(t)
        else:
            for a in t[1]:
                self.variables(a, seen)
        return seen

    def apply(self, t, values):
        if t[0] == "var":
            return values[t]
        return (t[0], [self.apply(a, values) for a in t[1]])

    def values(self, x):
        """Values of a variable: variables of lower sorts, constants, and operators over these."""
        simple = [("var", x[1] + q, q) for q in self.all if self.kind[q] == self.kind[x[2]]]
        constants = [(c, []) for c, o in self.ops.items() if o["ranks"][0][0] == ()]
        found = simple + constants
        for f, o in self.ops.items():
            places = o["ranks"][0][0]
            if len(places) in (1, 2):
                of = [[v for v in [("var", x[1] + str(i) + q, q) for q in self.all] + constants if self.kind[self.least(v)] == self.kind[p]] for i, p in enumerate(places)]
                found += [self.plain((f, list(args))) for args in itertools.product(*of)]
        return [v for v in found if x[2] in self.above[self.least(v)]]

    def told(self, left, right):
        vars = self.variables(left, [])
        becomes = set()
        ids = [[x] + [(e, []) for e in self.identities if x[2] in self.above[self.least((e, []))]] for x in vars]
        for choice in itertools.product(*ids):
            t = self.plain(self.apply(left, dict(zip(vars, choice))))
            becomes.add("v" if t[0] == "var" else "i" if t[1] == [] and t[0] in self.identities else "-")
        loses = False
        for choice in itertools.product(*[self.values(x) for x in vars]):
            by = dict(zip(vars, choice))
            low, high = self.least(self.plain(self.apply(left, by))), self.least(self.plain(self.apply(right, by)))
            if not self.leq(high, low):
                loses = True
                break
        return "v" if "v" in becomes else "i" if "i" in becomes else "-", loses


def main():
    for line in sys.stdin.read().splitlines():
        line = line.split(" => ")[0]
        module = Module(line)
        out, first, fault = [], 0, "none 0"
        for n, (left, right) in enumerate(module.equations, 1):
            told, loses = module.told(module.parse(left), module.parse(right))
            out.append(told)
            if loses and not first:
                first = n
            if told != "-" and fault == "none 0":
                fault = f"{'variable' if told == 'v' else 'identity'} {n}"
        print(f"{line} => {' '.join(out)} | {first} | {fault}")


if __name__ == "__main__":
    main()
