"""Signatures of the oracles, from the rows of tests or from the statements of a module: sorts with their order and kinds, and
operators with their ranks and axioms."""

import re


class Signature:
    def __init__(self):
        self.sorts, self.pairs, self.ops = [], [], {}

    def add_sorts(self, names):
        self.sorts += [s for s in names if s not in self.sorts]

    def add_order(self, words):
        """Groups of sorts with `<` between them: each sort of a group is below each of the next."""
        groups = " ".join(words).split(" < ")
        for low, high in zip(groups, groups[1:]):
            self.pairs += [(a, b) for a in low.split() for b in high.split()]

    def add_rank(self, name, rank, marks):
        """A declaration of an operator; `rank` has sorts, `->` or `~>`, and a sort, `marks` the attributes."""
        arrow = next(n for n, word in enumerate(rank) if word in ("->", "~>"))
        op = self.ops.setdefault(name, {"ranks": [], "axioms": "free", "id": None})
        op["ranks"].append((tuple(rank[:arrow]), rank[arrow + 1], rank[arrow] == "~>"))
        if "assoc" in marks:
            op["axioms"] = "sum"
        elif "comm" in marks:
            op["axioms"] = "comm"
        found = re.search(r"id: ([^\s\]]+)", marks)
        if found:
            op["id"] = found.group(1)

    def close(self, name_of_kind):
        """Adds kinds, each with the name that a function gives of its number and its first sort."""
        part = {s: s for s in self.sorts}
        for _ in self.sorts:
            for a, b in self.pairs:
                low = min(part[a], part[b], key=self.sorts.index)
                part = {s: low if part[s] in (part[a], part[b]) else part[s] for s in part}
        firsts = [s for s in self.sorts if part[s] == s]
        kinds = {s: name_of_kind(n, s) for n, s in enumerate(firsts)}
        self.kind = {s: kinds[part[s]] for s in self.sorts}
        self.kind.update({k: k for k in kinds.values()})
        self.all = self.sorts + list(kinds.values())
        self.above = {s: {s, self.kind[s]} for s in self.all}
        for _ in self.sorts:
            for a, b in self.pairs:
                for s in self.all:
                    if a in self.above[s]:
                        self.above[s] |= self.above[b]
        for op in self.ops.values():
            ranks = []
            for args, to, partial in op["ranks"]:
                ranks += [] if partial else [(args, to)]
                ranks.append((tuple(self.kind[a] for a in args), self.kind[to]))
            if op["axioms"] != "free":
                ranks += [(args[::-1], to) for args, to in ranks]
            op["all"] = ranks

    def leq(self, a, b):
        return b in self.above[a]

    def arity(self, name):
        return len(self.ops[name]["ranks"][0][0])

    def result(self, name, sorts):
        """The least result of an operator over these sorts."""
        fits = [to for args, to in self.ops[name]["all"] if all(map(self.leq, sorts, args))]
        return next(s for s in fits if all(self.leq(s, q) for q in fits))


def of_row(text):
    """A signature as the tests of matching write it: statements with `; ` between them. Kinds have the letters after the sorts."""
    made = Signature()
    for statement in text.split("; "):
        if " < " in statement:
            made.add_order(statement.split())
        elif " : " in statement:
            name, rank = statement.split(" : ")
            rank, _, marks = rank.partition(" [")
            made.add_rank(name, rank.split(), marks)
        else:
            made.add_sorts(statement.split())
    made.close(lambda number, first: chr(ord("A") + len(made.sorts) + number))
    return made


def read_statement(made, words):
    """Adds a statement on sorts, their order or operators; tells whether it is one."""
    key, rest = words[0], words[1:]
    if key in ("sort", "sorts"):
        made.add_sorts(rest)
    elif key in ("subsort", "subsorts"):
        made.add_order(rest)
    elif key in ("op", "ops"):
        colon = rest.index(":")
        rank, _, marks = " ".join(rest[colon + 1 :]).partition(" [")
        for name in rest[:colon]:
            made.add_rank(name, rank.split(), marks)
    else:
        return False
    return True
