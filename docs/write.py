#!/usr/bin/env python3
"""Writes from the sources what documents say of them.

    python3 docs/write.py           writes all that is listed below
    python3 docs/write.py --check   fails where what is written differs from the sources, where a crate cites a definition of
                                    another's specs/inner/, where a definition under the report cites one that mirrors code,
                                    where an engine stands on a reader of texts, where README says nothing of a field of the
                                    report, or where LADDER.md names a clause, a law or a field that there is not
    python3 docs/write.py --lint    prints what is missing: comments, first lines, uses, pages of crates, and laws that stand elsewhere

| written | from |
|---|---|
| docs/reference/ | the contracts of public calls, and the definitions of specs/ |
| docs/PROMISE.md | the definitions to which the report of a run leads |
| docs/PROVED.md | the lines on promises and laws of the crates' pages |
| the tables of docs/ARCHITECTURE.md | crates.txt, and the first line of each crate |
| man/fvn.1 | docs/COMMANDS.md and docs/LANGUAGE.md, by docs/man.py |

The words come from the sources: the `//!` line of a crate, the `///` line of a call, the `//` comment over
clauses, the `--` lines over a definition and at the head of a file. To change a document, change them.
"""

import functools
import re
import sys
from pathlib import Path

from man import manual

TOP = Path(__file__).resolve().parent.parent
CRATES = TOP / "crates"
SHORT = 110  # the longest clause whose text is printed
TOKEN = re.compile(r"[^\s(){};,.\[\]⟦⟧]+")

REFERENCE_HEAD = """# Reference

By layers, the lowest first, and crate by crate: what a caller may use, each public call with its clauses; and the
definitions that contracts speak of, file by file. Where a clause is long, the definitions that it cites stand in place
of its text. The definitions know nothing of how the program computes: they speak of plain terms, of finite lists of
steps, and of substitutions that exist. What mirrors the code stands in a crate's `specs/inner/` and is not listed.

Three things hold everywhere. `result` is what a call returns, and `x.now`, `x.old`, `x.new` are what a reference
points at. A call that allocates takes the allocator and may answer that memory was refused; no clause says when, and
"exactly where" has this exception. So has it, in `fvn_outside` and `fvn_tool`, that reading or writing fails, which
comes only where the count of faults of the source or the sink rose, or stands at its last number. The words of the
command line and the number of the exit status are made by `main`, of which no contract speaks; `program` beside it
says which status the number is of.

A law is a call that does nothing and whose contract is a statement about the definitions.

These pages are written by `docs/write.py` from the sources.
"""

PROVED_HEAD = """# What is proved, crate by crate

The lines on promises and laws of the crates' own pages, the lowest crate first. [The reference](reference/README.md)
has every clause. A clause holds of a call whose `requires` are met, and each call meets those of the calls it makes.

"Exactly where" has the exceptions that the clauses have. A call that allocates may be refused memory at any time, in
place of its answer or its refusal; no clause says when. In `fvn_outside` and `fvn_tool` reading or writing may fail, but
only where the source's or the sink's count of faults rose, or stands at its last number, 2^64 - 1. What is returned then
says so, and a run has then written nothing, or at a failed write a front of its text.

This page is written by `docs/write.py` from `crates/*/README.md`.
"""

PROMISE_HEAD = """# The definitions under the report

What `IsReport` leads to, the definition that the contract of `run` states of each run: {total} definitions of {crates}
crates, from the theorem down. Whoever has read these, with the words of Rattle's own library that they use (numbers,
lists, bytes), knows what is proved of a run; that it holds is the checker's word. A crate stands after those that
cite it, and its files in the order in which they are first cited; a crate's types are those of its code that the
definitions name. Each file opens with a sentence and has its definitions in full.

None of them mirrors code: what does stands in `specs/inner/`, and the check of the documents refuses a definition under
the report that cites it. That the code gives what these say is what the contracts state, crate by crate.

| crate | files | definitions |
|---|---|---|
{rows}
This page is written by `docs/write.py` from the sources.
"""


def read(path):
    """A file's text; of a source, with what it cites through a crate that passes it on under the names where it stands."""
    text = path.read_text(encoding="utf-8")
    return re.sub(r"Rattle\.(\w+)\.(specs|proofs)\.(\w+)", original, text) if path.suffix in (".rt", ".antt") else text


@functools.cache
def passed_on():
    """The modules of crates below that a crate passes on: where each stands, by crate, part and name there."""
    found = {}
    for path in CRATES.glob("*/*/Lib.antt"):
        lines = re.finditer(r"^pub use (Rattle\.[\w.]+\.)(\w+)(?: as (\w+))?$", path.read_text(encoding="utf-8"), re.M)
        for line in lines:
            found[path.parts[-3], path.parts[-2], line.group(3) or line.group(2)] = line.group(1) + line.group(2)
    return found


def original(name):
    """The name, where it stands, of what is named through a crate that passes it on."""
    at = passed_on().get((name.group(1), name.group(2), name.group(3)))
    return re.sub(r"Rattle\.(\w+)\.(specs|proofs)\.(\w+)", original, at) if at else name.group(0)


def cell(text):
    """A text as it may stand in a cell of a table."""
    return text.replace("|", "\\|")


def code(text):
    """A text in code font."""
    return "`" + text + "`" if "`" not in text else "`` " + text + " ``"


def table(heads, rows):
    lines = ["| " + " | ".join(heads) + " |", "|" + "---|" * len(heads)]
    lines += ["| " + " | ".join(cell(c) for c in row) + " |" for row in rows]
    return "\n".join(lines) + "\n"


def crates():
    """The crates in the order of crates.txt, each with the comment lines of the layer that it begins."""
    found, comments = [], []
    for line in read(TOP / "crates.txt").splitlines():
        if line.startswith("#"):
            comments.append(line.lstrip("# ").rstrip())
        elif not line.strip():
            comments = []
        else:
            found.append((re.split(r"[\s:]", line, maxsplit=1)[0], " ".join(comments)))
            comments = []
    return found


# Sources in Rattle -------------------------------------------------------------------------------


class Clause:
    def __init__(self, kind, name, text, comment):
        self.kind, self.name, self.comment = kind, name, comment
        self.text = " ".join(text.split())


class Call:
    def __init__(self, name, doc, clauses, is_empty):
        self.name, self.doc, self.clauses = name, doc, clauses
        self.is_empty = is_empty  # the body is empty, or calls laws alone
        self.words = {}  # the definitions that its file may cite: how it calls them, and their names
        self.fields = {}  # of those that are records

    def is_law(self):
        return self.is_empty and any(c.kind == "ensures" for c in self.clauses)


def skip_string(text, at):
    """The place after the string or the character that begins here, or after the quote of a lifetime."""
    if text[at] == '"':
        at += 1
        while text[at] != '"':
            at += 2 if text[at] == "\\" else 1
        return at + 1
    found = re.compile(r"'(?:\\.[^']*|[^'\\])'").match(text, at)
    return found.end() if found else at + 1


def skip_braces(text, at):
    """The place after the block that begins with the brace here."""
    depth = 0
    while True:
        c = text[at]
        if c in "\"'":
            at = skip_string(text, at)
            continue
        if text.startswith("//", at):
            at = text.index("\n", at)
            continue
        depth += {"{": 1, "}": -1}.get(c, 0)
        at += 1
        if depth == 0:
            return at


def skip_ghost(text, at):
    """The place after a block of a clause, in which quotes are letters."""
    depth = 0
    while True:
        depth += {"{": 1, "}": -1}.get(text[at], 0)
        at += 1
        if depth == 0:
            return at


def skip_head(text, at):
    """The place where a function's parameters and result end: at a clause, a body or a semicolon."""
    stop = re.compile(r"\s*(requires|ensures)\b\*?|[{;(\[]")
    while True:
        found = stop.search(text, at)
        if found.group(0) in ("(", "["):
            depth, at = 1, found.end()
            while depth:
                depth += {"(": 1, "[": 1, ")": -1, "]": -1}.get(text[at], 0)
                at += 1
            continue
        return found.start()


def parse_function(text, at, name, doc):
    """The call whose name ends here, and the place after it."""
    at = skip_head(text, at)
    clauses, comment = [], ""
    while True:
        found = re.compile(r"\s*(?://(.*)\n|(requires|ensures)\*?\s*(\w*)\s*(?=\{)|(\{)|(;))").match(text, at)
        at = found.end()
        if found.group(1) is not None:
            comment = (comment + " " + found.group(1).strip()).strip()
        elif found.group(2):
            end = skip_ghost(text, at)
            clauses.append(Clause(found.group(2), found.group(3), text[at + 1 : end - 1], comment))
            comment = "" if text[end:].lstrip(" ").startswith("\n\n") else comment
            at = end
        elif found.group(4):
            end = skip_braces(text, at - 1)
            is_empty = re.fullmatch(r"\s*(?:\w+\(\);\s*)*", text[at : end - 1]) is not None
            return Call(name, doc, clauses, is_empty), end
        else:
            return Call(name, doc, clauses, False), at


def is_defined(module):
    """Whether a module has definitions, and not what rattle makes of types."""
    return module.startswith("specs.") and not module.startswith("specs.declared")


class Source:
    """What a file of Rattle declares."""

    def __init__(self, path):
        self.head = ""
        self.types, self.constants, self.calls, self.methods, self.uses, self.mods = [], [], [], [], [], []
        text = read(path)
        self.imports = {w: d for w, d in imports_of(text).items() if d[0] != "std" and is_defined(d[1])}
        self.words = {w: d[2] for w, d in self.imports.items()}
        found = re.match(r"//! ?(.*)", text)
        if found:
            self.head = found.group(1).strip()
        self.scan(text, 0, len(text), None)

    def scan(self, text, at, end, owner):
        doc, is_test = [], False
        item = re.compile(
            r"\s*(?:///? ?(?P<doc>.*)\n|//.*\n?|(?P<attribute>#!?\[)|(?P<ghost>ghost\s)"
            r"|(?P<public>pub(?:\([a-z]+\))?\s+)?(?:(?:unsafe|const)\s+(?=fn))?"
            r"(?P<word>fn|struct|enum|trait|impl|mod|use|const|static|type|macro_rules!)\b\s*(?P<name>\w*))"
        )
        while at < end:
            found = item.match(text, at)
            if not found or found.end() > end:
                break
            at = found.end()
            if found.group("doc") is not None and found.group(0).strip().startswith("///"):
                doc.append(found.group("doc").strip())
                continue
            if found.group("attribute"):
                depth = 1
                start = at
                while depth:
                    if text[at] in "\"'":
                        at = skip_string(text, at)
                        continue
                    depth += {"[": 1, "]": -1}.get(text[at], 0)
                    at += 1
                is_test = is_test or text[start:at].startswith("cfg(test)") or text[start:at].startswith("test")
                continue
            if found.group("ghost"):
                stop = re.compile(r"[;{]").search(text, at)
                at = stop.end()
                if stop.group(0) == "{":
                    at = skip_ghost(text, at - 1)
                    rest = re.compile(r"[^;\n]*;").match(text, at)
                    at = rest.end() if rest else at
                doc = []
                continue
            if not found.group("word"):
                continue
            public = (found.group("public") or "").strip() == "pub"
            word, name = found.group("word"), found.group("name")
            words = " ".join(doc[: doc.index("") if "" in doc else len(doc)])
            shown, doc = not is_test, []
            is_test = False
            if word == "fn":
                call, at = parse_function(text, at, name, words)
                call.words = self.words
                if shown and owner is None and public:
                    self.calls.append(call)
                elif shown and owner is not None and (public or owner[1]):
                    self.methods.append((owner, call))
            elif word in ("use", "mod") and re.compile(r"[^;{]*;").match(text, at) or word == "use":
                stop = text.index(";", at)
                if word == "use" and public:
                    self.uses.append(name + text[at:stop])
                elif word == "mod":
                    self.mods.append((name, public, shown))
                at = stop + 1
            elif word in ("const", "static", "type"):
                end_of_item = text.index(";", at)
                if shown and public and owner is None and word == "const":
                    value = text[at:end_of_item].partition("=")[2].strip()
                    self.constants.append((name, value, words))
                at = end_of_item + 1
            elif word in ("impl", "trait"):
                start = text.index("{", at)
                close = skip_braces(text, start)
                head = " ".join((name + text[at:start]).split())
                if shown and word == "trait":
                    if public:
                        self.types.append((name, words))
                    self.scan(text, start + 1, close - 1, (name, "trait"))
                elif shown:
                    self.scan(text, start + 1, close - 1, self.owner_of(head))
                at = close
            else:
                stop = re.compile(r"[;{]").search(text, at)
                at = skip_braces(text, stop.start()) if stop.group(0) == "{" else stop.end()
                if shown and public:
                    self.types.append((name, words))

    @staticmethod
    def owner_of(head):
        """The type of an impl block, and the trait, of which the name of the type is a first word."""
        depth, plain = 0, ""
        for c in head:
            depth -= c == ">"
            plain += c if depth == 0 else ""
            depth += c == "<"
        plain = plain.replace("<>", " ").replace("<", " ").replace(">", " ")
        words = plain.split()
        if "for" in words:
            return (words[words.index("for") + 1], words[0])
        return (words[0] if words else "", "")


class Crate:
    """What a crate gives its callers."""

    def __init__(self, name):
        self.name = name
        self.folder = CRATES / name
        self.sources = {}
        root = self.folder / "src" / "lib.rt"
        self.is_program = not root.exists()
        if self.is_program:
            root = self.folder / "src" / "main.rt"
        self.head = Source(root).head
        self.public = []  # names that callers may write, with their path
        self.modules = []
        self.elsewhere = []  # what is handed on from other crates
        self.walk(root, self.folder / "src", "", True)

    def walk(self, path, folder, prefix, is_public):
        """Takes in a module and the modules below it."""
        source = Source(path)
        self.modules.append(source)
        if is_public:
            for name, _ in source.types:
                self.public.append((name, prefix + name))
            for name, _, _ in source.constants:
                self.public.append((name, prefix + name))
            for call in source.calls:
                self.public.append((call.name, prefix + call.name))
            for use in source.uses:
                root, _, names = use.partition("::")
                listed = re.findall(r"\w+", names.rpartition("::")[2] if "{" not in names else names[names.index("{") :])
                local = root in [m for m, _, _ in source.mods] or root in ("crate", "self", "super")
                for name in listed:
                    if local:
                        self.public.append((name, prefix + name))
                    else:
                        self.elsewhere.append((prefix + name, root))
        for name, public, shown in source.mods:
            if not shown:
                continue
            below = folder / (name + ".rt")
            if below.exists():
                self.walk(below, folder / name, prefix + name + "::", is_public and public)

    def path_of(self, name):
        for listed, path in self.public:
            if listed == name:
                return path
        return None

    def types(self):
        for source in self.modules:
            for name, doc in source.types:
                if self.path_of(name):
                    yield self.path_of(name), doc

    def constants(self):
        for source in self.modules:
            for name, value, doc in source.constants:
                if self.path_of(name):
                    yield self.path_of(name), value, doc

    def calls(self):
        """Public calls with their paths: laws last."""
        for source in self.modules:
            for call in source.calls:
                if self.path_of(call.name):
                    yield self.path_of(call.name), call
            for (owner, of_trait), call in source.methods:
                path = self.path_of(owner)
                if not path or (of_trait not in ("", "trait") and not call.clauses):
                    continue
                if of_trait not in ("", "trait"):
                    path = "<" + path + " as " + of_trait + ">"
                yield path + "::" + call.name, call


# Definitions -------------------------------------------------------------------------------------

SIGNATURE = re.compile(
    r"^(?P<indent>\s*)(?P<modifier>(?:abbrev|unfoldable)\s+)?(?P<public>pub\s+)?(?P<word>data\s+|record\s+)?"
    r"(?P<name>[^\s(){}:;=.,]+)(?P<rest>.*)$"
)
NO_DEFINITION = {"use", "mod", "module", "open", "where", "mutual", "let", "in", "import", "elim", "if", "else", "--"}


class Definition:
    def __init__(self, name, indent, comment, public, line):
        self.name, self.indent, self.comment, self.public, self.line = name, indent, comment, public, line
        self.body = []
        self.fields = []  # of a record, each with the comment over it


class Room:
    """A file of definitions: its head, and its definitions with their comments."""

    def __init__(self, path, folder):
        self.path = path
        self.module = ".".join(path.relative_to(folder).with_suffix("").parts)
        lines = read(path).splitlines()
        self.head = []
        for line in lines:
            if not line.startswith("--"):
                break
            self.head.append(line.lstrip("-").strip())
        self.definitions = []
        self.imports, self.modules = {}, {}
        record, current = None, None
        for number, line in enumerate(lines):
            words = line.split()
            if not words or words[0].startswith("--"):
                continue
            indent = len(line) - len(line.lstrip())
            if words[0] == "use" or words[:2] == ["pub", "use"]:
                self.imports.update(imports_of(line))
                self.modules.update(modules_of(line))
                continue
            if record is not None and indent > record:
                current.body.append(line)
                if words[0] == "pub":
                    current.fields.append((words[1], comment_over(lines, number)))
                continue
            record = None
            found = SIGNATURE.match(line)
            starts = found and (
                found.group("public")
                or found.group("modifier")
                or found.group("word")
                or re.match(r"\s*(\{[^}]*\}\s*)?:", found.group("rest"))
            )
            if starts and found.group("name") not in NO_DEFINITION and not (found.group("public") and words[1] == "mod"):
                if current is not None and found.group("name") == current.name and not found.group("public"):
                    current.body.append(line)
                    continue
                current = Definition(
                    found.group("name"), indent, comment_over(lines, number), bool(found.group("public")), line
                )
                current.body.append(line)
                self.definitions.append(current)
                if (found.group("word") or "").strip() == "record":
                    record = indent
            elif current is not None:
                current.body.append(line)

    def public(self):
        return [d for d in self.definitions if d.public]


def comment_over(lines, number):
    """The comment right over a definition, or over the block that it begins."""
    at = number - 1
    if at >= 0 and lines[at].split() in (["mutual"], ["abbrev", "mutual"], ["unfoldable", "mutual"]):
        at -= 1
    found = []
    while at >= 0 and lines[at].strip().startswith("--"):
        found.insert(0, lines[at].strip().lstrip("-").strip())
        at -= 1
    # The head of the file is no comment of the first definition.
    return "" if at < 0 else " ".join(found).strip()


def imports_of(text):
    """What use lines bring: the local name, with its crate, module and name."""
    found = {}
    for use in re.finditer(r"\buse\s+Rattle\.(\w+)\.(specs|proofs)\.([^;\n{]*?)\.?\{([^}]*)\}", text):
        for part in use.group(4).split(","):
            names = part.split()
            if names:
                found[names[-1]] = (use.group(1), use.group(2) + "." + use.group(3), names[0])
    for use in re.finditer(r"\buse\s+Rattle\.(\w+)\.(specs|proofs)\.([^;\s{}]+)", text):
        parts = use.group(3).rstrip(".").split(".")
        if not use.group(0).endswith("."):
            found.setdefault(parts[-1], (use.group(1), use.group(2) + "." + ".".join(parts[:-1]), parts[-1]))
    return found


def modules_of(text):
    """What use lines bring of whole modules: the local name, with its crate and module."""
    uses = re.finditer(r"\buse\s+Rattle\.(\w+)\.((?:specs|proofs)[^;\s{}]*)\s+as\s+(\w+)", text)
    return {use.group(3): (use.group(1), use.group(2)) for use in uses}


def through_modules(text, modules):
    """What a text cites through the local names of modules."""
    for word in re.finditer(r"(?<![\w.])(\w+)\.([^\s(){};,.\[\]⟦⟧]+)", text):
        if word.group(1) in modules:
            yield modules[word.group(1)] + (word.group(2),)


def rooms(name):
    """The files of definitions of a crate."""
    folder = CRATES / name / "specs"
    listed = []
    if not folder.exists():
        return listed
    for path in sorted(folder.rglob("*.antt")):
        if path.name != "Lib.antt" and path.name != "inner.antt":
            listed.append(Room(path, folder))
    return listed


def is_inner(room):
    return room.module.split(".")[0] == "inner"


# Documents ---------------------------------------------------------------------------------------


def text_of(clause, call):
    """What is printed of a clause: its text where it is short, else the definitions that it cites."""
    if len(clause.text) <= SHORT:
        return code(clause.text)
    words = []
    for token in TOKEN.findall(clause.text):
        if token in call.words and call.words[token] not in words:
            words.append(call.words[token])
    if not words:
        return code(clause.text)
    parts = ["by " + ", ".join(code(w) for w in words)]
    for word in words:
        fields = call.fields.get(word, [])
        if len(fields) > 4:
            parts.append(code(word) + " has " + ", ".join(code(f) for f in fields))
    return "<br>".join(parts)


def name_of(clause):
    name = code(clause.name) if clause.name else ""
    return ("needs " + name).strip() if clause.kind == "requires" else name


def is_small(call):
    return len(call.clauses) <= 3 and all(len(c.text) <= SHORT and not c.comment for c in call.clauses)


def row_of(path, call):
    parts = []
    for clause in call.clauses:
        name = name_of(clause)
        parts.append((name + ": " if name else "") + text_of(clause, call))
    return [code(path), call.doc, "<br>".join(parts)]


def block_of(path, call):
    rows = []
    for clause in call.clauses:
        text = text_of(clause, call)
        rows.append([name_of(clause), (clause.comment + "<br>" if clause.comment else "") + text])
    return "#### " + code(path) + "\n\n" + (call.doc + "\n\n" if call.doc else "") + table(["clause", "says"], once(rows))


def once(rows):
    """A comment over several clauses is printed at the first of them."""
    before = None
    for row in rows:
        comment = row[1].partition("<br>")[0] if "<br>" in row[1] else None
        if comment is not None and comment == before:
            row[1] = row[1].partition("<br>")[2]
        before = comment
    return rows


def layers():
    """The layers of crates.txt: the title and the sentence of each, and its crates."""
    found = []
    for name, comment in crates():
        if comment:
            title, _, rest = comment.partition(": ")
            found.append((title.rstrip("."), rest[:1].upper() + rest[1:], []))
        found[-1][2].append(name)
    return found


def page_of(title):
    """The name of the page of a layer: the first word of its title."""
    return title.split()[0].lower() + ".md"


def link(name, up):
    return "[`" + name + "`](" + up + "crates/" + name + "/README.md)"


def records():
    """The fields of each definition that is a record."""
    return {
        (name, "specs." + room.module, d.name): [field for field, _ in d.fields]
        for name, _ in crates()
        for room in rooms(name)
        for d in room.definitions
    }


def contracts_of(name, fields):
    """What a crate gives its callers."""
    crate = Crate(name)
    for source in crate.modules:
        for call in source.calls + [call for _, call in source.methods]:
            call.fields = {d[2]: fields.get(d, []) for d in source.imports.values()}
    page = "../../crates/" + name + "/README.md"
    parts = ["## [" + name + "](" + page + ")\n\n" + crate.head + "\n"]
    if crate.is_program:
        return parts
    kinds = [[code(path), doc] for path, doc in crate.types()]
    if kinds:
        parts.append(table(["type", "is"], kinds))
    numbers = [[code(path), value, doc] for path, value, doc in crate.constants()]
    if numbers:
        parts.append(table(["constant", "value", "is"], numbers))
    if crate.elsewhere:
        parts.append("Handed on: " + ", ".join(code(n) + " of " + code(c) for n, c in crate.elsewhere) + ".\n")
    listed = list(crate.calls())
    small = [row_of(p, c) for p, c in listed if not c.is_law() and is_small(c)]
    if small:
        parts.append(table(["call", "does", "promises"], small))
    laws = [[code(p), c.doc, ", ".join(text_of(x, c) for x in c.clauses)] for p, c in listed if c.is_law()]
    parts += [block_of(p, c) for p, c in listed if not c.is_law() and not is_small(c)]
    if laws:
        parts.append("#### Laws of " + name + "\n\n" + table(["law", "says", "statement"], laws))
    return parts


def says(definition):
    """The comment of a definition, and the fields of a record that are commented."""
    told = ["- " + code(name) + ": " + comment for name, comment in definition.fields if comment]
    return "<br>".join([definition.comment] + told)


def room_of(name, room, listed, up):
    """A file with its head and these of its definitions."""
    path = up + "crates/" + name + "/specs/" + room.module.replace(".", "/") + ".antt"
    head = " ".join(room.head) + "\n\n" if room.head else ""
    rows = [[code(d.name), says(d)] for d in listed]
    return "#### [" + name + ", " + room.module + "](" + path + ")\n\n" + head + table(["definition", "says"], rows)


def reference():
    """The pages of docs/reference/."""
    fields = records()
    rows = []
    for title, rest, names in layers():
        rows.append(["[" + title + "](" + page_of(title) + ")", rest, ", ".join(code(n) for n in names)])
        parts = ["# " + title + "\n\n" + (rest + "\n\n" if rest else "") + "What holds everywhere: [README](README.md).\n"]
        for name in names:
            parts += contracts_of(name, fields)
            shown = [room for room in rooms(name) if not is_inner(room) and room.public()]
            parts += [room_of(name, room, room.public(), "../../") for room in shown]
        yield "docs/reference/" + page_of(title), "\n".join(parts)
    yield "docs/reference/README.md", REFERENCE_HEAD + "\n" + table(["layer", "has", "crates"], rows)


def proved():
    """Crate by crate the lines on promises and laws of its page."""
    parts = [PROVED_HEAD]
    for title, rest, names in layers():
        parts.append("## " + title + "\n" + ("\n" + rest + "\n" if rest else ""))
        for name in names:
            page = read(CRATES / name / "README.md")
            lines = re.findall(r"^- \*\*[^*]*\b(?:Promise|promise|Law)s?\b.*$", page, re.M)
            lines = [line for line in lines if not line.startswith("- **Promises**: none")]
            if lines:
                parts.append("### " + link(name, "../") + "\n\n" + Crate(name).head + "\n\n" + "\n".join(lines) + "\n")
    yield "docs/PROVED.md", "\n".join(parts)


MARKERS = ("<!-- Written by docs/write.py from crates.txt and the first line of each crate. -->\n", "<!-- Written by hand again. -->\n")


def architecture():
    """The page with its tables of crates."""
    page = read(TOP / "docs" / "ARCHITECTURE.md")
    before, _, rest = page.partition(MARKERS[0])
    parts = []
    for title, says_layer, names in layers():
        rows = [[link(name, "../"), Crate(name).head] for name in names]
        parts.append("### " + title + "\n\n" + (says_layer + "\n\n" if says_layer else "") + table(["crate", "has"], rows))
    after = rest.partition(MARKERS[1])[2]
    yield "docs/ARCHITECTURE.md", before + MARKERS[0] + "\n" + "\n".join(parts) + "\n" + MARKERS[1] + after


# What the report leads to --------------------------------------------------------------------------

REPORT = ("fvn_tool", "specs.Claims", "IsReport")


class Citing:
    """Which definition cites which."""

    def __init__(self):
        self.rooms, self.table, self.owner = {}, {}, {}
        for name, _ in crates():
            for room in rooms(name):
                module = "specs." + room.module
                self.rooms[(name, module)] = room
                within = None
                for d in room.definitions:
                    key = (name, module, d.name)
                    self.table[key] = (room, d)
                    if within and d.indent > within.indent and not d.public:
                        self.owner[key] = (name, module, within.name)
                    else:
                        within = d

    def home(self, key):
        """The definition of a name, also where a file hands it on; of a case of a type, the type."""
        while key not in self.table:
            room = self.rooms.get(key[:2])
            if room is None or key[2] not in room.imports:
                return None
            key = room.imports[key[2]]
        return self.owner.get(key, key)

    def cited(self, key):
        """The definitions that a definition cites, in order, and the types of code that it names."""
        room, d = self.table[key]
        inside = [k for k in self.owner if self.owner[k] == key]
        text = uncommented("\n".join(line for k in [key] + inside for line in self.table[k][1].body))
        found, types = [], []
        places = [room.imports.get(token, (key[0], key[1], token)) for token in TOKEN.findall(text)]
        for place in places + list(through_modules(text, room.modules)):
            home = self.home(place)
            if home is not None and home != key and home not in found:
                found.append(home)
            elif home is None and place[1].startswith("specs.declared") and place not in types:
                types.append(place)
        return found, types


def under_report():
    """The definitions under the report in the order in which they are cited, with the types of code that they name; and
    each that cites one of specs/inner/, with that one."""
    citing = Citing()
    found, types, leaning = [REPORT], [], []
    for key in found:
        cited, named = citing.cited(key)
        found += [k for k in cited if k not in found]
        types += [k for k in named if k not in types]
        leaning += [(key, k) for k in cited if k[1].startswith("specs.inner")]
    return citing, found, types, leaning


def promise():
    """The definitions under the report, from the theorem down."""
    citing, found, types, _ = under_report()
    parts, rows = [], []
    for name in [n for n, _ in reversed(crates())]:
        here = [k for k in found if k[0] == name]
        if not here:
            continue
        modules = list(dict.fromkeys(k[1] for k in here))
        rows.append([link(name, "../"), str(len(modules)), str(len(here))])
        parts.append("## " + link(name, "../") + "\n")
        named = list(dict.fromkeys(k[1].split(".")[-1] for k in types if k[0] == name))
        named = [n for n in named if n not in ("TheVariants", "TheConstants", "TheTypes")]
        if named:
            parts.append("Types: " + ", ".join(code(n) for n in named) + ".\n")
        for module in modules:
            room = citing.rooms[(name, module)]
            listed = [d for d in room.definitions if (name, module, d.name) in here]
            parts.append(room_of(name, room, listed, "../"))
    head = PROMISE_HEAD.format(
        total=len(found),
        crates=len(rows),
        rows="".join("| " + " | ".join(row) + " |\n" for row in rows),
    )
    yield "docs/PROMISE.md", head + "\n" + "\n".join(parts)


def documents():
    """All that is written, each with its path."""
    for make in (reference, promise, proved, architecture):
        yield from make()
    yield "man/fvn.1", manual(read(TOP / "docs" / "COMMANDS.md"), read(TOP / "docs" / "LANGUAGE.md"))


# What is missing ---------------------------------------------------------------------------------


def source_files():
    for name, _ in crates():
        for part in ("src", "specs", "proofs"):
            folder = CRATES / name / part
            if folder.exists():
                for path in sorted(list(folder.rglob("*.rt")) + list(folder.rglob("*.antt"))):
                    yield name, path


def without_page():
    for name, _ in crates():
        if not (CRATES / name / "README.md").exists():
            yield "crates/" + name + " has no README.md"


def without_promise():
    """Pages of crates that tell no promise and no law, or not where to begin."""
    for name, _ in crates():
        page = CRATES / name / "README.md"
        for word in ("Where to begin", "Promise|Promises|Law|Laws"):
            if page.exists() and not re.search(r"^- \*\*[^*]*\b(?:" + word + r")\b", read(page), re.M):
                yield "crates/" + name + "/README.md has no line on " + word.partition("|")[0]


def without_first_line():
    for _, path in source_files():
        line = (read(path).splitlines() or [""])[0]
        if not (re.match(r"//! \S", line) if path.suffix == ".rt" else re.match(r"-- \S", line)):
            yield str(path.relative_to(TOP)) + " has no first line"


def without_comment():
    for name, _ in crates():
        for room in rooms(name):
            for d in room.public():
                if not d.comment:
                    yield str(room.path.relative_to(TOP)) + ": " + d.name + " has no comment"


def uncommented(text):
    return "\n".join(re.sub(r"(^|\s)(--|//).*", "", line) for line in text.splitlines())


def without_uses(text):
    return re.sub(r"\b(ghost\s+)?use\s+Rattle\.[^;\n{]*(\{[^}]*\})?", " ", text)


def unused():
    """Public definitions to which no code, no proof and no definition that is used leads."""
    table_of, waiting, used = {}, [], set()
    for name, _ in crates():
        for room in rooms(name):
            module = "specs." + room.module
            for d in room.definitions:
                table_of[(name, module, d.name)] = (room, d)

    def cite(key):
        if key in table_of and key not in used:
            used.add(key)
            waiting.append(key)

    def cite_all(text, imports, modules, own):
        for place in through_modules(text, modules):
            cite(place)
        for token in TOKEN.findall(text):
            if token in imports:
                cite(imports[token])
            if own:
                cite((own[0], own[1], token))
        for full in re.finditer(r"Rattle\.(\w+)\.(specs[\w.]*)\.([^\s(){};,.]+)", text):
            cite((full.group(1), full.group(2), full.group(3)))

    for name, path in source_files():
        if path.is_relative_to(CRATES / name / "specs"):
            continue
        text = uncommented(read(path))
        cite_all(without_uses(text), imports_of(text), modules_of(text), None)
        for full in re.finditer(r"crate::(specs(?:::\w+)*)::([^\s(){};,.]+)", text):
            cite((name, full.group(1).replace("::", "."), full.group(2)))
    while waiting:
        name, module, word = waiting.pop()
        room, d = table_of[(name, module, word)]
        cite_all(uncommented("\n".join(d.body)), room.imports, room.modules, (name, module))
    for key, (room, d) in table_of.items():
        if d.public and key not in used:
            yield str(room.path.relative_to(TOP)) + ": " + d.name + " is cited by nothing"


def hidden_files():
    """Files of lemmas that are `pub mod` though no other crate cites them and their crate's page does not name them."""
    cited = set()
    for name, path in source_files():
        for found in re.finditer(r"Rattle\.(\w+)\.proofs\.([\w.]*\w)", read(path)):
            if found.group(1) != name:
                parts = found.group(2).split(".")
                cited.update((found.group(1), ".".join(parts[:n])) for n in range(1, len(parts) + 1))
    for name, _ in crates():
        path = CRATES / name / "proofs" / "Lib.antt"
        page = CRATES / name / "README.md"
        page = read(page) if page.exists() else ""
        if path.exists():
            for found in re.finditer(r"^pub mod (\w+)", read(path), re.M):
                is_named = re.search(r"\b" + found.group(1) + r"(\.antt)?`", page)
                if (name, found.group(1)) not in cited and not is_named:
                    yield str(path.relative_to(TOP)) + ": " + found.group(1) + " is public, and nothing asks for it"


def scattered_laws():
    """Laws whose statement stands elsewhere than in specs/Laws.antt."""
    for name, _ in crates():
        for source in Crate(name).modules:
            for call in source.calls:
                told = " ".join(clause.text for clause in call.clauses)
                for word in TOKEN.findall(told) if call.is_law() else []:
                    place = source.imports.get(word)
                    if place and place[1] != "specs.Laws":
                        yield "crates/" + name + ": the law " + call.name + " is stated in " + place[1] + ": " + word


def borrowed():
    """Lines that cite what mirrors another crate's code."""
    for name, path in source_files():
        for found in re.finditer(r"Rattle\.(\w+)\.specs\.inner\.(\w+)", read(path)):
            if found.group(1) != name:
                yield str(path.relative_to(TOP)) + ": " + found.group(2) + " mirrors the code of " + found.group(1)


def mirrors_under_report():
    """Definitions under the report that cite what mirrors code."""
    for (name, module, word), (below, room, mirror) in under_report()[3]:
        path = "crates/" + name + "/" + module.replace(".", "/") + ".antt"
        yield path + ": " + word + ", under the report, cites " + mirror + " of " + below + " (" + room + "), which mirrors code"


def untold_fields():
    """Fields of the report that README does not name."""
    room, report = Citing().table[REPORT]
    page = read(TOP / "README.md")
    for found in re.finditer(r"^\s+pub (\w+) :", "\n".join(report.body), re.M):
        if code(found.group(1)) not in page:
            yield "README.md: nothing is said of " + found.group(1) + ", which the report promises"


def unknown_rungs():
    """What the page of rungs names and there is not."""
    page = read(TOP / "docs" / "LADDER.md")
    calls, fields = {}, {}
    for name, _ in crates():
        for path, call in Crate(name).calls():
            calls[name + "::" + path] = {clause.name for clause in call.clauses}
        for room in rooms(name):
            for d in room.definitions:
                fields.setdefault(d.name, set()).update(field for field, _ in d.fields)
    for found in re.finditer(r"`(fvn\w*::[\w:]+)(?:\.(\w+))?`", page):
        clauses = calls.get(found.group(1))
        if clauses is None or found.group(2) and found.group(2) not in clauses:
            yield "docs/LADDER.md: there is no " + found.group(0)
    for found in re.finditer(r"`([A-Z]\w*)\.(\w+)`", page):
        if found.group(2) not in fields.get(found.group(1), ()):
            yield "docs/LADDER.md: there is no " + found.group(0)


READERS = re.compile(r"fvn_(lex|outside|syntax|problems|answer|tool|module\w*|cmd\w*)")


def readers_below():
    """Engines that stand on what reads or writes texts. An engine is a crate between the layers of the text and of the edge."""
    uses = dict(re.findall(r"^(fvn\w*):(.*)$", read(TOP / "crates.txt"), re.M))
    for _, _, names in layers()[2:-1]:
        for name in names:
            for below in uses.get(name, "").split():
                if READERS.fullmatch(below) and not name.startswith("fvn_tests_"):
                    yield "crates.txt: " + name + " stands on " + below + ", which knows of texts"


MOST_PATHS = 450_000


def many_paths():
    """Whether more paths lead down from the crates than the gate bears, which reads a crate's files once for each path to it."""
    uses = dict(re.findall(r"^(fvn\w*):(.*)$", read(TOP / "crates.txt"), re.M))

    @functools.cache
    def paths(name):
        return 1 + sum(paths(below) for below in uses[name].split() if below in uses)

    number = sum(map(paths, uses))
    if number > MOST_PATHS:
        yield f"crates.txt: {number} paths lead down from its crates: have a crate pass on what others need of those below it"


def main(words):
    if words == ["--lint"]:
        missing = [
            line
            for find in (without_page, without_promise, without_first_line, without_comment, unused, hidden_files, scattered_laws)
            for line in find()
        ]
        for line in missing:
            print(line)
        print(len(missing), "warnings")
        return 0
    if words not in ([], ["--check"]):
        print(__doc__)
        return 2
    status, written = 0, set()
    for name, text in documents():
        path = TOP / name
        written.add(path)
        if not words:
            path.parent.mkdir(exist_ok=True)
            path.write_text(text, encoding="utf-8")
        elif not path.exists() or read(path) != text:
            print(name + " differs from the sources: run python3 docs/write.py")
            status = 1
    for path in sorted((TOP / "docs" / "reference").iterdir()):
        if path not in written:
            print(str(path.relative_to(TOP)) + " is the page of no layer")
            status = 1
    for find in (borrowed, mirrors_under_report, readers_below, many_paths, untold_fields, unknown_rungs) if words else ():
        for line in find():
            print(line)
            status = 1
    return status


if __name__ == "__main__":
    sys.exit(main(sys.argv[1:]))
