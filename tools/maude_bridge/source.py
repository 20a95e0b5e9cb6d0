"""Reads the files of Maude that a user wrote: which modules, views and settings they have, and on which lines.

Commands, and what stands behind `quit` or `eof`, are left out of the copies that Maude is given; every line keeps its
number, so that what Maude says of a line holds of the user's own file."""
import os
import re
from typing import NamedTuple

MODULES = {"fmod": "endfm", "mod": "endm", "omod": "endom", "fth": "endfth", "th": "endth", "oth": "endoth",
           "smod": "endsm", "sth": "endsth"}
ENDS = {**MODULES, "view": "endv"}
LINES = {"load", "in", "sload", "quit", "q", "eof", "cd", "pushd", "popd", "ls", "pwd"}
SETTINGS = {"protect", "extend", "include", "oo"}
STATEMENTS = {"protecting", "pr", "including", "inc", "extending", "ex", "generated-by", "gb", "sort", "sorts",
              "subsort", "subsorts", "op", "ops", "var", "vars", "mb", "cmb", "eq", "ceq", "cq", "rl", "crl", "class",
              "classes", "subclass", "subclasses", "msg", "msgs", "strat", "strats", "sd", "csd"}
PIECE = re.compile(r'[ \t\r\f\v]+|\n|(?:\*\*\*|---)[ \t]*\(|(?:\*\*\*|---)[^\n]*|[()\[\]{},]'
                   r'|(?:"(?:[^"\\\n]|\\.)*"|`[\S]|[^\s()\[\]{},"`]|"|`)+', re.A)
FILE = re.compile(r'\s*(?:"((?:[^"\\]|\\.)*)"|((?:\\.|[^\s\\"])+))', re.A)



def text_of(held):
    """Bytes as a text in which each byte outside ASCII is a sign of its own, and none of them a space."""
    return held.decode("ascii", "surrogateescape")


def bytes_of(text):
    return text.encode("ascii", "surrogateescape")


class Refused(Exception):
    """The text is not written: the reason, and the statement and the line where they are known."""

    def __init__(self, reason, statement="", file="", line=0):
        super().__init__(reason)
        self.reason, self.statement, self.file, self.line = reason, statement, file, line


class Token(NamedTuple):
    text: str
    line: int
    start: int
    end: int


def tokens(text, file=""):
    """The tokens of a text, as Maude cuts it; comments are none."""
    found, at, line = [], 0, 1
    while at < len(text):
        piece = PIECE.match(text, at)
        word, end = piece[0], piece.end()
        if word[:3] in ("***", "---") and word.endswith("(") and not word[3:-1].strip():
            end = behind_comment(text, end, file, line)
        elif word[0] not in " \t\r\f\v\n" and word[:3] not in ("***", "---"):
            found.append(Token(word, line, at, end))
        line += text.count("\n", at, end)
        at = end
    return found


def behind_comment(text, at, file, line):
    """The place behind a comment in parentheses, whose own parentheses match."""
    depth = 1
    for piece in re.compile(r"`.|[()]").finditer(text, at):
        depth += {"(": 1, ")": -1}.get(piece[0], 0)
        if depth == 0:
            return piece.end()
    raise Refused("the comment that begins here has no end", file=file, line=line)


class Part(NamedTuple):
    """A module or a view: its keyword, its name, its tokens from the keyword on, its file, and the text of this."""
    kind: str
    name: str
    tokens: list
    file: str
    text: str

    @property
    def line(self):
        return self.tokens[0].line

    @property
    def parameters(self):
        """What stands in the braces behind the name, or nothing."""
        words = [it.text for it in self.tokens]
        if words[2:3] != ["{"] or "}" not in words:
            return ""
        return " ".join(words[3:words.index("}")])

    def written(self, words):
        """These tokens of a statement as the user wrote them."""
        return " ".join(self.text[words[0].start:words[-1].end].split()) + " ."

    def statements(self):
        """The statements of a module: the tokens of each, the final dot left out."""
        words = self.tokens
        start = next((n + 1 for n, it in enumerate(words) if it.text == "is"), len(words))
        depth, one = 0, []
        for n in range(start, len(words) - 1):
            word, behind = words[n], words[n + 1]
            depth += {"(": 1, ")": -1}.get(word.text, 0)
            if word.text == "." and depth <= 0 and one and ends_here(word, behind, one):
                yield one
                one, depth = [], 0
            else:
                one.append(word)
        if one:
            yield one


def ends_here(word, behind, one):
    """Whether this dot ends a statement, and is no operator of that name."""
    if len(one) == 1 and one[0].text in ("op", "ops"):
        return False
    return behind.line > word.line or behind.text in STATEMENTS or behind.text in ENDS.values()


class Sources:
    """What the user's file, and the files that it loads, have for Maude; the copies stand in a folder of their own."""

    def __init__(self, file, folder):
        self.folder = folder
        self.files = []
        self.parts = []
        # What settings import into all modules.
        self.everywhere = []
        self.over = False
        self.copy(file, [])

    def copy(self, file, above):
        """Writes the copy of a file, of those that it loads too, and gives the copy's name."""
        real = os.path.realpath(file)
        if real in above:
            raise Refused("the file loads itself", file=file, line=1)
        with open(file, "rb") as it:
            text = text_of(it.read().removeprefix(b"\xef\xbb\xbf")).replace("\r\n", "\n").replace("\r", "\n")
        name = f"{len(self.files)}.maude"
        self.files.append(file)
        kept = Copy(text)
        self.read(Reader(tokens(text, file)), file, kept, [*above, real])
        with open(f"{self.folder}/{name}", "wb") as it:
            it.write(bytes_of(kept.text()))
        return name

    def read(self, reader, file, kept, above):
        """Keeps the modules, views, settings and loads of a file, and passes over its commands."""
        while reader.left() and not self.over:
            word = reader.words[reader.at]
            if reader.at_part():
                part = reader.part(file, kept.source)
                self.parts.append(part)
                kept.keep(part.tokens[0].start, part.tokens[-1].end)
            elif word.text in ("load", "in", "sload"):
                self.load(reader.rest_of_line(), file, kept, above)
            elif word.text in ("quit", "q", "eof"):
                self.over = word.text != "eof"
                return
            elif word.text in LINES:
                reader.rest_of_line()
            else:
                command = reader.command()
                words = [it.text for it in command]
                if words[0] == "set" and words[1:2] and words[1] in SETTINGS and "BOOL" not in words:
                    kept.keep(command[0].start, command[-1].end)
                    self.everywhere += words[2:]

    def load(self, words, file, kept, above):
        """A load of a file that is found beside the one that loads it; one that is not is left to Maude."""
        quoted = FILE.match(kept.source[words[0].end:words[-1].end])
        name = re.sub(r"\\(.)", r"\1", quoted[1] or quoted[2]) if quoted else ""
        kept.keep(words[0].start, words[-1].end)
        for place in (os.path.dirname(file) or ".", "."):
            for suffix in ("", ".maude", ".fm", ".obj"):
                path = os.path.join(place, os.path.expanduser(name) + suffix)
                if name and os.path.isfile(path):
                    kept.write(words[0].start, words[-1].end, f"load {self.copy(path, above)}")
                    return

    def module(self, name):
        """The module or theory of this name that Maude has at the end: the last."""
        return next((it for it in reversed(self.parts) if it.name == name and it.kind in MODULES), None)

    def reach(self, words):
        """The names of the parts that these words name, and the parts that those name, and so on; and all words met."""
        names = {it.name for it in self.parts}
        known, met, open_ = set(), set(), [[*words, *self.everywhere]]
        while open_:
            for word in open_.pop():
                met.add(word)
                if word in known or word not in names:
                    continue
                known.add(word)
                open_ += [[it.text for it in part.tokens[2:]] for part in self.parts if part.name == word]
        return known, met

    def parts_at(self, file, line):
        """The parts in which a line of a file stands."""
        return [it for it in self.parts if it.file == file and it.line <= line <= it.tokens[-1].line]

    def statement_at(self, file, line):
        """The statement that stands on this line, where it is one alone."""
        every = [(part, it) for part in self.parts_at(file, line) for it in part.statements()]
        found = [part.written(it) for part, it in every if it[0].line <= line <= it[-1].line]
        return found[0] if len(found) == 1 else ""


class Copy:
    """A text of which some pieces are kept, or replaced, where they stand; of the rest only the line ends are."""

    def __init__(self, text):
        self.source = text
        self.pieces = []

    def keep(self, start, end):
        self.pieces.append((start, end, self.source[start:end]))

    def write(self, start, end, text):
        self.pieces[-1] = (start, end, text)

    def text(self):
        written, at = [], 0
        for start, end, piece in self.pieces:
            written += ["\n" * self.source.count("\n", at, start) or " ", piece]
            at = end
        return "".join(written) + "\n"


class Reader:
    """A place among the tokens of a file."""

    def __init__(self, words):
        self.words = words
        self.at = 0

    def left(self):
        return self.at < len(self.words)

    def at_part(self, at=None):
        """Whether a module or a view begins at this token."""
        at = self.at if at is None else at
        words = [it.text for it in self.words[at:at + 3]]
        behind = ("{", "from") if words[:1] == ["view"] else ("{", "is")
        return len(words) == 3 and words[0] in ENDS and words[2] in behind

    def part(self, file, text):
        """The module or view that begins here."""
        start, depth = self.at, 0
        first = self.words[start]
        for at in range(start + 2, len(self.words)):
            word = self.words[at]
            depth += {"(": 1, ")": -1}.get(word.text, 0)
            if word.text == ENDS[first.text] and depth <= 0:
                self.at = at + 1
                return Part(first.text, self.words[start + 1].text, self.words[start:at + 1], file, text)
            if word.line > self.words[at - 1].line and depth <= 0 and self.at_part(at):
                break
        name = self.words[start + 1].text
        more = ", or its parentheses do not match" if depth else ""
        raise Refused(f"{first.text} {name} has no {ENDS[first.text]}{more}", file=file, line=first.line)

    def rest_of_line(self):
        """The tokens up to the end of this line."""
        start = self.at
        while self.left() and self.words[self.at].line == self.words[start].line:
            self.at += 1
        return self.words[start:self.at]

    def command(self):
        """The tokens of a command: up to a dot at the end of a line, or to a new part at the start of one."""
        start, depth = self.at, 0
        while self.left():
            word = self.words[self.at]
            starts_line = self.at > start and word.line > self.words[self.at - 1].line
            if starts_line and depth <= 0 and self.at_part():
                break
            depth += {"(": 1, ")": -1}.get(word.text, 0)
            self.at += 1
            closes = word.text == "." or self.words[start].text == "("
            if depth <= 0 and closes and (not self.left() or self.words[self.at].line > word.line or self.at_part()):
                break
        return self.words[start:self.at]
