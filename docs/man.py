"""Turns the Markdown of docs/COMMANDS.md and docs/LANGUAGE.md into the page man/fvn.1, as docs/write.py writes it.

Of Markdown just this is known: headings of two levels, paragraphs, lists with `-`, tables, blocks of code, code in a
line, bold words and links. A table is a list of its rows: the first cell stands out, and the others, with the heads of
their columns where there are several, are told below it.
"""

import re

HEAD = """.\\" This page is written by docs/write.py from docs/COMMANDS.md and docs/LANGUAGE.md.
.TH FVN 1 "" "" "Folding variant narrowing"
.SH NAME
fvn \\- solve equations between terms modulo axioms, proved
"""

TAIL = """.SH SEE ALSO
.BR maude (1)
.PP
README.md, docs/PROMISE.md and docs/PROVED.md beside the sources: what of this is proved, and what it rests on.
"""


def plain(text):
    """Letters that stand for themselves."""
    return text.replace("\\", "\\e").replace("-", "\\-").replace("^", "\\(ha").replace("~", "\\(ti").replace("`", "\\(ga").replace("'", "\\(aq")


def inline(text):
    """A line of Markdown with its code, bold words and links."""
    out = []
    pattern = re.compile(r"``\s?(?P<two>.*?)\s?``|`(?P<one>[^`]*)`|\*\*(?P<bold>.*?)\*\*|\[(?P<link>[^\]]+)\]\([^)]*\)")
    at = 0
    for found in pattern.finditer(text):
        out.append(prose(text[at : found.start()]))
        code = found.group("two") if found.group("two") is not None else found.group("one")
        if code is not None:
            out.append("\\fB" + plain(code) + "\\fR")
        elif found.group("bold") is not None:
            out.append("\\fI" + inline(found.group("bold")) + "\\fR")
        else:
            out.append("\\fI" + prose(found.group("link")) + "\\fR")
        at = found.end()
    return "".join(out) + prose(text[at:])


def prose(text):
    return text.replace("\\", "\\e").replace("~", "\\(ti")


def line(text):
    """A line of its own, which is no request."""
    made = inline(text)
    return "\\&" + made if made[:1] in (".", "'") else made


def cells(row):
    """The cells of a row of a table; a bar behind a backslash, or in code, is a letter."""
    return [c.replace("\\|", "|").strip() for c in re.split(r"(?<!\\)\|", row.strip().strip("|"))]


def listed(rows):
    """A table as a list."""
    heads, rows = cells(rows[0]), [cells(row) for row in rows[2:]]
    out = [".TP"] + ["\\fI" + inline(head) + "\\fR" for head in heads] if len(heads) == 2 else []
    for row in rows:
        out += [".TP", line(row[0])]
        rest = [c for c in row[1:] if c]
        if len(heads) == 2:
            out.append(line(rest[0]) if rest else "\\&")
        else:
            told = [heads[n] + ": " + c for n, c in enumerate(row) if n > 0 and c]
            out += [line(c) + "\n.br" for c in told[:-1]] + [line(told[-1])]
    return out


def body(text, top):
    """The page of a document below its title; headings get the capitals of sections where they are the highest."""
    out, lines, at = [], text.splitlines(), 0
    while at < len(lines):
        now = lines[at]
        at += 1
        if now.startswith("# "):
            if top:
                out.append(".SH " + now[2:].upper())
        elif now.startswith("## "):
            out.append((".SS " if top else ".SH ") + (now[3:] if top else now[3:].upper()))
        elif now.startswith("```"):
            out += [".PP", ".nf", ".RS 4"]
            while not lines[at].startswith("```"):
                out.append("\\&" + plain(lines[at]))
                at += 1
            at += 1
            out += [".RE", ".fi"]
        elif now.startswith("|"):
            rows = [now]
            while at < len(lines) and lines[at].startswith("|"):
                rows.append(lines[at])
                at += 1
            out += listed(rows)
        elif now.startswith("- "):
            out += [".IP \\(bu 2", line(now[2:])]
        elif now.strip():
            out += [".PP", line(now)]
    return out


def manual(commands, language):
    """The text of man/fvn.1."""
    commands = commands.replace("[LANGUAGE.md](LANGUAGE.md)", "THE LANGUAGE below")
    synopsis, _, rest = commands.partition("\n## ")
    return HEAD + "\n".join([".SH SYNOPSIS"] + body(synopsis, False) + body("## " + rest, False) + body(language, True)) + "\n" + TAIL
