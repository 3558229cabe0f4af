#!/usr/bin/env python3
"""Writes manual pages from the comments of foreign/pigyelund.h: man.py FOLDER DATE. ./release --deb calls it.

Each call of foreign/c/exports.map has a page in section 3. pigyelund.3 has the comment of the file, and the constants
and structs with their comments. DATE is the date of the pages.
"""

import re
import sys
from collections.abc import Iterator
from pathlib import Path

TOP = Path(__file__).resolve().parent.parent
# A comment, and what it is about: up to the end of a declaration, or of the line of a macro.
ITEM = re.compile(r"^/\*\*((?:(?!\*/).)*)\*/\n(#define [^\n]*|PIGY_ENUM \{[^\n]*\};|"
                  r"(?:typedef struct|PIGY_ENUM) \{\n.*?^\}.*?;|[^#;]*;)", re.MULTILINE | re.DOTALL)  # fmt: skip
MEMBER = re.compile(r"^  /\*\*((?:(?!\*/).)*)\*/\n  ([^\n]*?),?$", re.MULTILINE | re.DOTALL)
BEHIND = re.compile(r"^  (PIGY_\w+ = \w+),? */\*\*< (.*?) \*/$", re.MULTILINE)


def escaped(text: str) -> str:
    """Returns a text for troff, with the words between backticks in italics and the calls in bold."""
    text = text.replace("\\", "\\e").replace("-", "\\-")
    text = re.sub(r"`(\w+)`|(?<![\w(])\*(\w+)", lambda it: rf"\fI{it[1] or '*' + it[2]}\fR", text)
    text = re.sub(r"\b(pigy_\w+)\b", r"\\fB\1\\fR", text)
    return re.sub(r"^(?=[.'])", r"\\&", text)


def lines_of(comment: str) -> list[str]:
    """Returns the lines of a comment without its marks."""
    return [re.sub(r"^ *\* ?", "", it).rstrip() for it in comment.strip().split("\n")]


def rendered(lines: list[str]) -> Iterator[str]:
    """Yields paragraphs, lists, code and tables in troff."""
    is_code, depth = False, 0
    for before, line in zip(["", *lines], lines):
        item = re.match(r"( *)(-|\d+\.) (.*)", line)
        was_code, is_code = is_code, line.startswith("  ") and not item and (is_code or before in ("", "@code"))
        if is_code != was_code:
            yield ".PP\n.nf" if is_code else ".fi"
        if is_code or line.startswith("@"):
            yield from [escaped(line)] * is_code
        elif item:
            level = len(item[1]) // 3 + 1
            yield from [".RE"] * (depth - level) + [".RS"] * (level - depth if depth else 0)
            yield f".IP {item[2]} 4".replace("-", "\\(bu")
            yield escaped(item[3])
            depth = level
        elif line.startswith("  "):
            yield escaped(line.strip())
        else:
            yield from [".RE"] * (depth - 1)
            depth = 0
            title = re.match(r"([A-Z]{3,}(?: [A-Z]+)*)\. (.*)", line)
            yield f".SS {title[1].capitalize()}\n{escaped(title[2])}" if title else escaped(line) or ".PP"
    yield from [".RE"] * (depth - 1) + [".fi"] * is_code


def head(name: str, summary: str, shown: str, date: str) -> Iterator[str]:
    """Yields the first lines of a page."""
    version = (TOP / "VERSION").read_text().strip()
    yield f'.TH {name} 3 "{date}" "pigyelund {version}" "Library calls"'
    yield f".SH NAME\n{name} \\- {escaped(summary)}"
    yield f".SH SYNOPSIS\n.nf\n.B #include <pigyelund.h>\n{shown}.fi\n.PP\nLink with \\fI\\-lpigyelund\\fR."
    yield ".SH DESCRIPTION"


def page_of(name: str, comment: str, declaration: str, date: str) -> Iterator[str]:
    """Yields the page of a call."""
    lines = lines_of(comment)
    at = [number for number, it in enumerate(lines) if it.startswith("@")] + [len(lines)]
    text = " ".join(lines[: lines.index("") if "" in lines else None])
    summary = re.split(r"\.(?: (?=[A-Z]|pigy_)|$)", text)[0]
    yield from head(name, summary[0].lower() + summary[1:], f".PP\n{escaped(declaration)}\n", date)
    yield from rendered(lines[: at[0]])
    parts = [lines[first:last] for first, last in zip(at, at[1:])]
    for number, part in enumerate(parts):
        word, _, rest = part[0].partition(" ")
        if word == "@param":
            parameter, _, rest = rest.partition(" ")
            yield from [".SH PARAMETERS"] * (number == 0) + [f".TP\n.I {parameter}"]
            yield " ".join(escaped(it.strip()) for it in (rest, *part[1:])).strip()
        elif word == "@since":
            yield f".SH HISTORY\nSince version {rest}."
        else:
            yield ".SH RETURN VALUE"
            yield from rendered([f"Returns {rest}", *part[1:]])
    yield ".SH SEE ALSO\n.BR pigyelund (3)"


def title_of(declaration: str) -> str:
    """Returns the names that a declaration declares: of a macro, of constants, or of a type."""
    if declaration.startswith("#define"):
        return re.sub(r"#define (\w+(\([\w.]*\))?).*", r"\1", declaration)
    if declaration.startswith("typedef"):
        return str(re.findall(r"(\w+);$", declaration)[0])
    return ", ".join(re.findall(r"\bPIGY_\w+(?= =)", declaration))


def overview(text: str, names: list[str], date: str) -> Iterator[str]:
    """Yields the page of the header: its comment, the constants and the structs."""
    file, = re.findall(r"^/\*\* @file\n(.*?)\*/", text, re.MULTILINE | re.DOTALL)
    yield from head("pigyelund", "RPKI resource sets and route origin validation", "", date)
    yield from rendered(lines_of(file))
    yield ".SH CONSTANTS AND TYPES"
    for comment, declaration in ITEM.findall(text):
        if re.search(r"\bpigy_\w+\(", declaration) or "PIGY_LAYOUT" in declaration:
            continue
        yield f".SS {title_of(declaration)}"
        yield from rendered(lines_of(comment))
        told_of = [(it.start(), it[2], it[1]) for it in MEMBER.finditer(declaration)]
        told_of += [(it.start(), it[1], it[2]) for it in BEHIND.finditer(declaration)]
        for _, title, told in sorted(told_of):
            yield f".TP\n.B {escaped(title)}"
            yield from rendered(lines_of(told))
    for name, type_ in re.findall(r"^typedef uint32_t (\w+); */\*\*< (.*?) \*/$", text, re.MULTILINE):
        yield f".SS {name}\n{escaped(type_)}"
    yield ".SH SEE ALSO\n" + ",\n".join(f".BR {it} (3)" for it in names)


def main(folder: Path, date: str) -> int:
    """Writes the pages."""
    text = (TOP / "foreign" / "pigyelund.h").read_text()
    found = {}
    for comment, declaration in ITEM.findall(text):
        if name := re.match(r"[\w ]+?\*?(pigy_\w+)\(", declaration):
            found[name[1]] = comment, re.sub(r"\s+PIGY_[A-Z]+(\([\d, ]*\))?", "", declaration)
    exported = re.findall(r"^ *(pigy_\w+);", (TOP / "foreign" / "c" / "exports.map").read_text(), re.MULTILINE)
    if {*exported} != found.keys():
        differing = ", ".join(sorted({*exported} ^ found.keys()))
        raise SystemExit(f"man.py: in exports.map or with a comment in pigyelund.h, but not both: {differing}")
    pages = {name: page_of(name, *it, date) for name, it in found.items()}
    for page, lines in {"pigyelund": overview(text, [*found], date), **pages}.items():
        (folder / f"{page}.3").write_text("\n".join(lines) + "\n")
    return 0


if __name__ == "__main__":
    sys.exit(main(Path(sys.argv[1]), sys.argv[2]))
