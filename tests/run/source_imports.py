#!/usr/bin/env python3
"""source_imports.py [CRATE..]: finds names of `ghost use` lines that no clause uses.

It reads the sources of the crates, or of all crates if none is named. `rt tidy` checks only the files of proofs. A name
at the head of a file serves all clauses of that file. A name in a block serves the clauses of the block. The status is
1 if there is a finding.
"""

import re
import sys
from collections.abc import Iterator

from top import TOP
from blocks import told

ROOT = TOP / "crates"


def without_comments(text: str) -> str:
    """Returns the text with its comments blanked, so that indexes stay the same."""
    return re.sub(r"//[^\n]*", lambda it: " " * len(it[0]), text)


def behind_braces(text: str, start: int) -> int:
    """Returns the index after the brace that closes the first open brace from `start` on."""
    at, depth = text.index("{", start), 0
    while True:
        depth += {"{": 1, "}": -1}.get(text[at], 0)
        at += 1
        if depth == 0:
            return at


def clauses(text: str) -> Iterator[tuple[int, int]]:
    """Yields the start and the end of the text between the braces of each contract, ghost member and ghost field."""
    for word in re.finditer(r"\b(requires|ensures|ghost(?! use)|by)\b[^{};()]*\{", text):
        yield word.end(), behind_braces(text, word.end() - 1) - 1


def imports(text: str) -> Iterator[tuple[str, int]]:
    """Yields each name that a `ghost use` line imports, with the index of the line."""
    for line in re.finditer(r"ghost use ([^;]*);", text):
        path = line[1].strip()
        names = path[path.index("{") + 1 : path.rindex("}")] if "{" in path else path.split(".")[-1]
        for name in names.split(","):
            yield name.split(" as ")[-1].strip(), line.start()


def stands_in(name: str, text: str) -> bool:
    """Returns whether a clause uses the name: an operator by the first of its signs, a word as a whole."""
    signs = [sign for sign in name.split("◌") if sign]
    if "◌" in name:
        return signs[0] in text
    return re.search(rf"(?<![\w'-]){re.escape(name)}(?![\w'-])", text) is not None


def blocks(text: str) -> Iterator[tuple[int, int]]:
    """Yields the start and the end of each item that is a block.

    A block is from a head at the start of a line to the brace that closes it.
    """
    for head in re.finditer(r"^(?:pub(?:\([a-z]+\))? )?(?:unsafe )?(?:impl|trait)\b", text, re.M):
        end = re.compile(r"^\}", re.M).search(text, head.start())
        yield head.start(), end.end() if end else len(text)


def unused(text: str) -> Iterator[tuple[int, str]]:
    """Yields the line number of each name that no clause uses, and the name."""
    said = list(clauses(text))
    own = [(start, end) for start, end in blocks(text) if "ghost use" in text[start:end]]
    for name, at in imports(text):
        block = next((it for it in own if it[0] <= at < it[1]), None)
        seen = [it for it in said if not block or block[0] <= it[0] < block[1]]
        if not any(stands_in(name, text[start:end]) for start, end in seen):
            yield text.count("\n", 0, at) + 1, f"{name} is used by no clause"


def main() -> int:
    """Prints the names that no clause uses."""
    names = sys.argv[1:] or sorted(it.name for it in ROOT.iterdir() if (it / "src").is_dir())
    paths = (path for name in names for path in sorted((ROOT / name / "src").rglob("*.rt")))
    found = ((path, *it) for path in paths for it in unused(without_comments(path.read_text())))
    return told(f"{path.relative_to(TOP)}:{line}: {what}" for path, line, what in found)


sys.exit(main())
