#!/usr/bin/env python3
"""page_code.py: finds blocks of Rust, in docs/CALLING.md and in the heads of sources, that their source does not have.

In docs/CALLING.md a block is in the source that the page names last before it, as `crates/NAME/src/FILE.rt`. A
block in the head of a source is in the source or the crate that the paragraph before it names, or in any source. Their
indents do not count. The status is 1 if a source lacks a block.
"""

import re
import sys
from collections.abc import Iterator
from functools import cache
from pathlib import Path

from top import TOP
from blocks import told
from groups import stands_on

CRATES = TOP / "crates"
PAGES = [TOP / "docs" / "CALLING.md", *sorted(CRATES.glob("*/*.md"))]
SOURCES = sorted(CRATES.glob("*/src/**/*.rt"))


def head_of(file: Path) -> list[str]:
    """Returns the lines of a source's head, without the marks of a comment."""
    head = re.match(r"(?://!.*\n)*", file.read_text())[0]
    return [line[3:].removeprefix(" ") for line in head.splitlines()]


def named_by(name: str) -> list[Path]:
    """Returns the sources that a path names, as `crate::module::call`: the module's file, or all files of the crate."""
    crate, *inside = name.split("::")
    files = (CRATES / crate / "src" / "/".join(inside[:count]) for count in range(len(inside), 0, -1))
    found = [it.with_suffix(".rt") for it in files if it.with_suffix(".rt").is_file()]
    return found[:1] or [it for it in SOURCES if it.is_relative_to(CRATES / crate)]


@cache
def stripped(file: Path) -> list[str]:
    """Returns the lines of a source without their indents."""
    return [it.strip() for it in file.read_text().split("\n")]


def has_block(file: Path, block: list[str]) -> bool:
    """Returns whether a source has the lines of a block."""
    lines, wanted = stripped(file), [it.strip() for it in block]
    return any(lines[at : at + len(wanted)] == wanted for at in range(len(lines)))


def faults_of(file: Path) -> Iterator[str]:
    """Yields the blocks of a page or of a source's head that are not in their source."""
    is_page = file.suffix == ".md"
    places: list[Path] = [] if is_page else SOURCES
    block: list[str] | None = None
    start, is_rust = 0, False
    for number, line in enumerate(file.read_text().split("\n") if is_page else head_of(file), 1):
        if line.startswith("```") and block is None:
            block, start, is_rust = [], number, line == "```rust" or not is_page
        elif line.startswith("```"):
            if is_rust and places and not any(has_block(it, block or []) for it in places):
                yield f"{file.relative_to(TOP)}:{start}: this isn't in the source that it names"
            block = None
        elif block is not None:
            block.append(line)
        elif is_page:
            named = (TOP / it for it in re.findall(r"(crates/[\w/]+\.rt)\b", line))
            places = [it for it in named if it.is_file()][-1:] or places
        else:
            places = places if line else SOURCES
            for name in re.findall(r"`([^`]+)`", line):
                places = named_by(name) if name.split("::")[0] in stands_on() else places


def main() -> int:
    """Prints the blocks that no source has."""
    heads = [it for it in SOURCES if it.read_text().startswith("//!")]
    found = (fault for file in (*PAGES, *heads) for fault in faults_of(file))
    return told(found, "blocks of Rust: {} are in no source")


if __name__ == "__main__":
    sys.exit(main())
