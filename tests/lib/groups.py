"""The sections of crates.txt, with their crates and what these depend on."""

import re
from functools import cache
from pathlib import Path

from top import TOP

# The sections of crates that are no part of the product.
BESIDE = "support of tests", "examples", "rows", "tests", "benchmarks"


@cache
def stands_on() -> dict[str, tuple[str, ...]]:
    """Returns the crates, each with the crates of the repository that it depends on."""
    lines = [line for line in (TOP / "crates.txt").read_text().splitlines() if line and not line.startswith("#")]
    named = {line.split(":")[0].split()[0]: line.split(":")[1].split() for line in lines}
    return {name: tuple(it for it in below if it in named) for name, below in named.items()}


@cache
def sections() -> dict[str, tuple[str, ...]]:
    """Returns the crates of each section. It stops at a crate in front of the first section."""
    front, *parts = ("\n" + (TOP / "crates.txt").read_text()).split("\n#: ")
    if names := re.findall(r"^\w+", front, re.MULTILINE):
        raise SystemExit(f"crates.txt: {names[0]} is in no section")
    return {part.partition("\n")[0]: tuple(re.findall(r"^\w+", part.partition("\n")[2], re.M)) for part in parts}


@cache
def section_of(crate: str) -> str:
    """Returns the title of a crate's section."""
    return next(title for title, names in sections().items() if crate in names)


@cache
def below(name: str) -> frozenset[str]:
    """Returns all crates that a crate depends on, also indirectly."""
    own = stands_on()[name]
    return frozenset(own).union(*(below(it) for it in own))


def root_file(crate: str) -> Path:
    """Returns the root file of a crate."""
    source = TOP / "crates" / crate / "src"
    return source / ("main.rt" if (source / "main.rt").is_file() else "lib.rt")


def is_program(crate: str) -> bool:
    """Returns whether a crate is a program."""
    return root_file(crate).name == "main.rt"


def about(crate: str) -> str:
    """Returns the first sentence of a crate's own description."""
    head = re.match(r"(?://! ?(?!\n)[^\n]*\n)*", root_file(crate).read_text())[0]
    text = re.sub(r"\[(`[^`]*`)\]", r"\1", " ".join(line[3:].strip() for line in head.splitlines()))
    name = re.match(r"(?:The program `\w+`\. )?", text)[0]
    return name + re.split(r"(?<=[.:]) (?=[A-Z])|$", text.removeprefix(name), maxsplit=1)[0]
