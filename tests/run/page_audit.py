#!/usr/bin/env python3
"""page_audit.py [--write]: compares docs/AUDIT.md with the definitions that the clauses of rpki_theorem rest on.

Each file of definitions that these clauses reach has to be in the order of reading or among those that may be skipped.
The lines of each step are counted; --write writes them. The status is 1 if something differs.
"""

import re
import sys
from collections.abc import Iterator
from pathlib import Path

TOP = Path(__file__).resolve().parent.parent.parent
PAGE, CRATES = TOP / "docs" / "AUDIT.md", TOP / "crates"
ROW = re.compile(r"^(\| \d+ \| )(.*?)( \| )(\d*)( \| \d+ \| .*)$", re.MULTILINE)


def reached() -> set[Path]:
    """Returns the files of definitions that the clauses of the crate reach."""
    found: set[Path] = set()
    left = list((CRATES / "rpki_theorem" / "src").glob("*.rt"))
    while left:
        for crate, name in re.findall(r"use Rattle\.(\w+)\.specs\.(\w+)(?:\.\{| as )", left.pop().read_text()):
            file = CRATES / crate / "specs" / f"{name}.antt"
            if file.is_file() and file not in found:
                found.add(file)
                left.append(file)
    return found


def named(text: str) -> Iterator[Path]:
    """Yields the files that a text names: a crate and its definitions, or a source of rpki_theorem."""
    for crate, names in re.findall(r"`(\w+)`: ((?:\w+, )*\w+)", text):
        yield from (CRATES / crate / "specs" / f"{name}.antt" for name in names.split(", "))
    yield from (CRATES / name for name in re.findall(r"`(rpki_theorem/src/\w+\.rt)`", text))


def main() -> int:
    page = PAGE.read_text()
    order, skipped = page.partition("## The order\n")[2], page.partition("## What you may skip\n")[2]
    files = {*named(order.partition("\n## ")[0]), *named(skipped.partition("\n## ")[0])}
    faults = [f"{file.relative_to(CRATES)}: no such file" for file in sorted(files) if not file.is_file()]
    faults += [f"{file.relative_to(CRATES)}: in no step" for file in sorted(reached() - files)]

    def counted(row: re.Match[str]) -> str:
        lines = sum(len(file.read_text().splitlines()) for file in named(row[2]) if file.is_file())
        return f"{row[1]}{row[2]}{row[3]}{lines or row[4]}{row[5]}"

    if (made := ROW.sub(counted, page)) != page:
        if "--write" in sys.argv[1:]:
            PAGE.write_text(made)
        else:
            faults.append("another number of lines: page_audit.py --write counts them")
    print("".join(f"docs/AUDIT.md: {fault}\n" for fault in faults), end="")
    return 1 if faults else 0


if __name__ == "__main__":
    sys.exit(main())
