#!/usr/bin/env python3
"""source_lines.py: finds lines with more than 120 columns in `specs/`, `proofs/` and comments of sources.

It also counts the lines of the scripts: each .py and .sh file below tests/ and bench/, and the scripts of the top
folder. They have at most SCRIPTS lines. tests/reference and tests/vector_sources have no limit. The page in web/ has at
most PAGE lines, without module.js. The status is 1 if a line is too wide, or if there are too many lines.
"""

import re
import sys
from collections.abc import Iterator

from top import TOP
from blocks import told

WIDTH = 120
SCRIPTS, PAGE = 8500, 1000
ABOVE = "check", "respath", "origins", "program.sh", "release"
COMMENT = re.compile(r"\s*//(?![/!]?\s*\|)")  # a table is as wide as its rows


def faults() -> Iterator[str]:
    """Yields the lines that are too wide, and whether the scripts have too many lines."""
    for pattern in ("specs/**/*.antt", "proofs/**/*.antt", "src/**/*.rt"):
        for path in sorted((TOP / "crates").glob(f"*/{pattern}")):
            for number, line in enumerate(path.read_text().split("\n"), 1):
                if len(line) > WIDTH and (path.suffix != ".rt" or COMMENT.match(line)):
                    yield f"{path.relative_to(TOP)}:{number}: more than {WIDTH} columns"
    below = [it for folder in ("tests", "bench") for it in (TOP / folder).rglob("*") if it.suffix in (".py", ".sh")]
    counted = [it for it in below if not {"reference", "vector_sources"} & {*it.parts}]
    lines = sum(it.read_text().count("\n") for it in (*counted, *(TOP / name for name in ABOVE)))
    if lines > SCRIPTS:
        yield f"scripts have {lines} lines, at most {SCRIPTS}"
    page = [it for it in (TOP / "web").iterdir() if it.suffix in (".html", ".css", ".js") and it.name != "module.js"]
    texts = [line for it in page for line in it.read_text().splitlines()]
    if len(texts) > PAGE or max(map(len, texts)) > WIDTH:
        yield f"web: {len(texts)} lines of up to {max(map(len, texts))} columns, at most {PAGE} of {WIDTH}"


if __name__ == "__main__":
    sys.exit(told(faults(), "wide lines and long scripts: {} findings"))
