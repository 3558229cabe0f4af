#!/usr/bin/env python3
"""page_budgets.py: finds pages above their budgets of lines and words, pages without a budget, and lines that are too
wide.

A budget is for one page or for several pages together. Words are counted as by `wc -w`. A line has at most 120 columns,
unless it is the row of a table or in a block of code. The lists that scripts make, and the reports on the vectors, have
no budget. The status is 1 if there is a finding.
"""

import re
import sys
from pathlib import Path

from top import TOP
from blocks import told

WIDTH = 120
LINES, WORDS = 4920, 66000
MADE = "crates/README.md", "vectors/reports/"
# Folders of what is built.
BUILT = {"out", "target", "node_modules", ".git", "__pycache__"}
# The pages of each budget, with their lines and words.
BUDGETS = {
    "README.md": (130, 1800),
    "docs/RECIPES.md": (450, 5500),
    "docs/ERRORS.md": (300, 4000),
    "docs/C.md": (350, 4500),
    "docs/RUST.md": (150, 2000),
    "docs/PYTHON.md": (300, 3800),
    "foreign/rtr/README.md packaging/README.md foreign/js/README.md": (160, 2100),
    "foreign/rust/README.md foreign/python/README.md vectors/README.md": (120, 1300),
    "docs/PROVED.md": (300, 4500),
    "docs/DEFINITIONS.md": (200, 2600),
    "docs/AUDIT.md": (200, 2600),
    "docs/TRUSTED.md": (200, 2800),
    "CONTRIBUTING.md": (150, 2000),
    "crates/respath_lines/ADDING.md crates/origins/ADDING.md crates/pigyelund_c/ADDING.md": (150, 2000),
    "docs/CALLING.md": (350, 4500),
    "docs/DIFFERENCES.md": (200, 2800),
    "docs/CONFORMANCE.md": (220, 2800),
    "docs/TESTS.md": (180, 2500),
    "docs/SPEED.md": (150, 2200),
    "bench/README.md": (150, 2000),
    "docs/DECISIONS.md": (300, 4500),
    "docs/LAYERS.md": (150, 2000),
    "CHANGELOG.md": (60, 700),
}


def pages() -> dict[str, str]:
    """Returns the text of each page that is written by hand."""
    found = (it.relative_to(TOP) for it in sorted(TOP.rglob("*.md")))
    names = [str(it) for it in found if not BUILT & {*it.parts}]
    return {it: Path(TOP, it).read_text() for it in names if not it.startswith(MADE)}


def main() -> int:
    """Prints the findings, and the sums of all pages."""
    texts = pages()
    counts = {name: (text.count("\n"), len(text.split())) for name, text in texts.items()}
    total = [sum(it) for it in zip(*counts.values(), strict=True)]
    found = []
    for group, budget in [*BUDGETS.items(), (" ".join(texts), (LINES, WORDS))]:
        sums = [sum(counts.get(name, (0, 0))[at] for name in group.split()) for at in (0, 1)]
        name = "all pages" if budget == (LINES, WORDS) else group.replace(" ", ", ")
        found += [f"{name}: {there} {what}, at most {most}"
                  for what, there, most in zip(("lines", "words"), sums, budget, strict=True) if there > most]
    budgeted = {name for group in BUDGETS for name in group.split()}
    found += [f"{name}: this page has no budget" for name in texts if name not in budgeted]
    for name, text in texts.items():
        # the blank lines keep the numbers of the lines after a block
        prose = re.sub(r"(?ms)^ *```.*?^ *```", lambda it: "\n" * it[0].count("\n"), text)
        wide = [at for at, it in enumerate(prose.split("\n"), 1) if len(it) > WIDTH and not it.lstrip().startswith("|")]
        found += [f"{name}:{at}: more than {WIDTH} columns" for at in wide]
    return told(found, f"{len(texts)} pages, {total[0]} lines, {total[1]} words: {{}} findings")


if __name__ == "__main__":
    sys.exit(main())
