#!/usr/bin/env python3
"""page_links.py: finds relative links of the pages whose file or heading does not exist.

The pages are those of tests/run/page_budgets.py, and crates/README.md. A heading has the anchor that hosting
sites give it. This is its text in lower case without marks, with '-' for each space. It also has a number if the page
has the heading twice. The status is 1 if a link leads nowhere.
"""

import re
import sys
from collections import Counter
from pathlib import Path

import page_budgets
from top import TOP
from blocks import told

HEADING = re.compile(r"#{1,6} (.*)")
LINK = re.compile(r"\]\(([^)\s]+)\)")
INLINE_CODE = re.compile(r"`[^`]*`")


def pages() -> list[Path]:
    """Returns the pages."""
    return [TOP / "crates" / "README.md", *(TOP / name for name in page_budgets.pages())]


def prose(page: Path) -> list[tuple[int, str]]:
    """Returns the lines of a page outside of blocks of code, each with its number."""
    lines, in_code = [], False
    for number, line in enumerate(page.read_text().splitlines(), 1):
        if line.lstrip().startswith("```"):
            in_code = not in_code
        elif not in_code:
            lines.append((number, line))
    return lines


def anchors(page: Path) -> set[str]:
    """Returns the anchors of the headings of a page."""
    found: set[str] = set()
    counts: Counter[str] = Counter()
    for _, line in prose(page):
        if heading := HEADING.match(line):
            text = LINK.sub("", heading[1].replace("[", "")).replace("`", "")
            anchor = re.sub(r"[^\w -]", "", text.lower()).strip().replace(" ", "-")
            found.add(f"{anchor}-{counts[anchor]}" if counts[anchor] else anchor)
            counts[anchor] += 1
    return found


def fault(page: Path, target: str, anchors_of: dict[Path, set[str]]) -> str:
    """Returns the fault of a link of a page, or an empty text if the link leads somewhere."""
    file, _, anchor = target.partition("#")
    linked = (page.parent / file).resolve() if file else page
    if not linked.exists():
        return "no such file"
    if anchor and anchor not in anchors_of.get(linked, set()):
        return "no such heading"
    return ""


def main() -> int:
    """Prints each link that leads nowhere, and the number of links."""
    anchors_of = {page: anchors(page) for page in pages()}
    lines = ((page, number, INLINE_CODE.sub("code", line)) for page in anchors_of for number, line in prose(page))
    links = [(page, number, it) for page, number, line in lines for it in LINK.findall(line)]
    relative = [it for it in links if not re.match(r"[a-z]+:", it[2])]
    faults = [
        f"{page.relative_to(TOP)}:{number}: {why}: {target}"
        for page, number, target in relative
        if (why := fault(page, target, anchors_of))
    ]
    return told(faults, f"links of {len(anchors_of)} pages: {len(relative)}, {{}} lead nowhere")


sys.exit(main())
