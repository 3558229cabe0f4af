#!/usr/bin/env python3
"""source_crates.py [--write]: makes crates/README.md, the list of all crates, and docs/layers.svg, the picture of them.

Both are made from crates.txt and the heads of the crates. Without --write the script compares the list, and the names
and the lines of the picture, with what it would make. --write needs the command `dot` of graphviz. The status is 1 if
something differs.
"""

import re
import subprocess
import sys

from top import TOP
from blocks import told
from groups import BESIDE, about, below, root_file, sections, stands_on

LIST, PICTURE = TOP / "crates" / "README.md", TOP / "docs" / "layers.svg"
HEAD = """# Crates

Each section is about one subject, and lists the lowest crate first. `tests/run/source_crates.py --write` makes this
page from [crates.txt](../crates.txt) and the heads of the crates.
"""


def page() -> str:
    """Returns the text of the list."""
    lines = [HEAD]
    for title, names in sections().items():
        items = (f"- [{it}]({root_file(it).relative_to(LIST.parent)}): {about(it)}" for it in names)
        lines += [f"## {title[0].upper()}{title[1:]}", "", *items, ""]
    return "\n".join(lines)


def drawn() -> tuple[dict[str, tuple[str, ...]], list[tuple[str, str]]]:
    """Returns the sections of the product, and each crate with each dependency that it reaches through no other."""
    shown = {title: names for title, names in sections().items() if title not in BESIDE}
    every = stands_on()
    lines = [(name, it) for names in shown.values() for name in names for it in every[name]
             if not any(it in below(other) for other in every[name])]
    return shown, lines


def graph() -> str:
    """Returns the picture in the language of graphviz."""
    shown, lines = drawn()
    parts = ["digraph crates {", "rankdir=TB; node [shape=box, fontname=Helvetica]; edge [color=gray40];"]
    for at, (title, names) in enumerate(shown.items()):
        style = f'label="{title}"; fontname=Helvetica; color=gray70'
        parts.append(f"subgraph cluster_{at} {{ {style}; {'; '.join(names)}; }}")
    return "\n".join([*parts, *(f"{upper} -> {lower};" for upper, lower in lines), "}"])


def faults() -> list[str]:
    """Returns the files that are not what crates.txt and the sources say."""
    shown, lines = drawn()
    wanted = {it for names in shown.values() for it in names} | {f"{upper}&#45;&gt;{lower}" for upper, lower in lines}
    there = set(re.findall(r'class="(?:node|edge)">\n<title>(.*)</title>', PICTURE.read_text()))
    is_current = {LIST: LIST.read_text() == page(), PICTURE: there == wanted}
    names = [*stands_on()]
    late = [(name, it) for name in names for it in stands_on()[name] if names.index(it) > names.index(name)]
    return [*(f"crates.txt: {name} depends on {it}, which comes after it" for name, it in late),
            *(f"{it.relative_to(TOP)} is not what crates.txt says: tests/run/source_crates.py --write makes it anew"
              for it, current in is_current.items() if not current)]


if __name__ == "__main__":
    if sys.argv[1:] == ["--write"]:
        LIST.write_text(page())
        drawn_by_dot = subprocess.run(["dot", "-Tsvg"], input=graph(), capture_output=True, text=True, check=True)
        PICTURE.write_text(drawn_by_dot.stdout)
    sys.exit(told(faults()))
