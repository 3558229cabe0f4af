#!/usr/bin/env python3
"""page_examples.py [PAGE ..]: runs the examples of pages, and compares what they print with what the pages show.

The blocks of PAGES run one by one in a copy of the sources. The script leaves out ./check and `rt check` by name, and a
block that needs a missing rt. The blocks of docs/RECIPES.md run in one shell in an empty folder, because later ones use
what earlier ones set. A block whose tool is missing is left out by name. The status is 1 if an output differs, or if a
command of PAGES fails. Without a word the script runs the examples of all these pages.
"""

import os
import re
import shutil
import sys
import tempfile
from dataclasses import replace
from pathlib import Path

import top  # noqa: F401
from blocks import Block, Report, blocks_of, run, write_programs, write_script
from copies import copied

PAGES = "README.md", "docs/CALLING.md", "docs/LAYERS.md"
RECIPES = "docs/RECIPES.md"
TOOLS = "paste", "awk", "jq"
CHECK = 'echo "left out  ./check $*: it is what runs this, and takes minutes" >&2'
RT_CHECK = 'echo "left out  rt check: it proves what the crate stands on" >&2'
COMMENTS = re.compile(r"(?:^#(?: .*)?\n)+\Z", re.MULTILINE)


def of_pages(report: Report, folder: Path) -> None:
    """Runs the blocks of PAGES in a copy of the sources."""
    rt, copy, bin_folder = shutil.which("rt"), copied(folder / "copy"), folder / "bin"
    write_programs(copy)
    write_script(copy / "check", CHECK)
    bin_folder.mkdir()
    if rt:
        write_script(bin_folder / "rt", f'[ "$1" = check ] || exec "{rt}" "$@"\n{RT_CHECK}')
    pages = [it for it in PAGES if it in (sys.argv[1:] or PAGES)]
    for block in (it for page in pages for it in blocks_of(page) if it.kind in ("sh", "console")):
        if not rt and re.search(r"\brt\b", block.text):
            report.leave_out(block.place, "there is no rt")
            continue
        ran = run(block.text, copy, PATH=f"{bin_folder}:{os.environ['PATH']}")
        print("".join(f"{it}\n" for it in ran.stderr.splitlines() if it.startswith("left out")), end="")
        printed = ran.stdout if block.shown else ""
        report.compare(block.place, f"status 0\n{block.shown}", f"status {ran.returncode}\n{printed}", ran.stderr)


def with_comments(block: Block) -> Block:
    """Returns a block with the comments at its end as its output, if no output follows the block."""
    found = None if block.shown else COMMENTS.search(block.text)
    return replace(block, shown=re.sub(r"^# ?", "", found[0], flags=re.MULTILINE)) if found else block


def of_recipes(report: Report, folder: Path) -> None:
    """Runs the blocks of docs/RECIPES.md in one shell."""
    recipes = []
    for block in (with_comments(it) for it in blocks_of(RECIPES) if it.kind == "sh"):
        missing = next((it for it in TOOLS if re.search(rf"\b{it}\b", block.text) and not shutil.which(it)), None)
        if missing:
            report.leave_out(block.place, f"there is no {missing}")
        else:
            recipes.append(block)
    write_programs(folder)
    commands = "".join(f"{it.text}printf '\\0'\n" for it in recipes)
    printed = run(f"exec 2>&1\n{commands}", folder, "-c").stdout.split("\0")[: len(recipes)]
    for block, found in zip(recipes, [*printed, *[""] * len(recipes)], strict=False):
        report.compare(block.place, block.shown, found)


def main() -> int:
    """Runs the examples of all pages."""
    report = Report()
    for of in (of_pages, of_recipes) if RECIPES in (sys.argv[1:] or [RECIPES]) else (of_pages,):
        with tempfile.TemporaryDirectory() as name:
            of(report, Path(name))
    return report.status()


if __name__ == "__main__":
    sys.exit(main())
