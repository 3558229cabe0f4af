"""Finds the blocks of the pages, runs them, and compares what they print with what the pages show.

The tests of pages use this module, so their reports have one form. A report has the difference for each example whose
output is not the one on its page. It has a line for each example that is left out, and a last line with the counts.
Tests without examples print their faults by `told`.
"""

import difflib
import os
import re
import subprocess
from collections.abc import Iterable
from dataclasses import dataclass
from pathlib import Path

from top import TOP

HEADING_OR_BLOCK = re.compile(r"^(##+ [^\n]*)$|^```([^\n]*)\n(.*?)^```$", re.MULTILINE | re.DOTALL)
ANSWER = re.compile(r"\| \./respath .*# (.*\n)")


@dataclass(frozen=True)
class Block:
    """A block of a page.

    `place` is the page with the line of the block's fence. `kind` has the words after the fence. `text` is the text
    without output, and `shown` is the output that the page shows.
    """

    place: str
    kind: str
    text: str
    shown: str = ""


def with_output(place: str, kind: str, text: str, next_text: str) -> Block:
    """Returns a block with its output.

    In a block `console` the commands begin with `$ `, and the other lines are the output. The output of a block `sh` is
    the next block, if that is a block `text`. Otherwise it is the comments after the lines of the block.
    """
    if kind == "console":
        lines = text.splitlines(keepends=True)
        shown = "".join(it for it in lines if not it.startswith("$ "))
        return Block(place, kind, "".join(it[2:] for it in lines if it.startswith("$ ")), shown)
    return Block(place, kind, text, next_text or "".join(ANSWER.findall(text)) if kind == "sh" else "")


def blocks_of(page: str, title: str = "") -> list[Block]:
    """Returns the blocks of a page.

    With the line of a heading it returns the blocks between this heading and the next.
    """
    text = (TOP / page).read_text()
    heading, found = "", []
    parts = [*HEADING_OR_BLOCK.finditer(text)]
    for part, after in zip(parts, [*parts[1:], None], strict=True):
        heading = part[1] or heading
        if part[1] is None and title in ("", heading):
            line = text.count("\n", 0, part.start()) + 1
            next_text = after[3] if after and after[2] == "text" else ""
            found.append(with_output(f"{page}:{line}", part[2], part[3], next_text))
    return found


def run(commands: str, folder: Path, options: str = "-euc", **variables: str) -> subprocess.CompletedProcess[str]:
    """Runs commands in a folder, with these variables in the environment."""
    how = {"stdin": subprocess.DEVNULL, "capture_output": True, "text": True, "errors": "replace"}
    return subprocess.run(["sh", options, commands], cwd=folder, env=os.environ | variables, **how)


def write_script(path: Path, text: str) -> None:
    """Writes a shell script that can be run."""
    path.write_text(f"#!/bin/sh\n{text}\n")
    path.chmod(0o755)


def write_programs(folder: Path) -> None:
    """Builds `respath` and `origins` if they are not current, and writes scripts of these names that call them."""
    for name, given in (("respath", ""), ("origins --table -", "AS1,10.0.0.0/8,8\n")):
        name, *words = name.split()
        subprocess.run([TOP / name, *words], input=given, capture_output=True, text=True, check=True)
        write_script(folder / name, f'exec "{TOP}/{name}" "$@"')


def program(name: str) -> Path:
    """Returns the path of a built program."""
    return TOP / "crates" / name / "out" / name


def without_escapes(page: str) -> str:
    """Returns a manual page with its macros, and without the escapes."""
    text = (TOP / page).read_text().replace("\\-", "-").replace("\\(aq", "'").replace("\\e", "\\")
    return re.sub(r"\\f[A-Z]", "", text)


def manual(page: str) -> str:
    """Returns the words of a manual page in one line, without its macros and quotes."""
    lines = (re.sub(r"^\.(?:[A-Z]+|[a-z]+) ?", "", line) for line in without_escapes(page).splitlines())
    return " ".join(" ".join(lines).replace('"', "").split())


def examples_of(page: str) -> Block:
    """Returns the examples of a manual page."""
    text = without_escapes(page).partition(".SH EXAMPLES\n.nf\n")[2].partition(".fi\n")[0]
    return with_output(page, "console", text, "")


def told(faults: Iterable[str], last: str = "") -> int:
    """Prints faults, and a last line with their number in place of `{}`. Returns the status of a test."""
    found = [*faults]
    print("".join(f"{it}\n" for it in found) + (f"{last.format(len(found))}\n" if last else ""), end="")
    return 1 if found else 0


class Report:
    """Prints what differs from the pages, and counts the examples."""

    def __init__(self) -> None:
        self.compared = self.differing = self.skipped = 0

    def leave_out(self, example: str, why: str) -> None:
        """Prints which example is left out, and why."""
        print(f"left out  {example}: {why}")
        self.skipped += 1

    def add(self, example: str, faults: Iterable[str]) -> None:
        """Counts an example, and prints its faults."""
        found = [f"FAILED    {example}: {it}\n" for it in faults]
        print("".join(found), end="")
        self.compared += 1
        self.differing += bool(found)

    def compare(self, example: str, shown: str, printed: str, errors: str = "") -> None:
        """Compares what a page shows with what was printed. `errors` is extra text to print if they differ."""
        lines = [*difflib.ndiff(shown.splitlines(), printed.splitlines()), errors]
        fault = "\n".join(["the page (-) and what is printed (+)", *lines])
        self.add(example, [] if shown == printed else [fault])

    def status(self) -> int:
        """Prints the counts. Returns the status of the test, which is 1 if there was no example."""
        print(f"{self.compared} examples, {self.differing} differ, {self.skipped} left out")
        return 1 if self.differing or not self.compared + self.skipped else 0
