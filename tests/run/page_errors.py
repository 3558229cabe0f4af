#!/usr/bin/env python3
"""Asks the built programs each line that docs/ERRORS.md shows, and compares the answer with the page's.

A row shows a line and its answer in its first two cells. `respath` is asked the lines of the sections `respath: ..`,
and `origins` those of `origins: routes`. The words `with CR behind it` and `in front of` in the first cell name octets
that are added to the line. The status is 1 if an answer differs.
"""

import re
import subprocess
import sys
import tempfile
from collections.abc import Iterator
from pathlib import Path

from top import TOP
from blocks import Report, program

ROW = re.compile(r"\| ([^`|]*)`((?:[^`|]|\\\|)+)`([^`|]*) \| (?:`([^`]*)`|an empty line) \|")
BYTE_ORDER_MARK = b"\xef\xbb\xbf"
VRPS = "AS64496,192.0.2.0/23,24\n"


def lines_of(section: str) -> Iterator[tuple[str, bytes, str]]:
    """Yields the lines of the sections whose titles begin so with their answers, each after its place on the page."""
    title = ""
    for number, line in enumerate((TOP / "docs" / "ERRORS.md").read_text().split("\n"), 1):
        title = line.removeprefix("## ") if line.startswith("## ") else title
        if title.startswith(section) and (row := ROW.match(line)):
            before = BYTE_ORDER_MARK if "in front of" in row[1] else b""
            behind = b"\r" if "with CR behind it" in row[3] else b""
            asked = row[2].replace("\\|", "|").encode()
            yield f"docs/ERRORS.md:{number}", before + asked + behind, row[4] or ""


def of_errors() -> Iterator[tuple[str, bytes, str]]:
    """Yields the lines of `respath` with their answers, each after its place on the page."""
    return lines_of("respath: ")


def compare(report: Report, name: str, options: tuple[str, ...], shown: list[tuple[str, bytes, str]]) -> None:
    """Asks a program all lines at once, and compares its answers."""
    if not program(name).exists():
        report.leave_out(f"the lines of docs/ERRORS.md for {name}", f"{name} is not built")
        return
    asked = b"".join(line + b"\n" for _, line, _ in shown)
    ran = subprocess.run([program(name), *options], input=asked, capture_output=True, check=True)
    for (place, line, wanted), answer in zip(shown, ran.stdout.decode().split("\n")[:-1], strict=True):
        report.compare(f"{place}: {line!r}", wanted, answer)


def main() -> int:
    """Asks both programs."""
    report = Report()
    compare(report, "respath_program", (), [*of_errors()])
    with tempfile.TemporaryDirectory() as folder:
        vrps = Path(folder, "vrps")
        vrps.write_text(VRPS)
        compare(report, "origins", (str(vrps),), [*lines_of("origins: routes")])
    return report.status()


if __name__ == "__main__":
    sys.exit(main())
