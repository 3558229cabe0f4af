#!/usr/bin/env python3
"""Draws docs/speed-ratios.svg from the tables of docs/SPEED.md. Run it after a table has changed.

The picture has our time divided by that of the Rust crate, with a bar for each line and call.
"""

import re
from pathlib import Path

TOP = Path(__file__).resolve().parent.parent
PAGE = (TOP / "docs" / "SPEED.md").read_text()
STYLE = "<style>text{font:12px sans-serif}.grid{stroke:#ccc}.one{stroke:#555;stroke-dasharray:4 3}</style>"
COLOURS = ["#1b6ca8", "#66a182"]


def table(first: str) -> list[list[str]]:
    """Returns the rows below the head of a table. The head begins with a given word."""
    block = next(it for it in re.findall(r"```\n(.*?)```", PAGE, re.S) if it.startswith(first))
    return [line.split() for line in block.splitlines()[1:] if line.strip()]


def text(x: float, y: float, words: str, anchor: str = "start") -> str:
    return f'<text x="{x:.0f}" y="{y:.0f}" text-anchor="{anchor}">{words}</text>'


def line(x1: float, y1: float, x2: float, y2: float, name: str) -> str:
    return f'<line x1="{x1:.0f}" y1="{y1:.0f}" x2="{x2:.0f}" y2="{y2:.0f}" class="{name}"/>'


def ratios() -> None:
    """Draws a bar for each ratio. A ratio below 1 means that ours takes less time."""
    lines = [(row[0], float(row[3])) for row in table("input ")]
    calls = [(row[0], float(row[-1])) for row in table("call")]
    left, top, unit, step = 210, 40, 190, 20
    parts = [text(10, 22, "Our time divided by that of the Rust crate 0.20.1: lines, and calls over 100,000 blocks")]
    height = top + step * (len(lines) + len(calls) + 1) + 30
    for tick in (0, 0.5, 1, 1.5, 2):
        x = left + tick * unit
        parts.append(line(x, top, x, height - 25, "one" if tick == 1 else "grid"))
        parts.append(text(x, height - 8, f"{tick:g}", "middle"))
    y = top
    for group, colour in ((lines, COLOURS[0]), (calls, COLOURS[1])):
        for name, ratio in group:
            parts += [
                text(left - 8, y + 14, name, "end"),
                f'<rect x="{left}" y="{y + 3}" width="{ratio * unit:.0f}" height="{step - 6}" fill="{colour}"/>',
                text(left + ratio * unit + 5, y + 14, f"{ratio:.2f}"),
            ]
            y += step
        y += step
    width, white = left + 2 * unit + 60, '<rect width="100%" height="100%" fill="white"/>'
    head = f'<svg xmlns="http://www.w3.org/2000/svg" width="{width}" height="{height}" viewBox="0 0 {width} {height}">'
    (TOP / "docs" / "speed-ratios.svg").write_text("\n".join([head, STYLE, white, *parts, "</svg>"]) + "\n")


if __name__ == "__main__":
    ratios()
