#!/usr/bin/env python3
"""table.py JSON ..: prints tables of what implementations answer, from what runners wrote by --json.

One table has the counts of each file, and one table for each file has the answers by flag. A case counts for a rule if
it breaks no other rule. An implementation of DER has a second column, canonical, if it says whether a value is. The
words are accepts, refuses, aborts, and differs: the value is not the expected one."""

import json
import sys
from collections.abc import Iterator
from pathlib import Path
from typing import Any

from compare import files

READ = ("canonical", "valid", "accepts")
WORDS = ("accepts", "refuses", "differs", "aborts")
DER = ("der_as", "der_ip")


def cell(counts: dict[str, int]) -> str:
    """What an implementation does with the cases of a flag: a word, or words with their counts."""
    there = [(it, counts[it]) for it in WORDS if counts.get(it)]
    return there[0][0] if len(there) == 1 else ", ".join(f"{word} {count}" for word, count in there)


def merged(counts: dict[str, int], accepted: tuple[str, ...], refused: tuple[str, ...]) -> dict[str, int]:
    """Counts with other words for what is accepted and refused."""
    total = {"accepts": sum(counts.get(it, 0) for it in accepted), "refuses": sum(counts.get(it, 0) for it in refused)}
    return total | {it: counts.get(it, 0) for it in ("differs", "aborts")}


def columns(file: str, report: dict[str, Any]) -> Iterator[tuple[str, dict[str, dict[str, int]]]]:
    """The columns of an implementation: of DER that it reads, and, if it says so, of DER that it calls canonical."""
    flags = report["flags"].get(file)
    if flags is None:
        return
    name = report["name"]
    if file not in DER:
        yield name, flags
        return
    yield f"{name}: reads", {it: merged(counts, READ, ("refuses",)) for it, counts in flags.items()}
    if any(counts.get("canonical") for counts in flags.values()):
        yield f"{name}: canonical", {
            it: merged(counts, ("canonical",), ("valid", "refuses")) for it, counts in flags.items()
        }


def table(rows: list[list[str]]) -> str:
    """Rows as a table of Markdown, the first one above the others."""
    lines = [f"| {' | '.join(row)} |" for row in rows]
    return "\n".join([lines[0], "|" + "---|" * len(rows[0]), *lines[1:]])


def expectation(file: str, cases: list[dict[str, Any]], flag: str, notes: dict[str, Any]) -> tuple[str, int]:
    """The results that are expected of the cases of a flag, and how many cases there are."""
    found = [it for it in cases if flag in it["flags"]]
    rules = [[it for it in case["flags"] if notes[it]["breaksRule"]] for case in found]
    alone = [case for case, broken in zip(found, rules, strict=True) if len(broken) == notes[flag]["breaksRule"]]
    results = sorted({it["expected"].get("result", "") for it in alone} - {""})
    return " or ".join(results) or "answer", len(alone)


def by_flag(file: str, vectors: dict[str, Any], reports: list[dict[str, Any]]) -> str | None:
    """The table of a file, by flag; None if no implementation was asked."""
    found = [column for report in reports for column in columns(file, report)]
    if not found:
        return None
    rows = [["flag", "cases", "expected", *(f"{it}" for it, _ in found)]]
    for flag in (it for it in vectors["notes"] if it != "Decision"):
        result, count = expectation(file, vectors["tests"], flag, vectors["notes"])
        cells = [cell(flags.get(flag, {})) or "-" for _, flags in found]
        if count:
            rows.append([f"`{flag}`", str(count), result, *cells])
    return table(rows)


def counts_of(names: list[str], reports: list[dict[str, Any]]) -> str:
    """How many cases of each file agree, of those that were asked."""
    rows = [["file", *(report["name"] for report in reports)]]
    for name in names:
        row = [f"`{name}`"]
        for counts in (report["files"].get(name, {}) for report in reports):
            asked = counts.get("agree", 0) + counts.get("differ", 0)
            row.append(f"{counts.get('agree', 0)} of {asked}" if asked else "-")
        rows.append(row)
    return table(rows)


def tables(reports: list[dict[str, Any]]) -> str:
    """All tables."""
    vectors = files()
    parts = [f"### Cases that agree\n\n{counts_of([*vectors], reports)}"]
    for name, file in vectors.items():
        if found := by_flag(name, file, reports):
            parts.append(f"### `{name}`\n\n{found}")
    return "\n\n".join(parts)


def main(paths: list[str]) -> int:
    """Prints the tables."""
    if not paths:
        print(__doc__)
        return 2
    print(tables([json.loads(Path(it).read_text()) for it in paths]))
    return 0


if __name__ == "__main__":
    sys.exit(main(sys.argv[1:]))
