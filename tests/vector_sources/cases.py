"""A file of vectors: its flags, its cases, and its text."""

import hashlib
import json
from collections import Counter
from collections.abc import Iterable, Iterator
from dataclasses import dataclass, field
from pathlib import Path
from typing import Any

TOP = Path(__file__).resolve().parent.parent.parent
VERSION = (TOP / "VERSION").read_text().strip()
LEAST = 10


class Difference(Exception):
    """Two sources of an answer differ, or cases are missing."""


@dataclass(frozen=True)
class Flag:
    """A flag: its description, the section that it comes from, and whether a case with it breaks a rule."""

    description: str
    section: str
    breaks: bool = False
    link: str | None = None

    def note(self) -> dict[str, Any]:
        """Returns the flag as an entry of `notes`."""
        note: dict[str, Any] = {"breaksRule": self.breaks, "description": self.description, "section": self.section}
        return note | ({"link": self.link} if self.link else {})


@dataclass(frozen=True)
class Case:
    """A case: its flags, its input and its expected answer."""

    flags: tuple[str, ...]
    input: dict[str, Any]
    expected: dict[str, Any]


@dataclass
class VectorFile:
    """A file of cases, with the flags that they may have, and the faults that need cases."""

    name: str
    subject: str
    header: list[str]
    flags: dict[str, Flag]
    faults: list[str] = field(default_factory=list)
    cases: dict[str, Case] = field(default_factory=dict)

    def add(self, case: Case) -> None:
        """Adds a case. A case with the same input has to expect the same answer."""
        key = identifier(self.name, case.input)
        before = self.cases.setdefault(key, case)
        if before.input != case.input:
            raise Difference(f"{self.name}: two inputs have the identifier {key}")
        if before.expected != case.expected:
            raise Difference(f"{self.name}: {case.input}: {before.expected} and {case.expected}")
        if unknown := [it for it in case.flags if it not in self.flags]:
            raise Difference(f"{self.name}: {case.input}: no note of {unknown}")
        if not case.flags:
            raise Difference(f"{self.name}: {case.input}: no flag")

    def lacking(self) -> Iterator[str]:
        """Yields the flags and faults with too few cases."""
        flags = Counter(flag for case in self.cases.values() for flag in case.flags)
        faults = Counter(case.expected.get("fault", "") for case in self.cases.values())
        of_both = ("flag", [*self.flags], flags), ("fault", self.faults, faults)
        for kind, names, counts in of_both:
            yield from (f"{self.name}: {kind} {it}: {counts[it]} cases" for it in names if counts[it] < LEAST)
        yield from (f"{self.name}: fault {it} has no name" for it in faults.keys() - {"", *self.faults})

    def comment(self, case: Case) -> str:
        """Returns the comment of a case, made of its flags."""
        said = "; ".join(self.flags[it].description for it in case.flags if it != "Decision")
        return said[:1].upper() + said[1:]

    def text(self) -> str:
        """Returns the text of the file, with a line for each case. Cases with the same flags are next to each other."""
        ordered = sorted(self.cases.items(), key=lambda it: order(it[1]))
        lines = [
            written(
                {
                    "comment": self.comment(case),
                    "expected": case.expected,
                    "flags": list(case.flags),
                    "input": case.input,
                    "tcId": key,
                }
            )
            for key, case in ordered
        ]
        head = {
            "header": self.header,
            "notes": {name: flag.note() for name, flag in sorted(self.flags.items())},
            "numberOfTests": len(lines),
            "schema": f"schemas/{self.name}.json",
            "subject": self.subject,
        }
        opened = json.dumps(head, indent=1, sort_keys=True, ensure_ascii=False).removesuffix("\n}")
        tests = ",\n".join(f"  {it}" for it in lines)
        return f'{opened},\n "tests": [\n{tests}\n ],\n "version": "{VERSION}"\n}}\n'


def written(value: Any) -> str:
    """Returns a value of JSON on a line."""
    return json.dumps(value, sort_keys=True, ensure_ascii=False, separators=(", ", ": "))


def order(case: Case) -> tuple[Any, ...]:
    """Returns the sort key of a case: by flags, then the shorter input first."""
    asked = written(case.input)
    return tuple(it for it in case.flags if it != "Decision"), len(asked), asked


def identifier(name: str, asked: dict[str, Any]) -> str:
    """Returns the identifier of a case, which depends only on its file and its input."""
    return hashlib.sha256(f"{name} {written(asked)}".encode()).hexdigest()[:12]


def is_chosen(text: str, share: int) -> bool:
    """Returns whether a row is among the `share` percent of rows that are taken."""
    return hashlib.sha256(text.encode()).digest()[0] * 100 < share * 256


def ordered(flags: Iterable[str], known: dict[str, Flag]) -> tuple[str, ...]:
    """Returns flags in the order of their notes."""
    found = set(flags)
    return tuple(it for it in known if it in found) + tuple(sorted(found - known.keys()))


class Rows:
    """The stored rows of a program: lines and their answers."""

    def __init__(self, name: str) -> None:
        folder = TOP / "crates" / name
        asked, answered = (
            (folder / file).read_bytes().decode().removesuffix("\n").split("\n") for file in ("stdin", "stdout")
        )
        if len(asked) != len(answered):
            raise Difference(f"{name}: {len(asked)} lines have {len(answered)} answers")
        self.name = name
        self.rows = list(zip(asked, answered, strict=True))

    def of(self, *commands: str) -> Iterator[tuple[str, str]]:
        """Yields the text after one of these words in a row, and the row's answer."""
        for asked, answer in self.rows:
            for command in commands:
                if asked.startswith(command + " "):
                    yield asked[len(command) + 1 :], answer


def agree(name: str, asked: str, stored: str, found: str) -> None:
    """Raises an error if a stored answer is not the reference's."""
    if stored != found:
        raise Difference(f"{name}: {asked}\n  stored:        {stored}\n  the reference: {found}")
