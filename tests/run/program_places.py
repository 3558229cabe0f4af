#!/usr/bin/env python3
"""Compares the places that `./respath --where` shows with what the program says of each element alone.

It asks the wrong and refused lines of `rows_sets` and docs/ERRORS.md, random lines, long lists, and the lines of
`OF_LINE`. If UNPROVED is set, the program is slow, and it is asked fewer of them. The expected place is that of the
first element which, asked alone, gets the line's error. In a refused path it is that of the first element which is
refused alone after the steps before. A line without such an element has no place, and nor has an error of `OF_LINE`.
The status is 1 if a place differs.
"""

import os
import random
import subprocess
import sys
from collections.abc import Iterator
from itertools import islice

import page_errors
from top import TOP
from reference import random_lines, texts
from reference.places import LISTED, OF_LINE, elements, lines_of_errors, shown
from rows import CRATES, PROGRAM, ask, lines_of

WRONG = ("error: ", "refused at step ")
GOOD = {"as": "AS64500", "v4": "192.0.2.0/25", "v6": "2001:db8::/33"}
BAD = {"as": ("AS7-AS3", "x"), "v4": ("10.0.0.0/33", "1.2.3"), "v6": ("::1::", "1.2.3.4")}
UNPROVED = "UNPROVED" in os.environ
RANDOM = 200 if UNPROVED else 2_000
COUNTS = (500,) if UNPROVED else (500, 5_000)


def long_lines(made: random.Random) -> Iterator[bytes]:
    """Yields long lists with one wrong element at a random index, and long claims with one block too many."""
    for count in COUNTS:
        for kind, good in GOOD.items():
            for bad in BAD[kind]:
                listed = [good] * count
                listed[made.randrange(count)] = bad
                text = ", ".join(listed)
                yield f"der {kind} {text}".encode()
                yield f"path {kind} {good} | inherit | trim {text} | refuse x".encode()
            claimed = [good] * count
            claimed[made.randrange(count)] = {"as": "AS9", "v4": "198.51.100.7", "v6": "::9"}[kind]
            yield f"path {kind} {good} | trim {good} | refuse {','.join(claimed)} | missing".encode()


def asked_lines() -> Iterator[bytes]:
    """Yields the lines that the test asks. Some of them are correct."""
    yield from (it.encode() for it in lines_of(CRATES / "rows_sets" / "stdin"))
    yield from (line for _, line, _ in page_errors.of_errors())
    for command in LISTED:
        yield from islice(random_lines.lines(command, 1), RANDOM)
    yield from long_lines(random.Random(1))
    yield from lines_of_errors()
    yield b"norm as 1, 2\0, x"
    yield b"der as inherit, 1"
    yield "path as 1 | \u3000trim\u00a0".encode()
    yield "der v4 10.0.0.0,\u2003inherit\u0085".encode()


def elements_of_path(text: str) -> list[tuple[str, str | None]]:
    """Returns the elements of a path in the order of reading, each after its place. An invalid step has no text."""
    root, *steps = text.split("|")
    found: list[tuple[str, str | None]] = [*elements(root, "root, ")]
    for at, step in enumerate(map(texts.trim, steps)):
        word, listed = texts.cut(step, " ")
        if word in ("refuse", "trim"):
            found += elements(listed, f"step {at}, ")
        elif step not in ("inherit", "missing"):
            found.append((f"step {at}: {shown(step)}", None))
    return found


class Place:
    """Finds the expected place of a wrong line, from questions about its elements.

    `before` has the question to ask first. `found` has the elements with their places.
    """

    def __init__(self, line: bytes, answer: str) -> None:
        self.answer = answer
        self.before: list[bytes] = []
        self.found: list[tuple[str, str | None]] = []
        if answer in OF_LINE:
            return
        command, rest = texts.cut(line.decode(), " ")
        self.kind, text = texts.cut(rest, " ")
        if answer.startswith("refused"):
            at = int(answer.split(":")[0].removeprefix(WRONG[1]))
            *path, refused = text.split("|")[: at + 2]
            self.before = [f"path {self.kind} {'|'.join(path)}".encode()]
            self.found = [*elements(texts.cut(texts.trim(refused), " ")[1], f"step {at}, ")]
        elif command in LISTED:
            self.found = elements_of_path(text) if command == "path" else [*elements(text)]

    def questions(self, left: list[str]) -> list[bytes]:
        """Returns a question for each element alone: a list, or a claim on the resources that are left."""
        line = f"path {self.kind} {left[0]} | refuse " if left else f"norm {getattr(self, 'kind', '')} "
        return [(line + (text or "")).encode() for _, text in self.found]

    def wanted(self, answers: list[str]) -> str:
        """Returns the answer of the line with the place of the wrong element."""
        for (place, text), answer in zip(self.found, answers, strict=True):
            if text is None:
                return f"error: unknown step\t{place}"
            if answer.startswith(self.answer[:6]):
                if answer.startswith("error: ") and answer != self.answer:
                    return f"{answer}, and the line {self.answer}"
                return f"{self.answer}\t{place}"
        return self.answer


def main() -> int:
    """Asks all lines, and compares."""
    if not PROGRAM.exists():
        print("left out: the places of errors: respath_program is not built")
        return 0
    asked = [it for it in asked_lines() if b"\n" not in it]
    answers = ask(PROGRAM, asked)
    wrong = [(line, answer) for line, answer in zip(asked, answers, strict=True) if answer.startswith(WRONG)]
    places = [Place(line, answer) for line, answer in wrong]
    before = iter(ask(PROGRAM, [it for place in places for it in place.before]))
    questions = [place.questions([next(before) for _ in place.before]) for place in places]
    replies = iter(ask(PROGRAM, [it for part in questions for it in part]))
    wanted = [place.wanted([next(replies) for _ in part]) for place, part in zip(places, questions, strict=True)]
    given = b"".join(line + b"\n" for line in asked)
    run = subprocess.run([TOP / "respath", "--where"], input=given, stdout=subprocess.PIPE, check=True)
    shown = run.stdout.decode().removesuffix("\n").split("\n")
    right = {at for at, answer in enumerate(answers) if not answer.startswith(WRONG)}
    expected = iter(wanted)
    differ = 0
    for at, (line, found) in enumerate(zip(asked, shown, strict=True)):
        one = answers[at] if at in right else next(expected)
        if one != found:
            differ += 1
            if differ <= 20:
                print(f"{line[:200]!r}\n  wanted: {one[:300]}\n  shown:  {found[:300]}")
    with_place = sum("\t" in it for it in wanted)
    print(f"places of errors: {len(wanted)} lines are wrong or refused, {with_place} have a place, {differ} differ")
    return 1 if differ else 0


if __name__ == "__main__":
    sys.exit(main())
