#!/usr/bin/env python3
"""Compares stored answers, or the answers of a built program, with those of the reference beside this file.

Without options it compares the stored answers of the programs `rows_*`, `example_holdings`, `example_verified_set`,
`respath_program`, and those of `bench_growth` about origins.

With --write it also replaces each stored answer that differs by the reference's answer, and prints all of them. Use it
after you have changed a text in the reference. It does not write the answers of `bench_growth`, and no answer that the
reference does not know.

With --random SEED COUNT it makes COUNT lines of each command of `respath`, and asks the built program.

Lines that the reference does not answer are counted and named. The status is 1 if an answer differs.
"""

import argparse
import subprocess
import sys
from collections import Counter
from collections.abc import Callable, Iterator
from itertools import islice
from pathlib import Path

from top import TOP
from reference import (
    calls_of_callers, calls_of_sets, calls_of_values, lines, made_routes, places, random_lines, requests
)
from reference.calls_of_callers import NotSaid

CRATES = TOP / "crates"
PROGRAM = CRATES / "respath_program" / "out" / "respath_program"
AT_ONCE = 50_000
SHOWN = 20


def answer_of_claims(line: str) -> str:
    """Returns the answer of `rows_claims` to a line."""
    if calls_of_callers.is_of_certificates(line):
        return calls_of_callers.answer_of_certificates(line)
    if calls_of_callers.is_origin(line):
        return calls_of_callers.origin_answer(line)
    return calls_of_sets.answer(line)


def with_requests(count: Callable[[str], str], answer: Callable[[str], str]) -> Callable[[str], str]:
    """Returns a function that answers lines of a program.

    Lines that count requests for memory are answered by rules on lists, and the others by the calls.
    """

    def answer_of(line: str) -> str:
        command, _, operands = line.partition(" ")
        return count(operands) if command == "requests" else answer(line)

    return answer_of


PROGRAMS: dict[str, Callable[[str], str]] = {
    "rows_values": with_requests(requests.of_octets, calls_of_values.answer),
    "rows_sets": with_requests(requests.of_sets, calls_of_sets.answer),
    "rows_claims": with_requests(requests.of_claims, answer_of_claims),
}


class Comparison:
    """Counts the answers that were compared, those that differ, and those that the reference does not know, by reason.

    `stored` is the program's file of stored answers, if they are to be written.
    """

    def __init__(self, program: str = "", writes: bool = False) -> None:
        self.compared = 0
        self.differing = 0
        self.not_said: Counter[str] = Counter()
        self.stored = CRATES / program / "stdout" if writes else None
        self.answers: list[object] = []

    def add(self, what: str, expected: object, found: object) -> None:
        """Compares an answer with the reference's. It prints the first ones that differ, or all that are written."""
        self.compared += 1
        self.answers.append(expected)
        if expected == found:
            return
        self.differing += 1
        if self.differing <= SHOWN or self.stored:
            print(f"{what}\n  the reference: {expected}\n  the program:   {found}")

    def pass_over(self, reason: str, found: str) -> None:
        """Counts an answer that the reference does not know."""
        self.not_said[reason] += 1
        self.answers.append(found)

    def write(self) -> None:
        """Writes the stored answers if one differs."""
        if self.stored and self.differing:
            self.stored.write_bytes("".join(f"{it}\n" for it in self.answers).encode())
            print(f"{self.stored.relative_to(TOP)}: {self.differing} answers written anew")

    def report(self, name: str) -> bool:
        """Prints the counts, and writes the answers if this was asked. Returns whether nothing differs."""
        self.write()
        print(f"{name}: {self.compared} answers compared, {self.differing} differ")
        for reason, count in sorted(self.not_said.items()):
            print(f"{name}: {count} not said by the reference: {reason}")
        return self.differing == 0


def lines_of(path: Path) -> list[str]:
    """Returns the lines of a file. Only a line feed ends a line."""
    return path.read_bytes().decode("utf-8").removesuffix("\n").split("\n")


def compare_program(name: str, answer: Callable[[str], str], writes: bool) -> bool:
    """Compares the stored answers of a program that answers each line with a line."""
    comparison = Comparison(name, writes)
    asked, answered = (lines_of(CRATES / name / file) for file in ("stdin", "stdout"))
    if len(asked) != len(answered):
        print(f"{name}: {len(asked)} lines have {len(answered)} answers")
        return False
    for place, (line, found) in enumerate(zip(asked, answered, strict=True), 1):
        try:
            comparison.add(f"{name}/stdin:{place}: {line}", answer(line), found)
        except NotSaid as reason:
            comparison.pass_over(f"{line.split(' ')[0]}: {reason}", found)
    return comparison.report(name)


def compare_holdings(writes: bool) -> bool:
    """Compares the answers of `example_holdings` to its two lines together."""
    comparison = Comparison("example_holdings", writes)
    asked, answered = (lines_of(CRATES / "example_holdings" / file) for file in ("stdin", "stdout"))
    expected = calls_of_callers.holdings(*asked)
    if len(expected) != len(answered):
        print(f"holdings: {len(expected)} answers expected, {len(answered)} found")
        return False
    for place, (one, found) in enumerate(zip(expected, answered, strict=True), 1):
        comparison.add(f"example_holdings/stdout:{place}: {asked[1]}", one, found)
    return comparison.report("example_holdings")


def compare_verified_set(writes: bool) -> bool:
    """Compares the output of `example_verified_set` for the issuer and the files of its stored run."""
    comparison = Comparison("example_verified_set", writes)
    folder = CRATES / "example_verified_set"
    *lists, numbers, addresses, mode = lines_of(folder / "args")
    octets = [(folder / "data" / name).read_bytes().hex() for name in (numbers, addresses)]
    line = f"verified_octets {' ; '.join(lists)} | {mode} {' '.join(octets)}"
    (found,) = lines_of(folder / "stdout")
    comparison.add(f"example_verified_set/args: {line}", calls_of_callers.answer_of_certificates(line), found)
    return comparison.report("example_verified_set")


def asked_of_origins(given: list[str]) -> Iterator[tuple[str, list[str]]]:
    """Yields the questions to `bench_growth` about origins, each with its answers. It skips those about sets."""
    word, before = "", None
    for argument in given:
        if not argument.isdigit():
            word, before = argument, None
        elif word in ("mixed", "path", "ranges"):
            continue
        elif word in made_routes.WORST:
            yield f"{word} {argument}", made_routes.worst_answers(word, int(argument))
        elif word and before is None:
            before = int(argument)
        elif word:
            yield f"{before} {argument}", [made_routes.answer(before, int(argument))]
            before = None


def compare_growth() -> bool:
    """Compares what `bench_growth` prints about origins. Its arguments have the numbers."""
    comparison = Comparison()
    given, printed = (lines_of(CRATES / "bench_growth" / file) for file in ("args", "stdout"))
    printed = [line for line in printed if " routes: " in line]
    answers = [(line, answer) for line, found in asked_of_origins(given) for answer in found]
    for (line, answer), found in zip(answers, printed, strict=True):
        comparison.add(f"bench_growth/args: {line}", answer, found)
    return comparison.report("bench_growth")


def compare_files(writes: bool) -> bool:
    """Compares the output of `respath_program` for the file and the standard input of its stored run, with --where."""
    comparison = Comparison("respath_program", writes)
    folder = CRATES / "respath_program"
    asked = lines_of(folder / "data" / "lines") + lines_of(folder / "stdin")
    for line, found in zip(asked, lines_of(folder / "stdout"), strict=True):
        comparison.add(f"respath_program/stdout: {line}", places.answer(line.encode()), found)
    return comparison.report("respath_program")


def compare_stored(writes: bool) -> bool:
    """Compares the stored answers of all programs that exist."""
    there = [name for name in PROGRAMS if (CRATES / name / "stdin").exists()]
    results = [compare_program(name, PROGRAMS[name], writes) for name in there]
    results += [compare(writes) for compare in (compare_holdings, compare_verified_set, compare_files)]
    return all([*results, compare_growth()])


def ask(program: Path, asked: list[bytes]) -> list[str]:
    """Returns the answers of a program to lines."""
    run = subprocess.run([program], input=b"\n".join(asked) + b"\n", stdout=subprocess.PIPE, check=True)
    answers = run.stdout.decode("utf-8").split("\n")
    if len(answers) != len(asked) + 1 or answers.pop():
        raise SystemExit(f"{program}: {len(asked)} lines have {len(answers)} answers")
    return answers


def in_parts(asked: Iterator[bytes]) -> Iterator[list[bytes]]:
    """Yields lines in parts of as many as are asked at once."""
    while part := list(islice(asked, AT_ONCE)):
        yield part


def compare_random(seed: int, count: int) -> bool:
    """Compares `count` lines of each command, made from a seed."""
    results = []
    for command in lines.COMMANDS:
        comparison = Comparison()
        made = islice(random_lines.lines(command, seed), count)
        for part in in_parts(made):
            for line, found in zip(part, ask(PROGRAM, part), strict=True):
                comparison.add(f"{command} of seed {seed}: {line!r}", lines.answer(line), found)
        results.append(comparison.report(f"{command}, seed {seed}"))
    return all(results)


def main() -> int:
    """Reads the options and compares."""
    parser = argparse.ArgumentParser(description=__doc__.splitlines()[0])
    parser.add_argument("--write", action="store_true", help="write the stored answers that differ anew")
    parser.add_argument("--random", nargs=2, type=int, metavar=("SEED", "COUNT"))
    options = parser.parse_args()
    if options.random is None:
        return 0 if compare_stored(options.write) else 1
    if not PROGRAM.exists():
        sys.exit("rows.py: respath is not built")
    return 0 if compare_random(*options.random) else 1


if __name__ == "__main__":
    sys.exit(main())
