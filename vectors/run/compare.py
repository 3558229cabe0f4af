#!/usr/bin/env python3
"""compare.py [OPTION ..] NAME COMMAND ..: asks a command every case, and compares its answers.

The command reads a line for each case and writes a line for each. A line has fields with tabs between them: the file's
name, and what `fields` below says. An answer is `accept` or `refuse`, or `-` if the case does not apply. For DER it may
also be `canonical` or `valid`. `abort` says that the implementation ended the program. A value may follow after a
space: it is compared then. docs/CONFORMANCE.md has the values.

For each file it prints how many answers agree, and the flags of those that differ. The status is 1 if an answer
differs, and 2 if the command fails. The options are:

  --only FILE      take one file
  --without FLAG   leave out the cases with a flag, such as Decision
  --json FILE      write the counts of each flag
  --show           print each case that differs
"""

import argparse
import json
import subprocess
import sys
from collections import Counter
from collections.abc import Callable, Iterable
from pathlib import Path
from typing import Any

VECTORS = Path(__file__).resolve().parent.parent
Case = dict[str, Any]
Answer = tuple[str, str | None]
NOT_APPLICABLE: Answer = ("-", None)
SKIPPED = 77


def files(only: str | None = None) -> dict[str, dict[str, Any]]:
    """The files of vectors by their names."""
    return {it.stem: json.loads(it.read_text(encoding="utf-8")) for it in sorted(VECTORS.glob(f"{only or '*'}.json"))}


def vrp_text(vrp: dict[str, Any]) -> str:
    """A VRP as a text."""
    return f"{vrp['prefix']}-{vrp['maxLength']} AS{vrp['asn']}"


def vrp_texts(vrps: list[dict[str, Any]]) -> str:
    """VRPs as a text."""
    return ", ".join(map(vrp_text, vrps))


def octets_of_file(asked: Case) -> bytes:
    """The octets of a file of VRPs."""
    return asked["text"].encode() if "text" in asked else bytes.fromhex(asked["octets"])


def certificate_field(asked: Case) -> str:
    """A certificate of a path."""
    return f"{asked['policy']} {asked['octets'] or '-'}"


FIELDS: dict[str, Callable[[Case], list[str]]] = {
    "der_as": lambda it: [it["octets"]],
    "der_ip": lambda it: [it["octets"]],
    "text_as": lambda it: [it["text"].encode().hex()],
    "text_ip": lambda it: [it["family"], it["text"].encode().hex()],
    "set_operations": lambda it: [it["operation"], it["kind"], ", ".join(it["left"]), ", ".join(it["right"])],
    "verify_path": lambda it: [it["kind"], it["anchor"]["octets"] or "-", *map(certificate_field, it["certificates"])],
    "prefix_cover": lambda it: [it["family"], ", ".join(it["blocks"])],
    "origin_validation": lambda it: [it["prefix"], str(it["asn"]), vrp_texts(it["vrps"])],
    "vrp_updates": lambda it: [vrp_texts(it[name]) for name in ("table", "withdrawn", "announced")],
    "vrp_files": lambda it: [octets_of_file(it).hex()],
}


def fields(name: str, case: Case) -> str:
    """The line that asks a case."""
    return "\t".join([name, *FIELDS[name](case["input"])])


def expected(name: str, case: Case) -> dict[str, str]:
    """The answers that agree, each with the value that it has if it has one."""
    wanted = case["expected"]
    result = wanted.get("result")
    if name.startswith("der_"):
        if result == "invalid":
            return {"refuse": ""}
        value = wanted["canonical"]
        return {"accept": value, result: value} | ({"refuse": ""} if result == "valid" else {})
    if result == "invalid":
        values = {"verify_path": "{certificate} {overclaimed}", "vrp_updates": "{errorCode} {index}"}
        return {"refuse": values.get(name, "").format(**wanted)}
    if "holds" in wanted:
        return {"accept": str(wanted["holds"]).lower()}
    if "prefixes" in wanted:
        return {"accept": ", ".join(wanted["prefixes"])}
    return {"accept": vrp_texts(wanted["vrps"]) if "vrps" in wanted else wanted.get("validity", wanted.get("text"))}


def outcome(name: str, case: Case, answer: Answer) -> tuple[bool, str]:
    """Whether an answer agrees, and what the implementation does: differs is to accept or refuse with another value."""
    word, value = answer
    wanted = expected(name, case)
    is_other = value is not None and word in wanted and value != wanted[word]
    done = {"accept": "accepts", "refuse": "refuses", "abort": "aborts"}.get(word, word)
    return word in wanted and not is_other, "differs" if is_other else done


class Report:
    """What an implementation answers to the cases of all files."""

    def __init__(self, name: str) -> None:
        self.name = name
        self.files: dict[str, Counter[str]] = {}
        self.flags: dict[str, dict[str, Counter[str]]] = {}
        self.differing: dict[str, Counter[str]] = {}
        self.shown: list[str] = []

    def add(self, file: str, notes: dict[str, Any], case: Case, answer: Answer) -> None:
        """Counts an answer. It counts for a rule if the case breaks no other one."""
        if answer[0] == "-":
            self.files[file]["not applicable"] += 1
            return
        agrees, word = outcome(file, case, answer)
        self.files[file]["agree" if agrees else "differ"] += 1
        broken = [it for it in case["flags"] if notes[it]["breaksRule"]]
        for flag in case["flags"] if not broken else broken if len(broken) == 1 else ():
            self.flags.setdefault(file, {}).setdefault(flag, Counter())[word] += 1
            self.flags[file][flag]["agree" if agrees else "disagree"] += 1
        if not agrees:
            self.differing.setdefault(file, Counter()).update(case["flags"])
            said = f"{file} {case['tcId']}: {answer[0]} {answer[1] or ''}, expected {json.dumps(case['expected'])}"
            self.shown.append(f"{said}, input {json.dumps(case['input'])[:400]}")

    def tell(self) -> int:
        """Prints the counts, and returns the status."""
        for file, counts in self.files.items():
            said = ", ".join(f"{counts[it]} {it}" for it in ("agree", "differ", "not applicable"))
            print(f"{self.name}: {file}: {counts.total()} cases, {said}")
            if file in self.differing:
                flags = ", ".join(f"{it} {count}" for it, count in self.differing[file].most_common())
                print(f"  flags of those that differ: {flags}")
        return 1 if self.differing else 0


def run(name: str, answers: Callable[[str, list[Case]], Iterable[Answer]], words: list[str]) -> int:
    """Compares the answers of an implementation to the cases of each file."""
    parser = argparse.ArgumentParser(prog=name, description="Compares an implementation with the vectors.")
    parser.add_argument("--json", type=Path, metavar="FILE", help="write the counts of each flag")
    parser.add_argument("--only", choices=FIELDS, metavar="NAME", help="one file of vectors")
    parser.add_argument("--show", action="store_true", help="print each case that differs")
    parser.add_argument("--without", action="append", default=[], metavar="FLAG", help="leave out cases with a flag")
    options = parser.parse_args(words)
    asked = files(options.only)
    for flag in options.without:
        if not any(flag in vectors["notes"] for vectors in asked.values()):
            parser.error(f"--without {flag}: no file has this flag")
    report = Report(name)
    for file, vectors in asked.items():
        cases = [it for it in vectors["tests"] if not {*it["flags"]} & {*options.without}]
        report.files[file] = Counter()
        for case, answer in zip(cases, answers(file, cases) if cases else (), strict=True):
            report.add(file, vectors["notes"], case, answer)
    if options.show and report.shown:
        print("\n".join(report.shown))
    if options.json:
        options.json.write_text(json.dumps({"name": name, "files": report.files, "flags": report.flags}))
    return report.tell()


def skip(why: str) -> int:
    """Says why an implementation is not run, and returns the status of a runner that is skipped."""
    print(f"skipped: {why}")
    return SKIPPED


def asked_by_lines(command: list[str]) -> Callable[[str, list[Case]], Iterable[Answer]]:
    """What a command answers to lines."""

    def answers(file: str, cases: list[Case]) -> list[Answer]:
        asked = "".join(f"{fields(file, case)}\n" for case in cases)
        try:
            ran = subprocess.run(command, input=asked.encode(), stdout=subprocess.PIPE, check=False)
        except OSError as fault:
            print(fault)
            sys.exit(2)
        lines = ran.stdout.decode().split("\n")[:-1]
        if ran.returncode or len(lines) != len(cases):
            print(f"{command[0]}: status {ran.returncode}, {len(lines)} answers to {len(cases)} cases of {file}")
            sys.exit(2)
        return [(it.partition(" ")[0], it.partition(" ")[2] if " " in it else None) for it in lines]

    return answers


def main(words: list[str]) -> int:
    """Reads the options, which are in front of the name, and compares."""
    at = 0
    while at < len(words) and words[at].startswith("-"):
        at += 2 if words[at] in ("--json", "--only", "--without") else 1
    if len(words) < at + 2:
        print(__doc__)
        return 2
    return run(words[at], asked_by_lines(words[at + 1 :]), words[:at])


if __name__ == "__main__":
    sys.exit(main(sys.argv[1:]))
