#!/usr/bin/env python3
"""programs.py [--every N] [--show] [--only NAME] [--json FILE]: asks this project's programs, respath and origins.

RESPATH and ORIGINS name the programs; if they are not set, those of the repository, and else those of the PATH. The
programs read leniently. A value is canonical if `der` writes its octets. If a set is inside another, `path` accepts it,
and else it names what is overclaimed. Each file of VRPs is a run of origins: --every asks one of N of these cases. The
status is 77 if a program is missing."""

import os
import shutil
import subprocess
import sys
import tempfile
from collections.abc import Callable, Iterable, Iterator
from concurrent.futures import ThreadPoolExecutor
from pathlib import Path

from compare import NOT_APPLICABLE, Answer, Case, octets_of_file, run, skip, vrp_text

TOP = Path(__file__).resolve().parent.parent.parent
REFUSED = "refused at step "
# The crates of the programs.
CRATES = {"respath": "respath_program", "origins": "origins"}


def program(name: str) -> str:
    """The place of a program, an empty text if there is none."""
    built = TOP / "crates" / CRATES[name] / "out" / CRATES[name]
    return os.environ.get(name.upper()) or (str(built) if built.is_file() else shutil.which(name)) or ""


def ask(lines: list[str]) -> list[str]:
    """What respath answers to lines."""
    asked = "".join(f"{it}\n" for it in lines).encode()
    answers = subprocess.run([program("respath")], input=asked, stdout=subprocess.PIPE, check=True).stdout
    return answers.decode().split("\n")[:-1]


def content(octets: bytes) -> bytes:
    """The content of a value of DER."""
    return octets[2 + (octets[1] & 0x7F if octets[1] & 0x80 else 0) :]


def sequence(content_of_it: bytes) -> bytes:
    """A SEQUENCE."""
    size = len(content_of_it)
    octets = bytes([size]) if size < 0x80 else size.to_bytes((size.bit_length() + 7) // 8, "big")
    return b"\x30" + (bytes([0x80 + len(octets)]) if size >= 0x80 else b"") + octets + content_of_it


def of_der(cases: list[Case], kinds: tuple[str, ...]) -> Iterator[Answer]:
    """What the values encode, and whether they are canonical: the claims of each kind are written again."""
    octets = [case["input"]["octets"] for case in cases]
    read = [ask([f"read {kind} {it}" for it in octets]) for kind in kinds]
    written = [
        ask([f"der {kind} {'' if it.startswith(('error', 'missing')) else it}" for it in found])
        for kind, found in zip(kinds, read, strict=True)
    ]
    for asked, found, parts in zip(octets, zip(*read, strict=True), zip(*written, strict=True), strict=True):
        if found[0].startswith("error"):
            yield "refuse", None
            continue
        there = [bytes.fromhex(it) for it in parts if it != "missing"]
        whole = there[0] if len(there) == 1 else sequence(b"".join(map(content, there)))
        yield "canonical" if whole.hex() == asked else "valid", whole.hex()


def of_lines(lines: list[str | None]) -> Iterator[Answer]:
    """What lines are answered; None is a line that cannot be written."""
    answers = iter(ask([it for it in lines if it is not None]))
    for line in lines:
        answer = next(answers) if line is not None else None
        if answer is None:
            yield NOT_APPLICABLE
        elif answer.startswith(REFUSED):
            step, _, text = answer.removeprefix(REFUSED).partition(": ")
            yield "refuse", f"{step} {text.partition(': ')[2]}"
        else:
            yield ("refuse", None) if answer.startswith("error: ") else ("accept", answer)


def of_operations(cases: list[Case]) -> Iterator[Answer]:
    """The results of operations, by paths: a claim that is refused has the difference, one that is trimmed the rest."""
    asked = [case["input"] for case in cases]
    lists = [(it["kind"], ", ".join(it["left"]), ", ".join(it["right"])) for it in asked]
    inside = ask([f"path {kind} {left} | refuse {right}" for kind, left, right in lists])
    beyond = ask([f"path {kind} {right} | refuse {left}" for kind, left, right in lists])
    common = ask([f"path {kind} {left} | trim {right}" for kind, left, right in lists])
    both = ask([f"norm {kind} {left}, {right}" for kind, left, right in lists])
    for it, contained, other, shared, joined in zip(asked, inside, beyond, common, both, strict=True):
        has_all, is_in = (not found.startswith(REFUSED) for found in (contained, other))
        found = {
            "union": joined,
            "intersection": shared,
            "difference": "" if is_in else other.partition(" resources: ")[2],
            "contains": str(has_all).lower(),
            "equal": str(has_all and is_in).lower(),
        }
        yield "accept", found[it["operation"]]


def path_line(case: Case) -> str:
    """The line of a path."""
    asked = case["input"]
    steps = [
        it["claim"] if it["claim"] in ("inherit", "missing") else f"{it['policy']} {it['claim']}"
        for it in asked["certificates"]
    ]
    anchor = asked["anchor"]["claim"].replace("missing", "")
    return " | ".join([f"path {asked['kind']} {anchor}", *steps])


def origins(words: list[str], files: list[bytes], asked: str = "") -> subprocess.CompletedProcess[bytes]:
    """A run of origins on files."""
    with tempfile.TemporaryDirectory() as folder:
        names = [Path(folder, str(at)) for at in range(len(files))]
        for name, octets in zip(names, files, strict=True):
            name.write_bytes(octets)
        return subprocess.run([program("origins"), *words, *names], input=asked.encode(), capture_output=True)


def file_of(vrps: list[Case]) -> bytes:
    """A file of VRPs."""
    return "".join(f"AS{it['asn']},{it['prefix']},{it['maxLength']}\n" for it in vrps).encode()


def of_route(case: Case) -> Answer:
    """The validity of a route."""
    asked = case["input"]
    if not asked["vrps"]:
        return NOT_APPLICABLE  # the program refuses a file without VRPs
    word = origins([], [file_of(asked["vrps"])], f"{asked['prefix']} AS{asked['asn']}\n").stdout.decode().strip()
    return "accept", "invalid" if word in ("invalid-as", "invalid-length") else word


def of_file(case: Case) -> Answer:
    """The VRPs of a file, which --table sorts: their order in the file is not compared."""
    ran = origins(["--table"], [octets_of_file(case["input"])])
    if ran.returncode:
        return "refuse", None
    found = ran.stdout.decode().splitlines()
    wanted = [vrp_text(it) for it in case["expected"].get("vrps", [])]
    return "accept", ", ".join(wanted) if sorted(found) == sorted({*wanted}) else ", ".join(found)


def of_update(case: Case) -> Answer:
    """The changes between the table and what is expected, which --diff finds again."""
    asked, wanted = case["input"], case["expected"].get("vrps")
    if not asked["table"] or not wanted:
        return NOT_APPLICABLE  # the program applies no changes, and refuses a file without VRPs
    ran = origins(["--diff"], [file_of(asked["table"]), file_of(wanted)])
    gone, new = ({vrp_text(it) for it in asked[name]} for name in ("withdrawn", "announced"))
    lines = {f"withdraw {it}" for it in gone - new} | {f"announce {it}" for it in new - gone}
    return (
        ("accept", None)
        if ran.returncode == 0 and {*ran.stdout.decode().splitlines()} == lines
        else ("refuse", ran.stdout.decode())
    )


def side_by_side(call: Callable[[Case], Answer], cases: list[Case], every: int) -> list[Answer]:
    """The answers of many runs; not every case is asked."""
    with ThreadPoolExecutor(4) as pool:
        return list(pool.map(lambda it: NOT_APPLICABLE if it[0] % every else call(it[1]), enumerate(cases)))


def answers(file: str, cases: list[Case], every: int = 1) -> Iterable[Answer]:
    """The answers to the cases of a file."""
    asked = [case["input"] for case in cases]
    lines: dict[str, Callable[[Case], str]] = {
        "text_as": lambda it: f"norm as {it['text']}",
        "text_ip": lambda it: f"norm {it['family']} {it['text']}",
        "prefix_cover": lambda it: f"cover {it['family']} {', '.join(it['blocks'])}",
    }
    if file in lines:
        return of_lines([None if "\n" in line else line for line in map(lines[file], asked)])
    if file.startswith("der_"):
        return of_der(cases, ("as",) if file == "der_as" else ("v4", "v6"))
    if file == "verify_path":
        return of_lines(list(map(path_line, cases)))
    if file == "set_operations":
        return of_operations(cases)
    return side_by_side(
        {"origin_validation": of_route, "vrp_files": of_file, "vrp_updates": of_update}[file], cases, every
    )


def main(words: list[str]) -> int:
    """Compares the programs with the vectors."""
    for name in CRATES:
        if not program(name):
            return skip(f"{name} is not built, and is not on the PATH")
    every = 1
    if "--every" in words:
        at = words.index("--every")
        every, words = int(words[at + 1]), words[:at] + words[at + 2 :]
    return run("pigyelund", lambda file, cases: answers(file, cases, every), words)


if __name__ == "__main__":
    sys.exit(main(sys.argv[1:]))
