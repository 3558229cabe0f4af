#!/usr/bin/env python3
"""Compares the numbers of the foreign calls in the library and in the header, and runs the programs of pages.

Without arguments it checks these things:

* foreign/numbers.txt has each number of the library. The header adds two kinds of statuses.
* The header defines the numbers of foreign/numbers.txt and no others.
* The sources of the package for Python are for the first Python that the package requires.
* The header states the stack on which foreign/c/test.c makes its calls.
* The package of the shared library lists the symbols of foreign/c/exports.map. Each has the first version with it. The
  header says so, by `@since` or for all calls without it.

tests/run/source_versions.py compares the versions.

With PAGE SECTION PREFIX it runs the program of that section of a page, for example docs/C.md and `Verify a path`. The
section's commands build the program in an empty folder, with the library that is installed under PREFIX. The program
has to print what the page says. The status is 1 if something differs.
"""

import ast
import re
import sys
import tempfile
from pathlib import Path

from top import TOP
from blocks import Report, blocks_of, run, told

HEADER = TOP / "foreign" / "pigyelund.h"
CRATE = TOP / "crates" / "pigyelund_c"
ROUTES = TOP / "crates" / "pigyelund_routes"
SYMBOLS = TOP / "packaging" / "libpigyelund1.symbols"
# The names in pigyelund.h, each with its name in the library's definitions.
CHOICES = dict(
    LENIENT="encoding_number Any", STRICT="encoding_number Canonical",
    REFUSE="mode_number Refuse", TRIM="mode_number Trim",
    HAS_AS="present_number Numbers", HAS_IP="present_number Addresses", HAS_BOTH="present_number Both",
    ASN="kind_number Numbers", IPV4="family_number Ipv4", IPV6="family_number Ipv6",
    VALID="validity_number Valid", NOT_FOUND="validity_number NotFound", INVALID="validity_number Invalid",
    INVALID_AS="reason_number Invalid false", INVALID_LENGTH="reason_number Invalid true",
)  # fmt: skip
# The reasons why a covering VRP does not match a route: two cases of IsMismatch. Their sum is the third case.
MISMATCHES = {"OTHER_AS": 1, "TOO_LONG": 2}
# The kinds of statuses that are no statuses, except those of a constant.
KINDS = {"OVERCLAIM": 0x8000, "BAD_CHANGE": 0x10000}
ROUTE_SPECS = "Families", "Origins", "Reasons"
SOURCES = {"c": "program.c", "cpp": "program.cpp", "toml": "Cargo.toml", "rust": "src/main.rs", "python": "program.py"}


def stored() -> dict[str, int]:
    """Returns the numbers of foreign/numbers.txt, which the tests in each language share."""
    text = (TOP / "foreign" / "numbers.txt").read_text()
    return {name: int(number) for name, number in re.findall(r"^NUMBER\((\w+), (\d+)\)$", text, re.MULTILINE)}


def of_library() -> dict[str, int]:
    """Returns the library's own numbers: its statuses, its other constants, and the version of the calls."""
    statuses = (ROUTES / "src" / "status.rt").read_text()
    constants = re.findall(r"^pub const (\w+): u32 = (\d+);$", statuses, re.MULTILINE)
    found = {name: int(number) for name, number in constants}
    named = *(CRATE / f"specs/{it}" for it in ("Numbers", "Texts")), *(ROUTES / f"specs/{it}" for it in ROUTE_SPECS)
    specs = "".join(file.with_suffix(".antt").read_text() for file in named)
    choices = dict(re.findall(r"^(\w+_number \w+(?: \w+)?) = (\d+)$", specs, re.MULTILINE))
    found |= {name: int(choices[of]) for name, of in CHOICES.items()} | MISMATCHES | KINDS
    none = re.search(r"NO_VALIDITY: u8 = (\d+);", (ROUTES / "src" / "validate.rt").read_text())
    found |= {"NO_VALIDITY": int(none[1])} if none else {}
    texts = (ROUTES / "specs" / "RouteTexts.antt").read_text()
    limits = re.findall(r"^Is(Vrp|Route)TextWritten .* (\d+) \(IsNo", texts, re.MULTILINE)
    found |= {f"{name.upper()}_TEXT_MAX": int(limit) + 1 for name, limit in limits}  # with the NUL
    calls = (CRATE / "src" / "exports" / "verify.rt").read_text()
    version = re.search(r"fn pigy_version\(\) -> u32\s+ensures \{ result ≡ (\d+) \}", calls)
    return found | {"VERSION_NUMBER": int(version[1])} if version else found


def of_header() -> dict[str, int]:
    """Returns the numbers that the header defines."""
    text = re.sub(r"/\*.*?\*/", "", HEADER.read_text(), flags=re.DOTALL)
    listed = "".join(re.findall(r"PIGY_ENUM \{(.*?)\}", text, re.DOTALL))
    found = re.findall(r"PIGY_(\w+) = (\w+)", listed) + re.findall(r"^#define PIGY_(\w+) (\d+)u$", text, re.MULTILINE)
    return {name: int(number, 0) for name, number in found}


def of_python() -> list[str]:
    """Returns what differs in the first Python that the package requires. mypy tells later names of the library."""
    folder = TOP / "foreign" / "python"
    least = re.search(r'^requires-python = ">=3\.(\d+)"$', (folder / "pyproject.toml").read_text(), re.MULTILINE)
    if not least:
        return ["foreign/python/pyproject.toml requires no first Python"]
    faults = []
    for file in sorted((folder / "src" / "pigyelund").glob("*.py")):
        try:
            ast.parse(file.read_text(), feature_version=(3, int(least[1])))
        except SyntaxError as fault:
            faults.append(f"{file.relative_to(TOP)} is not Python 3.{least[1]}: {fault}")
    return faults


def of_stack() -> list[str]:
    """Returns the places that state another stack than the one on which foreign/c/test.c makes its calls."""
    test = (TOP / "foreign" / "c" / "test.c").read_text()
    names = ("STACK", "STACK_OF_OTHERS", "USED", "USED_TO_READ")
    stack, others, used, to_read = (re.search(rf"\b{name} = (\d+) << 10\b", test) for name in names)
    if not stack or not others or not used or not to_read:
        return [f"foreign/c/test.c lacks one of {', '.join(names)}"]
    wanted = (
        f"The stack has {stack[1]} KiB left for each call that reads JSON, and {others[1]} KiB for each other call.",
        f"less than {to_read[1]} KiB for the deepest JSON that it reads, and each other call less than {used[1]} KiB.",
    )
    said = re.sub(r"\s+\*\s+", " ", HEADER.read_text())
    return [f"{HEADER.name} doesn't say: {text}" for text in wanted if text not in said]


def of_symbols() -> list[str]:
    """Returns what differs between the symbols that the linker exports and those that the package lists."""
    nodes = re.findall(r"^(\w[\w.]*) \{(.*?)\}", (TOP / "foreign" / "c" / "exports.map").read_text(), re.M | re.S)
    exported = {f"{name}@{node}" for node, body in nodes for name in (node, *re.findall(r"^ *(pigy_\w+);", body, re.M))}
    lines = re.findall(r"^ (\S+) (\S+)$", SYMBOLS.read_text(), re.MULTILINE)
    file, last = SYMBOLS.relative_to(TOP), numbered((TOP / "VERSION").read_text())
    faults = [f"{file} and exports.map: {it} is in one alone" for it in sorted(exported ^ {name for name, _ in lines})]
    faults += [f"{file}: {name} is new in {it}, after VERSION" for name, it in lines if numbered(it) > last]
    head, *comments = re.findall(r"^/\*\*.*?\*/[^;]*", HEADER.read_text(), re.M | re.S)
    for call, version in ((name.partition("@")[0], it) for name, it in lines if name.startswith("pigy_")):
        own = [it for it in comments if re.search(rf"\b{call}\([^/]*\Z", it) and "@since" in it]
        if not (f"@since {version}\n" in own[0] if own else f"All calls are in version {version}," in head):
            faults.append(f"{HEADER.name} doesn't say that {call} is new in {version}")
    return faults


def numbered(version: str) -> list[int]:
    """Returns the numbers of a version."""
    return [int(it) for it in version.strip().split(".")]


def numbers_differ() -> list[str]:
    """Returns what differs in numbers and names."""
    numbers, own = stored(), of_library()
    faults = [
        f"{name} is {own.get(name)} in the library and {numbers.get(name)} in numbers.txt"
        for name in sorted(numbers.keys() | own.keys())
        if own.get(name) != numbers.get(name)
    ]
    differing = sorted(name for name, _ in of_header().items() ^ numbers.items())
    faults += [f"pigyelund.h and numbers.txt: {name} differs" for name in dict.fromkeys(differing)]
    return faults + of_python() + of_stack() + of_symbols()


def compare_program(page: str, title: str, prefix: str) -> int:
    """Runs the program of a section, and compares what it prints with the page. Returns the status of the test."""
    report, blocks = Report(), blocks_of(page, f"## {title}") or blocks_of(page, f"### {title}")
    if not blocks:
        return told([f"{page} has no section {title} with a program"])
    commands, shown = "".join(it.text for it in blocks if it.kind == "sh"), "".join(it.shown for it in blocks)
    with tempfile.TemporaryDirectory() as folder:
        for block in (it for it in blocks if it.kind not in ("sh", "text")):
            file = Path(folder) / SOURCES[block.kind]
            file.parent.mkdir(exist_ok=True)
            file.write_text(block.text.replace('"REPOSITORY/', f'"{TOP}/'))
        ran = run(commands or "exit 1", Path(folder), PREFIX=prefix, REPOSITORY=str(TOP))
    report.compare(blocks[0].place, f"status 0\n{shown}", f"status {ran.returncode}\n{ran.stdout}", ran.stderr)
    return report.status()


def main() -> int:
    """Compares the numbers, or runs the program that the arguments name."""
    if sys.argv[1:]:
        return compare_program(*sys.argv[1:])
    return told(numbers_differ())


if __name__ == "__main__":
    sys.exit(main())
