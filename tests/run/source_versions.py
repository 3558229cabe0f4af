#!/usr/bin/env python3
"""source_versions.py [VERSION]: compares each place that has the version with the file VERSION.

It also compares each copy of the license with the file LICENSE. A package cannot have a file outside its folder, and
`rt ci` accepts no links. PIGY_VERSION_NUMBER is made of the three numbers of the version: 2000 is 0.2.0.

With an argument the file VERSION has to contain this version. ./release passes its own argument. The status is 1 if a
place has another version or none.
"""

import re
import sys
from collections.abc import Iterator

from top import TOP
from blocks import told

MANUAL = r'^\.TH \w+ 1 "@DATE@" "pigyelund (.*)" "User Commands"$'
# The files with the version (`@VERSION@` in made ones) or its number, and a pattern with it as its group.
PLACES = (
    ("version", "CHANGELOG.md", r"\A(?:(?!## ).*\n)*## ([^,\n]*)"),
    ("version", "README.md", r"(?:\bVersion |\./release (?:--deb )?|[a-z\d]_|pigyelund-)(\d+(?:\.\d+)+)"),
    ("version", "crates/origins/src/help.rt", r'^pub const VERSION: &str = "(.*)";$'),
    ("version", "crates/respath_program/src/help.rt", r'^pub const VERSION: &str = "(.*)";$'),
    ("version", "foreign/python/src/pigyelund/__init__.py", r'^__version__ = "(.*)"$'),
    ("version", "foreign/python/pyproject.toml", r'^version = "(.*)"$'),
    ("version", "foreign/rust/Cargo.toml", r'^version = "(.*)"$'),
    ("version", "foreign/js/package.json", r'^  "version": "(.*)",$'),
    ("version", "web/module.js", r'^  "version": "(.*)",$'),
    *(("version", f"vectors/{it.name}", r'^ "version": "(.*)"$') for it in sorted((TOP / "vectors").glob("*.json"))),
    ("made", "foreign/pigyelund.pc", r"^Version: (.*)$"),
    ("made", "docs/origins.1", MANUAL),
    ("made", "docs/respath.1", MANUAL),
    ("number", "foreign/numbers.txt", r"^NUMBER\(VERSION_NUMBER, (\d+)\)$"),
    ("number", "crates/pigyelund_c/src/exports/verify.rt", r"pigy_version\(\) -> u32\n +ensures . result ≡ (\d+) "),
    ("number", "foreign/pigyelund.h", r"^#define PIGY_VERSION_NUMBER (\d+)u$"),
    ("major", "foreign/pigyelund.h", r"^#define PIGY_VERSION_MAJOR (\d+)$"),
    ("minor", "foreign/pigyelund.h", r"^#define PIGY_VERSION_MINOR (\d+)$"),
    ("patch", "foreign/pigyelund.h", r"^#define PIGY_VERSION_PATCH (\d+)$"),
    ("number", "tests/run/release.sh", r"pigy_version\(void\) \{ return (\d+); \}"),
)
LICENSES = "foreign/python/LICENSE", "foreign/rust/LICENSE", "foreign/rust/pigyelund-sys/LICENSE"


def text_of(name: str) -> str:
    """Returns the text of a file, or an empty text if there is no such file."""
    return (TOP / name).read_text() if (TOP / name).is_file() else ""


def faults(asked: list[str]) -> Iterator[str]:
    """Yields what differs in all places."""
    text = text_of("VERSION")
    version = text.removesuffix("\n")
    if not re.fullmatch(r"\d+\.\d+\.\d+\n", text):
        yield f"VERSION: {text!r}, expected three numbers with dots between them, and the end of the line"
    yield from (f"VERSION: version {version}, expected {it}" for it in asked if it != version)
    yield from (f"{name}: not the text of LICENSE" for name in LICENSES if text_of(name) != text_of("LICENSE"))
    major, minor, patch = (int(it) for it in (re.findall(r"\d+", version) + ["0"] * 3)[:3])
    wanted = {"version": version, "made": "@VERSION@", "number": str(major * 1_000_000 + minor * 1_000 + patch)}
    wanted |= {"major": str(major), "minor": str(minor), "patch": str(patch)}
    for what, name, pattern in PLACES:
        found = re.findall(pattern, text_of(name), re.MULTILINE)
        yield from (f"{name}: version {it}, expected {wanted[what]}" for it in found if it != wanted[what])
        if not found:
            yield f"{name}: no version at {pattern}"


if __name__ == "__main__":
    if len(sys.argv) > 2 or any(it.startswith("-") for it in sys.argv[1:]):
        sys.exit("usage: source_versions.py [VERSION]")
    sys.exit(told(faults(sys.argv[1:]), "versions: {} differ"))
