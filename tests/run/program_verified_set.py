#!/usr/bin/env python3
"""Runs the built `example_verified_set` on more certificates than its stored run, in each mode, against the reference.

Some octets are canonical, and only a lenient reader takes the others. Some claims are inside the issuer's resources,
and others exceed them. The reason of some refusals is longer than what an `anyhow::Error` keeps. The program prints a
verified set to standard output. Otherwise its status is 1, and the whole reason is on standard error. The status of
this script is 1 if a case differs.
"""

import subprocess
import sys
import tempfile
from collections.abc import Iterator
from pathlib import Path

import top  # noqa: F401
from reference import calls_of_callers, lines
from rows import CRATES, Comparison

CRATE = CRATES / "example_verified_set"
PROGRAM = CRATE / "out" / "example_verified_set"
ISSUER = ("AS64496-AS64511", "192.0.2.0/24", "2001:db8::/32")
# The modes: whether each reads octets that are not canonical, and whether it trims overclaimed resources.
MODES = {
    "refuse": (True, False), "trim": (True, True), "canonical-refuse": (False, False), "canonical-trim": (False, True)
}
NUMBERS, ADDRESSES = "der as AS64500", "der v4 192.0.2.0/25"


def octets(line: str) -> str:
    """Returns the answer to a line of `der`: octets in hexadecimal."""
    return lines.answer(line.encode())


def cases() -> Iterator[tuple[str, str, str, bool, bool]]:
    """Yields the cases.

    A case is a name, the octets of both extensions, whether they are canonical, and whether the issuer has the claims.
    """
    yield "claims that the issuer has", octets(NUMBERS), octets(ADDRESSES), True, True
    yield "AS numbers in another order", "300ea00c300a020300fbf6020300fbf5", octets(ADDRESSES), False, True
    halves = "3016301404020001300e030507c0000200030507c0000280"
    yield "IPv4 addresses in two halves", octets(NUMBERS), halves, False, True
    for count in (1, 2, 5, 6, 7, 8, 9, 40):
        numbers = octets("der as AS64500, " + ", ".join(f"AS{4200000000 + 2 * at}" for at in range(count)))
        yield f"{count} AS numbers too many", numbers, octets(ADDRESSES), True, False
        v4 = octets("der v4 192.0.2.7, " + ", ".join(f"198.51.100.{2 * at}" for at in range(count)))
        yield f"{count} IPv4 addresses too many", octets(NUMBERS), v4, True, False
        v6 = octets("der v6 " + ", ".join(f"2001:db9:ffff:ffff:ffff::{2 * at:x}" for at in range(count)))
        yield f"{count} IPv6 addresses too many", octets(NUMBERS), v6, True, False


def run(arguments: list[str], numbers: str, addresses: str) -> tuple[int, str, str]:
    """Runs the program on two files. Returns its status, its standard output and its standard error."""
    with tempfile.TemporaryDirectory() as folder:
        for name, text in (("numbers", numbers), ("addresses", addresses)):
            Path(folder, name).write_bytes(bytes.fromhex(text))
        ran = subprocess.run([PROGRAM, *arguments], cwd=folder, capture_output=True, text=True)
    return ran.returncode, ran.stdout, ran.stderr


def main() -> int:
    """Runs the cases, and compares."""
    if not PROGRAM.exists():
        print("left out: example_verified_set is not built (rt ci builds it, and rt run in its folder)")
        return 0
    comparison, longest = Comparison(), 0
    for name, numbers, addresses, is_canonical, is_inside in cases():
        for mode, (is_lenient, is_trimmed) in MODES.items():
            line = f"verified_octets {' ; '.join(ISSUER)} | {mode} {numbers} {addresses}"
            text = calls_of_callers.answer_of_certificates(line).removeprefix("error: ")
            is_verified = (is_lenient or is_canonical) and (is_trimmed or is_inside)
            wanted = (0, f"{text}\n", "") if is_verified else (1, "", f"Error: {text}\n")
            found = run([*ISSUER, "numbers", "addresses", mode], numbers, addresses)
            longest = max(longest, 0 if is_verified else len(text))
            comparison.add(f"{name}, {mode}", wanted, found)
    files = ["numbers", "addresses"]
    fault = lines.answer(b"norm as x").removeprefix("error: ")
    for arguments, reason in (
        ([*ISSUER, *files], "arguments: ASN-LIST IPV4-LIST IPV6-LIST NUMBERS-FILE ADDRESSES-FILE MODE"),
        ([*ISSUER, *files, "strict"], "modes: refuse, trim, canonical-refuse, canonical-trim"),
        (["x", *ISSUER[1:], *files, "trim"], f"cannot parse ASN resources: {fault}"),
    ):
        comparison.add(f"{arguments}", (1, "", f"Error: {reason}\n"), run(arguments, "", ""))
    counts = f"{comparison.compared} runs, the longest reason has {longest} bytes, {comparison.differing} differ"
    print(f"example_verified_set: {counts}")
    return 1 if comparison.differing else 0


if __name__ == "__main__":
    sys.exit(main())
