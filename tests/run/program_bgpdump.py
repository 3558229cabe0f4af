#!/usr/bin/env python3
"""program_bgpdump.py [--print]: compares the stored lines of dumps with what `bgpdump -m` prints.

It writes files in the MRT format (RFC 6396, RFC 8050), one record for each form of a line, and runs `bgpdump -m`. Each
printed line has to be in crates/rows_claims/stdin, as the line of a `route` and of a `why`. With --print the script
prints the lines instead. Without bgpdump it compares nothing, and says so. The status is 1 if a line is not stored.
"""

import shutil
import subprocess
import sys
import tempfile
from collections.abc import Iterator
from ipaddress import ip_address, ip_network
from pathlib import Path

from top import TOP
from blocks import told

ROWS = TOP / "crates" / "rows_claims" / "stdin"
VRPS = "192.0.2.0/23-24 AS64496"
TIME, MICROSECONDS = 1732600000, 123456
SEQUENCE, SET, CONFED_SEQUENCE, CONFED_SET = 2, 1, 3, 4
# Paths by their segments. All but the first and the third have no origin.
PATHS = (
    ((SEQUENCE, (64500, 64496)),),
    ((SEQUENCE, (64500,)), (SET, (64496, 64497))),
    ((CONFED_SEQUENCE, (64512, 64513)), (SEQUENCE, (64500,))),
    ((SEQUENCE, (64500,)), (CONFED_SEQUENCE, (64512, 64513))),
    ((SEQUENCE, (64500,)), (CONFED_SET, (64512, 64513))),
    (),
)
PEERS = {1: ip_address("203.0.113.1").packed, 2: ip_address("2001:db8::1").packed}
NEXT_HOP = ip_address("198.51.100.1").packed
IDENTIFIER = 7
# Types and subtypes of records (RFC 6396, 4; RFC 8050, 3 and 4).
TABLE_DUMP, TABLE_DUMP_V2, BGP4MP, BGP4MP_ET = 12, 13, 16, 17
STATES = {0: 2, 5: 4}
MESSAGES = {1: 2, 4: 4, 6: 2, 7: 4, 8: 2, 9: 4, 10: 2, 11: 4}
FIRST_WITH_IDENTIFIER = 8


def number(value: int, size: int) -> bytes:
    """Returns a number in network byte order."""
    return value.to_bytes(size, "big")


def record(kind: int, subtype: int, body: bytes) -> bytes:
    """Returns a record of an MRT file."""
    if kind == BGP4MP_ET:
        body = number(MICROSECONDS, 4) + body
    return number(TIME, 4) + number(kind, 2) + number(subtype, 2) + number(len(body), 4) + body


def prefix(text: str) -> bytes:
    """Returns a prefix in the encoding of BGP."""
    network = ip_network(text)
    return number(network.prefixlen, 1) + network.network_address.packed[: (network.prefixlen + 7) // 8]


def attribute(flags: int, code: int, value: bytes) -> bytes:
    """Returns a path attribute with a length of one octet."""
    return bytes((flags, code, len(value))) + value


def attributes(path: tuple, size: int, has_next_hop: bool = True) -> bytes:
    """Returns the origin IGP, a path whose AS numbers have `size` octets, and the next hop."""
    segments = (bytes((kind, len(asns))) + b"".join(number(asn, size) for asn in asns) for kind, asns in path)
    found = attribute(0x40, 1, b"\0") + attribute(0x40, 2, b"".join(segments))
    return found + (attribute(0x40, 3, NEXT_HOP) if has_next_hop else b"")


def head(size: int, family: int = 1) -> bytes:
    """Returns the AS numbers and addresses of two speakers."""
    return number(64500, size) + number(64499, size) + number(0, 2) + number(family, 2) + PEERS[family] * 2


def update(withdrawn: str, found: bytes, announced: str, has_identifier: bool = False) -> bytes:
    """Returns a BGP message that withdraws and announces a prefix, if these are not empty."""
    front = number(IDENTIFIER, 4) if has_identifier else b""
    old, new = (front + prefix(text) if text else b"" for text in (withdrawn, announced))
    body = number(len(old), 2) + old + number(len(found), 2) + found + new
    return b"\xff" * 16 + number(19 + len(body), 2) + b"\2" + body


def updates() -> Iterator[bytes]:
    """Yields records of messages, and of sessions whose state changed."""
    for path in PATHS:
        yield record(BGP4MP, 4, head(4) + update("", attributes(path, 4), "192.0.2.0/24"))
    for kind in (BGP4MP, BGP4MP_ET):
        for subtype, size in STATES.items():
            yield record(kind, subtype, head(size) + number(3, 2) + number(6, 2))
        for subtype, size in MESSAGES.items():
            has_identifier = subtype >= FIRST_WITH_IDENTIFIER
            message = update("10.0.0.0/8", attributes(PATHS[0], size), "192.0.2.0/25", has_identifier)
            yield record(kind, subtype, head(size) + message)
    reach = attribute(0x80, 14, number(2, 2) + b"\1\x10" + PEERS[2] + b"\0" + prefix("2001:db8::/32"))
    yield record(BGP4MP, 4, head(4, 2) + update("", attributes(PATHS[0], 4, False) + reach, ""))
    unreach = attribute(0x80, 15, number(2, 2) + b"\1" + prefix("2001:db8:1::/48"))
    yield record(BGP4MP, 4, head(4, 2) + update("", unreach, ""))


def table(family: int, text: str, found: bytes) -> bytes:
    """Returns a record of the older form of tables: one route."""
    network = ip_network(text)
    where = number(0, 4) + network.network_address.packed + bytes((network.prefixlen, 1)) + number(TIME, 4)
    return record(TABLE_DUMP, family, where + PEERS[family] + number(64500, 2) + number(len(found), 2) + found)


def tables() -> Iterator[bytes]:
    """Yields records of the older form of tables."""
    for path in PATHS:
        yield table(1, "192.0.2.0/24", attributes(path, 2))
    reach = attribute(0x80, 14, number(2, 2) + b"\1\x10" + PEERS[2] + b"\0")
    yield table(2, "2001:db8::/32", attributes(PATHS[0], 2, False) + reach)


def entries(text: str, peer: int, found: list[bytes], has_identifier: bool) -> bytes:
    """Returns the routes of a prefix, from one peer."""
    front = number(peer, 2) + number(TIME, 4) + (number(IDENTIFIER, 4) if has_identifier else b"")
    listed = b"".join(front + number(len(one), 2) + one for one in found)
    return number(1, 4) + prefix(text) + number(len(found), 2) + listed


def newer_tables() -> Iterator[bytes]:
    """Yields records of the newer form of tables: the peers, and the routes of each prefix."""
    peers = b"".join(bytes((2 | family - 1,)) + PEERS[1] + PEERS[family] + number(64500, 4) for family in (1, 2))
    yield record(TABLE_DUMP_V2, 1, NEXT_HOP + number(0, 2) + number(2, 2) + peers)
    reach = attribute(0x80, 14, b"\x10" + PEERS[2])
    for subtypes, has_identifier in (((2, 4), False), ((8, 10), True)):
        found = [attributes(path, 4) for path in PATHS]
        yield record(TABLE_DUMP_V2, subtypes[0], entries("192.0.2.0/24", 0, found, has_identifier))
        found = [attributes(PATHS[0], 4, False) + reach]
        yield record(TABLE_DUMP_V2, subtypes[1], entries("2001:db8::/32", 1, found, has_identifier))


def printed(folder: Path, records: Iterator[bytes]) -> list[str]:
    """Returns the lines that bgpdump prints for records."""
    file = folder / "mrt"
    file.write_bytes(b"".join(records))
    done = subprocess.run(["bgpdump", "-q", "-m", file], capture_output=True, text=True, check=True)
    return done.stdout.splitlines()


def main(words: list[str]) -> int:
    """Writes the files, and compares or prints the lines."""
    if not shutil.which("bgpdump"):
        print("left out  the lines of bgpdump: it is not installed")
        return 0
    with tempfile.TemporaryDirectory() as name:
        made = [printed(Path(name), records) for records in (updates(), tables(), newer_tables())]
    lines = list(dict.fromkeys(line for part in made for line in part))
    if words == ["--print"]:
        print("\n".join(lines))
        return 0
    stored = set(ROWS.read_text(encoding="utf-8").splitlines())
    wanted = [f"{command} {VRPS} ; {line}" for line in lines for command in ("route", "why")]
    missing = (f"not in {ROWS.relative_to(TOP)}: {row}" for row in wanted if row not in stored)
    return told(missing, f"lines of bgpdump: {len(lines)}, not stored: {{}}") or int(not all(made))


if __name__ == "__main__":
    sys.exit(main(sys.argv[1:]))
