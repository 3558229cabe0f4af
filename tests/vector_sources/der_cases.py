"""The cases of der_as.json and der_ip.json: values of the two extensions, stored ones and made ones."""

import random
from collections.abc import Callable, Iterator

from . import by_reference as reference
from .by_reference import DerFault
from .cases import Case, Difference, Flag, Rows, VectorFile, agree, ordered
from .der_walk import DECISION, OF_AS, OF_IP, READABLE, flags_of

REASONS = {
    "Truncated": "the octets end within a value",
    "BadTag": "a tag is not one that the grammar has there",
    "BadLength": "a length is indefinite, or has more octets than it needs, or more than eight",
    "BadInteger": "an INTEGER is not the shortest encoding of a number from 0 to 4294967295",
    "BadBitString": "a BIT STRING has no octet for its unused bits, or a wrong number of them",
    "BadNull": "a NULL has content",
    "TrailingData": "octets follow a value that should be the last one",
    "BadPrefix": "a BIT STRING has more bits than an address of its family",
    "BadFamily": "an address family is not the two octets of IPv4 or IPv6",
    "ReversedRange": "the minimum of a range is above its maximum",
    "EmptyBlocks": "a list has no block",
    "DuplicateFamily": "an address family is there twice",
    "NoFamily": "there is no address family",
}
# Faults of the values that only addresses have.
OF_ADDRESSES = ("BadBitString", "BadPrefix", "BadFamily", "DuplicateFamily", "NoFamily")
OF_NUMBERS = ("BadInteger",)
DECISION_FLAG = Flag(
    "the result is this project's own decision", "docs/DECISIONS.md, Conformance vectors", link=DECISION
)
# No RFC forbids these.
DECIDED = {"RangeIsNumber", "UnknownFamily"}
HEADER = [
    "input.octets is the value of the extension, in hexadecimal.",
    "expected.result is canonical, valid (it can be read, and is not canonical) or invalid.",
    "A reader that refuses a value that is valid but not canonical agrees too.",
    "expected.canonical is the canonical value of the same resources.",
    "expected.fault and expected.reason are this project's: any refusal agrees.",
]


def tlv(tag: int, *contents: bytes) -> bytes:
    """Returns a value of DER."""
    content = b"".join(contents)
    size = len(content)
    if size < 0x80:
        return bytes([tag, size]) + content
    octets = size.to_bytes((size.bit_length() + 7) // 8, "big")
    return bytes([tag, 0x80 + len(octets)]) + octets + content


def integer(number: int) -> bytes:
    """Returns an INTEGER in the fewest octets."""
    return tlv(2, number.to_bytes((number + (number < 0)).bit_length() // 8 + 1, "big", signed=True))


def as_value(*blocks: bytes) -> bytes:
    """Returns AS identifiers that list blocks."""
    return tlv(0x30, tlv(0xA0, tlv(0x30, *blocks)))


def as_range(first: int, last: int) -> bytes:
    """Returns a range of AS numbers."""
    return tlv(0x30, integer(first), integer(last))


def bits(text: str, unused: int = 0) -> bytes:
    """Returns a BIT STRING of bits. The unused bits are the last bits of `unused`."""
    spare = -len(text) % 8
    number = (int(text or "0", 2) << spare) + (unused & (1 << spare) - 1)
    return tlv(3, bytes([spare]) + number.to_bytes((len(text) + spare) // 8, "big"))


def prefix(address: str, length: int, unused: int = 0) -> bytes:
    """Returns a prefix of IPv4, or of IPv6 if the address has a colon."""
    kind = "v6" if ":" in address else "v4"
    return bits(f"{reference.bounds(kind, address)[0]:0128b}"[:length], unused)


def ip_range(first: str, last: str, is_long: bool = False) -> bytes:
    """Returns a range of addresses. Its bounds are not shortened if `is_long` is true."""
    kind = "v6" if ":" in first else "v4"
    size = 128 if kind == "v6" else 32
    low = f"{reference.bounds(kind, first)[0]:0128b}"[:size]
    high = f"{reference.bounds(kind, last)[1]:0128b}"[:size]
    return tlv(0x30, bits(low if is_long else low.rstrip("0")), bits(high if is_long else high.rstrip("1")))


def family(number: int, *choice: bytes) -> bytes:
    """Returns a family: its number, and the values after it."""
    return tlv(0x30, tlv(4, number.to_bytes(2, "big")), *choice)


def listed(number: int, *blocks: bytes) -> bytes:
    """Returns a family that lists blocks."""
    return family(number, tlv(0x30, *blocks))


def ip_value(*families: bytes) -> bytes:
    """Returns IP address blocks."""
    return tlv(0x30, *families)


def expected_as(octets: bytes) -> dict:
    """Returns the expected answer for AS identifiers."""
    claim = reference.as_claim(octets)
    canonical = reference.written_as_claim(claim)
    result = "canonical" if canonical == octets else "valid"
    return {"result": result, "text": reference.print_claim("as", claim), "canonical": canonical.hex()}


def expected_ip(octets: bytes) -> dict:
    """Returns the expected answer for IP address blocks."""
    claims = reference.families(octets)
    canonical = reference.written_families(claims)
    texts = {
        kind: None if claim is None else reference.print_claim(kind, claim)
        for kind, claim in (("v4", claims.v4), ("v6", claims.v6))
    }
    return {"result": "canonical" if canonical == octets else "valid", "canonical": canonical.hex()} | texts


def is_strict(octets: bytes, is_as: bool) -> bool:
    """Returns whether the strict reader of the reference accepts a value."""
    try:
        reference.as_claim(octets, True) if is_as else reference.families(octets, True)
    except DerFault:
        return False
    return True


def case_of(octets: bytes, is_as: bool) -> Case:
    """Returns the case of a value. The reference, both its readers, and the flags have to agree."""
    flags, known = flags_of(octets, is_as), OF_AS if is_as else OF_IP
    try:
        expected = expected_as(octets) if is_as else expected_ip(octets)
    except DerFault as fault:
        name = reference.name_of(fault)
        expected = {"result": "invalid", "fault": name, "reason": REASONS[name]}
    broken = {it for it in flags if known[it].breaks}
    wanted = "canonical" if not broken else "valid" if broken <= READABLE else "invalid"
    if expected["result"] != wanted or is_strict(octets, is_as) != (wanted == "canonical"):
        raise Difference(f"{octets.hex()}: {expected}, and it breaks {sorted(broken)}")
    if broken & DECIDED:
        flags = {*flags, "Decision"}
    return Case(ordered(flags, known), {"octets": octets.hex()}, expected)


def octets_of(text: str) -> bytes | None:
    """Returns the octets of a row, or None if it has no octets or more than 400."""
    try:
        octets = bytes.fromhex(text) if " " not in text else None
    except ValueError:
        return None
    return octets if octets and len(octets) <= 400 else None


# The values that rows have, whole ones and parts, and how each becomes the value of an extension.
AS_PARTS: dict[str, Callable[[bytes], bytes]] = {
    "asres": lambda it: it,
    "asblock": as_value,
    "asn": as_value,
    "asnopt": as_value,
    "asblocks": lambda it: tlv(0x30, tlv(0xA0, it)),
}
IP_PARTS: dict[str, Callable[[bytes], bytes]] = {
    "families": lambda it: it,
    "family": lambda it: ip_value(tlv(0x30, it, b"\5\0")),
    "ipblock4": lambda it: ip_value(listed(1, it)),
    "ipblock6": lambda it: ip_value(listed(2, it)),
    "prefix4": lambda it: ip_value(listed(1, it)),
    "prefix6": lambda it: ip_value(listed(2, it)),
    "prefix": lambda it: ip_value(listed(2, it)),
    "ipblocks4": lambda it: ip_value(family(1, it)),
    "ipblocks6": lambda it: ip_value(family(2, it)),
    "ipres4": lambda it: ip_value(family(1, it)),
    "ipres6": lambda it: ip_value(family(2, it)),
}


def stored(rows: Rows, parts: dict[str, Callable[[bytes], bytes]]) -> Iterator[bytes]:
    """Yields the values of rows. Their stored answers have to be the reference's."""
    for command in ("take", "strict", "written"):
        for kind, make in parts.items():
            for text, answer in rows.of(f"{command} {kind}"):
                if octets := octets_of(text):
                    row = f"{command} {kind} {text}"
                    agree(rows.name, row, answer, reference.value_answer(row))
                    yield make(octets)


def answered(rows: Rows) -> Iterator[tuple[str, bytes]]:
    """Yields the values that `respath` reads in rows. Their stored answers have to be the reference's."""
    for kind in reference.FAMILIES.keys() | {"as"}:
        for text, answer in rows.of(f"read {kind}"):
            agree(rows.name, f"read {kind} {text}", answer, reference.line_answer(f"read {kind} {text}".encode()))
            if octets := octets_of(text):
                yield kind, octets


NUMBERS = (0, 1, 7, 127, 128, 255, 256, 23456, 64496, 64511, 65535, 65536, 4200000000, 2**32 - 1)


def made_as() -> Iterator[bytes]:
    """Yields values of AS identifiers that each break a rule, with several values for each rule."""
    yield tlv(0x30, tlv(0xA0, b"\5\0"))
    yield from (as_value(integer(number)) for number in NUMBERS)
    for low, high in zip(NUMBERS, NUMBERS[1:], strict=False):
        one, both = integer(low), as_range(low, high)
        good = as_value(both)
        yield good
        yield from (as_value(integer(high), one), as_value(both, one), as_value(both, integer(high)))
        yield from (as_value(as_range(low, low)), as_value(as_range(high, low)), as_value(one, integer(low + 1)))
        yield from (good[:-1], good[:-3], good + b"\0", good + good, as_value(both, b"\5\0"), as_value(both, b"\4\1\0"))
        yield tlv(0x30, tlv(0xA0, tlv(0x30, both)), tlv(0xA1, tlv(0x30, one)))
        yield tlv(0x30, tlv(0xA1, tlv(0x30, both)))
        yield tlv(0x30, tlv(0xA0, tlv(0x30, both), b"\5\0"))
        yield from (tlv(0x30, tlv(0xA0, tlv(0x31, both))), tlv(0x31, tlv(0xA0, tlv(0x30, both))))
        yield from (
            as_value(tlv(0x30, one, integer(high), b"\5\0")),
            as_value(b"\x3f" + both[1:]),
            as_value(tlv(0x22, one)),
        )
        plain = low.to_bytes(4, "big")
        yield from (
            as_value(tlv(2, b"\0\0", plain)),
            as_value(tlv(2, b"\xff\xff", plain[1:])),
            as_value(tlv(2, b"\1", plain)),
        )
        yield from (
            as_value(tlv(2, b"\x80", plain[2:])),
            as_value(tlv(2, b"\xff"), one),
            as_value(tlv(2, b"\0\1", plain)),
        )
        yield as_value(tlv(0x30, tlv(2), one))
        body = tlv(0xA0, tlv(0x30, both))
        yield from long_lengths(body)
        yield from (as_value(long_form(0x30, both[2:], 1)), as_value(long_form(2, plain.lstrip(b"\0") or b"\0", 1)))
        yield tlv(0x30, tlv(0xA0, tlv(5, one)))
    yield tlv(0x30)
    for count in range(12):
        yield tlv(0x30, tlv(0xA0, tlv(0x30), b"\0" * count))
        yield tlv(0x30, tlv(0xA0, tlv(0x30), *(tlv(0xA1, b"\5\0") for _ in range(count))))
        yield tlv(0x30, tlv(0xA0, b"\5\0"), *(tlv(0xA1, b"\5\0") for _ in range(count)))
        yield tlv(0x30, tlv(0xA1, b"\5\0"), b"\0" * count)
        yield tlv(0x30, tlv(0xA0, tlv(0x24, b"\5\0" * count)))


def long_form(tag: int, content: bytes, count: int) -> bytes:
    """Returns a value whose length has `count` octets."""
    return bytes([tag, 0x80 + count]) + len(content).to_bytes(count, "big") + content


def long_lengths(content: bytes) -> Iterator[bytes]:
    """Yields a SEQUENCE with lengths of other forms."""
    yield from (long_form(0x30, content, count) for count in (1, 2, 4, 8, 9, 10, 126))
    yield b"\x30\x80" + content + b"\0\0"
    yield b"\x30\x80" + content


def whole_as() -> Iterator[bytes]:
    """Yields random lists of AS blocks, canonical ones and others."""
    chance = random.Random(3779)
    for at in range(160):
        points = sorted(chance.sample(range(2**32 if at % 2 else 60), 2 * chance.randint(1, 6)))
        runs = [
            (low, high if chance.random() < 0.7 else low) for low, high in zip(points[::2], points[1::2], strict=True)
        ]
        if at % 4 == 3:
            chance.shuffle(runs)
        yield as_value(*(integer(low) if low == high else as_range(low, high) for low, high in runs))


PREFIXES = (
    ("0.0.0.0", 0),
    ("10.0.0.0", 8),
    ("192.0.2.0", 24),
    ("192.0.2.1", 32),
    ("198.51.100.128", 25),
    ("255.255.255.255", 32),
    ("128.0.0.0", 1),
    ("172.16.0.0", 12),
    ("203.0.113.64", 26),
    ("100.64.0.0", 10),
    ("10.9.0.0", 18),
)
PREFIXES6 = (
    ("::", 0),
    ("2001:db8::", 32),
    ("2001:db8:8000::", 33),
    ("2001:db8::1", 128),
    ("2001:db8:0:ff00::", 56),
    ("fc00::", 7),
    ("8000::", 1),
    ("2001:db8::", 127),
    ("ffff:ffff:ffff:ffff:ffff:ffff:ffff:ffff", 128),
    ("2002::", 16),
    ("64:ff9b::", 96),
)
RANGES = (
    ("10.0.0.0", "10.0.2.255"),
    ("192.0.2.1", "192.0.2.6"),
    ("0.0.0.0", "0.0.0.2"),
    ("198.51.100.0", "203.0.113.9"),
    ("255.255.255.250", "255.255.255.255"),
    ("10.0.0.1", "10.0.0.254"),
    ("127.0.0.0", "128.0.0.0"),
    ("2001:db8::1", "2001:db8::6"),
    ("::", "::2"),
    ("2001:db8::", "2001:db9:7fff:ffff:ffff:ffff:ffff:ffff"),
    ("2001:db8:1::", "2001:db8:3:ffff:ffff:ffff:ffff:ffff"),
    ("fe80::1", "ffff:ffff:ffff:ffff:ffff:ffff:ffff:ffff"),
)


def made_ip() -> Iterator[bytes]:
    """Yields values of IP address blocks that each break a rule, with several values for each rule."""
    for four, six in zip(PREFIXES, PREFIXES6, strict=True):
        v4, v6 = listed(1, prefix(*four)), listed(2, prefix(*six))
        good = ip_value(v4, v6)
        yield from (
            good,
            ip_value(v4),
            ip_value(v6),
            ip_value(v6, v4),
            ip_value(v4, v4),
            ip_value(v6, v6),
            ip_value(v6, v4, v6),
        )
        yield from (
            ip_value(family(1, b"\5\0"), v6),
            ip_value(v4, family(2, b"\5\0")),
            ip_value(v6, family(1, b"\5\0")),
        )
        yield from (good[:-1], good[:-3], good + b"\0", good + good, tlv(0x31, v4, v6), ip_value(v4, b"\5\0"))
        yield from of_families(v4, prefix(*four))
        yield from of_blocks(1, 32, *four)
        yield from of_blocks(2, 128, *six)
        yield from long_lengths(v4)
    for first, last in RANGES:
        number = 2 if ":" in first else 1
        there, size = ip_range(first, last), 128 if number == 2 else 32
        yield from (ip_value(listed(number, there)), ip_value(listed(number, ip_range(first, last, is_long=True))))
        yield from (
            ip_value(listed(number, ip_range(last, first))),
            ip_value(listed(number, there, prefix(first, size))),
        )
        yield from (
            ip_value(listed(number, prefix(last, size), there)),
            ip_value(listed(number, prefix(last, size), prefix(first, size))),
        )
        yield ip_value(listed(number, tlv(0x30, there[2:], b"\5\0")))
        yield ip_value(listed(number, tlv(0x30, prefix(first, size))))
    yield from (
        ip_value(),
        ip_value(family(1, b"\5\0")),
        ip_value(family(2, b"\5\0")),
        ip_value(family(1, b"\5\0"), family(2, b"\5\0")),
    )
    for count in range(1, 12):
        yield ip_value() + b"\0" * count
        yield ip_value(family(1 + count % 2, tlv(0x30), b"\0" * count))
        yield ip_value(family(1 + count % 2, tlv(5, b"\0" * count)))
        yield ip_value(family(1, tlv(0x24, b"\5\0" * count)), family(2, tlv(0x30)))


def of_families(v4: bytes, block: bytes) -> Iterator[bytes]:
    """Yields wrong families with a correct block."""
    blocks = tlv(0x30, block)
    for octets in (
        b"\0\1\1",
        b"\0\1\2",
        b"\0\2\1",
        b"\0",
        b"",
        b"\0\1\1\0",
        b"\0\3",
        b"\0\0",
        b"\1\0",
        b"\x40\x04",
        b"\0\x19",
    ):
        yield ip_value(tlv(0x30, tlv(4, octets), blocks))
    yield from (ip_value(v4, tlv(0x30, tlv(4, b"\0\1\1"), blocks)), ip_value(tlv(0x30, tlv(2, b"\0\1"), blocks)))
    yield from (
        ip_value(tlv(0x30, tlv(0x24, tlv(4, b"\0\1")), blocks)),
        ip_value(tlv(0x30, tlv(4, b"\0\1"), blocks, b"\5\0")),
    )
    yield from (ip_value(family(1, b"\5\1\0")), ip_value(family(2, b"\5\2\0\0")), ip_value(family(1, tlv(0x30))))
    yield from (
        ip_value(family(1, b"\x1f\1\0")),
        ip_value(listed(1, b"\x3f" + block[1:])),
        ip_value(family(1, b"\4\0")),
    )


def of_blocks(number: int, size: int, address: str, length: int) -> Iterator[bytes]:
    """Yields lists of blocks around a prefix."""
    this = prefix(address, length)
    low, high = reference.bounds("v6" if number == 2 else "v4", f"{address}/{length}")
    wide = f"{low:0128b}"[:size], f"{high:0128b}"[:size]
    whole = tlv(0x30, bits(wide[0]), bits(wide[1]))
    short = tlv(0x30, bits(wide[0].rstrip("0")), bits(wide[1].rstrip("1")))
    yield from (ip_value(listed(number, it)) for it in (whole, short, tlv(0x23, this), tlv(3)))
    yield from (ip_value(listed(number, this, this)), ip_value(listed(number, prefix(address, size), this)))
    if length < size:
        halves = [bits(wide[0][:length] + it) for it in "01"]
        yield from (
            ip_value(listed(number, *halves)),
            ip_value(listed(number, *halves[::-1])),
            ip_value(listed(number, this, halves[0])),
        )
    for unused in (1, 3, 0x7F):
        yield ip_value(listed(number, prefix(address, length, unused)))
    yield from (ip_value(listed(number, bits(wide[0] + more))) for more in ("0", "10110", "0" * 8))
    content = this[2:]
    yield from (ip_value(listed(number, tlv(3, bytes([it]) + content[1:]))) for it in (8, 9, 255))
    yield from (ip_value(listed(number, long_form(3, content, it))) for it in (1, 3, 9))
    yield from (
        ip_value(listed(number, it)) for it in (tlv(3, b"\5"), tlv(4, content), this + tlv(3), tlv(0x30, tlv(3), this))
    )


def files() -> list[VectorFile]:
    """Returns both files."""
    values, lines = Rows("rows_values"), Rows("rows_sets")
    as_faults = [it for it in reference.ALL_DER_FAULTS if it not in OF_ADDRESSES]
    ip_faults = [it for it in reference.ALL_DER_FAULTS if it not in OF_NUMBERS]
    numbers = VectorFile(
        "der_as",
        "AS identifiers extension (RFC 3779, 3.2.3; RFC 6487, 4.8.11)",
        HEADER,
        OF_AS | {"Decision": DECISION_FLAG},
        as_faults,
    )
    addresses = VectorFile(
        "der_ip",
        "IP address blocks extension (RFC 3779, 2.2.3; RFC 6487, 4.8.10)",
        HEADER,
        OF_IP | {"Decision": DECISION_FLAG},
        ip_faults,
    )
    read = list(answered(lines))
    for octets in [*stored(values, AS_PARTS), *made_as(), *whole_as(), *(it for kind, it in read if kind == "as")]:
        numbers.add(case_of(octets, True))
    for octets in [*stored(values, IP_PARTS), *made_ip(), *(it for kind, it in read if kind != "as")]:
        addresses.add(case_of(octets, False))
    return [numbers, addresses]
