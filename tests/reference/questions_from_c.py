"""Makes the questions of the golden tests of the C library.

tests/run/foreign_rows.py writes them with their answers.
"""

from collections.abc import Iterator
from pathlib import Path
from random import Random

from . import asn, ip, prefixes, random_vrps
from .addresses import Family
from .calls_from_c import (
    ADDRESSES, ASN, BOTH, KINDS, LENIENT, NUMBERS, ON_SETS, REFUSE, STRICT, TRIM, V4, V6, Octets, Place, Question,
    answer, vrp_octets, vrp_of, written,
)
from .lines import COMMANDS
from .random_lines import Maker
from .sets import merged


def listed(numbers: str, v4: str, v6: str) -> Octets:
    """Returns the octets of the set that three lists describe."""
    return written((asn.read_set(numbers), ip.read_set(v4, Family.V4), ip.read_set(v6, Family.V6)))


ENCODINGS, MODES, BOTH_FAMILIES = (LENIENT, STRICT), (REFUSE, TRIM), (V4, V6)
ISSUER = listed("AS1-AS10, AS64496", "10.0.0.0/8, 192.0.2.0-192.0.2.9", "2001:db8::/32")
ALL = listed("AS0-AS4294967295", "0.0.0.0/0", "::/0")
NOTHING: Octets = (b"", b"")
INHERITS: Octets = (bytes.fromhex("3004a0020500"), bytes.fromhex("301030060402000105003006040200020500"))
CERTIFICATES: list[Octets] = [
    NOTHING,
    INHERITS,
    (INHERITS[0], b""),
    (b"", INHERITS[1]),
    ISSUER,
    ALL,
    listed("AS2-AS7", "10.2.0.0/16, 192.0.2.4", "2001:db8:7::/48"),
    listed("AS9-AS12", "", ""),
    listed("", "12.0.0.0/8", "fd00::/8"),
    listed("", "10.9.0.0-10.9.0.77", "fd00::/8, 2001:db8::1"),
    listed("AS3", "", "2001:db8::5-2001:db8::9"),
    # blocks that touch, overlap or come in another order, and IPv6 before IPv4
    (
        bytes.fromhex("300da00b3009020105020104020104"),
        bytes.fromhex("3020300d04020002300703050020010db8300f0402000130090303000a020302000a"),
    ),
    (bytes.fromhex("300fa00d300b3006020104020105020106"), bytes.fromhex("3011300f0402000130090303000a020302000a")),
]


def altered(certificate: Octets, source: Random) -> Iterator[Octets]:
    """Yields altered copies of a certificate.

    Each extension is cut at each index, gets one more octet, and gets another octet at each index.
    """
    for at in range(2):
        octets = certificate[at]
        others = [octets[:end] for end in range(1, len(octets))] + [octets + b"\0"] * bool(octets)
        for place in range(len(octets)):
            others.append(octets[:place] + bytes([source.randrange(256)]) + octets[place + 1 :])
        for other in others:
            yield (other, certificate[1]) if at == 0 else (certificate[0], other)


def random_set(source: Random) -> Octets:
    """Returns a random set with a few ranges of each kind."""
    found = []
    for width, whole in ((32, 1), (32, 2**96), (128, 1)):
        starts = [source.randrange(2**width) >> source.randrange(width) for _ in range(source.randrange(4))]
        ends = [min(start + source.randrange(2 ** source.randrange(width)), 2**width - 1) for start in starts]
        runs = zip(starts, ends, strict=True)
        found.append(merged((start * whole, (end + 1) * whole - 1) for start, end in runs))
    return written((found[0], found[1], found[2]))


def present_in(certificate: Octets) -> int:
    """Returns the value of `present` for the extensions that have octets."""
    return NUMBERS * bool(certificate[0]) | ADDRESSES * bool(certificate[1])


def of_certificates() -> Iterator[Question]:
    """Yields `verify` for each certificate, issuer, encoding and mode, wrong numbers, and altered and random sets."""
    source = Random(3779)

    def asked(encoding: int, mode: int, issuer: Octets, certificate: Octets) -> Question:
        return Question("verify", (encoding, present_in(certificate), mode), issuer, certificate)

    for certificate in CERTIFICATES:
        for issuer in (ISSUER, ALL, NOTHING):
            for encoding in ENCODINGS:
                for mode in MODES:
                    yield asked(encoding, mode, issuer, certificate)
        yield asked(LENIENT, REFUSE, certificate, ISSUER)
        yield asked(STRICT, TRIM, certificate, INHERITS)
    wrong = (18, REFUSE), (STRICT, 34), (2**32 - 1, 2**32 - 1), (LENIENT, 256), (256, REFUSE), (0, 0), (1, 1)
    for encoding, mode in (*wrong, (REFUSE, STRICT), (TRIM, LENIENT), (STRICT, STRICT), (TRIM, TRIM), (STRICT, 0)):
        yield asked(encoding, mode, ISSUER, ISSUER)
        yield asked(encoding, mode, (b"\0", b"\0"), NOTHING)
    for other in altered(CERTIFICATES[6], source):
        yield asked(source.choice(ENCODINGS), source.choice(MODES), ISSUER, other)
        yield asked(source.choice(ENCODINGS), source.choice(MODES), other, NOTHING)
    for _ in range(300):
        yield asked(source.choice(ENCODINGS), source.choice(MODES), random_set(source), random_set(source))


def of_absence() -> Iterator[Question]:
    """Yields `verify` for each value of `present`, with and without octets."""
    bad = b"\0"
    for present in (0, 1, 2, 3, 4, 2**32 - 1):
        for numbers in (ISSUER[0], b"", bad):
            for addresses in (ISSUER[1], b"", bad):
                yield Question("verify", (LENIENT, present, REFUSE), ISSUER, (numbers, addresses))
        yield Question("verify", (STRICT, present, 1), ISSUER, INHERITS)
        yield Question("verify", (STRICT, present, TRIM), (bad, bad), NOTHING)


def packed(certificates: list[tuple[Octets, int, int]], source: Random) -> tuple[bytes, tuple[Place, ...]]:
    """Returns the octets of certificates, with other octets between their extensions, and their places."""
    run, places = b"", []
    for octets, present, mode in certificates:
        found = []
        for extension in octets:
            run += source.randbytes(source.randrange(3))
            found += [len(run), len(extension)]
            run += extension
        places.append(Place(*found, present, mode))
    return run, tuple(places)


def of_paths() -> Iterator[Question]:
    """Yields paths of no, one and several certificates, places outside of the octets, and wrong numbers."""
    source = Random(8360)

    def asked(encoding: int, anchor: Octets, run: bytes, places: tuple[Place, ...]) -> Question:
        return Question("path", (encoding,), anchor, (run, b""), places)

    for anchor in CERTIFICATES:
        yield asked(LENIENT, anchor, b"", ())
    for length in (1, 2, 3, 4, 6) * 60:
        chosen = [source.choice(CERTIFICATES[source.choice((1, 2, 4, 6)) :]) for _ in range(length)]
        steps = [(octets, present_in(octets), source.choice(MODES)) for octets in chosen]
        anchor = source.choice((ALL, ALL, ISSUER, CERTIFICATES[6]))
        yield asked(source.choice(ENCODINGS), anchor, *packed(steps, source))
    run, places = packed([(ALL, BOTH, TRIM), (CERTIFICATES[6], BOTH, REFUSE)], source)
    first, second = places
    for place in (
        second._replace(as_start=len(run) - second.as_len + 1),
        second._replace(ip_len=second.ip_len + len(run)),
        second._replace(as_start=2**64 - 1),
        second._replace(as_len=2**64 - 1),
        second._replace(ip_start=2**64 - 1, ip_len=2, present=NUMBERS),
        second._replace(ip_start=0, ip_len=0, present=NUMBERS),
        second._replace(as_start=len(run), as_len=0, present=ADDRESSES),
        second._replace(as_start=len(run), as_len=0),
        second._replace(present=0),
        second._replace(present=4),
        second._replace(present=2**32 - 1, mode=2),
        second._replace(mode=STRICT),
        second._replace(as_start=first.as_start, as_len=first.as_len),
    ):
        for encoding in ENCODINGS:
            yield asked(encoding, ISSUER, run, (first, place))
            yield asked(encoding, ALL, run, (place, first))
    for encoding in (0, REFUSE, 2**32 - 1):
        yield asked(encoding, (b"\0", b""), run, places)
    for anchor in ((b"\0", b""), (b"", b"\0"), INHERITS):
        yield asked(STRICT, anchor, run, places)
    yield asked(STRICT, ISSUER, b"", places)


# Pairs of an encoding and a family of which one or both are wrong, also AF_INET and AF_INET6 of Linux.
WRONG_FAMILIES = (2, V4), (STRICT, 0), (STRICT, 2), (STRICT, 10), (STRICT, ASN), (2**32 - 1, 2**32 - 1)
WRONG_FAMILIES += ((LENIENT, 256 + V4),)


def of_covers() -> Iterator[Question]:
    """Yields covers of both families for sets and for invalid octets, and wrong numbers."""
    source = Random(4632)

    def asked(encoding: int, family: int, octets: bytes) -> Question:
        return Question("cover", (encoding, family), (octets, b""))

    for octets in (*CERTIFICATES, *(random_set(source) for _ in range(40))):
        for family in BOTH_FAMILIES:
            yield asked(source.choice(ENCODINGS), family, octets[1])
    for encoding, family in WRONG_FAMILIES:
        yield asked(encoding, family, ISSUER[1])
        yield asked(encoding, family, b"\0")
    for other in altered((b"", CERTIFICATES[6][1]), source):
        yield asked(source.choice(ENCODINGS), source.choice(BOTH_FAMILIES), other[1])


def routed(family: int, address: int, length: int, number: int, max_len: int | None = None) -> bytes:
    """Returns the octets of a VRP, or those of a route if there is no `max_len`."""
    width = 4 if family == V4 else 16
    octets = address.to_bytes(width, "big").ljust(16, b"\xff") + number.to_bytes(4, "big") + bytes([family, length])
    return octets if max_len is None else octets + bytes([max_len])


def random_routed(source: Random, is_vrp: bool) -> bytes:
    """Returns a random VRP or route. Few addresses and AS numbers occur, so that many VRPs cover a route."""
    family = source.choice(BOTH_FAMILIES)
    bits = 32 if family == V4 else 128
    length = source.choice((0, 8, 9, 16, 24, bits - 1, bits))
    address = source.choice((10, 11, 0x20)) << bits - 8 | source.randrange(4) << bits - 16 | source.randrange(2)
    max_len = source.randrange(length, bits + 1) if is_vrp else None
    return routed(family, address >> bits - length << bits - length, length, source.randrange(4), max_len)


def of_origins() -> Iterator[Question]:
    """Yields VRPs and routes, also many routes, an invalid VRP or route at each index, and extreme numbers."""
    source = Random(6811)

    def asked(vrps: list[bytes], routes: list[bytes]) -> Question:
        return Question("origins", (), (b"".join(vrps), b""), (b"".join(routes), b""))

    for count in (0, 1, 2, 3, 5, 9, 40) * 10:
        vrps = [random_routed(source, True) for _ in range(count)]
        yield asked(vrps, [random_routed(source, False) for _ in range(source.randrange(12))])
    for count in (11, 12, 13, 24, 25, 40) * 3:
        yield asked(
            [random_routed(source, True) for _ in range(source.choice((9, 40)))],
            [random_routed(source, False) for _ in range(count)],
        )
    good = routed(V4, 10 << 24, 8, 64496, 24)
    fine = routed(V4, 10 << 24, 24, 64496)
    ends = [routed(V4, 0, 0, 1, 32), routed(V6, 0, 0, 2**32 - 1, 128), routed(V6, 2**128 - 1, 128, 7, 128)]
    routes = (V6, 2**128 - 1, 128, 7), (V4, 2**32 - 1, 32, 1), (V4, 0, 0, 0), (V6, 0, 0, 1)
    yield asked(ends, [routed(*it) for it in routes])
    ten = 10 << 24
    families = (0, 0, 0, 1, 0), (ASN, 0, 0, 1, 0), (255, 1, 255, 1, 0), (2, ten, 8, 1, 8), (10, ten, 8, 1, 8)
    lengths = (V4, ten, 33, 1, 33), (V4, ten, 6, 1, 32), (V4, 1, 31, 1, 0), (V6, 1, 127, 1, 128), (V6, 0, 129, 1, 255)
    most_lengths = (V4, ten, 8, 1, 7), (V4, ten, 8, 1, 33), (V6, 0, 128, 1, 127), (V6, 0, 0, 1, 129)
    for bad in (routed(*it) for it in (*families, *lengths, *most_lengths)):
        for place in (0, 1, 2):
            vrps, routes = [good, good], [fine, fine]
            yield asked(vrps[:place] + [bad] + vrps[place:], routes)
            yield asked(vrps, routes[:place] + [bad[:22]] + routes[place:])
            yield asked([bad, *vrps], [bad[:22]])
        for place in (11, 12, 13, 24):
            yield asked([good], [fine] * place + [bad[:22]] + [fine] * (25 - place))


def of_tables() -> Iterator[Question]:
    """Yields calls on tables: covered routes, lists of VRPs, and valid and invalid changes."""
    source = Random(8210)

    def asked(call: str, vrps: list[bytes], *others: list[bytes]) -> Question:
        second, fourth = (*map(b"".join, others), b"", b"")[:2]
        return Question(call, (), (b"".join(vrps), b""), (second, fourth))

    def distinct(count: int) -> list[bytes]:
        """Returns VRPs that all differ from each other."""
        found: dict[prefixes.Vrp, bytes] = {}
        while len(found) < count:
            octets = random_routed(source, True)
            found.setdefault(vrp_of(octets), octets)
        return list(found.values())

    for count in (0, 1, 2, 3, 5, 9, 40) * 4:
        vrps = [random_routed(source, True) for _ in range(count)]
        yield asked("vrps", vrps)
        for _ in range(3):
            yield asked("covering", vrps, [random_routed(source, False)])
    for count in (1, 2, 4, 8, 24) * 4:
        all_of = distinct(count + 4)
        table, fresh = all_of[:count], all_of[count:]
        gone = source.sample(table, source.randrange(count + 1))
        yield asked("changed", table, fresh, gone)
        yield asked("changed", table, fresh + gone[:1], gone)
        yield asked("changed", table + gone, fresh, gone)
        yield asked("changed", table, fresh, gone + fresh[:1])
        yield asked("changed", table, fresh, [*gone, *gone[:1]])
        yield asked("changed", table, fresh + [one for one in table if one not in gone][:1], gone)
        yield asked("changed", table, fresh + fresh[:1], gone)
        yield asked("changed", table, fresh + fresh[:1], gone + fresh[:1])
    good, fine = routed(V4, 10 << 24, 8, 64496, 24), routed(V4, 10 << 24, 24, 64496)
    chain = [routed(V4, 0, length, number, 24) for length in range(25) for number in (0, 1, 2)]
    for number in range(3):
        for length in (0, 24, 25, 32):
            yield asked("covering", chain, [routed(V4, 0, length, number)])
    for bad in (routed(0, 0, 0, 1, 0), routed(V4, 1, 31, 1, 31), routed(V4, 10 << 24, 8, 1, 33)):
        yield asked("vrps", [good, bad])
        yield asked("covering", [bad], [fine])
        yield asked("covering", [good], [bad[:22]])
        yield asked("changed", [good], [bad], [bad])
        yield asked("changed", [good], [], [good, bad])
        yield asked("changed", [good], [good, bad], [bad])


HEADER = b"ASN,IP Prefix,Max Length,Trust Anchor,Expires\n"
LINES = [
    b"AS64496,10.0.0.0/8,16,ripe,1732600000\n",
    b"64497,2001:db8::/32,48,apnic,0\r\n",
    b' "AS0" , "0.0.0.0/0" ,32\n',
    b"AS4294967295,ffff:ffff::/32,128,,\n",
    b"AS1,255.255.255.255/32,32\n",
    b"AS2,10.0.0.0/8,\n",
]
# Invalid lines, each with another fault.
WRONG_LINES = [
    *(b"\xff\n", b"AS1,10.0.0.0/8,8,ripe,0,more\n", b"AS1,10.0.0.0/8\n", b"ASX,10.0.0.0/8,8\n"),
    *(b"AS4294967296,10.0.0.0/8,8\n", b"AS1,10.0.0.0/33,8\n", b"AS1,10.0.0.1/8,8\n"),
    *(b"AS1,10.0.0.0/8,256\n", b"AS1,10.0.0.0/8,x\n", b"AS1,10.0.0.0/8,7\n", b"AS1,10.0.0.0/8,33\n"),
]
ITEMS = [
    b'{"asn": 64496, "prefix": "10.0.0.0/8", "maxLength": 16, "ta": "ripe"}',
    b'{"asn": "AS64497", "prefix": "2001:db8::/32", "maxLength": 48}',
    b'{"maxLength": 32, "prefix": "0.0.0.0/0", "asn": 0, "expires": [{"at": null}]}',
]
WRONG_ITEMS = [
    b"17",
    b'{"prefix": "10.0.0.0/8", "maxLength": 16}',
    b'{"asn": 1, "asn": 1, "prefix": "10.0.0.0/8", "maxLength": 16}',
    b'{"asn": null, "prefix": "10.0.0.0/8", "maxLength": 16}',
    b'{"asn": 1, "maxLength": 16}',
    b'{"asn": 1, "prefix": "10.0.0.0/8", "prefix": "10.0.0.0/8", "maxLength": 16}',
    b'{"asn": 1, "prefix": 10, "maxLength": 16}',
    b'{"asn": 1, "prefix": "10.0.0.0/8"}',
    b'{"asn": 1, "prefix": "10.0.0.0/8", "maxLength": 16, "maxLength": 16}',
    b'{"asn": 1, "prefix": "10.0.0.0/8", "maxLength": "16"}',
    b'{"asn": 1.5, "prefix": "10.0.0.0/8", "maxLength": 16}',
    b'{"asn": 1, "prefix": "10.0.0.0", "maxLength": 16}',
    b'{"asn": 1, "prefix": "10.0.0.0/8", "maxLength": 256}',
    b'{"asn": 1, "prefix": "10.0.0.0/8", "maxLength": 7}',
]
WRONG_FILES = [
    *(b"", b"\n \n", HEADER, b" [1]", b"[", b"{", b"{}"),
    *(b'{"roas": []} x', b'{"roas": []}', b'{"roas": [], "roas": []}', b'{"roas": {}}'),
    *(b"asn,ip prefix,max length\n", b"roa-set {\n", b"AS1;10.0.0.0/8;8\n", HEADER.lower() + LINES[0]),
    *(b'{"roas": ' + b"[" * 200 + b"]" * 200 + b"}", b'{"roas": ["\xff"]}', b"\xef\xbb\xbf", b"\xef\xbb\xbf{}"),
]


def of_texts() -> Iterator[Question]:
    """Yields valid and damaged lists of each kind, octets that are not UTF-8, and unknown kinds."""

    def asked(kind: int, text: bytes) -> Question:
        return Question("text", (kind,), (text, b""))

    for kind in (*KINDS, 0, 1, 2, 3, 256, 2**32 - 1):
        yield from (asked(kind, it) for it in (b"", b" , ,", b"\xff", b"AS1", b"10.0.0.1", b"::1", b"AS2-AS1"))
        yield from (asked(kind, it) for it in (b"10.0.0.2-10.0.0.1", b"10.0.0.0/33"))
    for command in ("norm", "der"):
        maker = Maker(command, 35)
        for _ in range(120):
            _, kind, text = maker.line().split(b" ", 2)
            yield asked({b"as": ASN, b"v4": V4, b"v6": V6}.get(kind, 3), text)


def of_ranges() -> Iterator[Question]:
    """Yields ranges of AS numbers and addresses for sets and for invalid octets, and wrong numbers."""
    source = Random(3779_2)
    for octets in (*CERTIFICATES, *(random_set(source) for _ in range(40))):
        yield Question("as_ranges", (source.choice(ENCODINGS),), (octets[0], b""))
        for family in BOTH_FAMILIES:
            yield Question("ip_ranges", (source.choice(ENCODINGS), family), (octets[1], b""))
    for encoding, family in WRONG_FAMILIES:
        for octets in (ISSUER, (b"\0", b"\0")):
            yield Question("as_ranges", (encoding,), (octets[0], b""))
            yield Question("ip_ranges", (encoding, family), (octets[1], b""))
    for other in altered((CERTIFICATES[6][0], b""), source):
        yield Question("as_ranges", (source.choice(ENCODINGS),), (other[0], b""))
    for other in altered((b"", CERTIFICATES[6][1]), source):
        yield Question("ip_ranges", (source.choice(ENCODINGS), source.choice(BOTH_FAMILIES)), (other[1], b""))


def of_contents() -> Iterator[Question]:
    """Yields questions on one set: whether it has a number or a prefix, and its text. Some numbers are wrong."""
    source = Random(9582_5)
    for octets in (*CERTIFICATES, *(random_set(source) for _ in range(60))):
        encoding = source.choice(ENCODINGS)
        for kind in (*KINDS, source.choice((0, 1, 2, 3, 2**32 - 1))):
            yield Question("print", (encoding, kind), octets)
        for number in (0, 3, 64496, 2**32 - 1, source.randrange(2**32), source.randrange(12)):
            yield Question("contains_asn", (encoding, number), octets)
        ends = [*answer(Question("ip_ranges", (LENIENT, V4), (octets[1], b""))).written[0][:4]]
        for _ in range(6):
            yield Question("contains_prefix", (encoding,), octets, (random_prefix(source, bytes(ends)), b""))
    for length in range(34):
        for address in (0, 10 << 24, 10 << 24 | 2 << 16, 192 << 24 | 2 << 8, 192 << 24 | 2 << 8 | 8):
            yield Question("contains_prefix", (STRICT,), ISSUER, (without_asn(routed(V4, address, length, 0)), b""))
    for wrong in (0, 1, 2, 3, ASN, 10, 255):
        yield Question("contains_prefix", (STRICT,), ISSUER, (without_asn(routed(wrong, 0, 0, 0)), b""))


def without_asn(route: bytes) -> bytes:
    """Returns the prefix of a route."""
    return route[:16] + route[20:]


def random_prefix(source: Random, address: bytes) -> bytes:
    """Returns a random prefix. Often it has the first octets of an IPv4 address."""
    if source.randrange(3) or not address:
        return without_asn(random_routed(source, False))
    length = source.randrange(33)
    number = int.from_bytes(address, "big") >> 32 - length << 32 - length
    return without_asn(routed(V4, number, length, 0))


def of_files() -> Iterator[Question]:
    """Yields valid files, files with an invalid line or item at each index, and files that are invalid as a whole."""
    source = Random(9582)

    def asked(file: bytes) -> Question:
        return Question("read", (), (file, b""))

    def of_json(items: list[bytes]) -> bytes:
        return b'{"metadata": {"counts": 2}, "roas": [' + b", ".join(items) + b"]}\n"

    for mark in (b"", b"\xef\xbb\xbf"):
        yield asked(mark + HEADER + b"".join(LINES))
        yield asked(mark + b"".join(LINES).removesuffix(b"\n"))
        yield asked(mark + b" \n" + of_json(ITEMS))
    yield asked(b"ASN,Prefix,Max prefix length\n" + LINES[0][:21] + b"\n")
    yield asked(b"Max Length,x,ASN,IP Prefix\n16,,AS5,10.0.0.0/8\n" + HEADER + LINES[1])
    for wrong in WRONG_LINES:
        for place in range(3):
            lines_of = [LINES[0], b"\n", LINES[1]]
            yield asked(HEADER + b"".join([*lines_of[:place], wrong, *lines_of[place:]]))
        yield asked(wrong)
    for wrong in WRONG_ITEMS:
        for place in range(3):
            yield asked(of_json([*ITEMS[:place], wrong, *ITEMS[place:]]))
    for wrong in WRONG_FILES:
        yield asked(wrong)
    # The deepest texts that are read, and some that are deeper, in an item and beside the array.
    for depth in (124, 125, 126, 127, 128):
        for opens, closes in ((b"[", b"]"), (b'{"a":', b"}")):
            nested = opens * depth + b"0" + closes * depth
            yield asked(of_json([ITEMS[0][:-1] + b', "x": ' + nested + b"}"]))
            yield asked(b'{"x": ' + nested + b', "roas": [' + ITEMS[0] + b"]}")
    for count in (1, 2, 3, 9, 41) * 4:
        chosen = [vrp_of(random_routed(source, True)) for _ in range(count)]
        fields = [(vrp.asn, str(vrp.prefix.prefix.text()), vrp.prefix.resolved()) for vrp in chosen]
        yield asked(b"".join(f"AS{asn},{text},{most}\n".encode() for asn, text, most in fields))
        items = (f'{{"asn": {asn}, "prefix": "{text}", "maxLength": {most}}}' for asn, text, most in fields)
        yield asked(of_json([it.encode() for it in items]))


# Expiries that are no whole numbers below 2^64.
WRONG_EXPIRIES = b"x", b"-1", b"+1", b"1.5", b"1e3", b"18446744073709551616", b"99999999999999999999"
# The expiry of one of LINES, and times around it and at both ends.
EXPIRY = 1732600000
TIMES = 0, EXPIRY - 1, EXPIRY, EXPIRY + 1, 2**64 - 1


def of_expiries() -> Iterator[Question]:
    """Yields files at several times, with valid, missing, empty and invalid expiries."""
    source, maker = Random(5280), random_vrps.Maker(5280)

    def asked(file: bytes, time: int) -> Question:
        return Question("unexpired", (time >> 32, time % 2**32), (file, b""))

    def of_json(*expiries: bytes) -> bytes:
        item = b'{"asn": 1, "prefix": "10.0.0.0/8", "maxLength": 8%s}'
        return b'{"roas": [' + b", ".join(item % it for it in expiries) + b"]}"

    for at, question in enumerate(of_files()):
        yield asked(question.first[0], TIMES[at % len(TIMES)])
    for time in TIMES:
        yield asked(HEADER + b"".join(LINES), time)
        yield asked(b"Expires,ASN,Prefix,Max Length\n1732600000,AS1,10.0.0.0/8,\n,AS2,10.0.0.0/8,9\n", time)
        yield asked(of_json(b', "expires": 1732600000', b"", b', "expires": 18446744073709551615'), time)
        yield asked(of_json(b', "expires": 0'), time)
    for wrong in WRONG_EXPIRIES:
        for place in range(3):
            lines_of = [LINES[0], b"\n", LINES[1]]
            lines_of[place:place] = [b"AS1,10.0.0.0/8,8,ripe," + wrong + b"\n"]
            yield asked(HEADER + b"".join(lines_of), EXPIRY)
        yield asked(b"AS1,10.0.0.0/8,8,ripe," + wrong + b"\n", EXPIRY)
        yield asked(HEADER + b"AS1,10.0.0.0/8,8,ripe," + wrong + b"\n" + WRONG_LINES[2], EXPIRY)
        yield asked(of_json(b"", b', "expires": ' + wrong), EXPIRY)
    for wrong in (b'"1732600000"', b"null", b"[]", b'1, "expires": 1', b'null, "expires": "x"'):
        yield asked(of_json(b', "expires": 1', b', "expires": ' + wrong, b', "expires": null'), EXPIRY)
    for _ in range(40):
        vrps = [maker.vrp() for _ in range(source.randrange(9))]
        yield asked(maker.dated(vrps), source.randrange(996, 1005))


# The SLURM file of RFC 8416, 3.5, with its identifiers and keys shortened.
SLURM_FILE = b"""{
  "slurmVersion": 1,
  "validationOutputFilters": {
    "prefixFilters": [
      { "prefix": "192.0.2.0/24", "comment": "All VRPs encompassed by prefix" },
      { "asn": 64496, "comment": "All VRPs matching ASN" },
      { "prefix": "198.51.100.0/24", "asn": 64497, "comment": "All VRPs encompassed by prefix, matching ASN" }
    ],
    "bgpsecFilters": [
      { "asn": 64496, "comment": "All keys for ASN" },
      { "SKI": "Zm9v", "comment": "Key matching Router SKI" },
      { "asn": 64497, "SKI": "YmFy", "comment": "Key for ASN 64497 matching Router SKI" }
    ]
  },
  "locallyAddedAssertions": {
    "prefixAssertions": [
      { "asn": 64496, "prefix": "198.51.100.0/24", "comment": "My other important route" },
      { "asn": 64496, "prefix": "2001:DB8::/32", "maxPrefixLength": 48, "comment": "My other important routes" }
    ],
    "bgpsecAssertions": [
      { "asn": 64496, "comment": "My known key for my important ASN", "SKI": "Zm9v", "routerPublicKey": "YmFy" }
    ]
  }
}
"""
# The golden tests of the programs, which have SLURM files.
CLAIMS = Path(__file__).resolve().parents[2] / "crates" / "rows_claims" / "stdin"
# An item of each list of a SLURM file: the names and the values of its members.
SLURM_ITEMS = {
    "prefixFilters": {"prefix": '"10.0.0.0/8"', "asn": "1", "comment": '"x"'},
    "bgpsecFilters": {"asn": "1", "SKI": '"x"', "comment": '"x"'},
    "prefixAssertions": {"prefix": '"10.0.0.0/8"', "asn": "1", "maxPrefixLength": "9", "comment": '"x"'},
    "bgpsecAssertions": {"asn": "1", "SKI": '"x"', "routerPublicKey": '"x"', "comment": '"x"'},
}


def slurm_item(members: list[tuple[str, str]]) -> str:
    """Returns an item of a list of a SLURM file."""
    return "{" + ", ".join(f'"{name}": {value}' for name, value in members) + "}"


def altered_items(members: dict[str, str]) -> Iterator[str]:
    """Yields items without one of the members, with it twice, and with other values of it."""
    for name in members:
        others = [it for it in members.items() if it[0] != name]
        for values in ((), (members[name],) * 2, ("null",), ("-1",), ('"x"',), ("256",), ("7",)):
            yield slurm_item([(name, value) for value in values] + others)
    yield from ("[]", "{}", slurm_item([*members.items(), ("x", "1")]))


def slurm_file(of: str, items: list[str]) -> bytes:
    """Returns a SLURM file that has these items in one of its lists, and no others."""
    filters, bgpsec_filters, assertions, keys = (f'"{it}": [{", ".join(items * (it == of))}]' for it in SLURM_ITEMS)
    parts = f'"validationOutputFilters": {{{filters}, {bgpsec_filters}}}', f"{{{assertions}, {keys}}}"
    return f'{{"slurmVersion": 1, {parts[0]}, "locallyAddedAssertions": {parts[1]}}}'.encode()


def of_slurm() -> Iterator[Question]:
    """Yields SLURM files with VRPs: valid, with each fault, damaged, deeply nested, and with invalid VRPs."""
    source, maker = Random(8416), random_vrps.Maker(8416)

    def asked(file: bytes, vrps: list[bytes]) -> Question:
        return Question("slurm", (), (file, b"".join(vrps)))

    ten, doc, last = 10 << 24, 192 << 24 | 2 << 8, 198 << 24 | 51 << 16 | 100 << 8
    vrps = [routed(V4, doc, 24, 64500, 24), routed(V4, doc | 128, 25, 64501, 32), routed(V4, 192 << 24, 16, 64502, 24)]
    vrps += [routed(V4, last, 24, number, 25) for number in (64497, 64498, 64496)]
    vrps += [routed(V4, last | 128, 25, 64497, 25), routed(V4, last >> 16 << 16, 16, 64497, 24)]
    vrps += [routed(V6, 0x2001_0DB8 << 96, 32, 64499, 48), routed(V4, ten, 8, 0, 32), routed(V4, ten, 8, 0, 32)]
    for file in (SLURM_FILE, b"\xef\xbb\xbf" + SLURM_FILE, b" \n" + SLURM_FILE, SLURM_FILE + b"{", b"\xff", b""):
        yield asked(file, vrps)
        yield asked(file, [])
    yield asked(SLURM_FILE.replace(b"All", b"\xff", 1), vrps)
    for row in CLAIMS.read_text().splitlines():
        if row.startswith("slurm "):
            file = row.partition(";")[2].replace("|", "\n").encode()
            yield asked(file, source.sample(vrps, source.randrange(4)))
    for name, members in SLURM_ITEMS.items():
        for item in altered_items(members):
            good = [slurm_item([*members.items()])] * source.randrange(3)
            yield asked(slurm_file(name, [*good, item, "7"]), vrps[-3:])
            yield asked(slurm_file(name, [*good, item]), vrps[-3:])
    for bad in (routed(0, 0, 0, 1, 0), routed(V4, 1, 31, 1, 31), routed(V4, ten, 8, 1, 33), routed(V4, ten, 8, 1, 7)):
        for place in (0, 1, len(vrps)):
            for file in (SLURM_FILE, b"{}", SLURM_FILE.replace(b"64496", b"-1", 1)):
                yield asked(file, [*vrps[:place], bad, *vrps[place:], bad])
    # The deepest texts that are read, and some that are deeper.
    for depth in (126, 127, 128, 129):
        for opens, closes in ((b"[", b"]"), (b'{"a":', b"}")):
            nested = opens * depth + b"0" + closes * depth
            yield asked(SLURM_FILE.replace(b"{", b'{"x": ' + nested + b",", 1), vrps)
            yield asked(SLURM_FILE.replace(b'"Zm9v"', nested, 1), vrps)
    for count in (0, 1, 2, 9, 40) * 24:
        yield asked(maker.slurm(), [vrp_octets(maker.vrp()) for _ in range(count)])


# Lines with routes, and lines of bgpdump -m. The last three have no route.
ROUTE_LINES = [
    *(b"10.0.0.0/8 AS64496\n", b" 2001:db8::/32  64497\t\r\n", b"0.0.0.0/0 as0\n", b"::/0 0\n"),
    b"TABLE_DUMP2|1732600000|B|192.0.2.1|64500|10.9.0.0/16|64500 64496|IGP|192.0.2.1|0|0||NAG||\n",
    b"TABLE_DUMP2_AP|1|B|192.0.2.1|64500|10.9.0.0/16|7|64500 {64496,64497}|IGP\n",
    b"BGP4MP_ET|1.5|A|192.0.2.1|64500|2001:db8::/32|64500 (64512 64513)|IGP\n",
    *(b"BGP4MP|1|A|192.0.2.1|64500|10.0.0.0/9||IGP\n", b"BGP4MP|1|W|192.0.2.1|64500|10.9.0.0/16\n"),
    *(b"BGP4MP|1|STATE|192.0.2.1|64500|1|2\n", b"BGP4MP_LOCAL_AP|1|W|\n"),
]
# Invalid lines, each with another fault.
WRONG_ROUTE_LINES = [
    *(b"\xff\n", b"\n", b"TABLE_DUMP2|1|B|192.0.2.1|64500|10.9.0.0/16\n", b"10.0.0.0/8,AS64496\n"),
    *(b"10.0.0.0/8\tAS64496\n", b"AS64496 10.0.0.0/8\n", b"10.0.0.1/8 AS1\n", b"10.0.0.0 AS1\n", b"10.0.0.0/8 ASX\n"),
    *(b"10.0.0.0/8\n", b"10.0.0.0/33 AS1\n", b"10.0.0.0/8 4294967296\n", b"10.0.0.0/8 AS1 AS2\n"),
    *(b"BGP4MP|1|A|192.0.2.1|64500|10.0.0.0/9|x|IGP\n", b"BGP4MP|1|X|192.0.2.1|64500|10.0.0.0/9|1|IGP\n"),
]
# Texts of VRPs, with numbers in each form, and with each fault.
VRP_TEXTS = [
    *(b"10.0.0.0/8-16 AS64496", b"10.0.0.0/8 AS64496", b" 10.0.0.0/8-16 \t 64496\n", b"0.0.0.0/0-32 as0"),
    *(b"::/0-128 AS4294967295", b"2001:db8::/32-48 aS1", b"10.0.0.0/+8-016 +7", b"10.0.0.0/8-8 AS1"),
    *(b"", b" ", b"\xff", b"10.0.0.0/8-16", b"10.0.0.0/8-16 ", b"AS64496", b"10.0.0.0/8-16 ASX", b"10.0.0.0/8-16,AS1"),
    *(b"10.0.0.0-16 AS1", b"10.0.0.1/8-16 AS1", b"10.0.0.0/33-33 AS1", b"10.0.0/8-16 AS1", b"10.0.0.0/x-16 AS1"),
    *(b"10.0.0.0/8- AS1", b"10.0.0.0/8-x AS1", b"10.0.0.0/8-256 AS1", b"10.0.0.0/8-9-9 AS1", b"10.0.0.0/8--9 AS1"),
    *(b"10.0.0.0/8-7 AS1", b"10.0.0.0/8-33 AS1", b"::/128-127 AS1", b"::/0-129 AS1", b"10.0.0.0/8-16 4294967296"),
    *(b"10.0.0.0/8-16 AS1 AS2", b"10.0.0.0/8 -16 AS1", b"10.0.0.1/8-7 ASX", b"10.0.0.1/8-7 AS1", b"10.0.0.0/8-16 -1"),
    "10.0.0.0/8-16\u2003AS1".encode(),
    "\u200310.0.0.0/8-16 AS1\u00a0".encode(),
]


def of_route_texts() -> Iterator[Question]:
    """Yields lines with routes, the texts of VRPs and routes, and VRPs and routes that are printed. Some are wrong."""
    source = Random(5952)

    def asked(call: str, octets: bytes) -> Question:
        return Question(call, (), (octets, b""))

    yield from (asked("routes", b"".join(it)) for it in (ROUTE_LINES, ROUTE_LINES[8:], (), (ROUTE_LINES[0][:-1],)))
    for line in (*ROUTE_LINES, *WRONG_ROUTE_LINES):
        yield asked("routes", line)
        yield asked("route_from_text", line)
        yield asked("route_from_text", line.strip())
    for wrong in WRONG_ROUTE_LINES:
        for place in (0, 1, 5, len(ROUTE_LINES)):
            yield asked("routes", b"".join([*ROUTE_LINES[:place], wrong, *ROUTE_LINES[place:], wrong]))
    for text in VRP_TEXTS:
        yield asked("vrp_from_text", text)
        yield asked("route_from_text", text)
    ends = [(V4, 0, 0), (V4, 2**32 - 1, 32), (V6, 0, 0), (V6, 2**128 - 1, 128), (V6, 0xFFFF << 32 | 10 << 24, 128)]
    ends += [(V6, 0x2001_0DB8 << 96, 32), (V6, 1 << 112, 128), (V6, (1 << 96) + 1, 128), (V6, 1, 128)]
    wrong = [(0, 0, 0), (ASN, 0, 0), (255, 0, 0), (V4, 10 << 24, 33), (V4, 1, 31), (V6, 1, 127), (V6, 0, 129)]
    values = [routed(*it, number, most) for it in (*ends, *wrong) for number in (0, 2**32 - 1) for most in (it[2], 255)]
    values += [routed(*it, 64496, 32 if it[0] == V4 else 128) for it in ends]
    for octets in (*values, *(random_routed(source, True) for _ in range(60))):
        yield asked("vrp_text", octets)
        yield asked("route_text", octets[:22])
        for call in ("vrp_text", "route_text"):
            found = answer(asked(call, octets if call == "vrp_text" else octets[:22]))
            if not found.status:
                yield asked(call.replace("_", "_from_"), found.written[0])
                yield asked("routes", found.written[0])


def of_differences() -> Iterator[Question]:
    """Yields routes under two tables with few, many, the same or no VRPs, and an invalid route at several indexes."""
    source = Random(6811_4)

    def asked(old: list[bytes], new: list[bytes], routes: list[bytes]) -> Question:
        return Question("differ", (), (b"".join(old), b"".join(new)), (b"".join(routes), b""))

    for count in (0, 1, 2, 3, 9, 40) * 6:
        old = [random_routed(source, True) for _ in range(count)]
        kept = source.sample(old, source.randrange(count + 1))
        new = kept + [random_routed(source, True) for _ in range(source.randrange(4))]
        yield asked(old, new, [random_routed(source, False) for _ in range(source.choice((0, 1, 5, 11, 12, 13, 30)))])
        yield asked(old, old[::-1], [random_routed(source, False) for _ in range(3)])
    good, fine = routed(V4, 10 << 24, 8, 64496, 24), routed(V4, 10 << 24, 24, 64496)
    for bad in (routed(0, 0, 0, 1), routed(V4, 1, 31, 1), routed(V6, 0, 129, 1), routed(V4, 10 << 24, 33, 1)):
        for count in (2, 11, 12, 13, 25):
            for place in (0, 1, count):
                routes = [fine] * count
                yield asked([good], [], routes[:place] + [bad] + routes[place:])


def of_changes() -> Iterator[Question]:
    """Yields pairs of tables with few, many, the same or no VRPs, with duplicates, and with VRPs that differ little."""
    source = Random(8210_5)

    def asked(old: list[bytes], new: list[bytes]) -> Question:
        return Question("changes", (), (b"".join(old), b"".join(new)))

    def zeroed(vrp: bytes) -> bytes:
        """Returns the same VRP, with zeros after an IPv4 address."""
        return vrp[:4] + bytes(12) + vrp[16:] if vrp[20] == V4 else vrp

    for count in (0, 1, 2, 3, 9, 40) * 4:
        old = [random_routed(source, True) for _ in range(count)]
        kept = source.sample(old, source.randrange(count + 1))
        new = kept + [random_routed(source, True) for _ in range(source.choice((0, 1, 4, 20)))]
        yield asked(old, new)
        yield asked(new, old)
        yield asked(old, [*map(zeroed, old[::-1])])
        yield asked(old + kept, kept + kept + new[:2])
    ten = 10 << 24
    places = [(V4, 0, 0), (V4, ten, 8), (V4, ten, 9), (V4, ten + (1 << 23), 9), (V4, ten + 0xFFFFFF, 32), (V4, ten, 32)]
    places += [(V6, 0, 0), (V6, ten << 96, 8), (V6, 2**128 - 1, 128), (V6, 0, 128), (V4, 2**32 - 1, 32)]
    near = []
    for family, address, length in places:
        for most in sorted({length, length + 1, 32 if family == V4 else 128} - {33, 129}):
            near += [routed(family, address, length, number, most) for number in (0, 1, 255, 256, 2**31, 2**32 - 1)]
    for _ in range(6):
        yield asked(source.sample(near, 60), source.sample(near, 60))
    for at, vrp in enumerate(near):
        yield asked([vrp], [zeroed(near[at - 1])])
    mixed = source.sample(near, len(near))
    yield asked(mixed[:70], mixed[70:])
    yield asked([], mixed)


def of_lines() -> Iterator[Question]:
    """Yields valid and damaged lines of each command, and lines without a known command."""
    for line in (b"", b" ", b"\xff", b"norm", b"norm v5 0.0.0.0", b"cover as AS1", b"NORM as AS1", b"der as inherit\0"):
        yield Question("answer", (), (line, b""))
    for command in COMMANDS:
        maker = Maker(command, 34)
        for _ in range(60):
            yield Question("answer", (), (maker.line(), b""))


def of_sets() -> Iterator[Question]:
    """Yields each pair of sets, each set with itself, unknown encodings, and altered and random sets."""
    source = Random(6487)

    def asked(call: str, encoding: int, first: Octets, second: Octets) -> Question:
        return Question(call, (encoding,), first, second)

    pairs = [(first, second) for first in CERTIFICATES for second in CERTIFICATES]
    for at, (first, second) in enumerate(pairs):
        yield asked(ON_SETS[at % len(ON_SETS)], ENCODINGS[at // len(ON_SETS) % 2], first, second)
    for call in ON_SETS:
        for octets in CERTIFICATES:
            yield asked(call, LENIENT, octets, octets)
        yield asked(call, 2, ISSUER, ISSUER)
        yield asked(call, 2**32 - 1, (b"\0", b"\0"), NOTHING)
    for other in altered(CERTIFICATES[6], source):
        yield asked(source.choice(ON_SETS), source.choice(ENCODINGS), ISSUER, other)
        yield asked(source.choice(ON_SETS), source.choice(ENCODINGS), other, ISSUER)
    for at in range(200):
        first, second = random_set(source), random_set(source)
        if at % 2:  # the first set contains the second
            first = answer(asked("union", LENIENT, first, second)).written
        yield asked(ON_SETS[at % len(ON_SETS)], source.choice(ENCODINGS), first, second)


def questions() -> Iterator[Question]:
    """Yields all questions."""
    parts = of_certificates, of_absence, of_paths, of_sets, of_covers, of_origins, of_tables, of_differences, of_changes
    parts += of_lines, of_files, of_expiries, of_slurm, of_texts, of_ranges, of_contents, of_route_texts
    for part in parts:
        yield from part()
