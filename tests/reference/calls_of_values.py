"""The answers of `rows_values`: texts and octets of one value, orders and covers of prefixes."""

from collections import Counter
from collections.abc import Callable
from typing import Any, NamedTuple

from . import addresses, asn, der, ip, prefixes, resources, texts
from .addresses import Family
from .faults import DerFault, Fault
from .lines import octets_of
from .resources import INHERIT, Claim, Families

NO_HEXADECIMAL = "no hexadecimal"
MISSING = None

# A reader of octets. It accepts only canonical ones if its second argument is true.
ModalReader = Callable[[bytes, bool], tuple[Any, bytes]]


class Octets(NamedTuple):
    """A reader of octets, and the functions that print and write the values that it returns."""

    read: ModalReader
    print: Callable[[Any], str]
    write: Callable[[Any], bytes]


def _optional(tag: int, read: Callable[[bytes], tuple[Any, bytes]]) -> ModalReader:
    """Returns a reader that returns MISSING at another tag and at the end."""

    def read_optional(octets: bytes, _strict: bool) -> tuple[Any, bytes]:
        return read(octets) if octets[:1] == bytes([tag]) else (MISSING, octets)

    return read_optional


def _block_or_end(read: Callable[..., tuple[Any, bytes]], *given: Any) -> ModalReader:
    """Returns a reader of a block that returns MISSING only at the end."""

    def read_optional(octets: bytes, strict: bool) -> tuple[Any, bytes]:
        return read(octets, *given, strict) if octets else (MISSING, octets)

    return read_optional


def _or_none(write: Callable[[Any], Any], none: Any) -> Callable[[Any], Any]:
    return lambda value: none if value is MISSING else write(value)


def _print_asn(number: int) -> str:
    return f"AS{number}"


def _print_family(family: Family) -> str:
    return family.name.lower()


def _write_family(family: Family) -> bytes:
    return der.written(der.OCTET_STRING, family.number.to_bytes(2, "big"))


def _ip_block_octets(family: Family | None) -> Octets:
    shown = family or Family.V6
    return Octets(
        _block_or_end(resources.read_ip_block, family),
        _or_none(lambda block: block.text(shown), "none"),
        _or_none(resources.written_ip_block, b""),
    )


def _ip_prefix_octets(family: Family | None) -> Octets:
    shown = family or Family.V6
    return Octets(
        lambda octets, strict: resources.read_prefix(octets, family, strict),
        lambda block: block.text(shown),
        resources.written_ip_block,
    )


def _ip_set_octets(family: Family | None) -> Octets:
    shown = family or Family.V6
    return Octets(
        lambda octets, strict: resources.read_ip_set(octets, family, strict),
        lambda numbers: ip.print_set(numbers, shown),
        resources.written_ip_set,
    )


def _print_ip_claim(claim: Claim, family: Family) -> str:
    if claim is None:
        return "-"
    return claim if claim == INHERIT else f"[{ip.print_set(claim, family)}]"


def _ip_claim_octets(family: Family) -> Octets:
    return Octets(
        lambda octets, strict: resources.read_ip_claim(octets, family, strict),
        lambda claim: _print_ip_claim(claim, family),
        resources.written_ip_claim,
    )


def _print_families(found: Families) -> str:
    v4, v6 = _print_ip_claim(found.v4, Family.V4), _print_ip_claim(found.v6, Family.V6)
    return f"v4 {v4} v6 {v6}"


def _print_as_claim(claim: Claim) -> str:
    return claim if claim == INHERIT else f"[{asn.print_set(claim)}]"


def _skipped(read: ModalReader) -> Octets:
    """Returns a call that answers only whether it skipped something."""

    def skip(octets: bytes, strict: bool) -> tuple[Any, bytes]:
        found, rest = read(octets, strict)
        return (MISSING if found is MISSING else "skipped"), rest

    return Octets(skip, _or_none(str, "none"), lambda _: b"")


def _skip_as_block(octets: bytes, _strict: bool) -> tuple[Any, bytes]:
    return resources.read_as_block(octets, False, in_any_order=True)


def _read_asn(octets: bytes, _strict: bool) -> tuple[int, bytes]:
    return resources.read_asn(octets)


def _read_family(octets: bytes, _strict: bool) -> tuple[Family, bytes]:
    return resources.read_family(octets)


def _read_any(octets: bytes, _strict: bool) -> tuple[der.Value, bytes]:
    found = der.value(octets)
    return found, found.rest


def _write_as_set(numbers: Any) -> bytes:
    return der.written(der.SEQUENCE, resources.written_as_blocks(numbers))


_OPTIONAL_ASN = _optional(der.INTEGER, resources.read_asn)
_OPTIONAL_FAMILY = _optional(der.OCTET_STRING, resources.read_family)
_AS_BLOCK = _block_or_end(resources.read_as_block)

OCTETS: dict[str, Octets] = {
    "asn": Octets(_read_asn, _print_asn, der.written_integer),
    "asnopt": Octets(
        _OPTIONAL_ASN, _or_none(_print_asn, "none"), _or_none(der.written_integer, b"")
    ),
    "skipasn": _skipped(_read_asn),
    "family": Octets(_read_family, _print_family, _write_family),
    "familyopt": Octets(
        _OPTIONAL_FAMILY, _or_none(_print_family, "none"), _or_none(_write_family, b"")
    ),
    "skipfamily": _skipped(_OPTIONAL_FAMILY),
    "asblock": Octets(
        _AS_BLOCK,
        _or_none(asn.AsBlock.text, "none"),
        _or_none(resources.written_as_block, b""),
    ),
    "skipas": _skipped(_block_or_end(_skip_as_block)),
    "asblocks": Octets(resources.read_as_set, asn.print_set, _write_as_set),
    "asres": Octets(resources.read_as_claim, _print_as_claim, resources.written_as_claim),
    "families": Octets(resources.read_families, _print_families, resources.written_families),
    "prefix": _ip_prefix_octets(None),
    "prefix4": _ip_prefix_octets(Family.V4),
    "prefix6": _ip_prefix_octets(Family.V6),
    "ipblock": _ip_block_octets(None),
    "ipblock4": _ip_block_octets(Family.V4),
    "ipblock6": _ip_block_octets(Family.V6),
    "ipblocks": _ip_set_octets(None),
    "ipblocks4": _ip_set_octets(Family.V4),
    "ipblocks6": _ip_set_octets(Family.V6),
    "ipres4": _ip_claim_octets(Family.V4),
    "ipres6": _ip_claim_octets(Family.V6),
}

_TLV = Octets(
    _read_any,
    lambda found: f"{found.tag:02x} {found.content.hex()}",
    lambda found: f"{found.tag:02x} {found.content.hex()}".encode(),
)


def take(kind: str, text: str, strict: bool) -> str:
    """Returns the text of the value at the front of octets, and the octets after it."""
    octets = octets_of(text)
    if octets is None:
        return NO_HEXADECIMAL
    reader = _TLV if kind == "tlv" else OCTETS.get(kind)
    if reader is None:
        return "no such reader of octets"
    found, rest = reader.read(octets, strict)
    return reader.print(found) + (f" +{rest.hex()}" if rest else "")


def written(kind: str, text: str) -> str:
    """Returns the octets that are written for the value at the front of octets."""
    octets = octets_of(text)
    if octets is None:
        return NO_HEXADECIMAL
    if kind == "tlv":
        return take(kind, text, False)
    reader = OCTETS.get(kind)
    if reader is None:
        return "no such reader of octets"
    return reader.write(reader.read(octets, False)[0]).hex()


def altered(kind: str, text: str, strict: bool) -> str:
    """Returns the count of each fault in the beginnings of octets, and with each value at each index.

    A value must be the same after it is written and read again. For canonical octets, the written octets must be those
    that were read.
    """
    reader, octets = OCTETS.get(kind), octets_of(text)
    if reader is None:
        return "no such reader of octets"
    if octets is None:
        return NO_HEXADECIMAL
    beginnings: Counter[int | None] = Counter()
    replaced: Counter[int | None] = Counter()
    for place in range(len(octets)):
        before, behind = octets[:place], octets[place + 1 :]
        texts_of_place = (before + bytes([octet]) + behind for octet in range(256))
        beginnings[_number(reader, before, strict)] += 1
        replaced.update(_number(reader, changed, strict) for changed in texts_of_place)
        if None in beginnings or None in replaced:
            return f"wrong at {place}"
    return f"cut: {_counts_text(beginnings)}; replaced: {_counts_text(replaced)}"


def _counts_text(counts: Counter[int | None]) -> str:
    faults = [f", {number}: {counts[number]}" for number in sorted(filter(None, counts))]
    return f"read {counts[0]}" + "".join(faults)


def _number(reader: Octets, octets: bytes, strict: bool) -> int | None:
    """Returns the number of a fault, 0 for a value that is read back, or None for one that is not."""
    try:
        found, rest = reader.read(octets, strict)
    except DerFault as fault:
        return fault.number
    if reader.print(found) in ("skipped", "none"):
        return 0
    octets_again = reader.write(found)
    if strict and octets_again + rest != octets:
        return None
    again, behind = reader.read(octets_again, False)
    is_same = again[:2] == found[:2] if isinstance(found, tuple) else again == found
    return 0 if is_same and not behind else None


def _block_text(block: asn.AsBlock) -> str:
    return f"{block.text()} {resources.written_as_block(block).hex()}"


def _both_texts(block: ip.IpBlock) -> str:
    shown = " ".join(block.text(family) for family in Family)
    return f"{shown} {resources.written_ip_block(block).hex()}"


def _set_text(text: str) -> str:
    numbers = ip.read_either(text)
    shown = ip.print_set(numbers, ip.family_of(text))
    return f"{shown} {resources.written_ip_set(numbers).hex()}"


TEXTS: dict[str, Callable[[str], str]] = {
    "asn": lambda text: _print_asn(asn.read_asn(text)),
    "asblock": lambda text: _block_text(asn.read_block(text)),
    "addr": lambda text: addresses.print_address(*addresses.read_any(text)),
    "addr4": lambda text: addresses.print_v4(addresses.read_v4(text)),
    "addr6": lambda text: addresses.print_v6(addresses.read_v6(text)),
    "u8": lambda text: str(texts.number(text, 2**8 - 1)),
    "u32": lambda text: str(texts.number(text, 2**32 - 1)),
    "prefix": lambda text: prefixes.read_prefix(text).text(),
    "relaxed": lambda text: prefixes.read_prefix(text, is_relaxed=True).text(),
    "maxlen": lambda text: prefixes.read_max_len(text).text(),
    "v4block": lambda text: _both_texts(ip.read_block(text, Family.V4)),
    "v6block": lambda text: _both_texts(ip.read_block(text, Family.V6)),
    "ipblock": lambda text: _both_texts(ip.read_block(text, None)),
    "rprefix": lambda text: ip.read_prefix(text, None).text(ip.family_of(text)),
    "rprefix4": lambda text: _both_texts(ip.read_prefix(text, Family.V4)),
    "rprefix6": lambda text: _both_texts(ip.read_prefix(text, Family.V6)),
    "rrange": lambda text: ip.read_range(text, None).text(ip.family_of(text)),
    "rrange4": lambda text: _both_texts(ip.read_range(text, Family.V4)),
    "rrange6": lambda text: _both_texts(ip.read_range(text, Family.V6)),
    "ipblocks": _set_text,
}


def _text(kind: str, text: str) -> str:
    return TEXTS[kind](text) if kind in TEXTS else "no such reader of texts"


def _order(text: str) -> str:
    left, right = (prefixes.read_max_len(part.strip(" ")).key() for part in texts.cut(text, "|"))
    return "less" if left < right else "greater" if left > right else "equal"


def _covers(text: str) -> str:
    left, right = (prefixes.read_prefix(part.strip(" ")) for part in texts.cut(text, "|"))
    return str(left.covers(right)).lower()


def _prefixes(kind: str, text: str) -> str:
    bounds = ip.read_range(text, Family.V6).bounds()
    return prefixes.print_cover([bounds], Family.V4 if kind == "v4" else Family.V6)


COMMANDS: dict[str, Callable[[str, str], str]] = {
    "text": _text,
    "take": lambda kind, text: take(kind, text, False),
    "strict": lambda kind, text: take(kind, text, True),
    "written": written,
    "prefixes": _prefixes,
    "altered": lambda kind, text: altered(kind, text, False),
    "alteredstrict": lambda kind, text: altered(kind, text, True),
}
PAIRS: dict[str, Callable[[str], str]] = {"order": _order, "covers": _covers}


def answer(line: str) -> str:
    """Returns the answer to a line."""
    command, rest = texts.cut(line, " ")
    try:
        if command in PAIRS:
            return PAIRS[command](rest)
        if command in COMMANDS:
            return COMMANDS[command](*texts.cut(rest, " "))
    except Fault as fault:
        return f"error: {fault}"
    return "no such command"
