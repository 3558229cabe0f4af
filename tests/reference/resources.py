"""Blocks, sets and claims in DER (RFC 3779, 2.2.3 and 3.2.3; RFC 6487, 4.8.10 and 4.8.11).

Each reader takes octets, and whether it accepts only canonical ones. It returns the value at the front, and the octets
after it. A claim is a set that isn't empty, or INHERIT, or None if missing.
"""

from collections.abc import Callable
from functools import lru_cache
from typing import Literal, NamedTuple, TypeVar

from . import asn, der, ip
from .addresses import Family
from .asn import AsBlock
from .faults import Der, DerFault
from .ip import IpBlock
from .sets import Set, merged

INHERIT: Literal["inherit"] = "inherit"
Claim = Set | Literal["inherit"] | None

Block = TypeVar("Block", AsBlock, IpBlock)
BlockReader = Callable[[bytes, bool], tuple[Block, bytes]]


class Families(NamedTuple):
    """The claim on each family, None if it is missing."""

    v4: Claim
    v6: Claim


def read_asn(octets: bytes) -> tuple[int, bytes]:
    """Reads an AS number."""
    found = der.wanted(octets, der.INTEGER)
    return der.as_number(found.content), found.rest


def read_family(octets: bytes) -> tuple[Family, bytes]:
    """Reads an address family: two octets, without a subsequent address family identifier (SAFI)."""
    found = der.wanted(octets, der.OCTET_STRING)
    for family in Family:
        if found.content == family.number.to_bytes(2, "big"):
            return family, found.rest
    raise DerFault(Der.BadFamily)


def read_prefix(octets: bytes, family: Family | None, strict: bool) -> tuple[IpBlock, bytes]:
    """Reads a prefix, of a family if one is given."""
    found = der.wanted(octets, der.BIT_STRING)
    return _prefix(found.content, family, strict), found.rest


@lru_cache(maxsize=4096)
def _prefix(content: bytes, family: Family | None, strict: bool) -> IpBlock:
    bits = der.bits(content)
    if len(bits.octets) > 16 or (family and bits.length() > family.bits):
        raise DerFault(Der.BadPrefix)
    if strict and bits.is_dirty:
        raise DerFault(Der.NotCanonical)
    number = int.from_bytes(bits.octets.ljust(16, b"\0"), "big")
    return ip.prefix(number, bits.length())


def read_as_block(octets: bytes, strict: bool, in_any_order: bool = False) -> tuple[AsBlock, bytes]:
    """Reads an AS number or a range of them.

    With `in_any_order` the range may be reversed, for a block that is only skipped.
    """
    found = der.value(octets)
    return _as_block(found.tag, found.content, strict, in_any_order), found.rest


@lru_cache(maxsize=4096)
def _as_block(tag: int, content: bytes, strict: bool, in_any_order: bool) -> AsBlock:
    if tag == der.INTEGER:
        number = der.as_number(content)
        return AsBlock(number, number, False)
    if tag != der.SEQUENCE:
        raise DerFault(Der.BadTag)
    first, behind = read_asn(content)
    last, behind = read_asn(behind)
    if first > last and not in_any_order:
        raise DerFault(Der.ReversedRange)
    der.at_end(behind)
    if strict and first == last:
        raise DerFault(Der.NotCanonical)
    return AsBlock(first, last, True)


def read_ip_block(octets: bytes, family: Family | None, strict: bool) -> tuple[IpBlock, bytes]:
    """Reads a prefix or a range, of a family if one is given."""
    found = der.value(octets)
    return _ip_block(found.tag, found.content, family, strict), found.rest


@lru_cache(maxsize=4096)
def _ip_block(tag: int, content: bytes, family: Family | None, strict: bool) -> IpBlock:
    if tag == der.BIT_STRING:
        return _prefix(content, family, strict)
    if tag != der.SEQUENCE:
        raise DerFault(Der.BadTag)
    first, behind = read_prefix(content, family, strict)
    last, behind = read_prefix(behind, family, strict)
    if first.first > last.last:
        raise DerFault(Der.ReversedRange)
    der.at_end(behind)
    block = IpBlock(first.first, last.last, None)
    in_new_form = written_ip_block(ip.new_block(*block.bounds()))
    if strict and in_new_form != der.written(tag, content):
        raise DerFault(Der.NotCanonical)
    return block


def _blocks(content: bytes, read: BlockReader[Block], strict: bool) -> Set:
    """Reads the set of blocks that follow one another to the end."""
    bounds: list[tuple[int, int]] = []
    while content:
        block, content = read(content, strict)
        if strict and bounds and block.first <= bounds[-1][1] + 1:
            raise DerFault(Der.NotCanonical)
        bounds.append(block.bounds())
    return merged(bounds)


def _ip_reader(family: Family | None) -> BlockReader[IpBlock]:
    return lambda octets, strict: read_ip_block(octets, family, strict)


def read_as_set(octets: bytes, strict: bool) -> tuple[Set, bytes]:
    """Reads a SEQUENCE of AS blocks."""
    found = der.wanted(octets, der.SEQUENCE)
    return _blocks(found.content, read_as_block, strict), found.rest


def read_ip_set(octets: bytes, family: Family | None, strict: bool) -> tuple[Set, bytes]:
    """Reads a SEQUENCE of blocks of addresses."""
    found = der.wanted(octets, der.SEQUENCE)
    return _blocks(found.content, _ip_reader(family), strict), found.rest


def _choice(octets: bytes, read: BlockReader[Block], strict: bool) -> tuple[Claim, bytes]:
    """Reads a NULL, which means INHERIT, or a SEQUENCE of at least one block."""
    found = der.value(octets)
    if found.tag == der.NULL:
        der.null(found.content)
        return INHERIT, found.rest
    if found.tag != der.SEQUENCE:
        raise DerFault(Der.BadTag)
    numbers = _blocks(found.content, read, strict)
    if not numbers:
        raise DerFault(Der.EmptyBlocks)
    return numbers, found.rest


def read_as_claim(octets: bytes, strict: bool) -> tuple[Claim, bytes]:
    """Reads a SEQUENCE of a value of context tag 0, which has the choice."""
    outer = der.wanted(octets, der.SEQUENCE)
    tagged = der.wanted(outer.content, der.CONTEXT_0)
    claim, behind = _choice(tagged.content, read_as_block, strict)
    der.at_end(behind)
    der.at_end(tagged.rest)
    return claim, outer.rest


def read_ip_claim(octets: bytes, family: Family, strict: bool) -> tuple[Claim, bytes]:
    """Reads the choice of a family's resources."""
    return _choice(octets, _ip_reader(family), strict)


def read_families(octets: bytes, strict: bool) -> tuple[Families, bytes]:
    """Reads a SEQUENCE of at least one family with its claim. A family may occur once."""
    outer = der.wanted(octets, der.SEQUENCE)
    claims: dict[Family, Claim] = {}
    content = outer.content
    while content:
        member = der.wanted(content, der.SEQUENCE)
        family, behind = read_family(member.content)
        if family in claims:
            raise DerFault(Der.DuplicateFamily)
        if strict and family is Family.V4 and claims:
            raise DerFault(Der.NotCanonical)
        claims[family], behind = read_ip_claim(behind, family, strict)
        der.at_end(behind)
        content = member.rest
    if not claims:
        raise DerFault(Der.NoFamily)
    return Families(claims.get(Family.V4), claims.get(Family.V6)), outer.rest


def all_of(found: tuple[Claim | Families, bytes]) -> Claim | Families:
    """Returns the value that was read. Raises a fault if octets follow it."""
    der.at_end(found[1])
    return found[0]


@lru_cache(maxsize=4096)
def written_as_block(block: AsBlock) -> bytes:
    """Returns an AS block in its own form."""
    if not block.is_range:
        return der.written_integer(block.first)
    bounds = der.written_integer(block.first) + der.written_integer(block.last)
    return der.written(der.SEQUENCE, bounds)


@lru_cache(maxsize=4096)
def written_ip_block(block: IpBlock) -> bytes:
    """Returns a block of addresses in its own form.

    A range is written without the zeros that end its first address, and without the ones that end its last address (RFC
    3779, 2.2.3.9).
    """
    if block.length is not None:
        return der.written_prefix(block.first, block.length)
    first = f"{block.first:0128b}".rstrip("0")
    last = f"{block.last:0128b}".rstrip("1")
    bounds = der.written_prefix(block.first, len(first)) + der.written_prefix(block.last, len(last))
    return der.written(der.SEQUENCE, bounds)


def written_as_blocks(numbers: Set) -> bytes:
    """Returns the blocks of a set of AS numbers, one after another."""
    return b"".join(written_as_block(asn.new_block(*run)) for run in numbers)


def written_ip_set(numbers: Set) -> bytes:
    """Returns a set of addresses as a SEQUENCE."""
    blocks = (written_ip_block(ip.new_block(*run)) for run in numbers)
    return der.written(der.SEQUENCE, b"".join(blocks))


def written_as_claim(claim: Claim) -> bytes:
    """Returns AS resources, or no octets if they are missing."""
    if claim is None:
        return b""
    choice = der.written(der.SEQUENCE, written_as_blocks(claim)) if claim != INHERIT else b"\x05\0"
    return der.written(der.SEQUENCE, der.written(der.CONTEXT_0, choice))


def written_ip_claim(claim: Claim) -> bytes:
    """Returns the resources of a family, or no octets if they are missing."""
    if claim is None:
        return b""
    return b"\x05\0" if claim == INHERIT else written_ip_set(claim)


def written_families(claims: Families) -> bytes:
    """Returns the resources of both families, IPv4 first, or no octets if both are missing."""
    members = b""
    for family, claim in ((Family.V4, claims.v4), (Family.V6, claims.v6)):
        if claim is not None:
            number = der.written(der.OCTET_STRING, family.number.to_bytes(2, "big"))
            members += der.written(der.SEQUENCE, number + written_ip_claim(claim))
    return der.written(der.SEQUENCE, members) if members else b""
