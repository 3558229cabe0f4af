"""Blocks of addresses and lists of them as texts.

Addresses of both families are numbers of 128 bits: an IPv4 address stands for the 2^96 numbers that
begin with its 32 bits.
"""

from collections.abc import Callable
from typing import NamedTuple

from . import faults, texts
from .addresses import Family, print_address, read_any, read_v4, read_v6
from .faults import Fault
from .sets import Set, merged

LAST = 2**128 - 1
ALL: Set = [(0, LAST)]
BEHIND_V4 = 96

AddressReader = Callable[[str], tuple[Family, int]]


class IpBlock(NamedTuple):
    """Addresses from the first to the last, as the prefix of a length or as a range."""

    first: int
    last: int
    length: int | None

    def bounds(self) -> tuple[int, int]:
        """Returns the first and the last number."""
        return self.first, self.last

    def text(self, family: Family) -> str:
        """Returns the block in its own form, its addresses printed in a family."""
        behind = 128 - family.bits
        first = print_address(family, self.first >> behind)
        if self.length is not None:
            return first if self.length == family.bits else f"{first}/{self.length}"
        last = print_address(family, self.last >> behind)
        return first if first == last else f"{first}-{last}"


def prefix(number: int, length: int) -> IpBlock:
    """Returns the block of the numbers that begin with the first bits of a number."""
    behind = 128 - length
    first = number >> behind << behind
    return IpBlock(first, first + (1 << behind) - 1, length)


def new_block(first: int, last: int) -> IpBlock:
    """Returns the block that a set has between two bounds: a prefix if one has exactly these numbers."""
    size = last - first + 1
    if size & (size - 1) == 0 and first % size == 0:
        return IpBlock(first, last, 128 - (size.bit_length() - 1))
    return IpBlock(first, last, None)


def _v4(text: str) -> tuple[Family, int]:
    return Family.V4, read_v4(text)


def _v6(text: str) -> tuple[Family, int]:
    return Family.V6, read_v6(text)


def address_reader(family: Family | None) -> AddressReader:
    """Returns the function that reads the addresses of a family, or of either family."""
    return {Family.V4: _v4, Family.V6: _v6, None: read_any}[family]


def read_prefix(text: str, family: Family | None) -> IpBlock:
    """Reads an address and a length with a slash between them."""
    if "/" not in text:
        raise Fault(faults.MISSING_SEPARATOR)
    left, right = texts.cut(text, "/")
    found, number = address_reader(family)(left)
    try:
        length = texts.number(right, 255)
    except Fault as fault:
        raise Fault(f"bad prefix length: {fault}") from None
    if length > found.bits:
        raise Fault(f"bad prefix length: {texts.TOO_LARGE}")
    return prefix(number << 128 - found.bits, length)


def read_range(text: str, family: Family | None) -> IpBlock:
    """Reads two addresses with a dash between them."""
    if "-" not in text:
        raise Fault(faults.MISSING_SEPARATOR)
    left, right = texts.cut(text, "-")
    read = address_reader(family)
    (one, first), (other, last) = read(left), read(right)
    if one is not other:
        raise Fault(faults.FAMILY_MISMATCH)
    if first > last:
        raise Fault(faults.BAD_RANGE)
    behind = 128 - one.bits
    return IpBlock(first << behind, (last + 1 << behind) - 1, None)


def read_block(text: str, family: Family | None) -> IpBlock:
    """Reads a prefix, a range or one address, of one family or of either."""
    if "/" in text:
        return read_prefix(text, family)
    if "-" in text:
        return read_range(text, family)
    found, number = address_reader(family)(text)
    behind = 128 - found.bits
    return IpBlock(number << behind, (number + 1 << behind) - 1, None)


def read_set(text: str, family: Family) -> Set:
    """Reads the set that a list of a family describes."""
    blocks = []
    for element in texts.elements(text):
        if family is (Family.V4 if ":" in element else Family.V6 if "." in element else None):
            raise Fault(faults.FAMILY_MISMATCH)
        blocks.append(read_block(element, family).bounds())
    return merged(blocks)


def family_of(text: str) -> Family:
    """Returns the family of a list that names none. A list with a colon is IPv6."""
    return Family.V6 if ":" in text else Family.V4


def read_either(text: str) -> Set:
    """Reads the set that a list of either family describes."""
    family = family_of(text)
    try:
        return merged([read_block(part, family).bounds() for part in texts.elements(text)])
    except Fault:
        raise Fault(faults.FAMILY_MISMATCH) from None


def print_set(numbers: Set, family: Family) -> str:
    """Returns a set as a list of a family."""
    return ", ".join(new_block(*run).text(family) for run in numbers)


def is_whole(numbers: Set) -> bool:
    """Returns whether a set has all or none of the numbers of each IPv4 address."""
    unit = 1 << BEHIND_V4
    return all(low % unit == 0 and (high + 1) % unit == 0 for low, high in numbers)
