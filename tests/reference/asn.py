"""AS numbers, AS blocks and lists of them as texts (RFC 5396, 2; RFC 6793)."""

from typing import NamedTuple

from . import faults, texts
from .faults import Fault
from .sets import Set, merged

LAST = 2**32 - 1
ALL: Set = [(0, LAST)]


class AsBlock(NamedTuple):
    """AS numbers from the first to the last, in the form of a range or of one number."""

    first: int
    last: int
    is_range: bool

    def bounds(self) -> tuple[int, int]:
        """Returns the first and the last number."""
        return self.first, self.last

    def text(self) -> str:
        """Returns the block in its own form."""
        return f"AS{self.first}-AS{self.last}" if self.is_range else f"AS{self.first}"


def new_block(first: int, last: int) -> AsBlock:
    """Returns the block that a set has between two bounds."""
    return AsBlock(first, last, first != last)


def read_asn(text: str) -> int:
    """Reads an AS number."""
    digits = text[2:] if text[:2] in ("AS", "As", "aS", "as") else text
    try:
        return texts.number(digits, LAST)
    except Fault:
        raise Fault(faults.INVALID_AS_NUMBER) from None


def read_block(text: str) -> AsBlock:
    """Reads an AS number, or two with a dash between them."""
    if "-" in text:
        return _read_range(*texts.cut(text, "-"))
    try:
        asn = read_asn(text)
    except Fault:
        raise Fault(faults.BAD_AS_NUMBER) from None
    return AsBlock(asn, asn, False)


def _read_range(first: str, last: str) -> AsBlock:
    try:
        block = AsBlock(read_asn(first), read_asn(last), True)
    except Fault:
        raise Fault(faults.BAD_AS_RANGE) from None
    if block.first > block.last:
        raise Fault(faults.BAD_AS_RANGE)
    return block


def read_set(text: str) -> Set:
    """Reads the set that a list describes."""
    return merged([read_block(element).bounds() for element in texts.elements(text)])


def print_set(numbers: Set) -> str:
    """Returns a set as a list."""
    return ", ".join(new_block(*run).text() for run in numbers)
