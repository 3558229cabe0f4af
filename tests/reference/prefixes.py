"""Prefixes of routes (RFC 4632, 3.1; RFC 9582, 4.3.2), covers, and the validity of routes (RFC 6811)."""

from collections.abc import Iterator
from typing import NamedTuple

from . import texts
from .addresses import Family, print_address, read_any
from .faults import Fault
from .ip import prefix
from .sets import Set

LENGTH_TOO_LARGE = "prefix length too large"
HOST_BITS = "non-zero host portion"


class Prefix(NamedTuple):
    """A family, a first address and a length."""

    family: Family
    address: int
    length: int

    def last(self) -> int:
        """Returns the last address."""
        return self.address + (1 << self.family.bits - self.length) - 1

    def text(self) -> str:
        """Returns the address and the length as text."""
        return f"{print_address(self.family, self.address)}/{self.length}"

    def covers(self, other: "Prefix") -> bool:
        """Returns whether this prefix has each address of the other."""
        is_first_in = self.address <= other.address
        return self.family is other.family and is_first_in and other.last() <= self.last()

    def key(self) -> tuple[int, ...]:
        """Returns the sort key: IPv4 first, then by the last address, then the longer prefix first."""
        return self.family.bits, self.last(), -self.length


class MaxLenPrefix(NamedTuple):
    """A prefix, and its maximum length if it has one."""

    prefix: Prefix
    max_length: int | None

    def key(self) -> tuple[int, ...]:
        """Returns the sort key: by the prefix, then from the largest maximum length to none."""
        if self.max_length is None:
            return *self.prefix.key(), 1
        return *self.prefix.key(), 0, -self.max_length

    def text(self) -> str:
        """Returns the prefix, with a dash and the maximum length if it has one."""
        behind = "" if self.max_length is None else f"-{self.max_length}"
        return self.prefix.text() + behind

    def resolved(self) -> int:
        """Returns the maximum length, or the length of the prefix if there is no maximum length."""
        return self.prefix.length if self.max_length is None else self.max_length


class Vrp(NamedTuple):
    """A validated ROA payload."""

    prefix: MaxLenPrefix
    asn: int


def read_prefix(text: str, is_relaxed: bool = False) -> Prefix:
    """Reads a prefix. A relaxed reader clears the bits after the length."""
    if not text:
        raise Fault("empty string")
    if "/" not in text:
        raise Fault("missing length portion")
    left, right = texts.cut(text, "/")
    try:
        family, number = read_any(left)
    except Fault as fault:
        raise Fault(f"invalid address: {fault}") from None
    try:
        length = texts.number(right, 255)
    except Fault as fault:
        raise Fault(f"invalid length: {fault}") from None
    if length > family.bits:
        raise Fault(LENGTH_TOO_LARGE)
    behind = family.bits - length
    cleared = number >> behind << behind
    if cleared != number and not is_relaxed:
        raise Fault(HOST_BITS)
    return Prefix(family, cleared, length)


def with_max_len(found: Prefix, text: str) -> MaxLenPrefix:
    """Returns a prefix with the maximum length of a text."""
    try:
        length = texts.number(text, 255)
    except Fault as fault:
        raise Fault(f"invalid max length: {fault}") from None
    if length > found.family.bits:
        raise Fault("max-length too large")
    if length < found.length:
        raise Fault("max-length smaller than prefix length")
    return MaxLenPrefix(found, length)


def read_max_len(text: str) -> MaxLenPrefix:
    """Reads a prefix, which may have a dash and a maximum length after it."""
    if "-" not in text:
        return MaxLenPrefix(read_prefix(text), None)
    left, right = texts.cut(text, "-")
    return with_max_len(read_prefix(left), right)


def validity(route: Prefix, asn: int, vrps: list[Vrp]) -> str:
    """Returns the validity of a route's origin by VRPs (RFC 6811, 2)."""
    covering = [vrp for vrp in vrps if vrp.prefix.prefix.covers(route)]
    for vrp in covering:
        if route.length <= vrp.prefix.resolved() and vrp.asn == asn != 0:
            return "Valid"
    return "Invalid" if covering else "NotFound"


def first_outside(v4: Set, v6: Set, prefixes: list[MaxLenPrefix]) -> int | None:
    """Returns the index of the first prefix that is not whole in the set of its family."""
    for place, one in enumerate(prefixes):
        family, number, length = one.prefix
        wanted = prefix(number << 128 - family.bits, length)
        numbers = v4 if family is Family.V4 else v6
        if not any(low <= wanted.first and wanted.last <= high for low, high in numbers):
            return place
    return None


def cover(numbers: Set, width: int) -> Iterator[tuple[int, int]]:
    """Yields the largest prefixes inside a set of numbers of a width: their first numbers and lengths.

    It searches the tree of all prefixes from the root. It stops at a prefix if the set has all or none of its numbers.
    """
    below = [(0, 0, numbers)]
    while below:
        first, length, inside = below.pop()
        size = 1 << width - length
        middle = first + size // 2
        if inside and inside[0] == (first, first + size - 1):
            yield first, length
        elif inside:
            upper = [(max(low, middle), high) for low, high in inside if high >= middle]
            lower = [(low, min(high, middle - 1)) for low, high in inside if low < middle]
            below += [(middle, length + 1, upper), (first, length + 1, lower)]


def print_cover(numbers: Set, family: Family) -> str:
    """Returns the cover of a set of numbers of 128 bits, by prefixes of a family.

    For IPv4 it uses the first 32 bits of the bounds.
    """
    behind = 128 - family.bits
    bounds = [(low >> behind, high >> behind) for low, high in numbers]
    found = cover(bounds, family.bits)
    return ", ".join(f"{print_address(family, first)}/{length}" for first, length in found)
