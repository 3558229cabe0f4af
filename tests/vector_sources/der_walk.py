"""Finds the rules that the value of an extension breaks, with a reader that continues after a fault if it can.

It shares no code with tests/reference. It reads BER as far as it understands it, and notes each rule that is broken.
"""

from dataclasses import dataclass, field
from typing import NamedTuple

from .cases import Flag

DECISION = "docs/DECISIONS.md#conformance-vectors"
INTEGER, BIT_STRING, OCTET_STRING, NULL, SEQUENCE, CONTEXT_0, CONTEXT_1 = 2, 3, 4, 5, 0x30, 0xA0, 0xA1

# Rules of the canonical form. A value that breaks no other rule can be read.
FORM = {
    "Unsorted": Flag("the blocks are not in ascending order", "RFC 3779, 2.2.3.6 and 3.2.3.4", True),
    "Overlap": Flag("two blocks overlap", "RFC 3779, 2.2.3.6 and 3.2.3.4", True),
    "Adjacent": Flag("two blocks touch and are not combined", "RFC 3779, 2.2.3.6 and 3.2.3.4", True),
}
OF_DER = {
    "Truncated": Flag("the octets end within a value", "X.690, 8.1", True),
    "AfterValue": Flag("octets follow the value of the extension", "RFC 5280, 4.2", True),
    "TrailingData": Flag("octets follow the last element of a value", "X.690, 8.1", True),
    "WrongTag": Flag("a tag is not one that the grammar has there", "X.690, 8.1.2", True),
    "HighTag": Flag("a tag is in the form for numbers above 30", "X.690, 8.1.2.4", True),
    "Constructed": Flag("a primitive type is in constructed form", "X.690, 8.3.1, 8.8.1 and 10.2", True),
    "NonMinimalLength": Flag("a length has more octets than it needs", "X.690, 10.1", True),
    "IndefiniteLength": Flag("a length is indefinite", "X.690, 10.1", True),
    "LongLength": Flag("a length has more than eight octets", "X.690, 8.1.3.5 and 10.1", True),
    "NullContent": Flag("a NULL has content", "X.690, 8.8.2", True),
}
OF_AS = {
    "Canonical": Flag("the value is canonical", "RFC 3779, 3.2.3; X.690, 10 and 11"),
    "Inherit": Flag("the AS numbers are inherited", "RFC 3779, 3.2.3.3"),
    "SingleNumber": Flag("a block is one AS number", "RFC 3779, 3.2.3.6"),
    "Range": Flag("a block is a range", "RFC 3779, 3.2.3.8"),
    "Extreme": Flag("a block has AS 0 or AS 4294967295", "RFC 3779, 3.2.3.10; RFC 6793, 2"),
    **FORM,
    "RangeIsNumber": Flag("a range has one AS number", "docs/DECISIONS.md, Conformance vectors", True, DECISION),
    "ReversedRange": Flag("the minimum of a range is above its maximum", "RFC 3779, 3.2.3.8 and 3.2.3.9", True),
    "EmptyList": Flag("a list has no block", "RFC 6487, 4.8.11", True),
    "RoutingDomain": Flag("the value has routing domain identifiers", "RFC 6487, 4.8.11", True),
    "NoNumbers": Flag("the value has no AS numbers", "RFC 6487, 4.8.11", True),
    "NonMinimalInteger": Flag("an INTEGER has more octets than it needs", "X.690, 8.3.2", True),
    "EmptyInteger": Flag("an INTEGER has no octets", "X.690, 8.3.1", True),
    "NegativeInteger": Flag("an AS number is negative", "RFC 3779, 3.2.3.10; RFC 6793, 2", True),
    "AsTooLarge": Flag("an AS number is above 4294967295", "RFC 3779, 3.2.3.10; RFC 6793, 2", True),
    **OF_DER,
}
OF_IP = {
    "Canonical": Flag("the value is canonical", "RFC 3779, 2.2.3; X.690, 10 and 11"),
    "IPv4": Flag("the value has IPv4 addresses", "RFC 3779, 2.2.3.3"),
    "IPv6": Flag("the value has IPv6 addresses", "RFC 3779, 2.2.3.3"),
    "Inherit": Flag("addresses of a family are inherited", "RFC 3779, 2.2.3.5"),
    "Prefix": Flag("a block is a prefix", "RFC 3779, 2.2.3.8"),
    "Range": Flag("a block is a range", "RFC 3779, 2.2.3.9"),
    "Extreme": Flag("a block has the first or the last address", "RFC 3779, 2.1.1"),
    **FORM,
    "RangeIsPrefix": Flag("a range is a prefix", "RFC 3779, 2.2.3.7", True),
    "LongBounds": Flag("a bound of a range has bits that should be removed", "RFC 3779, 2.2.3.9", True),
    "UnusedBits": Flag("unused bits of a BIT STRING are not zero", "X.690, 11.2.1", True),
    "FamilyOrder": Flag("IPv6 is in front of IPv4", "RFC 3779, 2.2.3.3", True),
    "ReversedRange": Flag("the minimum of a range is above its maximum", "RFC 3779, 2.2.3.9", True),
    "EmptyList": Flag("a list has no block", "RFC 6487, 4.8.10", True),
    "NoFamily": Flag("the value has no address family", "RFC 6487, 4.8.10", True),
    "DuplicateFamily": Flag("an address family is there twice", "RFC 3779, 2.2.3.3", True),
    "UnknownFamily": Flag(
        "an address family is neither IPv4 nor IPv6", "docs/DECISIONS.md, Conformance vectors", True, DECISION
    ),
    "Safi": Flag("an address family has a subsequent address family", "RFC 6487, 4.8.10", True),
    "FamilyLength": Flag("an address family has neither two octets nor three", "RFC 3779, 2.2.3.3", True),
    "PrefixTooLong": Flag("a BIT STRING has more bits than an address", "RFC 3779, 2.1.1 and 2.2.3.8", True),
    "UnusedCount": Flag("a BIT STRING has a wrong number of unused bits", "X.690, 8.6.2", True),
    "EmptyBitString": Flag("a BIT STRING has no octets", "X.690, 8.6.2", True),
    **OF_DER,
}
# Values that break these rules alone are readable.
READABLE = {*FORM, "RangeIsNumber", "RangeIsPrefix", "LongBounds", "UnusedBits", "FamilyOrder"}


class Stop(Exception):
    """The reader cannot understand the rest of the octets."""


class Value(NamedTuple):
    """A value, and the octets after it."""

    tag: int
    content: bytes
    rest: bytes


@dataclass
class Walk:
    """The flags of a value, which is read from its front."""

    flags: set[str] = field(default_factory=set)

    def stop(self, flag: str) -> Stop:
        """Notes a flag and returns the exception that ends the reading."""
        self.flags.add(flag)
        return Stop()

    def value(self, octets: bytes) -> Value:
        """Reads a value of any tag."""
        if not octets:
            raise self.stop("Truncated")
        if octets[0] & 0x1F == 0x1F:
            raise self.stop("HighTag")
        if len(octets) < 2:
            raise self.stop("Truncated")
        first, start = octets[1], 2
        length = first
        if first == 0x80:
            raise self.stop("IndefiniteLength")
        if first > 0x80:
            count = first - 0x80
            if count > 8:
                raise self.stop("LongLength")
            start += count
            if len(octets) < start:
                raise self.stop("Truncated")
            length = int.from_bytes(octets[2:start], "big")
            if length < 0x80 or octets[2] == 0:
                self.flags.add("NonMinimalLength")
        if len(octets) < start + length:
            raise self.stop("Truncated")
        return Value(octets[0], octets[start : start + length], octets[start + length :])

    def of_tag(self, octets: bytes, *tags: int) -> Value:
        """Reads a value of one of these tags."""
        found = self.value(octets)
        if found.tag in tags:
            return found
        raise self.stop("Constructed" if found.tag ^ 0x20 in tags and found.tag & 0x20 else "WrongTag")

    def end(self, octets: bytes) -> None:
        """Notes a flag if octets follow."""
        if octets:
            self.flags.add("TrailingData")

    def null(self, content: bytes) -> None:
        """Reads a NULL."""
        self.flags.add("Inherit")
        if content:
            self.flags.add("NullContent")

    def order(self, bounds: list[tuple[int, int]]) -> None:
        """Notes flags about the order of the blocks."""
        if not bounds:
            self.flags.add("EmptyList")
        if bounds != sorted(bounds):
            self.flags.add("Unsorted")
        by_first = sorted(bounds)
        last: int | None = None
        for low, high in by_first:
            if last is not None and low <= last:
                self.flags.add("Overlap")
            elif last is not None and low == last + 1:
                self.flags.add("Adjacent")
            last = high if last is None else max(last, high)

    def integer(self, content: bytes) -> int:
        """Reads an AS number."""
        if not content:
            raise self.stop("EmptyInteger")
        if len(content) > 1 and (content[0], content[1] >> 7) in ((0, 0), (0xFF, 1)):
            self.flags.add("NonMinimalInteger")
        number = int.from_bytes(content, "big", signed=True)
        if number < 0:
            self.flags.add("NegativeInteger")
        if number > 2**32 - 1:
            self.flags.add("AsTooLarge")
        if number in (0, 2**32 - 1):
            self.flags.add("Extreme")
        return number

    def as_block(self, found: Value) -> tuple[int, int]:
        """Reads an AS number or a range."""
        if found.tag == INTEGER:
            self.flags.add("SingleNumber")
            number = self.integer(found.content)
            return number, number
        self.flags.add("Range")
        low = self.of_tag(found.content, INTEGER)
        first = self.integer(low.content)
        high = self.of_tag(low.rest, INTEGER)
        last = self.integer(high.content)
        self.end(high.rest)
        if first > last:
            self.flags.add("ReversedRange")
        if first == last:
            self.flags.add("RangeIsNumber")
        return first, last

    def as_value(self, octets: bytes) -> None:
        """Reads the value of AS identifiers."""
        outer = self.of_tag(octets, SEQUENCE)
        if outer.rest:
            self.flags.add("AfterValue")
        if not outer.content:
            raise self.stop("NoNumbers")
        tagged = self.of_tag(outer.content, CONTEXT_0, CONTEXT_1)
        if tagged.tag == CONTEXT_1:
            self.flags |= {"RoutingDomain", "NoNumbers"}
            return
        if tagged.rest:
            following = self.value(tagged.rest)
            self.flags.add("RoutingDomain" if following.tag == CONTEXT_1 and not following.rest else "TrailingData")
        choice = self.of_tag(tagged.content, NULL, SEQUENCE)
        self.end(choice.rest)
        if choice.tag == NULL:
            self.null(choice.content)
            return
        bounds, content = [], choice.content
        while content:
            found = self.of_tag(content, INTEGER, SEQUENCE)
            bounds.append(self.as_block(found))
            content = found.rest
        self.order(bounds)

    def bits(self, content: bytes, size: int) -> str:
        """Returns the bits of a BIT STRING as text."""
        if not content:
            raise self.stop("EmptyBitString")
        unused, octets = content[0], content[1:]
        if unused > 7 or (unused and not octets):
            raise self.stop("UnusedCount")
        whole = "".join(f"{it:08b}" for it in octets)
        if "1" in whole[len(whole) - unused :]:
            self.flags.add("UnusedBits")
        bits = whole[: len(whole) - unused]
        if len(bits) > size:
            raise self.stop("PrefixTooLong")
        return bits

    def ip_block(self, found: Value, size: int) -> tuple[int, int]:
        """Reads a prefix or a range."""
        if found.tag == BIT_STRING:
            self.flags.add("Prefix")
            bits = self.bits(found.content, size)
            bounds = int(bits.ljust(size, "0"), 2), int(bits.ljust(size, "1"), 2)
        else:
            self.flags.add("Range")
            low = self.of_tag(found.content, BIT_STRING)
            least = self.bits(low.content, size)
            high = self.of_tag(low.rest, BIT_STRING)
            most = self.bits(high.content, size)
            self.end(high.rest)
            bounds = int(least.ljust(size, "0"), 2), int(most.ljust(size, "1"), 2)
            self.form_of_range(least, most, bounds, size)
        if bounds[0] == 0 or bounds[1] == (1 << size) - 1:
            self.flags.add("Extreme")
        return bounds

    def form_of_range(self, least: str, most: str, bounds: tuple[int, int], size: int) -> None:
        """Notes whether a range should be a prefix, and whether its bounds are the shortest."""
        low, high = bounds
        if low > high:
            self.flags.add("ReversedRange")
            return
        differ = (low ^ high).bit_length()
        if low % (1 << differ) == 0 and (high + 1) % (1 << differ) == 0:
            self.flags.add("RangeIsPrefix")
        elif least.endswith("0") or most.endswith("1"):
            self.flags.add("LongBounds")

    def family(self, content: bytes) -> int:
        """Reads the number of an address family."""
        if len(content) not in (2, 3):
            raise self.stop("FamilyLength")
        number = int.from_bytes(content[:2], "big")
        if len(content) == 3:
            raise self.stop("Safi")
        if number not in (1, 2):
            raise self.stop("UnknownFamily")
        return number

    def ip_value(self, octets: bytes) -> None:
        """Reads the value of IP address blocks."""
        outer = self.of_tag(octets, SEQUENCE)
        if outer.rest:
            self.flags.add("AfterValue")
        seen: list[int] = []
        content = outer.content
        while content:
            member = self.of_tag(content, SEQUENCE)
            content = member.rest
            named = self.of_tag(member.content, OCTET_STRING)
            number = self.family(named.content)
            self.flags.add("IPv4" if number == 1 else "IPv6")
            if number in seen:
                self.flags.add("DuplicateFamily")
            if number == 1 and 2 in seen:
                self.flags.add("FamilyOrder")
            seen.append(number)
            choice = self.of_tag(named.rest, NULL, SEQUENCE)
            self.end(choice.rest)
            self.choice(choice, 32 if number == 1 else 128)
        if not seen:
            self.flags.add("NoFamily")

    def choice(self, choice: Value, size: int) -> None:
        """Reads the addresses of a family."""
        if choice.tag == NULL:
            self.null(choice.content)
            return
        bounds, content = [], choice.content
        while content:
            found = self.of_tag(content, BIT_STRING, SEQUENCE)
            bounds.append(self.ip_block(found, size))
            content = found.rest
        self.order(bounds)


def flags_of(octets: bytes, is_as: bool) -> set[str]:
    """Returns the flags of the value of an extension.

    A value that cannot be read has only the flags of the rules that make it so.
    """
    walk = Walk()
    try:
        walk.as_value(octets) if is_as else walk.ip_value(octets)
    except Stop:
        pass
    known = OF_AS if is_as else OF_IP
    broken = {it for it in walk.flags if known[it].breaks}
    if not broken:
        return {*walk.flags, "Canonical"}
    return walk.flags if broken <= READABLE else (broken - READABLE) | (walk.flags & {"Inherit"})
