"""Reads and writes values of DER (X.690, 8 and 10)."""

from typing import NamedTuple

from .faults import Der, DerFault

INTEGER, BIT_STRING, OCTET_STRING, NULL, SEQUENCE, CONTEXT_0 = 0x02, 0x03, 0x04, 0x05, 0x30, 0xA0

AS_LIMIT = 2**32 - 1


class Value(NamedTuple):
    """A value at the front of octets, and the octets after it."""

    tag: int
    content: bytes
    rest: bytes


class Bits(NamedTuple):
    """A BIT STRING: its octets, the number of unused bits at its end, and whether some of these are set."""

    octets: bytes
    unused: int
    is_dirty: bool

    def length(self) -> int:
        """Returns how many bits there are."""
        return 8 * len(self.octets) - self.unused


def value(octets: bytes) -> Value:
    """Reads the value of any tag at the front (X.690, 8.1)."""
    if not octets:
        raise DerFault(Der.Truncated)
    if octets[0] & 0x1F == 0x1F:
        raise DerFault(Der.BadTag)
    start, end = _content(octets)
    if len(octets) < end:
        raise DerFault(Der.Truncated)
    return Value(octets[0], octets[start:end], octets[end:])


def _content(octets: bytes) -> tuple[int, int]:
    """Returns the start and the end of the content after a tag.

    A length is definite and has the fewest octets (X.690, 8.1.3 and 10.1), eight of them at most.
    """
    if len(octets) < 2:
        raise DerFault(Der.Truncated)
    first = octets[1]
    if first < 0x80:
        return 2, 2 + first
    start = 2 + first - 0x80
    if not 2 < start <= 10:
        raise DerFault(Der.BadLength)
    if len(octets) < start:
        raise DerFault(Der.Truncated)
    length = int.from_bytes(octets[2:start], "big")
    if octets[2] == 0 or length < 0x80:
        raise DerFault(Der.BadLength)
    return start, start + length


def wanted(octets: bytes, tag: int) -> Value:
    """Reads the value of a given tag at the front."""
    found = value(octets)
    if found.tag != tag:
        raise DerFault(Der.BadTag)
    return found


def at_end(octets: bytes) -> None:
    """Raises a fault if octets follow."""
    if octets:
        raise DerFault(Der.TrailingData)


def as_number(content: bytes) -> int:
    """Reads the content of an INTEGER from 0 to 4294967295 (X.690, 8.3; RFC 3779, 3.2.3.10)."""
    number = int.from_bytes(content, "big", signed=True)
    if integer_content(number) != content or not 0 <= number <= AS_LIMIT:
        raise DerFault(Der.BadInteger)
    return number


def bits(content: bytes) -> Bits:
    """Reads the content of a BIT STRING (X.690, 8.6.2)."""
    if not content or content[0] > 7 or (content[0] and len(content) == 1):
        raise DerFault(Der.BadBitString)
    unused = content[0]
    is_dirty = content[-1] & (1 << unused) - 1 != 0
    return Bits(content[1:], unused, is_dirty)


def null(content: bytes) -> None:
    """Reads the content of a NULL (X.690, 8.8.2)."""
    if content:
        raise DerFault(Der.BadNull)


def integer_content(number: int) -> bytes:
    """Returns a number as two's complement in the fewest octets (X.690, 8.3.2)."""
    magnitude = number if number >= 0 else ~number
    return number.to_bytes(magnitude.bit_length() // 8 + 1, "big", signed=True)


def written(tag: int, content: bytes) -> bytes:
    """Returns a value of a tag."""
    size = len(content)
    if size < 0x80:
        return bytes([tag, size]) + content
    octets = size.to_bytes((size.bit_length() + 7) // 8, "big")
    return bytes([tag, 0x80 + len(octets)]) + octets + content


def written_integer(number: int) -> bytes:
    """Returns an INTEGER."""
    return written(INTEGER, integer_content(number))


def written_prefix(number: int, length: int) -> bytes:
    """Returns the BIT STRING of the first bits of a number of 128 bits."""
    count = (length + 7) // 8
    octets = (number >> 128 - length << 8 * count - length).to_bytes(count, "big")
    return written(BIT_STRING, bytes([8 * count - length]) + octets)
