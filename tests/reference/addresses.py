"""Addresses as texts (RFC 4291, 2.2; RFC 5952, 4 and 5).

Python's readers of addresses take only these grammars, except that they also take a zone after a percent sign.
"""

from enum import Enum
from ipaddress import AddressValueError, IPv4Address, IPv6Address

from .faults import Fault


class Family(Enum):
    """A family of addresses: the number of bits of its addresses, and its number in RFC 3779."""

    V4 = (32, 1)
    V6 = (128, 2)

    @property
    def bits(self) -> int:
        """Returns how many bits an address has."""
        return self.value[0]

    @property
    def number(self) -> int:
        """Returns the address family's number."""
        return self.value[1]


def read_v4(text: str) -> int:
    """Returns the number of an IPv4 address."""
    try:
        return int(IPv4Address(text))
    except AddressValueError:
        raise Fault("invalid IPv4 address syntax") from None


def read_v6(text: str) -> int:
    """Returns the number of an IPv6 address."""
    try:
        if "%" not in text:
            return int(IPv6Address(text))
    except AddressValueError:
        pass
    raise Fault("invalid IPv6 address syntax")


def read_any(text: str) -> tuple[Family, int]:
    """Returns the family and the number of an address of either family."""
    try:
        return (Family.V6, read_v6(text)) if ":" in text else (Family.V4, read_v4(text))
    except Fault:
        raise Fault("invalid IP address syntax") from None


def print_v4(number: int) -> str:
    """Returns the text of an IPv4 address."""
    return ".".join(str(octet) for octet in number.to_bytes(4, "big"))


def print_v6(number: int) -> str:
    """Returns the text of an IPv6 address. A mapped address ends as IPv4, because Python's versions differ there."""
    if number >> 32 == 0xFFFF:
        return "::ffff:" + print_v4(number & 0xFFFFFFFF)
    return str(IPv6Address(number))


def print_address(family: Family, number: int) -> str:
    """Returns the text of an address of a family."""
    return print_v4(number) if family is Family.V4 else print_v6(number)
