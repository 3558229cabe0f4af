"""AS numbers, VRPs and routes. Their objects are checked when they are made, and never change."""

import struct
from collections.abc import Callable
from ctypes import Structure, byref, c_size_t
from dataclasses import dataclass
from enum import Enum, Flag
from functools import total_ordering
from ipaddress import IPv4Address, IPv4Interface, IPv4Network, IPv6Address, IPv6Interface, IPv6Network, ip_network
from operator import index
from typing import Any, NoReturn, SupportsIndex, TypeAlias, TypeVar, overload

from . import _bindings
from ._bindings import Status
from ._library import Handle, library, texted
from .errors import RouteTextError, error_for_status

Network: TypeAlias = IPv4Network | IPv6Network
Address: TypeAlias = IPv4Address | IPv6Address
VRP, ROUTE = struct.Struct(_bindings.VRP_FORMAT), struct.Struct(_bindings.ROUTE_FORMAT)
LAST_AS = 2**32 - 1
Struct = TypeVar("Struct", bound=Structure)


class Family(Enum):
    """An address family. Its number is that of `pigyelund.h`, and not that of the module `socket`.

    Attributes:
        V4: IPv4.
        V6: IPv6.
    """

    V4 = _bindings.IPV4
    V6 = _bindings.IPV6


class Mismatch(Flag):
    """The reasons why a VRP that covers a route does not match it. `Mismatch(0)` is a match.

    Test for a reason with `in`: `Mismatch.TOO_LONG in it.mismatch`.

    Attributes:
        OTHER_AS: The AS of the VRP is not the route's, or is AS 0.
        TOO_LONG: The route's prefix is longer than the maximum length of the VRP.
    """

    OTHER_AS = _bindings.OTHER_AS
    TOO_LONG = _bindings.TOO_LONG


class Frozen:
    """The base class of objects that never change."""

    __slots__ = ()

    def __setattr__(self, name: str, value: object) -> NoReturn:
        raise AttributeError(f"{name}: a {type(self).__name__} never changes")

    def __delattr__(self, name: str) -> NoReturn:
        raise AttributeError(f"{name}: a {type(self).__name__} never changes")


@total_ordering
class Asn(Frozen):
    """An AS number. It is no `int`; `int(asn)` returns the number.

        >>> Asn("AS64496") == Asn(64496), str(Asn(64496))
        (True, 'AS64496')

    Args:
        number: An integer from 0 to 4294967295, or a text such as `AS64496`, `as64496` or `64496`.

    Raises:
        TypeError: `number` is neither an integer nor a text.
        ValueError: The integer is not from 0 to 4294967295, or the text is not an AS number (`SetTextError`).
        OutOfMemoryError: The library is out of memory when it reads a text.
    """

    __slots__ = ("_number",)
    _number: int

    def __init__(self, number: "Asn | str | SupportsIndex") -> None:
        object.__setattr__(self, "_number", number_of(number))

    def __eq__(self, other: object) -> bool:
        return isinstance(other, Asn) and self._number == other._number

    def __lt__(self, other: "Asn") -> bool:
        if not isinstance(other, Asn):
            return NotImplemented
        return self._number < other._number

    def __hash__(self) -> int:
        return hash(self._number)

    def __int__(self) -> int:
        return self._number

    def __str__(self) -> str:
        return f"AS{self._number}"

    def __repr__(self) -> str:
        return f"Asn({self._number})"

    def __reduce__(self) -> tuple[Callable[..., object], tuple[object, ...]]:
        return Asn, (self._number,)


class Packed(Frozen):
    """The base class of values that are a struct of `pigyelund.h`. Its octets decide whether two values are equal."""

    __slots__ = ("_octets",)
    _octets: bytes

    def __eq__(self, other: object) -> bool:
        return isinstance(other, Packed) and type(other) is type(self) and self._octets == other._octets

    def __hash__(self) -> int:
        return hash(self._octets)

    def __bytes__(self) -> bytes:
        """Returns the struct of `pigyelund.h`: 24 octets. The padding is 0."""
        return self._octets


def number_of(asn: object) -> int:
    """Returns the number of an AS number: of an `Asn`, an integer or a text. The class `Asn` has the exceptions."""
    if isinstance(asn, Asn):
        return asn._number
    if isinstance(asn, str):
        return number_of_text(asn)
    number = integer_of(asn)
    if number is None:
        raise TypeError(f"asn: {asn!r} is no AS number")
    if not 0 <= number <= LAST_AS:
        raise ValueError(f"asn: {number} is not from 0 to {LAST_AS}")
    return number


def integer_of(value: Any) -> int | None:
    """Returns an integer, also one of numpy, as an `int`. Returns None for any other value, and for a truth value."""
    try:
        return None if isinstance(value, bool) else index(value)
    except TypeError:
        return None


def number_of_text(text: str) -> int:
    """Returns the number of a text, which the library reads as a list of AS numbers. A list of one number has it."""
    octets, handle, count = text.encode("utf-8"), Handle("pigy_resources_free"), c_size_t()
    status = library().pigy_resources_from_text(octets, len(octets), _bindings.ASN, byref(handle.stored))
    ranges = (_bindings.AsRange * 1)()
    if status == Status.OK:
        status = library().pigy_resources_as_ranges(handle.stored, ranges, 1, byref(count))
    if status == Status.TOO_SMALL or status == Status.OK and (count.value != 1 or "," in text or "-" in text):
        status = Status.BAD_TEXT + 2  # a list without a number, with several, or with a range
    if status != Status.OK:
        raise error_for_status(status)
    return int(ranges[0].min)


def network_of(prefix: object) -> Network:
    """Returns a network as it is, an address as the network with this address alone, and a text such as `10.0.0.0/8`.

    Raises:
        TypeError: `prefix` is none of these. An `IPv4Interface` or `IPv6Interface` is refused: it is a network and an
            address.
        ValueError: `prefix` has a scope, such as `fe80::1%eth0`. Or it is a text, and has no prefix length, or host
            bits, or is no prefix.
    """
    if isinstance(prefix, (IPv4Interface, IPv6Interface)):
        raise TypeError(f"prefix: {prefix!r} is an interface; pass its network or its ip")
    if isinstance(prefix, str):
        length = prefix.partition("/")[2]
        if not (length.isascii() and length.isdigit()):
            raise ValueError(f"prefix: {prefix!r} is not ADDRESS/LENGTH")
        prefix = ip_network(prefix)
    network = ip_network(prefix) if isinstance(prefix, (IPv4Address, IPv6Address)) else prefix
    if not isinstance(network, (IPv4Network, IPv6Network)):
        raise TypeError(f"prefix: {prefix!r} is no network or address of ipaddress, and no text")
    if getattr(network.network_address, "scope_id", None) is not None:
        raise ValueError(f"prefix: {prefix!r} has a scope, which no prefix has")
    return network


def family_of(prefix: Network) -> Family:
    """Returns the family of a prefix."""
    return Family.V4 if prefix.version == 4 else Family.V6


def network_in(address: bytes, family: int, length: int) -> Network:
    """Returns the prefix in the fields of a struct."""
    return IPv4Network((address[:4], length)) if family == _bindings.IPV4 else IPv6Network((address, length))


def read_text(call: str, kind: type[Struct], text: str) -> bytes:
    """Returns the struct of a VRP or a route that a call of the library reads from a text."""
    octets, found = text.encode("utf-8"), kind()
    status = getattr(library(), call)(octets, len(octets), byref(found))
    if status != Status.OK:
        raise RouteTextError(status, item=text)
    return bytes(found)


def text_of(call: str, kind: type[Struct], octets: bytes, capacity: int) -> str:
    """Returns the text that a call of the library writes for the struct of a VRP or a route."""
    value = kind.from_buffer_copy(octets)
    status, text = texted(lambda *words: int(getattr(library(), call)(byref(value), *words)), capacity)
    if status != Status.OK:
        raise error_for_status(status)
    return text


@total_ordering
class Vrp(Packed):
    """A VRP (validated ROA payload, RFC 6811, 2): a prefix, the AS that may originate it, and a maximum length.

        >>> from ipaddress import ip_network
        >>> Vrp("10.0.0.0/8-16 AS64496") == Vrp(ip_network("10.0.0.0/8"), 64496, 16)
        True

    VRPs can be compared, sorted and hashed, and never change. IPv4 comes before IPv6. Then the order is by address,
    prefix length, AS number and maximum length. `str` returns the text that `Vrp` reads.

    Args:
        prefix: The whole VRP as a text, with or without a maximum length: `10.0.0.0/8-16 AS64496`. The library reads
            it. Or the prefix: a network of `ipaddress`, an address, which is a prefix of 32 or 128 bits, or a text such
            as `10.0.0.0/8`, which `ipaddress` reads.
        asn: The AS that may originate the prefix: an `Asn`, an integer or a text. Required, except for a whole VRP.
        max_len: The maximum length (maxLength, RFC 9582, 4.3.2) in bits: from the prefix length to 32 for IPv4, and to
            128 for IPv6. None means the prefix length.

    Raises:
        TypeError: An argument is of a wrong type. Or `asn` is missing, and `prefix` is no text or you pass `max_len`.
        RouteTextError: The text of a whole VRP is invalid, for example a prefix without an AS number. This exception is
            a `ValueError` too.
        ValueError: A text is invalid, a number is out of its range, or the prefix has host bits or a scope.
        OutOfMemoryError: As `Asn` raises it for a text.
    """

    __slots__ = ()

    @overload
    def __init__(self, prefix: str) -> None: ...

    @overload
    def __init__(
        self, prefix: str | Network | Address, asn: Asn | str | SupportsIndex, max_len: SupportsIndex | None = None
    ) -> None: ...

    def __init__(self, prefix: object, asn: object = None, max_len: object = None) -> None:
        if asn is None:
            if not isinstance(prefix, str) or max_len is not None:
                raise TypeError("asn is missing; a Vrp is a text such as '10.0.0.0/8-16 AS64496', or has an asn")
            octets = read_text("pigy_vrp_from_text", _bindings.Vrp, prefix)
            object.__setattr__(self, "_octets", octets[:23] + b"\0")
            return
        network, number = network_of(prefix), number_of(asn)
        most = network.prefixlen if max_len is None else integer_of(max_len)
        if most is None:
            raise TypeError(f"max_len: {max_len!r} is no integer")
        if not network.prefixlen <= most <= network.max_prefixlen:
            raise ValueError(f"max_len: {most} is not from {network.prefixlen} to {network.max_prefixlen}")
        address, family = network.network_address.packed, family_of(network).value
        object.__setattr__(self, "_octets", VRP.pack(address, number, family, network.prefixlen, most))

    @classmethod
    def _of_struct(cls, octets: bytes) -> "Vrp":
        """Returns the VRP of a struct that the library wrote. The last octet is padding."""
        vrp = cls.__new__(cls)
        object.__setattr__(vrp, "_octets", octets[:23] + b"\0")
        return vrp

    def _key(self) -> tuple[int, bytes, int, int, int]:
        address, asn, family, length, most = VRP.unpack(self._octets)
        return family, address, length, asn, most

    def __lt__(self, other: "Vrp") -> bool:
        if not isinstance(other, Vrp):
            return NotImplemented
        return self._key() < other._key()

    @property
    def prefix(self) -> Network:
        """The prefix, as a network of `ipaddress`."""
        address, _, family, length, _ = VRP.unpack(self._octets)
        return network_in(address, family, length)

    @property
    def asn(self) -> Asn:
        """The AS that may originate the prefix."""
        return Asn(VRP.unpack(self._octets)[1])

    @property
    def max_len(self) -> int:
        """The maximum length in bits."""
        return self._octets[22]

    def __str__(self) -> str:
        return text_of("pigy_vrp_text", _bindings.Vrp, self._octets, _bindings.VRP_TEXT_MAX)

    def __repr__(self) -> str:
        return f"Vrp('{self}')"

    def __reduce__(self) -> tuple[Callable[..., object], tuple[object, ...]]:
        return Vrp, (self.prefix, int(self.asn), self.max_len)


@total_ordering
class Route(Packed):
    """A route (RFC 6811, 2): a prefix and the AS that originates it.

        >>> from ipaddress import ip_network
        >>> Route("10.0.0.0/16 AS64496") == Route(ip_network("10.0.0.0/16"), "AS64496")
        True

    Pass AS 0 if the path ends in an AS_SET: no VRP matches such a route. Pass the router's own AS if the path is empty
    or ends in a confederation segment (RFC 6811, 2). `read_routes` stores AS 0 for all three paths. Routes are compared
    as VRPs are.

    Args:
        prefix: The whole route as a text: `10.0.0.0/16 AS64496`. The library reads it. Or the prefix, as in a `Vrp`.
        asn: The AS that originates the route: an `Asn`, an integer or a text. Required, except for a whole route.

    Raises:
        TypeError: An argument is of a wrong type. Or `asn` is missing, and `prefix` is no text.
        RouteTextError: The text of a whole route is invalid, for example a prefix without an AS number. This exception
            is a `ValueError` too.
        ValueError: A text is invalid, a number is out of its range, or the prefix has host bits or a scope.
        OutOfMemoryError: As `Asn` raises it for a text.
    """

    __slots__ = ()

    @overload
    def __init__(self, prefix: str) -> None: ...

    @overload
    def __init__(self, prefix: str | Network | Address, asn: Asn | str | SupportsIndex) -> None: ...

    def __init__(self, prefix: object, asn: object = None) -> None:
        if asn is None:
            if not isinstance(prefix, str):
                raise TypeError("asn is missing; a Route is a text such as '10.0.0.0/16 AS64496', or has an asn")
            octets = read_text("pigy_route_from_text", _bindings.Route, prefix)
            object.__setattr__(self, "_octets", octets[:22] + b"\0\0")
            return
        network, number = network_of(prefix), number_of(asn)
        address, family = network.network_address.packed, family_of(network).value
        object.__setattr__(self, "_octets", ROUTE.pack(address, number, family, network.prefixlen))

    @classmethod
    def _of_struct(cls, octets: bytes) -> "Route":
        """Returns the route of a struct that the library wrote. The last two octets are padding."""
        route = cls.__new__(cls)
        object.__setattr__(route, "_octets", octets[:22] + b"\0\0")
        return route

    def _key(self) -> tuple[int, bytes, int, int]:
        address, asn, family, length = ROUTE.unpack(self._octets)
        return family, address, length, asn

    def __lt__(self, other: "Route") -> bool:
        if not isinstance(other, Route):
            return NotImplemented
        return self._key() < other._key()

    @property
    def prefix(self) -> Network:
        """The prefix, as a network of `ipaddress`."""
        address, _, family, length = ROUTE.unpack(self._octets)
        return network_in(address, family, length)

    @property
    def asn(self) -> Asn:
        """The AS that originates the route."""
        return Asn(ROUTE.unpack(self._octets)[1])

    def __str__(self) -> str:
        return text_of("pigy_route_text", _bindings.Route, self._octets, _bindings.ROUTE_TEXT_MAX)

    def __repr__(self) -> str:
        return f"Route('{self}')"

    def __reduce__(self) -> tuple[Callable[..., object], tuple[object, ...]]:
        return Route, (self.prefix, int(self.asn))


@dataclass(frozen=True)
class Covering:
    """A VRP that covers a route, and why it does not match the route (RFC 6811, 2).

    Attributes:
        vrp: The VRP.
        mismatch: Why the VRP does not match the route. `Mismatch(0)` is a match.
    """

    vrp: Vrp
    mismatch: Mismatch
