"""Sets of resources, and the certificates that are verified against them."""

import ctypes
from collections.abc import Callable, Iterable, Iterator
from ctypes import byref, c_size_t, c_uint8, c_void_p
from dataclasses import dataclass
from enum import Enum
from ipaddress import IPv4Address, IPv6Address
from struct import iter_unpack
from typing import ClassVar, TypeAlias

from . import _bindings
from ._bindings import Status
from ._library import Handle, library, listed, texted
from .errors import DerError, error_for_status
from .values import Address, Asn, Family, Frozen, Network, Vrp, family_of, network_in, network_of

FREE = "pigy_resources_free"
KINDS = {"asn": _bindings.ASN, "v4": _bindings.IPV4, "v6": _bindings.IPV6}
AddressRange: TypeAlias = tuple[IPv4Address, IPv4Address] | tuple[IPv6Address, IPv6Address]


class Encoding(Enum):
    """The encodings that a call accepts.

    Attributes:
        STRICT: Canonical DER only (RFC 3779, 2.2.3.3, 2.2.3.6, 2.2.3.7, 2.2.3.9 and 3.2.3.4).
        LENIENT: Canonical DER, and also other encodings, for example blocks in any order. The header `pigyelund.h`
            lists them.
    """

    STRICT = _bindings.STRICT
    LENIENT = _bindings.LENIENT


class Mode(Enum):
    """The policy for overclaimed resources: those that a certificate claims and its issuer does not have.

    Attributes:
        REFUSE: A certificate that overclaims is refused (RFC 6487, 7.2).
        TRIM: The claim of a certificate is reduced to the resources that its issuer has (RFC 8360, 4). This is the mode
            for certificates with the policy id-cp-ipAddr-asNumber-v2.
    """

    REFUSE = _bindings.REFUSE
    TRIM = _bindings.TRIM


def check(name: str, value: object, expected: type) -> None:
    """Raises `TypeError` if an argument is of another type than the expected one."""
    if not isinstance(value, expected):
        raise TypeError(f"{name}: {value!r} is no {expected.__name__}")


def address_of(octets: bytes) -> c_void_p:
    """Returns the address of octets. It is valid as long as they are there."""
    return ctypes.cast(ctypes.c_char_p(octets), c_void_p)


@dataclass(frozen=True)
class Extensions:
    """The two resource extensions of a certificate, as DER.

    The DER is the content of the OCTET STRING `extnValue` (RFC 5280, 4.1). None means that the certificate does not
    have the extension, and claims no resources of its kind. An extension that is present but empty (`b""`) is invalid.
    A certificate has at least one extension (RFC 6487, 4.8.10 and 4.8.11).

    Attributes:
        asn: The AS identifiers (RFC 3779, 3.2.3), or None.
        ip: The IP address blocks (RFC 3779, 2.2.3), or None.

    Raises:
        TypeError: An extension is neither `bytes` nor None.
    """

    asn: bytes | None = None
    ip: bytes | None = None

    def __post_init__(self) -> None:
        for name, value in (("asn", self.asn), ("ip", self.ip)):
            if value is not None and type(value) is not bytes:
                check(name, value, bytes)
                # `len` of a subclass may say another length
                object.__setattr__(self, name, memoryview(value).tobytes())

    def _set(self) -> _bindings.Set:
        """Returns the struct with the addresses of both values. It is valid as long as this object is there."""
        asn, ip = self.asn or b"", self.ip or b""
        return _bindings.Set(address_of(asn), len(asn), address_of(ip), len(ip))

    def _present(self) -> int:
        """Returns the bit mask of the extensions that are present."""
        return (_bindings.HAS_AS if self.asn is not None else 0) | (_bindings.HAS_IP if self.ip is not None else 0)


@dataclass(frozen=True)
class Certificate:
    """A certificate of a path.

    Attributes:
        extensions: The two resource extensions of the certificate.
        mode: The policy for its overclaimed resources.

    Raises:
        TypeError: `extensions` is no `Extensions`, or `mode` is no `Mode`.
    """

    extensions: Extensions
    mode: Mode = Mode.REFUSE

    def __post_init__(self) -> None:
        check("extensions", self.extensions, Extensions)
        check("mode", self.mode, Mode)


def concatenate(certificates: Iterable[Certificate]) -> tuple[bytes, "ctypes.Array[_bindings.Certificate]"]:
    """Writes the DER of all certificates into one array.

    Returns:
        The array, and for each certificate the positions of its extensions in the array.

    Raises:
        TypeError: An item is no `Certificate`.
    """
    run, positions = bytearray(), []
    for it in certificates:
        check("certificates", it, Certificate)
        asn, ip = it.extensions.asn or b"", it.extensions.ip or b""
        start = len(run)
        run += asn + ip
        present = it.extensions._present()
        positions.append(
            _bindings.Certificate(start, len(asn), start + len(asn), len(ip), present, it.mode.value)
        )
    return bytes(run), (_bindings.Certificate * len(positions))(*positions)


class Resources(Frozen):
    """A set of resources: AS numbers, IPv4 addresses and IPv6 addresses. It never changes.

        >>> from ipaddress import ip_network
        >>> ten = Resources([ip_network("10.0.0.0/8")])
        >>> both = ten | Resources.from_text(asn="AS64496-AS64511", v4="12.0.0.0/8")
        >>> ten <= both, ip_network("10.1.0.0/16") in both, Asn(64500) in both
        (True, True, True)
        >>> print(both - ten)
        AS64496-AS64511, 12.0.0.0/8

    The operators are those of sets. `a | b`, `a & b`, `a - b` and `a ^ b` make a new set. `a <= b` says whether `b` has
    all resources of `a`, and `a < b` also whether `b` has more. `a == b` says whether both have the same resources.
    `bool(a)` is False for a set without resources. A set has no `len`, and is not iterable: `asns`, `prefixes` and
    `ranges` list its resources. `str` returns the text of all resources.

    `item in a` is for an `Asn`, a network or an address of `ipaddress`, a `Vrp` and a set. It says whether `a` has all
    of it. Of a `Vrp` it is the prefix (RFC 9582, 5): a certificate of a ROA has no AS numbers. A plain integer raises
    `TypeError`, and so does any other item.

    Any number of threads may use a set at once. A set can be copied and pickled.

    The operators `in`, `<=`, `<`, `>=`, `>` and `==` take no memory of the library. Each other call may raise
    `OutOfMemoryError`, which says nothing about the input. The first call may raise `ImportError`, as `load` does.

    Args:
        items: Networks and addresses of `ipaddress`, and `Asn`, in any order. They may overlap. For a range of
            addresses pass `summarize_address_range(first, last)` of `ipaddress`.

    Raises:
        TypeError: An item is of another type, for example a `str`.
        ValueError: An address has a scope, such as `fe80::1%eth0`.
    """

    __slots__ = ("_handle",)
    _handle: Handle
    _none: ClassVar["Resources | None"] = None

    def __init__(self, items: Iterable[Network | Address | Asn] = ()) -> None:
        if isinstance(items, str):
            raise TypeError(f"{items!r} is a text; use Resources.from_text")
        texts: dict[str, list[str]] = {name: [] for name in KINDS}
        for item in items:
            if isinstance(item, str):
                raise TypeError(f"{item!r} is a text; use Resources.from_text")
            if isinstance(item, Asn):
                texts["asn"].append(str(item))
            else:
                network = network_of(item)
                texts[family_of(network).name.lower()].append(str(network))
        made = Resources.from_text(**{name: ",".join(it) for name, it in texts.items()})
        object.__setattr__(self, "_handle", made._handle)

    @classmethod
    def _of(cls, handle: Handle) -> "Resources":
        """Returns the set that owns a handle."""
        found = cls.__new__(cls)
        object.__setattr__(found, "_handle", handle)
        return found

    @classmethod
    def read(cls, extensions: Extensions, *, encoding: Encoding = Encoding.STRICT) -> "Resources":
        """Reads the set of a trust anchor, or one that `der` returned.

            >>> Resources.read(Extensions(ip=bytes.fromhex("300c300a0402000130040302000a")))
            Resources.from_text(v4='10.0.0.0/8')

        Args:
            extensions: The extensions, without `inherit`. If both are None, the set has no resources.
            encoding: The encodings that are accepted.

        Raises:
            DerError: An extension is invalid.
            InheritedError: An extension has `inherit` in place of a list of resources.
            TypeError: An argument is of a wrong type.
        """
        check("extensions", extensions, Extensions)
        check("encoding", encoding, Encoding)
        for octets, kind in ((extensions.asn, Status.BAD_AS), (extensions.ip, Status.BAD_IP)):
            if octets == b"":
                raise DerError(kind + 1)  # the value is truncated; pigy_set has no value that is present and empty
        out = Handle(FREE)
        status = library().pigy_resources_read(extensions._set(), encoding.value, byref(out.stored))
        if status != Status.OK:
            raise error_for_status(status)
        return cls._of(out)

    @classmethod
    def from_text(cls, asn: str = "", v4: str = "", v6: str = "") -> "Resources":
        """Returns the set of some lists of AS numbers and of addresses.

            >>> [*Resources.from_text(asn="AS64496, 64498-AS64499").asns()]
            [Asn(64496), Asn(64498), Asn(64499)]

        Commas separate the elements of a list. Elements may be in any order and may overlap. Empty elements, and white
        space at the ends of an element, are ignored.

        Args:
            asn: AS numbers and ranges of these: `AS64496`, `64496`, `AS64496-AS64511`.
            v4: IPv4 addresses, prefixes and ranges: `10.0.0.1`, `10.0.0.0/8`, `10.0.0.1-10.0.0.9`. The bits of an
                address after the length of its prefix are ignored.
            v6: The same for IPv6.

        Raises:
            SetTextError: An element of a list is invalid.
            TypeError: A list is no `str`, for example a number.
            UnicodeEncodeError: A list has a surrogate, which UTF-8 cannot encode.
        """
        texts = {"asn": asn, "v4": v4, "v6": v6}
        for name, text in texts.items():
            check(name, text, str)
        made = [cls._of_kind(KINDS[name], text.encode("utf-8")) for name, text in texts.items() if text]
        found = made[0] if made else cls._of_kind(_bindings.ASN, b"")
        for it in made[1:]:
            found |= it
        return found

    @classmethod
    def _of_kind(cls, kind: int, text: bytes) -> "Resources":
        """Returns the set of a list of one kind."""
        out = Handle(FREE)
        status = library().pigy_resources_from_text(text, len(text), kind, byref(out.stored))
        if status != Status.OK:
            raise error_for_status(status)
        return cls._of(out)

    def verify(
        self, certificate: Extensions, *, mode: Mode = Mode.REFUSE, encoding: Encoding = Encoding.STRICT
    ) -> "Resources":
        """Returns the resources of a certificate whose issuer has this set (RFC 3779, 2.3 and 3.3).

        The set of an issuer is what `verify` returned for its certificate. That of a trust anchor is what `read`
        returns for its extensions.

        Args:
            certificate: The extensions of the certificate. They may have `inherit`.
            mode: The policy for overclaimed resources.
            encoding: The encodings that are accepted.

        Returns:
            The resources of the certificate. For AS numbers, for IPv4 and for IPv6 these are:

            - none, if the certificate does not have the extension, or the extension does not have the family
            - all that the issuer has, if the certificate has `inherit`
            - otherwise those that the certificate lists and the issuer has

        Raises:
            NoExtensionError: The certificate has neither extension.
            DerError: An extension of the certificate is invalid.
            OverclaimedError: The certificate overclaims, and `mode` is `Mode.REFUSE`. The attribute `excess` has the
                overclaimed resources.
            TypeError: An argument is of a wrong type.
        """
        check("certificate", certificate, Extensions)
        check("encoding", encoding, Encoding)
        check("mode", mode, Mode)
        out, excess = Handle(FREE), Handle(FREE)
        octets, present = certificate._set(), certificate._present()
        outputs = byref(out.stored), byref(excess.stored)
        status = library().pigy_resources_verify(
            self._handle.stored, octets, present, encoding.value, mode.value, *outputs
        )
        return self._verified(status, out, excess, None)

    def verify_path(
        self, certificates: Iterable[Certificate], *, encoding: Encoding = Encoding.STRICT
    ) -> "Resources":
        """Returns the resources of the last certificate of a path. This set is that of the trust anchor.

        The first certificate is verified against this set, as by `verify`. Each other certificate is verified against
        the result for the certificate before it.

        Args:
            certificates: The certificates, the one under the anchor first. Each has its own `mode`.
            encoding: The encodings that are accepted.

        Returns:
            The resources of the last certificate. For an empty path this is the anchor's set.

        Raises:
            PigyelundError: A certificate is refused. The exception is one of the subclasses that `verify` raises. Its
                attribute `verified` is the number of verified certificates.
            TypeError: An argument is of a wrong type.
        """
        check("encoding", encoding, Encoding)
        run, positions = concatenate(certificates)
        out, excess, verified = Handle(FREE), Handle(FREE), c_size_t()
        outputs = byref(out.stored), byref(excess.stored), byref(verified)
        status = library().pigy_resources_verify_path(
            self._handle.stored, run, len(run), positions, len(positions), encoding.value, *outputs
        )
        return self._verified(status, out, excess, verified.value)

    @staticmethod
    def _verified(status: int, out: Handle, excess: Handle, verified: int | None) -> "Resources":
        """Returns the result of a call that verifies, or raises its exception."""
        if status != Status.OK:
            raise error_for_status(status, Resources._of(excess) if excess.stored else None, verified)
        return Resources._of(out)

    def der(self) -> Extensions:
        """Returns the set as canonical DER. An extension is None if the set has no resources of its kind.

        The result is a valid claim of these resources, unless the set has no resources at all.
        """
        capacities = 1024, 1024
        while True:
            asn, ip = ((c_uint8 * it)() for it in capacities)
            out = _bindings.Buffers(
                ctypes.addressof(asn), capacities[0], 0, ctypes.addressof(ip), capacities[1], 0
            )
            status = library().pigy_resources_der(self._handle.stored, byref(out))
            if status != Status.TOO_SMALL:
                break
            capacities = out.as_len, out.ip_len
        if status != Status.OK:
            raise error_for_status(status)
        values = ctypes.string_at(asn, out.as_len), ctypes.string_at(ip, out.ip_len)
        return Extensions(values[0] or None, values[1] or None)

    def as_ranges(self) -> list[tuple[Asn, Asn]]:
        """Returns the ranges of the AS numbers, ascending: the least and the greatest number of each.

        The ranges neither overlap nor touch, so the list has as few ranges as possible.
        """
        status, octets = listed(
            _bindings.AsRange, lambda *out: int(library().pigy_resources_as_ranges(self._handle.stored, *out))
        )
        if status != Status.OK:
            raise error_for_status(status)
        return [(Asn(low), Asn(high)) for low, high in iter_unpack(_bindings.ASRANGE_FORMAT, octets)]

    def asns(self) -> Iterator[Asn]:
        """Yields the AS numbers, ascending. Use `as_ranges` if the set can have many."""
        return (Asn(it) for low, high in self.as_ranges() for it in range(int(low), int(high) + 1))

    def prefixes(self, family: Family | None = None) -> list[Network]:
        """Returns the shortest list of prefixes that has exactly the addresses of the set.

        Args:
            family: The family whose prefixes are listed. None means IPv4, and then IPv6.

        Returns:
            The prefixes of each family, ascending.

        Raises:
            TypeError: `family` is neither a `Family` nor None, for example `socket.AF_INET`.
        """
        found: list[Network] = []
        for it in self._families(family):
            status, octets = listed(
                _bindings.Prefix,
                lambda *out, it=it: int(library().pigy_resources_prefixes(self._handle.stored, it.value, *out)),
            )
            if status != Status.OK:
                raise error_for_status(status)
            found += [network_in(*fields) for fields in iter_unpack(_bindings.PREFIX_FORMAT, octets)]
        return found

    def ranges(self, family: Family | None = None) -> list[AddressRange]:
        """Returns the ranges of the addresses, ascending: the first and the last address of each.

        The ranges neither overlap nor touch, so the list has as few ranges as possible.

        Args:
            family: The family whose ranges are listed. None means IPv4, and then IPv6.

        Raises:
            TypeError: `family` is neither a `Family` nor None.
        """
        found: list[AddressRange] = []
        for it in self._families(family):
            status, octets = listed(
                _bindings.IpRange,
                lambda *out, it=it: int(library().pigy_resources_ip_ranges(self._handle.stored, it.value, *out)),
            )
            if status != Status.OK:
                raise error_for_status(status)
            pairs = iter_unpack(_bindings.IPRANGE_FORMAT, octets)
            if it is Family.V4:
                found += [(IPv4Address(low[:4]), IPv4Address(high[:4])) for low, high in pairs]
            else:
                found += [(IPv6Address(low), IPv6Address(high)) for low, high in pairs]
        return found

    @staticmethod
    def _families(family: Family | None) -> Iterable[Family]:
        """Returns one family, or both."""
        if family is None:
            return Family
        check("family", family, Family)
        return (family,)

    def _combined(self, other: object, name: str) -> "Resources":
        """Returns the result of a call that makes a set of two."""
        if not isinstance(other, Resources):
            return NotImplemented
        out = Handle(FREE)
        status = getattr(library(), name)(self._handle.stored, other._handle.stored, byref(out.stored))
        if status != Status.OK:
            raise error_for_status(status)
        return Resources._of(out)

    def __or__(self, other: "Resources") -> "Resources":
        return self._combined(other, "pigy_resources_union")

    def __and__(self, other: "Resources") -> "Resources":
        return self._combined(other, "pigy_resources_intersection")

    def __sub__(self, other: "Resources") -> "Resources":
        return self._combined(other, "pigy_resources_difference")

    def __xor__(self, other: "Resources") -> "Resources":
        return self._combined(other, "pigy_resources_symmetric_difference")

    def _is_so(self, name: str, argument: object) -> bool:
        """Returns the answer of a call that asks a question about this set."""
        answer = c_uint8()
        status = getattr(library(), name)(self._handle.stored, argument, byref(answer))
        if status != Status.OK:
            raise error_for_status(status)
        return answer.value == 1

    def __contains__(self, item: "Asn | Network | Address | Vrp | Resources") -> bool:
        if isinstance(item, Resources):
            return self._is_so("pigy_resources_contains", item._handle.stored)
        if isinstance(item, Asn):
            return self._is_so("pigy_resources_contains_asn", int(item))
        prefix = item.prefix if isinstance(item, Vrp) else item
        if isinstance(prefix, (str, int)):
            raise TypeError(f"{prefix!r} is no Asn, no Vrp, no Resources, and no network or address of ipaddress")
        network = network_of(prefix)
        address = (c_uint8 * 16)(*network.network_address.packed)
        asked = _bindings.Prefix(address, family_of(network).value, network.prefixlen)
        return self._is_so("pigy_resources_contains_prefix", byref(asked))

    def __le__(self, other: "Resources") -> bool:
        return self in other if isinstance(other, Resources) else NotImplemented

    def __ge__(self, other: "Resources") -> bool:
        return other in self if isinstance(other, Resources) else NotImplemented

    def __lt__(self, other: "Resources") -> bool:
        return self in other and other not in self if isinstance(other, Resources) else NotImplemented

    def __gt__(self, other: "Resources") -> bool:
        return other in self and self not in other if isinstance(other, Resources) else NotImplemented

    def __eq__(self, other: object) -> bool:
        if not isinstance(other, Resources):
            return NotImplemented
        return self._is_so("pigy_resources_equal", other._handle.stored)

    def __hash__(self) -> int:
        return hash(self.der())

    def __bool__(self) -> bool:
        if Resources._none is None:
            Resources._none = Resources()
        return self not in Resources._none

    def _texts(self) -> dict[str, str]:
        """Returns the text of each kind of which the set has resources."""
        found = {}
        for name, kind in KINDS.items():
            status, text = texted(
                lambda *out, kind=kind: int(library().pigy_resources_text(self._handle.stored, kind, *out))
            )
            if status != Status.OK:
                raise error_for_status(status)
            found[name] = text
        return {name: text for name, text in found.items() if text}

    def __str__(self) -> str:
        return ", ".join(self._texts().values())

    def __repr__(self) -> str:
        return f"Resources.from_text({', '.join(f'{name}={text!r}' for name, text in self._texts().items())})"

    def __copy__(self) -> "Resources":
        return self

    def __deepcopy__(self, _: object) -> "Resources":
        return self

    def __reduce__(self) -> tuple[Callable[..., object], tuple[object, ...]]:
        return Resources.read, (self.der(),)
