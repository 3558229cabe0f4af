"""SLURM files (RFC 8416), and VRPs after their filters and assertions."""

from collections.abc import Callable
from typing import NamedTuple, TypeVar

from . import asn, prefixes, route_lines, vrp_files
from .faults import Fault
from .prefixes import Prefix, Vrp
from .vrp_files import Number, Object

_UNKNOWN = "member {}: unknown name"
T = TypeVar("T")


class Filter(NamedTuple):
    """A filter of VRPs: a prefix, an AS number, or both."""

    prefix: Prefix | None
    origin: int | None

    def matches(self, vrp: Vrp) -> bool:
        """Returns whether the filter removes a VRP (RFC 8416, 3.3.1)."""
        has_prefix = self.prefix is None or self.prefix.covers(vrp.prefix.prefix)
        return has_prefix and self.origin in (None, vrp.asn)


class Slurm(NamedTuple):
    """The filters and the assertions of a file."""

    filters: list[Filter]
    assertions: list[Vrp]

    def applied(self, vrps: list[Vrp]) -> list[Vrp]:
        """Returns the VRPs that no filter removes, and then the assertions."""
        return [vrp for vrp in vrps if not any(one.matches(vrp) for one in self.filters)] + self.assertions


def _check_names(members: Object, names: tuple[str, ...], where: str = "") -> None:
    """Raises a fault at a member that is not defined (RFC 8416, 3.1)."""
    for number, (name, _) in enumerate(members, 1):
        if name not in names:
            raise Fault(where + _UNKNOWN.format(number))


def _optional(members: Object, name: str, kind: type) -> object | None:
    return vrp_files.only(members, name, (kind,)) if members.values(name) else None


def _filter(members: Object) -> Filter:
    """Reads a prefix filter (RFC 8416, 3.3.1)."""
    _check_names(members, ("prefix", "asn", "comment"))
    text = _optional(members, "prefix", str)
    prefix = None if text is None else route_lines.read_prefix(text)
    number = _optional(members, "asn", Number)
    origin = None if number is None else asn.read_asn(number)
    _optional(members, "comment", str)
    if prefix is None and origin is None:
        raise Fault("no criterion")
    return Filter(prefix, origin)


def _key_filter(members: Object) -> None:
    """Reads a BGPsec filter (RFC 8416, 3.3.2)."""
    _check_names(members, ("asn", "SKI", "comment"))
    number = _optional(members, "asn", Number)
    if number is not None:
        asn.read_asn(number)
    identifier = _optional(members, "SKI", str)
    _optional(members, "comment", str)
    if number is None and identifier is None:
        raise Fault("no criterion")


def _assertion(members: Object) -> Vrp:
    """Reads a prefix assertion (RFC 8416, 3.4.1)."""
    _check_names(members, ("prefix", "asn", "maxPrefixLength", "comment"))
    prefix = route_lines.read_prefix(vrp_files.only(members, "prefix", (str,)))
    origin = asn.read_asn(vrp_files.only(members, "asn", (Number,)))
    length = _optional(members, "maxPrefixLength", Number)
    whole = prefixes.with_max_len(prefix, str(prefix.length) if length is None else length)
    _optional(members, "comment", str)
    return Vrp(whole, origin)


def _key(members: Object) -> None:
    """Reads a BGPsec assertion (RFC 8416, 3.4.2)."""
    _check_names(members, ("asn", "SKI", "routerPublicKey", "comment"))
    asn.read_asn(vrp_files.only(members, "asn", (Number,)))
    vrp_files.only(members, "SKI", (str,))
    vrp_files.only(members, "routerPublicKey", (str,))
    _optional(members, "comment", str)


def _items(members: Object, name: str, read: Callable[[Object], T]) -> list[T]:
    found = []
    for number, item in enumerate(vrp_files.only(members, name, (list,)), 1):
        try:
            if not isinstance(item, Object):
                raise Fault("not an object")
            found.append(read(item))
        except Fault as fault:
            raise Fault(f"{name}: item {number}: {fault}") from None
    return found


def _part(members: Object, name: str, names: tuple[str, ...]) -> Object:
    inner = vrp_files.only(members, name, (Object,))
    _check_names(inner, names, f"{name}: ")
    return inner


def read(file: bytes) -> Slurm:
    """Reads a file (RFC 8416, 3.2)."""
    members = vrp_files.object_of(file.removeprefix(vrp_files.MARK))
    _check_names(members, ("slurmVersion", "validationOutputFilters", "locallyAddedAssertions"))
    if vrp_files.only(members, "slurmVersion", (Number,)) != "1":
        raise Fault("slurmVersion: not 1")
    inner = _part(members, "validationOutputFilters", ("prefixFilters", "bgpsecFilters"))
    filters = _items(inner, "prefixFilters", _filter)
    _items(inner, "bgpsecFilters", _key_filter)
    inner = _part(members, "locallyAddedAssertions", ("prefixAssertions", "bgpsecAssertions"))
    assertions = _items(inner, "prefixAssertions", _assertion)
    _items(inner, "bgpsecAssertions", _key)
    return Slurm(filters, assertions)
