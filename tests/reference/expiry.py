"""Removes the VRPs that have expired from files of VRPs."""

from collections.abc import Iterator

from . import texts, vrp_files
from .faults import Fault
from .prefixes import Vrp
from .vrp_files import MARK, Number, Object

_NAMES = ({"ASN"}, {"IP Prefix", "Prefix"}, {"Max Length", "Max prefix length"})


def _time(text: str) -> int:
    try:
        return texts.number(text, 2**64 - 1)
    except Fault:
        raise Fault("expires: not a whole number below 2^64") from None


def _of_items(octets: bytes) -> Iterator[int | None]:
    (items,) = vrp_files.object_of(octets).values("roas")
    for number, item in enumerate(items, 1):
        try:
            has_expiry = isinstance(item, Object) and item.values("expires")
            yield _time(vrp_files.only(item, "expires", (Number,))) if has_expiry else None
        except Fault as fault:
            raise Fault(f"item {number}: {fault}") from None


def _field(field: str) -> str:
    inner = texts.trim(field)
    return inner[1:-1] if len(inner) > 1 and inner.startswith('"') and inner.endswith('"') else inner


def _of_lines(octets: bytes) -> Iterator[int | None]:
    header: list[str] = []
    for number, line in enumerate(octets.decode().split("\n"), 1):
        fields = [_field(field) for field in line.split(",")]
        if not texts.trim(line):
            continue
        if all(names.intersection(fields) for names in _NAMES):
            header = fields
            continue
        place = header.index("Expires") if "Expires" in header else len(fields)
        try:
            yield _time(fields[place]) if place < len(fields) and fields[place] else None
        except Fault as fault:
            raise Fault(f"line {number}: {fault}") from None


def read(file: bytes) -> list[tuple[Vrp, int | None]]:
    """Returns the VRPs of a file, each with its expiry. A fault of the file as a file of VRPs comes first."""
    vrps = vrp_files.read(file)
    octets = file.removeprefix(MARK)
    of_form = _of_items if octets.lstrip(b"\t\n\f\r ").startswith(b"{") else _of_lines
    return list(zip(vrps, of_form(octets), strict=True))


def unexpired(file: bytes, now: int) -> tuple[list[Vrp], int]:
    """Returns the VRPs that are valid at a time, and how many have expired.

    A VRP is valid through the last second (RFC 5280, 4.1.2.5).
    """
    dated = read(file)
    kept = [vrp for vrp, expiry in dated if expiry is None or now <= expiry]
    return kept, len(dated) - len(kept)
