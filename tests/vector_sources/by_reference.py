"""The answers of tests/reference. No other module of this folder imports it."""

from typing import Any, NamedTuple

from reference import (
    asn,
    calls_of_callers,
    calls_of_values,
    ip,
    lines,
    paths,
    prefixes,
    resources,
    sets,
    texts,
    vrp_files,
)
from reference.addresses import Family
from reference.faults import Der, DerFault, Fault
from reference.paths import Refused, Step
from reference.prefixes import MaxLenPrefix, Prefix, Vrp
from reference.resources import INHERIT, Claim, Families
from reference.sets import Set

__all__ = [
    "INHERIT",
    "Claim",
    "DerFault",
    "Families",
    "Family",
    "Fault",
    "MaxLenPrefix",
    "Prefix",
    "Refused",
    "Set",
    "Step",
    "Vrp",
]

ALL_DER_FAULTS = [it.name for it in Der if it is not Der.NotCanonical]
FAMILIES = {"v4": Family.V4, "v6": Family.V6}


class Vrps(NamedTuple):
    """The VRPs of a file, or the reason why it is refused."""

    vrps: list[Vrp]
    fault: str | None


def all_of(found: tuple[Any, bytes]) -> Any:
    """Returns the value that was read. Raises a fault if octets follow it."""
    return resources.all_of(found)


def as_claim(octets: bytes, strict: bool = False) -> Claim:
    """Returns the claim of a value of AS identifiers."""
    return all_of(resources.read_as_claim(octets, strict))


def families(octets: bytes, strict: bool = False) -> Families:
    """Returns the claims of a value of IP address blocks."""
    return all_of(resources.read_families(octets, strict))


def name_of(fault: DerFault) -> str:
    """Returns the name of a fault of DER."""
    return Der(fault.number).name


def written(kind: str, claim: Claim) -> bytes:
    """Returns the canonical value of the extension for a claim of one kind alone."""
    return lines.written_claim(kind, claim)


written_families = resources.written_families
written_as_claim = resources.written_as_claim
read_set = lines.read_set
print_set = lines.print_set
print_claim = lines.print_claim
union, intersection, difference = sets.union, sets.intersection, sets.difference
has_all, meets = sets.has_all, sets.meets
elements = texts.elements
left_by = paths.left
claim_of = paths.claim_of
validity = prefixes.validity
read_prefix = prefixes.read_prefix
line_answer = lines.answer
value_answer = calls_of_values.answer
origin_answer = calls_of_callers.origin_answer


def block_text(kind: str, text: str) -> str:
    """Returns the text of one block of a list, in its own form."""
    return asn.read_block(text).text() if kind == "as" else ip.read_block(text, FAMILIES[kind]).text(FAMILIES[kind])


def bounds(kind: str, text: str) -> tuple[int, int]:
    """Returns the first and the last number of one block of a list. Addresses have 128 bits."""
    return asn.read_block(text).bounds() if kind == "as" else ip.read_block(text, FAMILIES[kind]).bounds()


def cover(kind: str, numbers: Set) -> list[str]:
    """Returns the shortest list of prefixes with these addresses."""
    return list(texts.elements(prefixes.print_cover(numbers, FAMILIES[kind])))


def vrp_of(text: str) -> Vrp:
    """Reads the VRP of a row, for example `10.0.0.0/8-16 AS5`."""
    prefix, _, number = text.strip().partition(" ")
    return Vrp(prefixes.read_max_len(prefix), asn.read_asn(number))


def vrps_of_file(octets: bytes) -> Vrps:
    """Returns the VRPs of a file."""
    try:
        return Vrps(vrp_files.read(octets), None)
    except Fault as fault:
        return Vrps([], str(fault))
