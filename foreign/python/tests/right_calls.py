"""Calls with right arguments, of each type that the package documents. `test_types.py` tests that mypy accepts them.

No program runs this file.
"""

from array import array
from collections.abc import Iterator
from ipaddress import (
    IPv4Address,
    IPv4Network,
    IPv6Network,
    ip_address,
    ip_network,
    summarize_address_range,
)
from pathlib import Path
from typing import SupportsIndex

from pigyelund import (
    Asn,
    Certificate,
    ChangeError,
    Changes,
    Covering,
    Encoding,
    Extensions,
    Family,
    Mismatch,
    Mode,
    OriginError,
    OverclaimedError,
    PigyelundError,
    Reason,
    Resources,
    Route,
    SlurmFileError,
    Status,
    Table,
    UnexpiredVrps,
    Validity,
    Vrp,
    VrpFileError,
    answer,
    apply_slurm,
    apply_slurm_octets,
    arrays,
    library_version,
    load,
    read_octets,
    read_route_octets,
    read_routes,
    read_unexpired_vrps,
    read_vrps,
    status_text,
    validate_routes,
)


class Index:
    """An integer that is no `int`, as those of numpy are."""

    def __index__(self) -> int:
        return 1


load("libpigyelund.so")
load(Path("libpigyelund.so"))
load(path=None)
network, number = ip_network("10.0.0.0/8"), Asn("AS64496")
asns: list[Asn] = [Asn(1), Asn("1"), Asn(Index()), Asn(number)]
vrp, route = Vrp(network, 1), Route(network, 1)
vrps: list[Vrp] = [
    Vrp("10.0.0.0/8-16 AS64496"),
    Vrp("10.0.0.0/8", "AS64496", 16),
    Vrp(IPv4Network("10.0.0.0/8"), asn=1, max_len=None),
    Vrp(IPv6Network("::/0"), 1, Index()),
    Vrp(IPv4Address("10.0.0.1"), Index()),
    Vrp(ip_address("10.0.0.1"), number, max_len=32),
]
routes: set[Route] = {Route(ip_address("10.0.0.1"), Index()), Route("10.0.0.0/8 AS1"), Route("10.0.0.0/8", number)}
prefix: IPv4Network | IPv6Network = vrp.prefix
numbers: tuple[Asn, int, Asn, int] = (vrp.asn, vrp.max_len, route.asn, int(number))
octets: bytes = bytes(vrp) + bytes(route)
ordered: list[Vrp] = sorted(vrps)
is_less: bool = vrp < vrps[0] or vrp >= vrps[0] or number <= Asn(1) or route > Route("::/0", 1) or vrp == route
text: str = str(vrp) + repr(route) + str(number)


def each() -> Iterator[Vrp]:
    """Yields VRPs."""
    yield vrp


def asn_of(asn: Asn | SupportsIndex | str) -> Asn:
    """Returns an AS number."""
    return Asn(asn)


for given in (vrps, tuple(vrps), set(vrps), frozenset(vrps), each(), {vrp: 1}):
    Table(given)
Table(octets), Table(bytearray(octets)), Table(memoryview(octets)), Table(vrps=[])
Table(array("B", octets)), Table(()), Table(), Table.read(b""), Table(read_octets(b""))
unexpired: UnexpiredVrps = read_unexpired_vrps(b"", time=Index())
Table(unexpired.vrps), Table.read_unexpired(b"", 2**64 - unexpired.expired)
left: list[Vrp] = apply_slurm(b"", vrps) + apply_slurm(file=b"", vrps=each()) + apply_slurm(b"", octets)
Table(apply_slurm(b"", arrays.vrps(b""))), Table(apply_slurm_octets(b"", read_octets(b"")))
Table(arrays.apply_slurm(b"", arrays.vrps(b"")))
read: list[Route] = [*read_routes(b""), Route("10.0.0.0/8 AS1")]
packed: bytes = read_route_octets(b"")
with Table(vrps) as table:
    following: Table = table.with_changes(announced=set(vrps) - {vrp}, withdrawn=octets)
    table.with_changes(), table.with_changes(withdrawn=[vrp]), table.with_changes(announced=each())
    found: list[Validity] = table.validate_routes(routes)
    found += table.validate_routes(iter(routes)) + table.validate_routes(octets)
    results: bytes = table.validate_octets(routes) + table.validate_octets(memoryview(octets), allow_malformed=True)
    numbers_and_reasons: tuple[bytes, bytes] = table.validate_octets(octets, allow_malformed=True, reasons=True)
    found_and_reasons: tuple[list[Validity], list[Reason | None]] = table.validate_routes(routes, reasons=True)
    results += table.validate_octets(routes, reasons=False) + numbers_and_reasons[0]
    found += validate_routes([table, following], routes) + validate_routes(iter([table]), octets, reasons=False)
    several: tuple[list[Validity], list[Reason | None]] = validate_routes((table,), routes, reasons=True)
    covering: list[Covering] = table.covering(route)
    is_too_long: bool = Mismatch.TOO_LONG in covering[0].mismatch
    held: list[Vrp] = [*table] + [it.vrp for it in covering] + read_vrps(b"")
    name: str = table.validate(route).name + str(Validity.VALID)
    is_valid: bool = table.validate(route) == Validity.VALID or table.validate(route) is Validity.VALID
    reason: Reason | None = table.reason(route)
    changes: Changes = table.changes(following)
    differ: list[int] = table.revalidate(following, routes)
    is_in: bool = vrp in table and len(table) == 1
    table.with_changes(announced=changes.announced, withdrawn=changes.withdrawn).close()
    arrays.validate(table, arrays.routes(["10.0.0.0/8"], [1]))
    arrays.routes(iter(["10.0.0.0/8"] * 5), [Asn(1), "AS1", 1.0, None, Index()])
    validities, reasons = arrays.validate(table, arrays.routes(["10.0.0.0/8"], [1]), reasons=True)

issuer: Resources = Resources([network, ip_address("10.0.0.1"), number])
issuer = Resources(summarize_address_range(IPv4Address("10.0.0.0"), IPv4Address("10.0.0.9")))
issuer = Resources.from_text(asn="AS1", v4="10.0.0.0/8", v6="::/0")
prefixes: list[IPv4Network | IPv6Network] = issuer.prefixes() + issuer.prefixes(Family.V4)
extensions: Extensions = issuer.der()
issuer = Resources.read(extensions, encoding=Encoding.LENIENT) | Resources.read(Extensions(None, b"0"))
verified: Resources = issuer.verify(extensions, encoding=Encoding.STRICT, mode=Mode.TRIM)
verified = issuer.verify_path((Certificate(it, Mode.TRIM) for it in (extensions,)), encoding=Encoding.STRICT)
verified = issuer & verified | issuer - verified ^ issuer
is_so: bool = issuer <= verified or issuer < verified or issuer >= verified or issuer > verified or not issuer
is_so = network in issuer or number in issuer or vrp in issuer or verified in issuer or ip_address("::1") in issuer
listed: list[tuple[Asn, Asn]] = issuer.as_ranges()
asns += issuer.asns()
ends = [(str(low), str(high)) for low, high in issuer.ranges(Family.V6)]
line: str = answer("norm as 1") + library_version() + status_text(Status.OK) + status_text(5)
try:
    Table(vrps)
except ChangeError as change:
    refused: Vrp | bytes | str | int | None = change.item
except OriginError as origin:
    index: int | None = origin.index
except OverclaimedError as overclaimed:
    excess: Resources = overclaimed.excess
except VrpFileError as file:
    at: int = file.line
except SlurmFileError as slurm:
    in_list: tuple[str | None, int] = slurm.list, slurm.item
except PigyelundError as other:
    status: int = other.status
