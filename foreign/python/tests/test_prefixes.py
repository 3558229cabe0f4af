"""Tests of the objects of `ipaddress` that go in and come out, and of the errors that name a wrong value.

`test.py` runs them, and each yields a text for each fault.
"""

import pickle
from collections.abc import Callable, Iterator
from functools import partial
from ipaddress import (
    IPv4Address,
    IPv4Interface,
    IPv4Network,
    IPv6Address,
    IPv6Interface,
    IPv6Network,
    ip_network,
    summarize_address_range,
)
from pathlib import Path

from pigyelund import (
    Asn,
    Certificate,
    ChangeError,
    Extensions,
    OriginError,
    Resources,
    Route,
    RouteTextError,
    Table,
    Validity,
    Vrp,
    read_routes,
    read_unexpired_vrps,
    read_vrps,
    validate_routes,
)
from pigyelund.values import Address, Network

TEN = IPv4Network("10.0.0.0/8")
SIX = IPv6Network("2001:db8::/32")
HOST = IPv4Address("10.0.0.1")
SIX_HOST = IPv6Address("2001:db8::1")


def addresses(_: Path) -> Iterator[str]:
    """An address is a prefix of all its bits, in a VRP and in a route. Results have networks."""
    asked: list[tuple[Address, int]] = [(HOST, 32), (SIX_HOST, 128)]
    for address, length in asked:
        network = ip_network(address)
        if Vrp(address, 1) != Vrp(network, 1) or Route(address, 1) != Route(network, 1):
            yield f"{address} and {network} differ"
        vrp, route = Vrp(address, 1), Route(address, 1)
        found = [vrp.prefix, route.prefix, type(vrp.prefix), vrp.prefix.prefixlen, vrp.max_len]
        if found != [network, network, type(network), length, length]:
            yield f"{found} of {address}"
        with Table([vrp]) as table:
            if table.validate(route) != Validity.VALID:
                yield f"{route} is not valid by {vrp}"
        with Table([Vrp(network.supernet(8), 1)]) as table:
            if [it.vrp.prefix for it in table.covering(route)] != [network.supernet(8)]:
                yield f"{table.covering(route)} covers {route}"


def no_prefixes(_: Path) -> Iterator[str]:
    """A prefix that is no network, address or text, or has a scope, is refused. The text has the prefix."""
    other = "is no network or address of ipaddress, and no text"
    scope = "has a scope, which no prefix has"
    interface = "is an interface; pass its network or its ip"
    asked: list[tuple[object, type[Exception], str]] = [
        ("10.0.0.0", ValueError, "prefix: '10.0.0.0' is not ADDRESS/LENGTH"),
        ("10.0.0.0/255.0.0.0", ValueError, "prefix: '10.0.0.0/255.0.0.0' is not ADDRESS/LENGTH"),
        ("10.0.0.1/8", ValueError, "10.0.0.1/8 has host bits set"),
        (None, TypeError, f"prefix: None {other}"),
        (7, TypeError, f"prefix: 7 {other}"),
        (b"\n", TypeError, f"prefix: {bytes([10])!r} {other}"),
        (IPv4Interface("10.0.0.1/8"), TypeError, f"prefix: IPv4Interface('10.0.0.1/8') {interface}"),
        (IPv6Interface("2001:db8::1/32"), TypeError, f"prefix: IPv6Interface('2001:db8::1/32') {interface}"),
        (IPv6Address("fe80::1%a"), ValueError, f"prefix: IPv6Address('fe80::1%a') {scope}"),
        (IPv6Network("fe80::%a/64"), ValueError, f"prefix: IPv6Network('fe80::%a/64') {scope}"),
    ]
    for prefix, kind, text in asked:
        calls: list[Callable[[], object]] = [
            lambda: Vrp(prefix, 1),  # type: ignore[call-overload]
            lambda: Route(prefix, 1),  # type: ignore[call-overload]
        ]
        yield from (fault for call in calls for fault in refuses(call, kind, text))


def refuses(call: Callable[[], object], kind: type[Exception], text: str) -> Iterator[str]:
    """Yields a text if a call does not raise an exception of a class with a text."""
    try:
        yield f"{call()} in place of {text}"
    except kind as reason:
        if str(reason) != text:
            yield f"{reason!r} in place of {text}"


def wrong_numbers(_: Path) -> Iterator[str]:
    """A number that is wrong is in the text of the exception, with the name of its argument. A missing one is named."""
    no_vrp = "asn is missing; a Vrp is a text such as '10.0.0.0/8-16 AS64496', or has an asn"
    no_route = "asn is missing; a Route is a text such as '10.0.0.0/16 AS64496', or has an asn"
    asked: list[tuple[Callable[[], object], type[Exception], str]] = [
        (lambda: Vrp(TEN, 2**32), ValueError, "asn: 4294967296 is not from 0 to 4294967295"),
        (lambda: Route(TEN, -1), ValueError, "asn: -1 is not from 0 to 4294967295"),
        (lambda: Asn(-1), ValueError, "asn: -1 is not from 0 to 4294967295"),
        (lambda: Vrp(TEN, 1, 33), ValueError, "max_len: 33 is not from 8 to 32"),
        (lambda: Vrp(SIX, 1, 31), ValueError, "max_len: 31 is not from 32 to 128"),
        (lambda: Vrp(TEN, 1.0), TypeError, "asn: 1.0 is no AS number"),  # type: ignore[call-overload]
        (lambda: Vrp(TEN, True), TypeError, "asn: True is no AS number"),
        (lambda: Vrp(TEN, 1, 8.0), TypeError, "max_len: 8.0 is no integer"),  # type: ignore[call-overload]
        (lambda: Vrp("10.0.0.0/8"), RouteTextError, "VRP: bad AS number: '10.0.0.0/8'"),
        (lambda: Route("10.0.0.0/8"), RouteTextError, "route: bad AS number: '10.0.0.0/8'"),
        (lambda: Vrp("10.0.0.0/8", max_len=9), TypeError, no_vrp),  # type: ignore[call-overload]
        (lambda: Vrp(TEN), TypeError, no_vrp),  # type: ignore[call-overload]
        (lambda: Route(TEN), TypeError, no_route),  # type: ignore[call-overload]
    ]
    for call, kind, text in asked:
        yield from refuses(call, kind, text)


def wrong_items(_: Path) -> Iterator[str]:
    """An item of a wrong type is in the text of the exception, with its index."""
    vrp, route = Vrp(TEN, 1), Route(TEN, 1)
    no_vrp, no_route = f"at index 1: {route!r} is no Vrp", f"at index 0: {vrp!r} is no Route"
    neither = "7 is neither an iterable of Vrp nor a buffer"
    with Table([vrp]) as table:
        asked: list[tuple[Callable[[], object], str]] = [
            (lambda: Table([vrp, route]), no_vrp),  # type: ignore[list-item]
            (lambda: table.with_changes(withdrawn=[vrp, route]), no_vrp),  # type: ignore[list-item]
            (lambda: table.with_changes(announced=[vrp, route]), no_vrp),  # type: ignore[list-item]
            (lambda: table.validate_routes([vrp]), no_route),  # type: ignore[list-item]
            (lambda: table.validate_octets([vrp]), no_route),  # type: ignore[list-item]
            (lambda: table.revalidate(table, [vrp]), no_route),  # type: ignore[list-item]
            (lambda: validate_routes([table], [vrp]), no_route),  # type: ignore[list-item]
            (lambda: validate_routes(table, []), f"tables: {vrp!r} is no Table"),  # type: ignore[arg-type]
            (lambda: Table(7), neither),  # type: ignore[arg-type]
            (lambda: Table("vrps"), "'vrps' is neither an iterable of Vrp nor a buffer"),  # type: ignore[arg-type]
        ]
        for call, text in asked:
            yield from refuses(call, TypeError, text)
        for of_route in (table.covering, table.validate, table.reason):
            yield from refuses(lambda: of_route(vrp), TypeError, f"{vrp!r} is no Route")  # type: ignore[operator]
        yield from refuses(lambda: route in table, TypeError, f"vrp: {route!r} is no Vrp")  # type: ignore[operator]
        text = "following: [] is no Table"
        yield from refuses(lambda: table.revalidate([], []), TypeError, text)  # type: ignore[arg-type]
        yield from refuses(lambda: table.changes([]), TypeError, text)  # type: ignore[arg-type]


def wrong_texts(_: Path) -> Iterator[str]:
    """A file that is no `bytes`, a list that is no `str`, and a claim that is no `Extensions` are refused."""
    ten = Resources([TEN])
    asked: list[tuple[Callable[[], object], str]] = [
        (lambda: Resources.from_text(v4=None), "v4: None is no str"),  # type: ignore[arg-type]
        (lambda: Resources.from_text("AS1", v6=b""), "v6: b'' is no str"),  # type: ignore[arg-type]
        (lambda: ten.verify(ten), f"certificate: {ten!r} is no Extensions"),  # type: ignore[arg-type]
        (lambda: Certificate(ten), f"extensions: {ten!r} is no Extensions"),  # type: ignore[arg-type]
        (lambda: ten.verify_path([ten]), f"certificates: {ten!r} is no Certificate"),  # type: ignore[list-item]
        (lambda: Extensions("300c"), "asn: '300c' is no bytes"),  # type: ignore[arg-type]
    ]
    for call, text in asked:
        yield from refuses(call, TypeError, text)
    text = "file: a str is no bytes; for the name of a file pass Path(name).read_bytes()"
    yield from refuses(lambda: read_vrps("vrps.csv"), TypeError, text)  # type: ignore[arg-type]
    yield from refuses(lambda: Table.read("vrps.csv"), TypeError, text)  # type: ignore[arg-type]
    yield from refuses(lambda: read_unexpired_vrps("vrps.csv", 1), TypeError, text)  # type: ignore[arg-type]
    text = "time: 1.5 is no integer; for the current time pass int(time.time())"
    yield from refuses(lambda: read_unexpired_vrps(b"", 1.5), TypeError, text)  # type: ignore[arg-type]
    for time in (-1, 2**64):
        text = f"time: {time} is not from 0 to 18446744073709551615"
        yield from refuses(partial(Table.read_unexpired, b"", time), ValueError, text)
    text = "lines: a str is no bytes; for the name of a file pass Path(name).read_bytes()"
    yield from refuses(lambda: read_routes("routes"), TypeError, text)  # type: ignore[arg-type]


def refused_items(_: Path) -> Iterator[str]:
    """An `OriginError` has the octets of the struct that is refused, or the VRP of a change. Its text ends with it."""
    good, route = bytes(Vrp(TEN, 1)), bytes(Route(TEN, 1))
    short, other = good[:22] + b"\7\0", bytes(Vrp(SIX, 2))[:22] + b"\x81\0"
    bad_route = route[:21] + b"\x21\0\0"
    three = Vrp(TEN, 3)
    with Table(good) as table:
        asked: list[tuple[Callable[[], object], int, Vrp | bytes]] = [
            (lambda: Table(good + good + other), 2, other),
            (lambda: Table(short), 0, short),
            (lambda: table.validate_routes(bad_route), 0, bad_route),
            (lambda: table.validate_octets(route + bad_route), 1, bad_route),
            (lambda: table.revalidate(table, route + route + bad_route), 2, bad_route),
            (lambda: table.with_changes(announced=short, withdrawn=good), 0, short),
            (lambda: table.with_changes(withdrawn=good + short), 1, short),
            (lambda: table.with_changes(withdrawn=good + other), 1, other),
            (lambda: table.with_changes(withdrawn=[three, three]), 0, three),
            (lambda: table.with_changes(announced=[three, three]), 1, three),
            (lambda: table.with_changes(announced=other + good, withdrawn=good + bytes(three)), 0, other),
        ]
        for at, (call, index, item) in enumerate(asked):
            try:
                yield f"call {at} answers {call()}"
            except OriginError as reason:
                shown = item.hex() if isinstance(item, bytes) else str(item)
                found = reason.index, reason.item, str(reason).endswith(f": {shown}")
                if found != (index, item, True) or isinstance(reason, ChangeError) != isinstance(item, Vrp):
                    yield f"call {at}: {reason!r} in place of {item!r}"
                if pickle.loads(pickle.dumps(reason)).item != item:
                    yield f"call {at}: {item!r} is lost by pickle"


def sets_of_prefixes(_: Path) -> Iterator[str]:
    """Networks and addresses make a set, and a set lists its networks."""
    halves = [IPv4Network("10.128.0.0/9"), IPv4Network("10.0.0.0/9")]
    mapped = IPv6Network("::ffff:10.0.0.0/104")
    between = [*summarize_address_range(HOST, IPv4Address("10.0.0.6"))]
    asked: list[tuple[list[Network | Address], list[Network]]] = [
        ([], []),
        ([*halves], [TEN]),
        ([SIX, *halves, HOST, SIX_HOST], [TEN, SIX]),
        ([HOST], [IPv4Network("10.0.0.1/32")]),
        ([SIX_HOST, IPv6Network("2001:db8::/128")], [IPv6Network("2001:db8::/127")]),
        ([mapped, ip_network("::/128")], [ip_network("::/128"), mapped]),
        ([ip_network("0.0.0.0/0"), ip_network("::/0")], [ip_network("0.0.0.0/0"), ip_network("::/0")]),
        ([*between], [*between]),
    ]
    for given, wanted in asked:
        found = Resources(given)
        if found.prefixes() != wanted or found.as_ranges() or bool(found) != bool(wanted):
            yield f"{found} of {given}"
        if found | found != found or not all(it in found for it in given):
            yield f"{found} of {given} is no set"
    if Resources(iter([TEN])).der() != Extensions(ip=bytes.fromhex("300c300a0402000130040302000a")):
        yield f"{Resources([TEN])} of {TEN}"
    if Resources([Asn(7), TEN, Asn(8)]) != Resources.from_text(asn="AS7-AS8", v4="10.0.0.0/8"):
        yield "AS numbers of a set"
    text = "'10.0.0.0/8' is a text; use Resources.from_text"
    yield from refuses(lambda: Resources([TEN, "10.0.0.0/8"]), TypeError, text)  # type: ignore[list-item]
    scope = "prefix: IPv6Address('fe80::1%a') has a scope, which no prefix has"
    for call in (lambda: Resources([IPv6Address("fe80::1%a")]), lambda: IPv6Address("fe80::1%a") in Resources([SIX])):
        yield from refuses(call, ValueError, scope)


OF_PREFIXES = (
    addresses,
    no_prefixes,
    wrong_numbers,
    wrong_items,
    wrong_texts,
    refused_items,
    sets_of_prefixes,
)
