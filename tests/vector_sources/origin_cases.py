"""The cases of origin_validation.json and vrp_updates.json: VRPs, routes, and what a cache sends."""

from collections import Counter
from collections.abc import Iterator
from typing import Any

from . import by_reference as reference
from .by_reference import Fault, Prefix, Vrp
from .cases import Case, Flag, Rows, VectorFile, agree, is_chosen, ordered

ORIGIN_FLAGS = {
    "Valid": Flag("a VRP matches the route", "RFC 6811, 2"),
    "Invalid": Flag("VRPs cover the route, and none of them matches it", "RFC 6811, 2"),
    "NotFound": Flag("no VRP covers the route", "RFC 6811, 2"),
    "IPv4": Flag("the route is of IPv4", "RFC 6811, 2"),
    "IPv6": Flag("the route is of IPv6", "RFC 6811, 2"),
    "TooLong": Flag("a VRP that covers the route has its AS, and a shorter maximum length", "RFC 6811, 2"),
    "OtherAs": Flag("a VRP that covers the route has another AS", "RFC 6811, 2"),
    "RouteOfAs0": Flag("the route has the origin AS 0, which no VRP matches", "RFC 6811, 2; RFC 7607, 2"),
    "VrpOfAs0": Flag("a VRP that covers the route has AS 0, and matches no route", "RFC 6811, 2; RFC 6483, 4"),
    "LastAs": Flag("the route has the origin AS 4294967295", "RFC 6793, 2"),
    "SeveralVrps": Flag("several VRPs cover the route", "RFC 6811, 2"),
    "RepeatedVrp": Flag("a VRP is listed twice", "RFC 6811, 2"),
    "ZeroLength": Flag("the route or a VRP that covers it has length 0", "RFC 6811, 2"),
    "HostRoute": Flag("the route is one address", "RFC 6811, 2"),
    "SamePrefix": Flag("a VRP has the prefix of the route", "RFC 6811, 2"),
    "MoreSpecificVrp": Flag("a VRP has a prefix inside the route's, and does not cover the route", "RFC 6811, 2"),
    "OtherFamily": Flag("a VRP is of the other family", "RFC 6811, 2"),
    "NoVrp": Flag("there is no VRP", "RFC 6811, 2"),
}
WORDS = {"Valid": "valid", "Invalid": "invalid", "NotFound": "not-found"}
UPDATE_FLAGS = {
    "Announce": Flag("VRPs are announced", "RFC 8210, 5.6 and 5.7"),
    "Withdraw": Flag("VRPs are withdrawn", "RFC 8210, 5.6 and 5.7"),
    "Both": Flag("VRPs are withdrawn and others announced", "RFC 8210, 5.3"),
    "Replaced": Flag("a VRP is withdrawn and announced again", "RFC 8210, 5.3"),
    "OtherMaxLength": Flag("two VRPs differ in their maximum length alone", "RFC 8210, 5.6 and 5.7"),
    "OtherAs": Flag("two VRPs differ in their AS alone", "RFC 8210, 5.6 and 5.7"),
    "NoChange": Flag("there is no change", "RFC 8210, 5.3"),
    "EmptyTable": Flag("the table has no VRP", "RFC 8210, 5.3"),
    "IPv6": Flag("there are VRPs of IPv6", "RFC 8210, 5.7"),
    "Unknown": Flag("a VRP that is not in the table is withdrawn", "RFC 8210, 12, error code 6", True),
    "Duplicate": Flag("a VRP that is in the table is announced", "RFC 8210, 12, error code 7", True),
}
ERRORS = {
    "error: withdrawal of unknown record at ": ("WithdrawalOfUnknownRecord", 6, "Unknown"),
    "error: duplicate announcement received at ": ("DuplicateAnnouncementReceived", 7, "Duplicate"),
}
ROUTE_MOST, LONGEST = 24, 600


def vrp(it: Vrp) -> dict[str, Any]:
    """Returns a VRP as a member of JSON."""
    return {"asn": it.asn, "maxLength": it.prefix.resolved(), "prefix": it.prefix.prefix.text()}


def text_of(it: Vrp) -> str:
    """Returns a VRP as a row has it."""
    return f"{it.prefix.prefix.text()}-{it.prefix.resolved()} AS{it.asn}"


def origin_flags(route: Prefix, asn: int, vrps: list[Vrp], word: str) -> Iterator[str]:
    """Yields the flags of a route."""
    covering = [it for it in vrps if it.prefix.prefix.covers(route)]
    bits = route.family.bits
    yield from (word, "IPv4" if bits == 32 else "IPv6")
    found = {
        "TooLong": any(it.asn == asn != 0 and it.prefix.resolved() < route.length for it in covering),
        "OtherAs": any(it.asn not in (asn, 0) for it in covering),
        "RouteOfAs0": asn == 0,
        "VrpOfAs0": any(it.asn == 0 for it in covering),
        "LastAs": asn == 2**32 - 1,
        "SeveralVrps": len(covering) > 1,
        "RepeatedVrp": len({*map(text_of, vrps)}) < len(vrps),
        "ZeroLength": route.length == 0 or any(it.prefix.prefix.length == 0 for it in covering),
        "HostRoute": route.length == bits,
        "SamePrefix": any(it.prefix.prefix == route for it in vrps),
        "MoreSpecificVrp": any(it.prefix.prefix != route and route.covers(it.prefix.prefix) for it in vrps),
        "OtherFamily": any(it.prefix.prefix.family is not route.family for it in vrps),
        "NoVrp": not vrps,
    }
    yield from (name for name, is_so in found.items() if is_so)


def origin_case(route: Prefix, asn: int, vrps: list[Vrp]) -> Case:
    """Returns the case of a route."""
    word = reference.validity(route, asn, vrps)
    asked = {"asn": asn, "prefix": route.text(), "vrps": [vrp(it) for it in vrps]}
    return Case(ordered(origin_flags(route, asn, vrps, word), ORIGIN_FLAGS), asked, {"validity": WORDS[word]})


def stored_origins() -> Iterator[Case]:
    """Yields the cases of routes in rows: all with few VRPs, and some of the others."""
    for text, answer in Rows("rows_claims").of("origin"):
        first, *listed = (it.strip() for it in text.split("|"))
        try:
            prefix, _, number = first.partition(" ")
            route, asn = reference.read_prefix(prefix), int(number.removeprefix("AS"))
            vrps = [reference.vrp_of(it) for it in listed if it]
        except (Fault, ValueError):
            continue
        share = 6 if not vrps else 30 if len(text) > 120 else 40
        if len(vrps) <= ROUTE_MOST and len(text) <= LONGEST and is_chosen(text, share):
            case = origin_case(route, asn, vrps)
            agree("rows_claims", f"origin {text}", WORDS.get(answer, answer), case.expected["validity"])
            yield case


def made_origins() -> Iterator[Case]:
    """Yields routes around a VRP: each length, and each AS next to its own."""
    for prefix, length, bits in (
        ("192.0.2.0", 24, 32),
        ("2001:db8::", 32, 128),
        ("10.0.0.0", 8, 32),
        ("2001:db8:8000::", 33, 128),
    ):
        for most in (length, length + 1, bits):
            vrps = [reference.vrp_of(f"{prefix}/{length}-{most} AS64496")]
            zero = [reference.vrp_of(f"{prefix}/{length}-{most} AS0")]
            for asked in sorted({length - 2, length - 1, length, length + 1, length + 2, bits - 1, bits}):
                route = reference.read_prefix(f"{prefix}/{asked}", is_relaxed=True)
                for asn in (64496, 64497, 0):
                    yield from (origin_case(route, asn, it) for it in (vrps, zero, vrps + zero))


def update_case(table: list[Vrp], announced: list[Vrp], withdrawn: list[Vrp], stored: str | None = None) -> Case:
    """Returns the case of changes."""
    parts = (table, announced, withdrawn)
    answer = reference.origin_answer("changes " + " ; ".join(" | ".join(map(text_of, part)) for part in parts))
    if stored is not None:
        agree("rows_claims", "changes", stored, answer)
    flags = {*update_flags(*parts)}
    expected: dict[str, Any] = {"result": "valid"}
    for said, (fault, code, flag) in ERRORS.items():
        if answer.startswith(said):
            at = int(answer.removeprefix(said))
            expected = {"result": "invalid", "fault": fault, "errorCode": code, "index": at}
            flags = {flag, *flags}
    if expected["result"] == "valid":
        after = sorted({text_of(reference.vrp_of(it)) for it in answer.split(" | ") if it})
        expected["vrps"] = [vrp(reference.vrp_of(it)) for it in after]
    asked = {
        name: [vrp(it) for it in part] for name, part in zip(("table", "announced", "withdrawn"), parts, strict=True)
    }
    return Case(ordered(flags, UPDATE_FLAGS), asked, expected)


def update_flags(table: list[Vrp], announced: list[Vrp], withdrawn: list[Vrp]) -> Iterator[str]:
    """Yields the flags of changes."""
    there = [*table, *announced, *withdrawn]
    texts = {*map(text_of, there)}
    kept = [(it.partition(" ")[0].partition("-")[0], it.partition(" ")[2]) for it in texts]
    prefixes = Counter(it.partition(" ")[0] for it in texts)
    found = {
        "Announce": bool(announced) and not withdrawn,
        "Withdraw": bool(withdrawn) and not announced,
        "Both": bool(announced and withdrawn),
        "Replaced": bool({*map(text_of, announced)} & {*map(text_of, withdrawn)}),
        "OtherMaxLength": max(Counter(kept).values(), default=0) > 1,
        "OtherAs": max(prefixes.values(), default=0) > 1,
        "NoChange": not announced and not withdrawn,
        "EmptyTable": not table,
        "IPv6": any(":" in it for it in texts),
    }
    yield from (name for name, is_so in found.items() if is_so)


def stored_updates() -> Iterator[Case]:
    """Yields the cases of the changes in rows."""
    for text, answer in Rows("rows_claims").of("changes"):
        parts = text.split(";")
        try:
            table, announced, withdrawn = (
                [reference.vrp_of(it) for it in part.split("|") if it.strip()] for part in parts
            )
        except (Fault, ValueError):
            continue
        if not is_repeated(table):
            yield update_case(table, announced, withdrawn, None if has_no_max(table) else answer)


def is_repeated(vrps: list[Vrp]) -> bool:
    """Returns whether a VRP is listed twice."""
    return len({*map(text_of, vrps)}) < len(vrps)


def has_no_max(vrps: list[Vrp]) -> bool:
    """Returns whether a VRP of a row has no maximum length, which a router's VRP always has."""
    return any(it.prefix.max_length is None for it in vrps)


BASE = (
    "192.0.2.0/24-24 AS64496",
    "192.0.2.0/24-26 AS64496",
    "192.0.2.0/24-24 AS64497",
    "198.51.100.0/24-32 AS64496",
    "2001:db8::/32-48 AS64496",
    "2001:db8::/32-32 AS64496",
    "10.0.0.0/8-8 AS0",
    "0.0.0.0/0-0 AS4294967295",
    "::/0-128 AS64500",
    "203.0.113.7/32-32 AS64511",
)


def made_updates() -> Iterator[Case]:
    """Yields changes of small tables.

    They are nothing, one VRP, the same VRP in both lists, a VRP twice, and a VRP that is not there.
    """
    all_of = [reference.vrp_of(it) for it in BASE]
    for at, one in enumerate(all_of):
        table, others = all_of[:at], all_of[at + 1 :]
        yield from (update_case(table, [], []), update_case(table, [one], []), update_case(table, [], [one]))
        yield from (update_case([*table, one], [one], []), update_case([*table, one], [], [one]))
        yield from (
            update_case([*table, one], [one], [one]),
            update_case(table, [one, one], []),
            update_case([*table, one], [], [one, one]),
        )
        yield from (
            update_case([*table, one], others, [one]),
            update_case([*table, one], others, table),
            update_case([], others, []),
        )
        yield from (
            update_case(others, [one], others),
            update_case(others, others[:1], []),
            update_case(table, [*others, one], table),
        )


def files() -> list[VectorFile]:
    """Returns both files."""
    origins = VectorFile(
        "origin_validation",
        "route origin validation (RFC 6811)",
        [
            "input.prefix and input.asn are a route and its origin AS, input.vrps the VRPs.",
            "expected.validity is valid, invalid or not-found.",
        ],
        ORIGIN_FLAGS,
    )
    updates = VectorFile(
        "vrp_updates",
        "changes of a router's table of VRPs (RFC 8210)",
        [
            "input.table is what the router has.",
            "The PDUs are those of input.withdrawn, and then those of input.announced, in their order.",
            "expected.vrps is the table after all PDUs.",
            "If the result is invalid, expected.errorCode is that of RFC 8210, 12.",
            "expected.index is that of the first impossible PDU, from 0, in withdrawn (code 6) or announced (code 7).",
        ],
        UPDATE_FLAGS,
        [fault for fault, _, _ in ERRORS.values()],
    )
    for file, makers in ((origins, (stored_origins, made_origins)), (updates, (stored_updates, made_updates))):
        for maker in makers:
            for case in maker():
                file.add(case)
    return [origins, updates]
