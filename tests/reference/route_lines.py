"""Lines of routes, and the answers to them by VRPs (RFC 6811, 2)."""

import json
from typing import NamedTuple

from . import asn, prefixes, texts
from .faults import Fault
from .prefixes import Prefix, Vrp

# The index of the field with the path in a dump's line, by its first field: in a table, and in a message or a state.
PATHS = {"TABLE_DUMP": 6, "TABLE_DUMP2": 6, "TABLE_DUMP2_AP": 7}
PATHS_OF_UPDATES = {
    f"BGP4MP{time}{sender}{identifier}": place
    for time in ("", "_ET")
    for sender in ("", "_LOCAL")
    for identifier, place in (("", 6), ("_AP", 7))
}
PREFIX_PLACE = 5
KIND_PLACE = 2
# The third field of an update that announces no route.
KINDS_WITHOUT_ROUTE = ("W", "STATE")
WORDS = {"Valid": "valid", "NotFound": "not-found"}


class Route(NamedTuple):
    """The prefix of a route and its origin AS. There is no origin if no single AS originates the route."""

    prefix: Prefix
    origin: int | None


def read_prefix(text: str) -> Prefix:
    """Reads a prefix. A fault says that the prefix is invalid."""
    try:
        return prefixes.read_prefix(text)
    except Fault as fault:
        raise Fault(f"invalid prefix: {fault}") from None


def _origin_of(path: str) -> int | None:
    last = texts.trim(path).split(" ")[-1]
    is_set = last.startswith("{") and last.endswith("}")
    is_confederation = last.endswith((")", "]"))
    if not last or is_set or is_confederation:
        return None
    return asn.read_asn(last)


def _words(line: str, mark: str) -> Route:
    prefix, _, origin = line.partition(mark)
    return Route(read_prefix(texts.trim(prefix)), asn.read_asn(texts.trim(origin)))


def _is_route_with_comma(line: str) -> bool:
    """Returns whether a line has no space, and is a route with a space in place of its first comma."""
    try:
        _words(line, ",")
    except Fault:
        return False
    return " " not in line


def _has_other_word(line: str) -> bool:
    """Returns whether the text before the first space of a line has a tab inside, or is an AS number."""
    word = texts.trim(line.partition(" ")[0])
    if "\t" in word:
        return True
    try:
        asn.read_asn(word)
    except Fault:
        return False
    return True


def _path_place(fields: list[str]) -> int | None:
    """Returns the index of the field with the path, or None if the fields are not those of a dump's route."""
    if fields[KIND_PLACE : KIND_PLACE + 1] == ["A"] and fields[0] in PATHS_OF_UPDATES:
        return PATHS_OF_UPDATES[fields[0]]
    return PATHS.get(fields[0])


def read_words(text: str) -> Route:
    """Reads the route of a text: a prefix, a space and an AS number."""
    line = texts.trim(text)
    if _is_route_with_comma(line):
        raise Fault("a comma where a space is expected")
    if _has_other_word(line):
        raise Fault("expected: PREFIX AS")
    return _words(line, " ")


def read_route(line: str) -> Route | None:
    """Reads the route of a line. Returns None for a line of a dump without a route."""
    line = texts.trim(line)
    fields = line.split("|")
    if fields[0] in PATHS_OF_UPDATES and len(fields) > KIND_PLACE and fields[KIND_PLACE] in KINDS_WITHOUT_ROUTE:
        return None
    place = _path_place(fields)
    if place is not None:
        if len(fields) <= place:
            raise Fault("too few fields")
        return Route(read_prefix(fields[PREFIX_PLACE]), _origin_of(fields[place]))
    return read_words(line)


def _reason(route: Route, vrp: Vrp) -> str:
    if route.origin in (None, 0) or vrp.asn != route.origin:
        return "as"
    return "match" if route.prefix.length <= vrp.prefix.resolved() else "length"


def _explanation(route: Route, vrp: Vrp) -> str:
    prefix = vrp.prefix
    return f" {_reason(route, vrp)}:{prefix.prefix.text()}-{prefix.resolved()}:AS{vrp.asn}"


def _order(vrp: Vrp) -> tuple[int, int, int]:
    return -vrp.prefix.prefix.length, vrp.asn, -vrp.prefix.resolved()


def _explaining(route: Route, vrps: list[Vrp]) -> list[Vrp]:
    """Returns the VRPs that cover a route, in the order in which they explain it. A VRP may be repeated."""
    return sorted((vrp for vrp in vrps if vrp.prefix.prefix.covers(route.prefix)), key=_order)


def _word(route: Route, vrps: list[Vrp]) -> str:
    """Returns the outcome for a route."""
    found = prefixes.validity(route.prefix, route.origin or 0, vrps)
    reasons = {_reason(route, vrp) for vrp in _explaining(route, vrps)}
    return WORDS.get(found, "invalid-length" if "length" in reasons else "invalid-as")


def answer(vrps: list[Vrp], line: str, is_explained: bool) -> str:
    """Returns the answer to a line, with or without an explanation."""
    try:
        route = read_route(line)
    except Fault as fault:
        return f"error: {fault}"
    if route is None:
        return "skipped"
    word = _word(route, vrps)
    if not is_explained:
        return word
    return word + "".join(dict.fromkeys(_explanation(route, vrp) for vrp in _explaining(route, vrps)))


def _vrp_object(route: Route, vrp: Vrp) -> dict:
    prefix = vrp.prefix
    reason = _reason(route, vrp)
    return {"reason": reason, "prefix": prefix.prefix.text(), "max_length": prefix.resolved(), "asn": f"AS{vrp.asn}"}


def _object(vrps: list[Vrp], line: bytes, is_explained: bool) -> dict:
    try:
        text = line.decode("utf-8")
    except UnicodeDecodeError:
        return {"state": "error", "error": "not UTF-8", "line": None}
    try:
        route = read_route(text)
    except Fault as fault:
        return {"state": "error", "error": str(fault), "line": text}
    if route is None:
        return {"state": "skipped"}
    word = _word(route, vrps)
    state, reason = word.split("-") if word.startswith("invalid-") else (word, "")
    origin = None if route.origin is None else f"AS{route.origin}"
    found = {"state": state} | ({"reason": reason} if reason else {})
    found |= {"prefix": route.prefix.text(), "origin_asn": origin}
    if is_explained:
        listed: list[dict] = []
        for vrp in _explaining(route, vrps):
            one = _vrp_object(route, vrp)
            if one not in listed:
                listed.append(one)
        found["vrps"] = listed
    return found


def json_answer(vrps: list[Vrp], line: bytes, is_explained: bool) -> str:
    """Returns the answer as an object of JSON (RFC 8259).

    It has no white space, and its strings have the shortest escapes.
    """
    return json.dumps(_object(vrps, line, is_explained), ensure_ascii=False, separators=(",", ":"))
