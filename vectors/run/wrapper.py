#!/usr/bin/env python3
"""wrapper.py [--show] [--only NAME] [--json FILE]: asks the library through the Python wrapper.

PIGYELUND_LIB names the folder of libpigyelund.so, and PYTHONPATH has the package pigyelund (foreign/python/src). A
value is canonical if a strict call accepts it. The status is 77 if the package or the library is missing."""

import sys
from collections import Counter
from collections.abc import Callable, Iterable
from ipaddress import ip_network
from typing import Any

from compare import NOT_APPLICABLE, Answer, Case, octets_of_file, run, skip, vrp_text, vrp_texts

try:
    import pigyelund as wrapper
except ImportError:
    wrapper = None

# Both families inherit, and AS numbers inherit: a certificate that has nothing of another kind has one of these.
OTHER = {"as": bytes.fromhex("30083006040200010500"), "v4": bytes.fromhex("3004a0020500")}
OPERATORS: dict[str, Callable[[Any, Any], Any]] = {
    "union": lambda left, right: left | right,
    "intersection": lambda left, right: left & right,
    "difference": lambda left, right: left - right,
    "contains": lambda left, right: right <= left,
    "equal": lambda left, right: left == right,
}
REFUSED: Answer = ("refuse", None)


def made(kind: str, text: str) -> Any:
    """The set of a list of one kind."""
    return wrapper.Resources.from_text(**{"asn" if kind == "as" else kind: text})


def extensions_of(kind: str, octets: bytes | None) -> Any:
    """The extensions with a value of one kind."""
    return wrapper.Extensions(asn=octets) if kind == "as" else wrapper.Extensions(ip=octets)


def of_der(kind: str, case: Case) -> Answer:
    """What a value lists: claimed of an issuer that has everything. What it inherits has no octets of its own."""
    octets = bytes.fromhex(case["input"]["octets"])
    claim = extensions_of(kind, octets)
    everything = wrapper.Resources.from_text("AS0-AS4294967295", "0.0.0.0/0", "::/0")
    try:
        found = everything.verify(claim, encoding=wrapper.Encoding.LENIENT).der()
    except wrapper.DerError:
        return REFUSED
    try:
        everything.verify(claim)
        word = "canonical"
    except wrapper.DerError:
        word = "valid"
    listed = (found.asn if kind == "as" else found.ip) or b""
    return word, None if b"\5\0" in octets else listed.hex()


def of_text(kind: str, text: str) -> Answer:
    """The canonical list of a list."""
    try:
        return "accept", str(made(kind, text))
    except wrapper.SetTextError:
        return REFUSED


def of_operation(asked: Case) -> Answer:
    """The result of an operation."""
    left, right = (made(asked["kind"], ", ".join(asked[it])) for it in ("left", "right"))
    found = OPERATORS[asked["operation"]](left, right)
    return "accept", str(found).lower() if isinstance(found, bool) else str(found)


def certificate_of(kind: str, asked: Case) -> Any:
    """A certificate of a path. It has an extension of the other kind if it has none of this kind."""
    octets = bytes.fromhex(asked["octets"]) if asked["octets"] else None
    other = OTHER["as" if kind == "as" else "v4"] if octets is None else None
    extensions = wrapper.Extensions(octets, other) if kind == "as" else wrapper.Extensions(other, octets)
    return wrapper.Certificate(extensions, wrapper.Mode[asked["policy"].upper()])


def of_path(asked: Case) -> Answer:
    """What a path leaves."""
    kind, octets = asked["kind"], bytes.fromhex(asked["anchor"]["octets"] or "")
    anchor = wrapper.Resources.read(extensions_of(kind, octets or None), encoding=wrapper.Encoding.LENIENT)
    certificates = [certificate_of(kind, it) for it in asked["certificates"]]
    try:
        return "accept", str(anchor.verify_path(certificates, encoding=wrapper.Encoding.LENIENT))
    except wrapper.OverclaimedError as refused:
        return "refuse", f"{refused.verified} {refused.excess}"


def of_cover(asked: Case, wanted: list[str]) -> Answer:
    """The prefixes of a set, as networks. Versions of Python print some of them in another way."""
    found = made(asked["family"], ", ".join(asked["blocks"])).prefixes()
    return "accept", ", ".join(wanted if found == [*map(ip_network, wanted)] else map(str, found))


def vrps_of(listed: list[Case]) -> list[Any]:
    """VRPs of the wrapper."""
    return [wrapper.Vrp(vrp_text(it)) for it in listed]


def of_route(asked: Case) -> Answer:
    """The validity of a route."""
    with wrapper.Table(vrps_of(asked["vrps"])) as table:
        return "accept", str(table.validate(wrapper.Route(asked["prefix"], asked["asn"])))


def of_vrps(found: list[Any], wanted: list[Case] | None, is_same: Callable[[Any, Any], bool]) -> Answer:
    """VRPs, compared as such: versions of Python print some prefixes in another way."""
    if wanted is not None and is_same(found, vrps_of(wanted)):
        return "accept", vrp_texts(wanted)
    return "accept", ", ".join(sorted(map(str, found)))


def of_update(asked: Case, wanted: list[Case] | None) -> Answer:
    """The table after changes."""
    announced, withdrawn = vrps_of(asked["announced"]), vrps_of(asked["withdrawn"])
    with wrapper.Table(vrps_of(asked["table"])) as table:
        try:
            with table.with_changes(announced=announced, withdrawn=withdrawn) as following:
                return of_vrps([*following], wanted, lambda one, other: Counter(one) == Counter(other))
        except wrapper.ChangeError as refused:
            code = 6 if refused.status == wrapper.Status.UNKNOWN_WITHDRAWAL else 7
            return "refuse", f"{code} {refused.index}"


def of_file(asked: Case, wanted: list[Case] | None) -> Answer:
    """The VRPs of a file, in its order."""
    try:
        return of_vrps(wrapper.read_vrps(octets_of_file(asked)), wanted, lambda one, other: bool(one == other))
    except wrapper.VrpFileError:
        return REFUSED


def answer(file: str, case: Case) -> Answer:
    """The answer to a case."""
    asked, expected = case["input"], case["expected"]
    calls: dict[str, Callable[[], Answer]] = {
        "der_as": lambda: of_der("as", case),
        "der_ip": lambda: of_der("ip", case),
        "text_as": lambda: of_text("as", asked["text"]),
        "text_ip": lambda: of_text(asked["family"], asked["text"]),
        "set_operations": lambda: of_operation(asked),
        "verify_path": lambda: of_path(asked),
        "prefix_cover": lambda: of_cover(asked, expected["prefixes"]),
        "origin_validation": lambda: of_route(asked),
        "vrp_updates": lambda: of_update(asked, expected.get("vrps")),
        "vrp_files": lambda: of_file(asked, expected.get("vrps")),
    }
    return calls[file]() if file in calls else NOT_APPLICABLE


def main(words: list[str]) -> int:
    """Compares the library with the vectors."""
    if wrapper is None:
        return skip("the package pigyelund is not on the PYTHONPATH")
    try:
        wrapper.load()
    except ImportError as missing:
        return skip(f"{missing}")

    def answers(file: str, cases: list[Case]) -> Iterable[Answer]:
        return (answer(file, case) for case in cases)

    return run("pigyelund (Python)", answers, words)


if __name__ == "__main__":
    sys.exit(main(sys.argv[1:]))
