"""The answers of `respath`."""

from collections.abc import Callable

from . import asn, ip, paths, prefixes, resources, texts
from .addresses import Family
from .faults import Fault
from .paths import Refused, Step
from .resources import INHERIT, Claim, Families
from .sets import Set

FAMILIES = {"v4": Family.V4, "v6": Family.V6}
KINDS = ("as", *FAMILIES)


def octets_of(text: str) -> bytes | None:
    """Returns the octets of a text in hexadecimal, two digits each with nothing between them, or None."""
    if len(text) % 2 or not set(text) <= set("0123456789abcdefABCDEF"):
        return None
    return bytes.fromhex(text)


def read_set(kind: str, text: str) -> Set:
    """Reads the set that a list of a kind describes."""
    return asn.read_set(text) if kind == "as" else ip.read_set(text, FAMILIES[kind])


def print_set(kind: str, numbers: Set) -> str:
    """Returns a set as a list of its kind."""
    return asn.print_set(numbers) if kind == "as" else ip.print_set(numbers, FAMILIES[kind])


def print_claim(kind: str, claim: Claim) -> str:
    """Returns a claim as text."""
    if claim is None:
        return "missing"
    return claim if claim == INHERIT else print_set(kind, claim)


def read_claim(kind: str, text: str) -> Claim:
    """Reads the claim of `inherit` or of a list."""
    return INHERIT if text == INHERIT else paths.claim_of(read_set(kind, text))


def written_claim(kind: str, claim: Claim) -> bytes:
    """Returns the octets of a claim. A claim on addresses is in a list of families."""
    if kind == "as":
        return resources.written_as_claim(claim)
    found = Families(claim, None) if kind == "v4" else Families(None, claim)
    return resources.written_families(found)


def overclaimed(kind: str, excess: Set) -> str:
    """Returns the text about overclaimed resources."""
    name = {"as": "AS", "v4": "IPv4", "v6": "IPv6"}[kind]
    return f"overclaimed {name} resources: {print_set(kind, excess)}"


def _norm(kind: str, text: str) -> str:
    return print_set(kind, read_set(kind, text))


def _cover(kind: str, text: str) -> str:
    return prefixes.print_cover(read_set(kind, text), FAMILIES[kind])


def _der(kind: str, text: str) -> str:
    return written_claim(kind, read_claim(kind, text)).hex() or "missing"


def _read(kind: str, text: str) -> str:
    octets = octets_of(text)
    if octets is None:
        raise Fault("bad hex")
    if kind == "as":
        return print_claim(kind, resources.all_of(resources.read_as_claim(octets, False)))
    found = resources.all_of(resources.read_families(octets, False))
    return print_claim(kind, found.v4 if kind == "v4" else found.v6)


def _step(kind: str, text: str) -> Step:
    word, listed = texts.cut(texts.trim(text), " ")
    if word == INHERIT and texts.trim(text) == word:
        return Step(INHERIT, False)
    if word == "missing" and texts.trim(text) == word:
        return Step(None, False)
    if word in ("refuse", "trim"):
        return Step(paths.claim_of(read_set(kind, listed)), word == "trim")
    raise Fault("unknown step")


def _path(kind: str, text: str) -> str:
    parts = text.split("|")
    root = read_set(kind, parts[0])
    steps = [_step(kind, part) for part in parts[1:]]
    try:
        return print_set(kind, paths.left(root, steps))
    except Refused as refused:
        return f"refused at step {refused.step}: {overclaimed(kind, refused.excess)}"


COMMANDS: dict[str, tuple[Callable[[str, str], str], tuple[str, ...]]] = {
    "norm": (_norm, KINDS),
    "cover": (_cover, tuple(FAMILIES)),
    "der": (_der, KINDS),
    "read": (_read, KINDS),
    "path": (_path, KINDS),
}


def answer(line: bytes) -> str:
    """Returns the answer to a line."""
    try:
        text = line.decode("utf-8")
    except UnicodeDecodeError:
        return "error: not UTF-8"
    command, rest = texts.cut(text, " ")
    kind, argument = texts.cut(rest, " ")
    if command not in COMMANDS:
        return "error: unknown command"
    call, kinds = COMMANDS[command]
    if kind not in kinds:
        return "error: unknown kind"
    try:
        return call(kind, argument)
    except Fault as fault:
        return f"error: {fault}"
