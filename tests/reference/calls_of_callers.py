"""The answers of `rows_claims` about certificates and origins, and those of `example_holdings`."""

from collections.abc import Callable

from . import asn, expiry, lines, paths, prefixes, resources, route_lines, slurm, texts, vrp_files
from .calls_of_sets import print_changes, print_triple, read_triple
from .faults import DerFault, Fault
from .paths import Refused, Step
from .prefixes import Vrp
from .resources import Claim, Families
from .sets import Set

Triple = tuple[Set, Set, Set]


class NotSaid(Exception):
    """The reference does not know the answer. The text says why."""


def _octets(text: str) -> bytes:
    octets = lines.octets_of(text)
    if octets is None:
        raise NotSaid("the faults of hexadecimal, which its own library prints")
    return octets


def _read_as(octets: bytes, is_canonical: bool) -> Claim:
    return resources.all_of(resources.read_as_claim(octets, is_canonical))


def _read_families(octets: bytes, is_canonical: bool) -> Families:
    return resources.all_of(resources.read_families(octets, is_canonical))


class VerifyError(Exception):
    """The reason why a certificate is not verified."""


class Certificate:
    """A certificate: the encoding that it may have, whether it is trimmed, and its octets, None if absent."""

    def __init__(self, text: str) -> None:
        word, extensions = texts.cut(texts.trim(text), " ")
        numbers, addresses = texts.cut(extensions, " ")
        self.is_canonical = word in ("canonical-refuse", "canonical-trim")
        self.is_trimmed = word in ("trim", "canonical-trim")
        self.numbers = None if numbers == "-" else _octets(numbers)
        self.addresses = None if addresses == "-" else _octets(addresses)

    def claims(self) -> tuple[Claim, Claim, Claim]:
        """Returns the claims of each kind."""
        if self.numbers is None and self.addresses is None:
            raise VerifyError("neither AS identifiers nor IP address blocks")
        numbers, found = None, Families(None, None)
        if self.numbers is not None:
            try:
                numbers = _read_as(self.numbers, self.is_canonical)
            except DerFault as fault:
                raise VerifyError(f"AS identifiers: {fault}") from None
        if self.addresses is not None:
            try:
                found = _read_families(self.addresses, self.is_canonical)
            except DerFault as fault:
                raise VerifyError(f"IP address blocks: {fault}") from None
        return numbers, found.v4, found.v6


def _certificates(text: str) -> list[Certificate]:
    return [Certificate(part) for part in (text.split("|") if text else [])]


def _issued(kind: str, root: Set, claim: Claim, is_trimmed: bool) -> Set:
    try:
        return paths.left(root, [Step(claim, is_trimmed)])
    except Refused as refused:
        raise VerifyError(lines.overclaimed(kind, refused.excess)) from None


def _verified_by(issuer: Triple, certificate: Certificate) -> Triple:
    claims = certificate.claims()
    asn, v4, v6 = (
        _issued(kind, has, claim, certificate.is_trimmed)
        for kind, has, claim in zip(lines.KINDS, issuer, claims, strict=True)
    )
    return asn, v4, v6


def _anchor(certificate: Certificate) -> Triple:
    claims = certificate.claims()
    if resources.INHERIT in claims:
        raise VerifyError("a trust anchor inherits resources")
    asn, v4, v6 = (claim or [] for claim in claims)
    return asn, v4, v6


def _left_by(anchor: Triple, certificates: list[Certificate]) -> Triple:
    for place, certificate in enumerate(certificates):
        try:
            anchor = _verified_by(anchor, certificate)
        except VerifyError as reason:
            raise VerifyError(f"certificate {place}: {reason}") from None
    return anchor


def _verified_octets(text: str) -> str:
    issuer, certificate = texts.cut(text, "|")
    return print_triple(_verified_by(read_triple(issuer), Certificate(certificate)))


def _verified_path(text: str) -> str:
    anchor, path = texts.cut(text, "|")
    return print_triple(_left_by(read_triple(anchor), _certificates(path)))


def _verified_below(text: str) -> str:
    anchor, *path = _certificates(text)
    return print_triple(_left_by(_anchor(anchor), path))


def _octets_of(asn: Claim, v4: Claim, v6: Claim) -> str:
    numbers = resources.written_as_claim(asn).hex() or "-"
    return f"{numbers} {resources.written_families(Families(v4, v6)).hex() or '-'}"


def _route(text: str) -> tuple[prefixes.Prefix, int]:
    prefix, number = texts.cut(text, " ")
    return prefixes.read_prefix(prefix), asn.read_asn(number)


def _vrp(text: str) -> Vrp:
    prefix, number = texts.cut(text, " ")
    return Vrp(prefixes.read_max_len(prefix), asn.read_asn(number))


_OF_CERTIFICATES: dict[str, Callable[[str], str]] = {
    "written": lambda text: _octets_of(*map(paths.claim_of, read_triple(text))),
    "rewritten": lambda text: _octets_of(*Certificate(text).claims()),
    "anchor_set": lambda text: print_triple(_anchor(Certificate(text))),
    "verified_octets": _verified_octets,
    "verified_path": _verified_path,
    "verified_below": _verified_below,
}


def is_of_certificates(line: str) -> bool:
    """Returns whether `answer_of_certificates` answers a line of `rows_claims`."""
    return texts.cut(line, " ")[0] in _OF_CERTIFICATES


def answer_of_certificates(line: str) -> str:
    """Returns the answer of `rows_claims` to a line about certificates."""
    command, operands = texts.cut(line, " ")
    try:
        return _OF_CERTIFICATES[command](operands)
    except (Fault, VerifyError) as fault:
        return f"error: {fault}"


def holdings(before: str, now: str) -> list[str]:
    """Returns the answers of `example_holdings` to its two lines."""
    had, gets = read_triple(before), read_triple(now)
    claims = [paths.claim_of(numbers) for numbers in gets]
    numbers = resources.written_as_claim(claims[0]).hex() or "missing"
    addresses = resources.written_families(Families(claims[1], claims[2])).hex() or "missing"
    return [print_changes(had, gets), f"asn: {numbers}", f"addresses: {addresses}"]


def _elements(text: str) -> list[str]:
    return list(filter(None, map(texts.trim, text.split("|"))))


def _origin(text: str) -> str:
    route, listed = texts.cut(text, "|")
    try:
        prefix_text, number = texts.cut(texts.trim(route), " ")
        prefix, origin = prefixes.read_prefix(prefix_text), asn.read_asn(number)
    except Fault:
        return "no such route"
    try:
        vrps = [_vrp(element) for element in _elements(listed)]
    except Fault:
        return "no such VRP"
    return prefixes.validity(prefix, origin, vrps)


def _outside(text: str) -> str:
    lists, listed = texts.cut(text, "|")
    try:
        elements = [prefixes.read_max_len(element) for element in _elements(listed)]
    except Fault:
        return "no such prefix"
    _, v4, v6 = read_triple(lists)
    place = prefixes.first_outside(v4, v6, elements)
    return "None" if place is None else f"Some({place})"


class _Faulty(Exception):
    """The reason why changes do not fit a table."""


def _as_sent(vrp: Vrp) -> Vrp:
    """Returns the VRP as routers get it: with a maximum length."""
    return Vrp(prefixes.MaxLenPrefix(vrp.prefix.prefix, vrp.prefix.resolved()), vrp.asn)


def _table_key(vrp: Vrp) -> tuple[int, ...]:
    """Returns the sort key of a VRP in a table.

    The order is IPv4 first, then by the first address, and then the shorter prefix first. The larger AS number is
    first, then the smaller maximum length. A VRP that does not state its maximum length comes before one that states
    the same length.
    """
    prefix = vrp.prefix.prefix
    has_max_length = vrp.prefix.max_length is not None
    return prefix.family.bits, prefix.address, prefix.length, -vrp.asn, vrp.prefix.resolved(), has_max_length


def _after(vrps: list[Vrp], announced: list[Vrp], withdrawn: list[Vrp]) -> list[Vrp]:
    """Returns the VRPs of a client after changes (RFC 8210, 5.3, 5.11).

    It takes the withdrawals one by one, and then the announcements.
    """
    has = {_as_sent(vrp) for vrp in vrps}
    gone: set[Vrp] = set()
    for place, vrp in enumerate(map(_as_sent, withdrawn)):
        if vrp not in has:
            raise _Faulty(f"error: withdrawal of unknown record at {place}")
        has.remove(vrp)
        gone.add(vrp)
    for place, vrp in enumerate(map(_as_sent, announced)):
        if vrp in has:
            raise _Faulty(f"error: duplicate announcement received at {place}")
        has.add(vrp)
    return [vrp for vrp in vrps if _as_sent(vrp) not in gone] + list(map(_as_sent, announced))


def _changes_of_table(text: str) -> str:
    listed, others = texts.cut(text, ";")
    parts = (listed, *texts.cut(others, ";"))
    lists = []
    for part, name in zip(parts, ("VRP", "announcement", "withdrawal"), strict=True):
        try:
            lists.append([_vrp(element) for element in _elements(part)])
        except Fault:
            return f"no such {name}"
    try:
        after = _after(*lists)
    except _Faulty as fault:
        return str(fault)
    return " | ".join(f"{vrp.prefix.text()} AS{vrp.asn}" for vrp in sorted(after, key=_table_key))


def _changed(text: str) -> str:
    listed, others = texts.cut(text, ";")
    following, asked = texts.cut(others, ";")
    try:
        old, new = ([_vrp(element) for element in _elements(part)] for part in (listed, following))
    except Fault:
        return "no such VRP"
    try:
        routes = [_route(element) for element in _elements(asked)]
    except Fault:
        return "no such route"
    places = [
        str(place)
        for place, route in enumerate(routes)
        if prefixes.validity(*route, old) != prefixes.validity(*route, new)
    ]
    return " ".join(places) or "none"


def _sent(text: str) -> str:
    try:
        sent, following = ({_as_sent(_vrp(element)) for element in _elements(part)} for part in texts.cut(text, ";"))
    except Fault:
        return "no such VRP"
    return f"announced {_vrp_texts(following - sent)} withdrawn {_vrp_texts(sent - following)}"


def _vrp_texts(vrps: set[Vrp]) -> str:
    ordered = sorted(vrps, key=lambda vrp: (vrp.prefix.key(), vrp.asn))
    return ", ".join(f"{vrp.prefix.text()} AS{vrp.asn}" for vrp in ordered)


def _answered(text: str, is_explained: bool) -> str:
    listed, route = texts.cut(text, ";") if ";" in text else (text, "")
    try:
        vrps = [_vrp(element) for element in _elements(listed)]
    except Fault:
        return "no such VRP"
    return route_lines.answer(vrps, route, is_explained)


def is_origin(line: str) -> bool:
    """Returns whether `origin_answer` answers a line of `rows_claims`."""
    return texts.cut(line, " ")[0] in _ORIGIN_COMMANDS


def origin_answer(line: str) -> str:
    """Returns the answer of `rows_claims` to a line about a route's origin."""
    command, operands = texts.cut(line, " ")
    try:
        return _ORIGIN_COMMANDS[command](operands)
    except Fault as fault:
        return f"error: {fault}"


def _vrps_of_octets(text: str) -> str:
    return vrp_files.answer(_octets(text))


def _applied(text: str) -> str:
    listed, file = texts.cut(text, ";")
    try:
        vrps = [_vrp(element) for element in _elements(listed)]
    except Fault:
        return "no such VRP"
    found = slurm.read(file.replace("|", "\n").encode()).applied(vrps)
    return ", ".join(f"{vrp.prefix.text()} AS{vrp.asn}" for vrp in found)


def _unexpired(text: str) -> str:
    time, file = texts.cut(text, ";")
    try:
        now = texts.number(texts.trim(time), 2**64 - 1)
    except Fault:
        return "no such time"
    kept, expired = expiry.unexpired(file.replace("|", "\n").encode(), now)
    listed = ", ".join(f"{vrp.prefix.text()} AS{vrp.asn}" for vrp in kept)
    return "; ".join(filter(None, (listed, f"{expired} expired")))


_ORIGIN_COMMANDS = {
    "origin": _origin,
    "outside": _outside,
    "changes": _changes_of_table,
    "changed": _changed,
    "sent": _sent,
    "route": lambda text: _answered(text, False),
    "why": lambda text: _answered(text, True),
    "vrps": lambda text: vrp_files.answer(text.replace("|", "\n").encode()),
    "octets": _vrps_of_octets,
    "slurm": _applied,
    "unexpired": _unexpired,
}
