"""Answers the calls of the C library by the reference: a status, the output, and the last word of a row.

The statuses and the other numbers are those of foreign/pigyelund.h. tests/run/foreign_rows.py makes the questions.
"""

from operator import eq
from re import fullmatch
from typing import NamedTuple

from . import asn, expiry, ip, lines, paths, prefixes, resources, route_lines, slurm, texts, vrp_files
from .addresses import Family
from .faults import BAD_AS_NUMBER, BAD_AS_RANGE, BAD_RANGE, FAMILY_MISMATCH, DerFault, Fault
from .paths import Refused, Step
from .resources import INHERIT, Claim, Families
from .sets import Set, difference, has_all, intersection, union

Octets = tuple[bytes, bytes]
Triple = tuple[Set, Set, Set]

OK = 0
BAD_ENCODING, BAD_MODE, BAD_PRESENT, BAD_FAMILY, BAD_KIND, BAD_PREFIX, BAD_MAX_LEN, OUTSIDE = range(0x401, 0x409)
BAD_AS, BAD_IP, INHERITED, ABSENT, OVERCLAIM = 0x800, 0x1000, 0x2000, 0x4000, 0x8000
UNKNOWN_WITHDRAWAL, DUPLICATE_ANNOUNCEMENT = 0x10006, 0x10007
BAD_LINE, BAD_ITEM, BAD_FILE, BAD_TEXT, BAD_QUERY = 0x20000, 0x40000, 0x80000, 0x100000, 0x200000
BAD_SLURM, BAD_ROUTE, BAD_SLURM_ITEM = 0x400000, 0x800000, 0x2000000
SECOND = 0x1000000
INVALID_AS, INVALID_LENGTH = 1, 2
OTHER_AS, TOO_LONG = 1, 2
NUMBERS, ADDRESSES, BOTH = 1, 2, 3
V4, ASN, V6 = 4, 5, 6
LENIENT, STRICT = 16, 17
REFUSE, TRIM = 32, 33
FAMILIES = {V4: Family.V4, V6: Family.V6}
# The numbers of the kinds of resources, in the order of a set.
KINDS = ASN, V4, V6
VALIDITIES = {"Valid": 0, "NotFound": 1, "Invalid": 2}
OPERATIONS = {"union": union, "intersection": intersection, "difference": difference}
OPERATIONS["symmetric_difference"] = lambda left, right: union(difference(left, right), difference(right, left))
TESTS = {"contains": has_all, "equal": eq}
ON_SETS = [*OPERATIONS, *TESTS]


class Place(NamedTuple):
    """A certificate of a path.

    It has the start and the length of each extension in the octets, the number of the extensions that are present, and
    the mode.
    """

    as_start: int
    as_len: int
    ip_start: int
    ip_len: int
    present: int
    mode: int


class Question(NamedTuple):
    """A call, its numbers and its input."""

    call: str
    numbers: tuple[int, ...]
    first: Octets
    second: Octets = (b"", b"")
    places: tuple[Place, ...] = ()


class Answer(NamedTuple):
    """A status, the output, and the last word of the row: a count, an index or a number of a line, or no number."""

    status: int
    written: Octets
    verified: int | None = None


class Status(Exception):
    """A refusal, with its number, the overclaimed resources, and the index of an invalid VRP or route."""

    def __init__(self, number: int, excess: Triple = ([], [], []), place: int | None = None) -> None:
        super().__init__(number)
        self.number, self.excess, self.place = number, excess, place


def read_numbers(octets: bytes | None, strict: bool, base: int) -> Claim:
    """Reads the claim on AS numbers. Returns None if the extension is absent."""
    if octets is None:
        return None
    try:
        return resources.all_of(resources.read_as_claim(octets, strict))
    except DerFault as fault:
        raise Status(base + BAD_AS + fault.number) from None


def read_addresses(octets: bytes | None, strict: bool, base: int) -> Families:
    """Reads the claims on addresses. Returns no claims if the extension is absent."""
    if octets is None:
        return Families(None, None)
    try:
        return resources.all_of(resources.read_families(octets, strict))
    except DerFault as fault:
        raise Status(base + BAD_IP + fault.number) from None


def read_set(octets: Octets, strict: bool, base: int = 0) -> Triple:
    """Reads a set from the octets of both extensions. Empty octets mean that an extension is absent."""
    claims = read_numbers(octets[0] or None, strict, base), *read_addresses(octets[1] or None, strict, base)
    if INHERIT in claims:
        raise Status(base + INHERITED)
    return claims[0] or [], claims[1] or [], claims[2] or []


def left(kind: int, root: Set, claim: Claim, mode: int) -> Set:
    """Returns the resources of one kind that a certificate has: its claim on the issuer's set `root`."""
    try:
        return paths.left(root, [Step(claim, mode == TRIM)])
    except Refused as refused:
        excess: list[Set] = [[], [], []]
        excess[kind] = refused.excess
        raise Status(OVERCLAIM + KINDS[kind], (excess[0], excess[1], excess[2])) from None


def is_strict(encoding: int) -> bool:
    """Returns whether an encoding takes only canonical DER."""
    if encoding not in (LENIENT, STRICT):
        raise Status(BAD_ENCODING)
    return encoding == STRICT


def expect_numbers(present: int, mode: int) -> None:
    """Refuses a wrong value of `present`, or else a wrong mode."""
    if present not in range(BOTH + 1):
        raise Status(BAD_PRESENT)
    if mode not in (REFUSE, TRIM):
        raise Status(BAD_MODE)


def issued(issuer: Triple, present: int, octets: Octets, strict: bool, mode: int) -> Triple:
    """Returns the verified resources of a certificate under an issuer's set."""
    if not present:
        raise Status(ABSENT)
    asn_claim = read_numbers(octets[0] if present & NUMBERS else None, strict, SECOND)
    families = read_addresses(octets[1] if present & ADDRESSES else None, strict, SECOND)
    numbers = left(0, issuer[0], asn_claim, mode)
    v4 = left(1, issuer[1], families.v4, mode)
    return numbers, v4, left(2, issuer[2], families.v6, mode)


def verified(question: Question) -> Triple:
    """Returns the result of the call `verify`."""
    encoding, present, mode = question.numbers
    strict = is_strict(encoding)
    expect_numbers(present, mode)
    return issued(read_set(question.first, strict), present, question.second, strict, mode)


def issued_at(issuer: Triple, place: Place, run: bytes, strict: bool) -> Triple:
    """Returns the verified resources of a certificate whose extensions are parts of `run`."""
    ends = place.as_start + place.as_len, place.ip_start + place.ip_len
    if max(ends) > len(run):
        raise Status(OUTSIDE)
    expect_numbers(place.present, place.mode)
    octets = run[place.as_start : ends[0]], run[place.ip_start : ends[1]]
    return issued(issuer, place.present, octets, strict, place.mode)


def path_answer(question: Question) -> Answer:
    """Returns the answer of the call `path`: the verified resources of the last certificate."""
    count = 0
    try:
        strict = is_strict(question.numbers[0])
        issuer = read_set(question.first, strict)
        for place in question.places:
            issuer = issued_at(issuer, place, question.second[0], strict)
            count += 1
    except Status as refusal:
        return Answer(refusal.number, written(refusal.excess), count)
    return Answer(OK, written(issuer), count)


def cover_octets(question: Question) -> bytes:
    """Returns the shortest cover of the addresses of a family: the octets of each prefix's address, and its length."""
    encoding, number = question.numbers
    strict = is_strict(encoding)
    if number not in FAMILIES:
        raise Status(BAD_FAMILY)
    family, found = FAMILIES[number], read_set((b"", question.first[0]), strict)[KINDS.index(number)]
    behind = 128 - family.bits
    bounds = [(low >> behind, high >> behind) for low, high in found]
    cover = prefixes.cover(bounds, family.bits)
    return b"".join(first.to_bytes(family.bits // 8, "big") + bytes([length]) for first, length in cover)


# The text of the fault of an element of a list, and its number. Any other text is that of a wrong address.
TEXT_FAULTS = {BAD_AS_NUMBER: 2, BAD_AS_RANGE: 3, FAMILY_MISMATCH: 6, BAD_RANGE: 7}


def text_set(question: Question) -> Triple:
    """Returns the set of one kind that a list as text describes."""
    (kind,), octets = question.numbers, question.first[0]
    if kind not in KINDS:
        raise Status(BAD_KIND)
    found: list[Set] = [[], [], []]
    try:
        text = octets.decode("utf-8")
        found[KINDS.index(kind)] = asn.read_set(text) if kind == ASN else ip.read_set(text, FAMILIES[kind])
    except UnicodeDecodeError:
        raise Status(BAD_TEXT + 1) from None
    except Fault as fault:
        number = 5 if str(fault).startswith("bad prefix length: ") else TEXT_FAULTS.get(str(fault), 4)
        raise Status(BAD_TEXT + number) from None
    return found[0], found[1], found[2]


def range_octets(question: Question) -> bytes:
    """Returns the ranges of the AS numbers, or of the addresses of a family, as two numbers each."""
    encoding, *family = question.numbers
    strict = is_strict(encoding)
    if not family:
        found = read_set((question.first[0], b""), strict)[0]
        return b"".join(low.to_bytes(4, "big") + high.to_bytes(4, "big") for low, high in found)
    if family[0] not in FAMILIES:
        raise Status(BAD_FAMILY)
    bits = FAMILIES[family[0]].bits
    pairs = read_set((b"", question.first[0]), strict)[KINDS.index(family[0])]
    ends = [end >> 128 - bits for pair in pairs for end in pair]
    return b"".join(end.to_bytes(bits // 8, "big").ljust(16, b"\0") for end in ends)


def prefix_of(octets: bytes, base: int, place: int | None) -> prefixes.Prefix:
    """Reads a prefix: its address, its family and its length. It may be that of a VRP or a route at an index."""
    number, length = octets[-2:]
    if number not in FAMILIES:
        raise Status(base + BAD_FAMILY, place=place)
    family = FAMILIES[number]
    address = int.from_bytes(octets[: family.bits // 8], "big")
    if length > family.bits or address % (1 << family.bits - length):
        raise Status(base + BAD_PREFIX, place=place)
    return prefixes.Prefix(family, address, length)


def vrp_of(octets: bytes, base: int = 0, place: int | None = 0) -> prefixes.Vrp:
    """Reads a VRP. It may be at an index."""
    prefix = prefix_of(octets[:22], base, place)
    if not prefix.length <= octets[22] <= prefix.family.bits:
        raise Status(base + BAD_MAX_LEN, place=place)
    return prefixes.Vrp(prefixes.MaxLenPrefix(prefix, octets[22]), int.from_bytes(octets[16:20], "big"))


def vrps_in(octets: bytes, base: int = 0) -> list[prefixes.Vrp]:
    """Reads the VRPs of an array."""
    return [vrp_of(each, base, place) for place, each in enumerate(cut(octets, 23))]


def routes_in(octets: bytes) -> list[tuple[prefixes.Prefix, int]]:
    """Reads the routes of an array: the prefix and the AS number of each."""
    found = enumerate(cut(octets, 22))
    return [(prefix_of(each, SECOND, place), int.from_bytes(each[16:20], "big")) for place, each in found]


def reason(route: prefixes.Prefix, number: int, vrps: list[prefixes.Vrp]) -> int:
    """Returns why a route is invalid: 0 if it is not, and otherwise whether a VRP that covers it has its AS."""
    if prefixes.validity(route, number, vrps) != "Invalid":
        return 0
    owners = {one.asn for one in vrps if one.prefix.prefix.covers(route)}
    return INVALID_LENGTH if number in owners and number != 0 else INVALID_AS


def origins_answer(question: Question) -> Answer:
    """Returns the validity of each route under the VRPs, and the reason why it is invalid."""
    vrps, routes = vrps_in(question.first[0]), routes_in(question.second[0])
    found = [VALIDITIES[prefixes.validity(*route, vrps)] for route in routes]
    return Answer(OK, (bytes(found), bytes(reason(*route, vrps) for route in routes)), 0)


def vrp_octets(vrp: prefixes.Vrp) -> bytes:
    """Returns the octets of a VRP."""
    family, address, length = vrp.prefix.prefix
    octets = address.to_bytes(family.bits // 8, "big").ljust(16, b"\0") + vrp.asn.to_bytes(4, "big")
    return octets + bytes([V4 if family is Family.V4 else V6, length, vrp.prefix.resolved()])


def table_place(vrp: prefixes.Vrp) -> tuple[int, ...]:
    """Returns the sort key of a VRP in a table.

    The order is by family, address and length, then by AS number from the largest, then by maximum length.
    """
    family, address, length = vrp.prefix.prefix
    return family.bits, address, length, -vrp.asn, vrp.prefix.resolved()


def covering_octets(route: bytes, vrps: list[prefixes.Vrp]) -> bytes:
    """Returns the VRPs that cover a route, the longest prefix first, each with why it does not match (RFC 6811, 2)."""
    ((prefix, number),) = routes_in(route)
    found = sorted((one for one in vrps if one.prefix.prefix.covers(prefix)), key=table_place, reverse=True)
    octets = b""
    for vrp in found:
        why = OTHER_AS * (vrp.asn != number or number == 0) + TOO_LONG * (prefix.length > vrp.prefix.resolved())
        octets += vrp_octets(vrp) + bytes([why])
    return octets


def changed_vrps(
    vrps: list[prefixes.Vrp], announced: list[prefixes.Vrp], withdrawn: list[prefixes.Vrp]
) -> list[prefixes.Vrp]:
    """Returns the VRPs that a router has after changes (RFC 8210, 5.3 and 12). Checks withdrawals first."""
    left = set(vrps)
    for place, vrp in enumerate(withdrawn):
        if vrp not in left:
            raise Status(UNKNOWN_WITHDRAWAL, place=place)
        left.remove(vrp)
    for place, vrp in enumerate(announced):
        if vrp in left:
            raise Status(DUPLICATE_ANNOUNCEMENT, place=place)
        left.add(vrp)
    return [one for one in vrps if one in left and one not in announced] + announced


def changes_octets(old: list[prefixes.Vrp], new: list[prefixes.Vrp]) -> Octets:
    """Returns the VRPs that only the second list has, and those that only the first has (RFC 8210, 5.6), each once.

    The order is by prefix, then from the largest maximum length, then by AS number.
    """
    before, after = set(old), set(new)
    parts = [sorted(it, key=lambda vrp: (vrp.prefix.key(), vrp.asn)) for it in (after - before, before - after)]
    return b"".join(map(vrp_octets, parts[0])), b"".join(map(vrp_octets, parts[1]))


def differ_answer(question: Question) -> Answer:
    """Returns for each route whether its validity differs between two lists of VRPs."""
    old, new = map(vrps_in, question.first)
    routes = routes_in(question.second[0])
    found = [prefixes.validity(*route, old) != prefixes.validity(*route, new) for route in routes]
    return Answer(OK, (bytes(found), b""), 0)


def table_answer(question: Question) -> Answer:
    """Returns the answer of a call on a table, whose output is VRPs."""
    vrps = vrps_in(question.first[0])
    match question.call:
        case "covering":
            return Answer(OK, (covering_octets(question.second[0], vrps), b""), 0)
        case "changes":
            return Answer(OK, changes_octets(vrps, vrps_in(question.first[1])), 0)
        case "changed":
            announced, withdrawn = vrps_in(question.second[0]), vrps_in(question.second[1], SECOND)
            vrps = changed_vrps(vrps, announced, withdrawn)
    return Answer(OK, (b"".join(map(vrp_octets, sorted(vrps, key=table_place))), b""), 0)


# How the text of the fault of a VRP begins, and its number. Any other text is that of a wrong AS number.
VRP_FAULTS = {"not UTF-8": 1, "too many fields: ": 2, "too few fields: ": 3}
VRP_FAULTS |= {"invalid prefix: ": 5, "invalid max length: ": 6, "max-length ": 7}
FIRST_OF_MEMBER = {"asn": 8, "prefix": 11, "maxLength": 14, "expires": 17, "roas": 3}
MEMBER_FAULTS = ("missing", "repeated", "wrong kind of value")
BAD_EXPIRY = 20
FILE_FAULTS = {"a JSON array, where an object with the member roas is expected": 1, "not a JSON object": 2, "no VRP": 6}


def fault_number(text: str) -> int:
    """Returns the number of the fault of a line, of an item, or of the member `roas`."""
    if text == "expires: not a whole number below 2^64":
        return BAD_EXPIRY
    name, _, rest = text.partition(": ")
    if name in FIRST_OF_MEMBER:
        return FIRST_OF_MEMBER[name] + MEMBER_FAULTS.index(rest)
    return next((number for begin, number in VRP_FAULTS.items() if text.startswith(begin)), 4)


def file_answer(question: Question) -> Answer:
    """Returns the VRPs of a file, or those that have not expired and the number of the others, or its first fault."""
    file, last = question.first[0], 0
    try:
        if question.call == "unexpired":
            vrps, last = expiry.unexpired(file, question.numbers[0] << 32 | question.numbers[1])
        else:
            vrps = vrp_files.read(file)
    except Fault as fault:
        text = str(fault)
        if text.startswith("line 1: neither a known header nor a VRP"):
            return Answer(BAD_FILE + 7, (b"", b""), 0)
        if found := fullmatch(r"(line|item) (\d+): (.*)", text):
            base = BAD_LINE if found[1] == "line" else BAD_ITEM
            return Answer(base + fault_number(found[3]), (b"", b""), int(found[2]))
        return Answer(BAD_FILE + (FILE_FAULTS.get(text) or fault_number(text)), (b"", b""), 0)
    return Answer(OK, (b"".join(map(vrp_octets, vrps)), b""), last)


# The members of the objects of a SLURM file, in the order of the numbers of their faults.
SLURM_PARTS = ["slurmVersion", "validationOutputFilters", "locallyAddedAssertions"]
SLURM_LISTS = ["prefixFilters", "bgpsecFilters", "prefixAssertions", "bgpsecAssertions"]
ITEM_MEMBERS = ["prefix", "asn", "maxPrefixLength", "SKI", "routerPublicKey", "comment"]
# How the text of the fault of an item begins, and its number. Any other text is that of a wrong AS number.
ITEM_FAULTS = {"not an object": 1, "member ": 2, "invalid prefix: ": 3, "invalid max length: ": 5, "max-length ": 6}
ITEM_FAULTS |= {"no criterion": 7}


def member_fault_number(names: list[str], text: str) -> int | None:
    """Returns the number of the fault of a member, from 0, or None if the text says no such fault."""
    name, _, rest = text.partition(": ")
    return 3 * names.index(name) + MEMBER_FAULTS.index(rest) if name in names and rest in MEMBER_FAULTS else None


def slurm_fault(text: str) -> tuple[int, int]:
    """Returns the status of the first fault of a SLURM file, and the number of the item or member that it names."""
    if found := fullmatch(r"(\w+): item (\d+): (.*)", text):
        number = member_fault_number(ITEM_MEMBERS, found[3])
        if number is None:
            number = next((it for begin, it in ITEM_FAULTS.items() if found[3].startswith(begin)), 4)
        else:
            number += 8
        return BAD_SLURM_ITEM + 64 * SLURM_LISTS.index(found[1]) + number, int(found[2])
    if found := fullmatch(r"(?:(\w+): )?member (\d+): unknown name", text):
        return BAD_SLURM + (3 + SLURM_PARTS.index(found[1]) if found[1] else 2), int(found[2])
    number = member_fault_number(SLURM_PARTS + SLURM_LISTS, text)
    if number is None:
        return BAD_SLURM + {"not a JSON object": 1, "slurmVersion: not 1": 3}[text], 0
    return BAD_SLURM + 6 + number, 0


def slurm_answer(question: Question) -> Answer:
    """Returns the VRPs after the filters and assertions of a SLURM file, or the first fault of the file."""
    vrps = vrps_in(question.first[1])
    try:
        found = slurm.read(question.first[0]).applied(vrps)
    except Fault as fault:
        status, item = slurm_fault(str(fault))
        return Answer(status, (b"", b""), item)
    return Answer(OK, (b"".join(map(vrp_octets, found)), b""), 0)


def vrp_of_text(octets: bytes) -> prefixes.Vrp:
    """Reads the text of a VRP."""
    number = 1
    try:
        prefix, owner = map(texts.trim, texts.cut(texts.trim(octets.decode("utf-8")), " "))
        number = 4
        found = asn.read_asn(owner)
        number = 5
        return prefixes.Vrp(prefixes.read_max_len(prefix), found)
    except UnicodeDecodeError:
        raise Status(BAD_LINE + number) from None
    except Fault as fault:
        raise Status(BAD_LINE + (number if number == 4 else MAX_LEN_FAULTS.get(str(fault)[:10], number))) from None


# How the text of the fault of a maximum length begins, and its number.
MAX_LEN_FAULTS = {"invalid ma": 6, "max-length": 7}
# How the text of the fault of a line with a route begins, and its number. Any other text is that of a wrong AS number.
ROUTE_FAULTS = {"too few fields": 2, "a comma where a space is expected": 3, "expected: PREFIX AS": 4}
ROUTE_FAULTS |= {"invalid prefix: ": 5}


def route_of(octets: bytes, is_line: bool) -> route_lines.Route | None:
    """Reads a line with a route, or the text of a route. A line may have none."""
    try:
        text = octets.decode("utf-8")
        return route_lines.read_route(text) if is_line else route_lines.read_words(text)
    except UnicodeDecodeError:
        raise Status(BAD_ROUTE + 1) from None
    except Fault as fault:
        number = next((number for begin, number in ROUTE_FAULTS.items() if str(fault).startswith(begin)), 6)
        raise Status(BAD_ROUTE + number) from None


def route_octets(route: route_lines.Route) -> bytes:
    """Returns the octets of a route. If its origin is unknown, its AS is AS 0."""
    return vrp_octets(prefixes.Vrp(prefixes.MaxLenPrefix(route.prefix, None), route.origin or 0))[:22]


def lines_answer(question: Question) -> Answer:
    """Returns the routes of lines, or the status and the number of the first line that is invalid."""
    found, parts = b"", question.first[0].split(b"\n")
    for number, line in enumerate(parts if parts[-1] else parts[:-1], 1):
        try:
            route = route_of(line, True)
        except Status as fault:
            return Answer(fault.number, (b"", b""), number)
        found += b"" if route is None else route_octets(route)
    return Answer(OK, (found, b""), 0)


def value_octets(question: Question) -> bytes:
    """Returns a VRP or a route that is read from its text, or its text."""
    octets = question.first[0]
    match question.call:
        case "vrp_from_text":
            return vrp_octets(vrp_of_text(octets))
        case "route_from_text":
            route = route_of(octets, False)
            return route_octets(route) if route else b""
        case "vrp_text":
            vrp = vrp_of(octets, 0, None)
            return f"{vrp.prefix.text()} AS{vrp.asn}".encode()
    prefix = prefix_of(octets, 0, None)
    return f"{prefix.text()} AS{int.from_bytes(octets[16:20], 'big')}".encode()


def cut(octets: bytes, length: int) -> list[bytes]:
    """Splits octets into parts of a length."""
    return [octets[at : at + length] for at in range(0, len(octets), length)]


def two_sets(question: Question) -> tuple[Triple, Triple]:
    """Returns the two sets of a question."""
    strict = is_strict(question.numbers[0])
    return read_set(question.first, strict), read_set(question.second, strict, SECOND)


def combined(question: Question) -> Triple:
    """Returns the result of an operation on two sets."""
    asn, v4, v6 = map(OPERATIONS[question.call], *two_sets(question))
    return asn, v4, v6


def answer_of_test(question: Question) -> Answer:
    """Returns 1 if a test of two sets, of a number or of a prefix holds, and otherwise 0."""
    if question.call in TESTS:
        found = all(map(TESTS[question.call], *two_sets(question)))
        return Answer(OK, (b"", b""), int(found))
    of = read_set(question.first, is_strict(question.numbers[0]))
    if question.call == "contains_asn":
        number = question.numbers[1]
        return Answer(OK, (b"", b""), int(has_all(of[0], [(number, number)])))
    prefix = prefix_of(question.second[0], 0, None)
    behind = 128 - prefix.family.bits
    low = prefix.address << behind
    addresses = of[1 if prefix.family is Family.V4 else 2]
    return Answer(OK, (b"", b""), int(has_all(addresses, [(low, low + (1 << 128 - prefix.length) - 1)])))


def text_octets(question: Question) -> bytes:
    """Returns the text of one kind of resources of a set."""
    encoding, kind = question.numbers
    found = read_set(question.first, is_strict(encoding))
    if kind not in KINDS:
        raise Status(BAD_KIND)
    of = found[KINDS.index(kind)]
    return (asn.print_set(of) if kind == ASN else ip.print_set(of, FAMILIES[kind])).encode()


def line_octets(question: Question) -> bytes:
    """Returns what `respath` prints for a line."""
    text = lines.answer(question.first[0])
    if text.startswith("error: "):
        raise Status(BAD_QUERY)
    return text.encode("utf-8")


def written(found: Triple) -> Octets:
    """Returns the values of both extensions of a set."""
    families = Families(paths.claim_of(found[1]), paths.claim_of(found[2]))
    return resources.written_as_claim(paths.claim_of(found[0])), resources.written_families(families)


def written_by(question: Question) -> Octets:
    """Returns the output of a call that succeeds."""
    match question.call:
        case "verify":
            return written(verified(question))
        case "cover":
            return cover_octets(question), b""
        case "text":
            return written(text_set(question))
        case "as_ranges" | "ip_ranges":
            return range_octets(question), b""
        case "answer":
            return line_octets(question), b""
        case "print":
            return text_octets(question), b""
        case "vrp_from_text" | "vrp_text" | "route_from_text" | "route_text":
            return value_octets(question), b""
    return written(combined(question))


# The calls whose answer has a last word.
ANSWERS = {"path": path_answer, "origins": origins_answer, "differ": differ_answer, "read": file_answer}
ANSWERS |= {"unexpired": file_answer, "slurm": slurm_answer}
ANSWERS |= {"routes": lines_answer}
ANSWERS |= dict.fromkeys(("covering", "vrps", "changed", "changes"), table_answer)
ANSWERS |= dict.fromkeys((*TESTS, "contains_asn", "contains_prefix"), answer_of_test)


def answer(question: Question) -> Answer:
    """Returns the answer of a call."""
    try:
        if question.call in ANSWERS:
            return ANSWERS[question.call](question)
        return Answer(OK, written_by(question))
    except Status as refusal:
        return Answer(refusal.number, written(refusal.excess), refusal.place)
