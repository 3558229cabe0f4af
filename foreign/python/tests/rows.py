"""Tests of the rows: golden tests of all calls. `test.py` runs them.

Each call of DER is made through `_bindings`, with ample buffers, with exact ones, and without any. Then the package
makes the call, if its types can express the arguments.
"""

import ctypes
from collections.abc import Callable, Iterator
from ctypes import byref, c_size_t, c_uint8, c_void_p
from itertools import product
from typing import Any

from pigyelund import (
    NO_VALIDITY,
    Asn,
    Certificate,
    Encoding,
    Extensions,
    Family,
    Mode,
    OriginError,
    OverclaimedError,
    PigyelundError,
    Resources,
    Route,
    RouteTextError,
    SlurmFileError,
    Status,
    Table,
    Vrp,
    VrpFileError,
    answer,
    apply_slurm,
    apply_slurm_octets,
    read_route_octets,
    read_routes,
    read_unexpired_vrps,
    read_vrps,
    validate_routes,
)
from pigyelund import _bindings as c
from pigyelund._library import library
from pigyelund.resources import KINDS
from pigyelund.values import Network, network_in

AMPLE = 8192
Pair = tuple[bytes, bytes]
ENCODINGS, MODES, FAMILIES = ({it.value: it for it in kind} for kind in (Encoding, Mode, Family))
NAMES = {number: name for name, number in KINDS.items()}


def octets(word: str) -> bytes:
    """Returns the octets of a word of a row."""
    return b"" if word == "-" else bytes.fromhex(word)


def cut(octets: bytes, length: int) -> list[bytes]:
    """Splits octets into parts of one length."""
    return [octets[at : at + length] for at in range(0, len(octets), length)]


def extensions_of(pair: Pair) -> Extensions:
    """Returns the extensions of a set, which has no value for an extension without resources."""
    return Extensions(pair[0] or None, pair[1] or None)


def claim_of(pair: Pair, present: int) -> Extensions:
    """Returns the extensions of a certificate. One that is present may be empty."""
    return Extensions(pair[0] if present & c.HAS_AS else None, pair[1] if present & c.HAS_IP else None)


def pair_of(found: Resources | None) -> Pair:
    """Returns the DER of a set."""
    extensions = found.der() if found is not None else Extensions()
    return extensions.asn or b"", extensions.ip or b""


class Row:
    """A row: a call, its numbers, its other arguments, and the expected result."""

    def __init__(self, text: str) -> None:
        self.call, numbers, *words = text.split()
        self.numbers = [] if numbers == "-" else [int(number) for number in numbers.split(",")]
        self.certificates: list[c.Certificate] = []
        if self.call == "path":
            ranges = [] if words[3] == "-" else words[3].split(";")
            self.certificates = [c.Certificate(*map(int, it.split(":"))) for it in ranges]
            words[3] = "-"
        self.first, self.second = ((octets(words[at]), octets(words[at + 1])) for at in (0, 2))
        self.status, self.expected = int(words[4]), (octets(words[5]), octets(words[6]))
        self.number = None if words[7] == "-" else int(words[7])

    @property
    def encoding(self) -> int:
        """The first number."""
        return self.numbers[0]

    def is_sets(self, call: Callable[[c.Buffers, c.Buffers], tuple[int, int | None]]) -> bool:
        """Returns whether a call with two pairs of buffers has the expected result, with buffers of each capacity.

        Args:
            call: The call. It takes the buffers of the result and those of overclaimed resources, and returns the
                status and the last word.
        """
        is_excess = self.status & ~0xFF == Status.OVERCLAIM
        lengths = len(self.expected[0]), len(self.expected[1])
        for capacities in ((AMPLE, AMPLE), lengths, (0, 0)):
            held = [[(c_uint8 * size)() for size in capacities] for _ in range(2)]
            buffers = [c.Buffers(*(it for run in pair for it in (address(run), len(run), 7))) for pair in held]
            status, number = call(*buffers)
            fits = all(length <= capacity for length, capacity in zip(lengths, capacities, strict=True))
            wanted = [self.expected if fits else (b"", b""), (b"", b"")]
            said = [lengths, (0, 0)]
            if is_excess:
                wanted.reverse(), said.reverse()
            found = [tuple(bytes(run)[: len(it)] for run, it in zip(*pair)) for pair in zip(held, wanted)]
            if (status, number) != (self.status if fits else Status.TOO_SMALL, self.number):
                return False
            if self.call not in ("verify", "path"):
                said[1] = 7, 7  # the call has no buffers of overclaimed resources
            if [(it.as_len, it.ip_len) for it in buffers] != said or found != wanted:
                return False
            if any(any(bytes(run)[len(it) :]) for pair in zip(held, wanted) for run, it in zip(*pair)):
                return False
        return True

    def is_by_package(self, call: Callable[[], Pair | bool]) -> bool:
        """Returns whether calls of the package have the expected result: octets, an answer, or an exception."""
        try:
            found = call()
        except PigyelundError as reason:
            number = reason.verified if reason.index is None else reason.index
            number = reason.line if reason.line is not None else number
            excess = pair_of(reason.excess) if isinstance(reason, OverclaimedError) else (b"", b"")
            return (reason.status, excess, number or 0) == (self.status, self.expected, self.number or 0)
        if isinstance(found, bool):
            return (0, int(found)) == (self.status, self.number)
        return (0, found) == (self.status, self.expected)


def address(run: "ctypes.Array[c_uint8]") -> c_void_p:
    """Returns the address of a buffer."""
    return ctypes.cast(run, c_void_p)


def set_of(pair: Pair) -> c.Set:
    """Returns the struct of a set."""
    return c.Set(*(it for run in pair for it in (ctypes.cast(ctypes.c_char_p(run), c_void_p), len(run))))


def is_verified(row: Row) -> bool:
    """Returns whether the row of a certificate has its expected result."""
    encoding, present, mode = row.numbers
    issuer, certificate = set_of(row.first), set_of(row.second)

    def raw(out: c.Buffers, excess: c.Buffers) -> tuple[int, None]:
        words = issuer, certificate, present, encoding, mode, byref(out), byref(excess)
        return library().pigy_verify(*words), None

    if not row.is_sets(raw):
        return False
    if encoding not in ENCODINGS or present > c.HAS_BOTH or mode not in MODES:
        return True

    def by_package() -> Pair:
        anchor = Resources.read(extensions_of(row.first), encoding=ENCODINGS[encoding])
        claim = claim_of(row.second, present)
        return pair_of(anchor.verify(claim, mode=MODES[mode], encoding=ENCODINGS[encoding]))

    return row.is_by_package(by_package)


def certificate_at(run: bytes, position: c.Certificate) -> Certificate | None:
    """Returns the certificate at a position of the array, or None if it is outside or has an unknown number."""
    ends = position.as_start + position.as_len, position.ip_start + position.ip_len
    if max(ends) > len(run) or position.present > c.HAS_BOTH or position.mode not in MODES:
        return None
    octets = run[position.as_start : ends[0]], run[position.ip_start : ends[1]]
    return Certificate(claim_of(octets, position.present), MODES[position.mode])


def is_verified_path(row: Row) -> bool:
    """Returns whether the row of a path has its expected result."""
    anchor, run, listed = set_of(row.first), row.second[0], row.certificates

    def raw(out: c.Buffers, excess: c.Buffers) -> tuple[int, int]:
        verified = c_size_t(7)
        array = (c.Certificate * len(listed))(*listed)
        outputs = byref(out), byref(excess), byref(verified)
        status = library().pigy_verify_path(anchor, run, len(run), array, len(listed), row.encoding, *outputs)
        return status, verified.value

    if not row.is_sets(raw):
        return False
    found = [certificate_at(run, it) for it in listed]
    if row.encoding not in ENCODINGS or None in found:
        return True
    path = [certificate for certificate in found if certificate]

    def by_package() -> Pair:
        encoding = ENCODINGS[row.encoding]
        return pair_of(Resources.read(extensions_of(row.first), encoding=encoding).verify_path(path, encoding=encoding))

    return row.is_by_package(by_package)


def both_of(row: Row) -> tuple[Resources, Resources]:
    """Returns the two sets of a row. An error in the second one has the status of the second set."""
    encoding = ENCODINGS[row.encoding]
    first = Resources.read(extensions_of(row.first), encoding=encoding)
    try:
        return first, Resources.read(extensions_of(row.second), encoding=encoding)
    except PigyelundError as reason:
        reason.status += Status.SECOND
        raise


OPERATORS: dict[str, Callable[[Resources, Resources], Resources]] = {
    "union": Resources.__or__,
    "intersection": Resources.__and__,
    "difference": Resources.__sub__,
    "symmetric_difference": Resources.__xor__,
}


def is_operation(row: Row) -> bool:
    """Returns whether the row of an operation on two sets has its expected result."""
    first, second = set_of(row.first), set_of(row.second)
    call = f"pigy_{row.call}"
    if call in c.CALLS and not row.is_sets(
        lambda out, _: (getattr(library(), call)(first, second, row.encoding, byref(out)), None)
    ):
        return False
    if row.encoding not in ENCODINGS:
        return True
    return row.is_by_package(lambda: pair_of(OPERATORS[row.call](*both_of(row))))


def is_test(row: Row) -> bool:
    """Returns whether the row of a question on two sets has its expected result."""
    answered = c_uint8(7)
    sets = set_of(row.first), set_of(row.second)
    status = getattr(library(), f"pigy_{row.call}")(*sets, row.encoding, byref(answered))
    if (status, answered.value) != (row.status, row.number or 0):
        return False
    if row.encoding not in ENCODINGS:
        return True

    def by_package() -> bool:
        first, second = both_of(row)
        if row.call == "equal":
            found = [first == second, not first != second, first <= second <= first, hash(first) == hash(second)]
        else:
            found = [second in first, second <= first, first >= second, first | second == first, not second - first]
            if (first > second, second < first) != (found[0] and first != second,) * 2:
                found.append(not found[0])
        if len({*found}) != 1:
            raise AssertionError(f"{row.call}: {found}")
        return found[0]

    return row.is_by_package(by_package)


def has_asn(row: Row) -> bool:
    """Returns whether the row of an AS number in a set has its expected result."""
    encoding, number = row.numbers
    if encoding not in ENCODINGS:
        return True
    return row.is_by_package(
        lambda: Asn(number) in Resources.read(extensions_of(row.first), encoding=ENCODINGS[encoding])
    )


def has_prefix(row: Row) -> bool:
    """Returns whether the row of a prefix in a set has its expected result."""
    if row.encoding not in ENCODINGS:
        return True
    prefix = row.second[0]

    def by_package() -> bool:
        found = Resources.read(extensions_of(row.first), encoding=ENCODINGS[row.encoding])
        network = network_at(prefix[:16], prefix[16], prefix[17])
        if network is None:
            answered = c_uint8(7)
            asked = c.Prefix.from_buffer_copy(prefix)
            status = library().pigy_resources_contains_prefix(found._handle.stored, byref(asked), byref(answered))
            if not status or answered.value:
                raise AssertionError("a malformed prefix has an answer")
            raise PigyelundError(status)
        if (Vrp(network, 1) in found) != (network in found):
            raise AssertionError("a VRP and its prefix differ")
        return network in found

    return row.is_by_package(by_package)


def network_at(address: bytes, family: int, length: int) -> Network | None:
    """Returns the prefix in the fields of a struct, or None if there is none."""
    try:
        return network_in(address, family, length) if family in FAMILIES else None
    except ValueError:
        return None


def is_printed(row: Row) -> bool:
    """Returns whether the row of a text has its expected result."""
    encoding, kind = row.numbers
    if encoding not in ENCODINGS or kind not in NAMES:
        return True

    def by_package() -> Pair:
        found = Resources.read(extensions_of(row.first), encoding=ENCODINGS[encoding])
        texts = found._texts()
        if str(found) != ", ".join(it for it in (texts.get(name, "") for name in KINDS) if it):
            raise AssertionError(str(found))
        if eval(repr(found)) != found:
            raise AssertionError(repr(found))
        return texts.get(NAMES[kind], "").encode("ascii"), b""

    return row.is_by_package(by_package)


def is_listed(row: Row) -> bool:
    """Returns whether the row of prefixes or of ranges has its expected result."""
    (encoding, *family), octets = row.numbers, row.first[0]
    if row.call == "cover":
        size, kind = (5, c.Prefix) if family[0] == c.IPV4 else (17, c.Prefix)
        name = "pigy_prefixes"
    else:
        size, kind = (32, c.IpRange) if family else (8, c.AsRange)
        name = f"pigy_{row.call}"
    count = len(row.expected[0]) // size
    for capacity in (count + 3, count, 0):
        length, array = c_size_t(7), (kind * capacity)()
        words = octets, len(octets), encoding, *family, array, capacity, byref(length)
        status, fits = getattr(library(), name)(*words), count <= capacity
        if (status, length.value) != (row.status if fits else Status.TOO_SMALL, count):
            return False
        if fits and b"".join(packed(it) for it in array[:count]) != row.expected[0]:
            return False
        if any(bytes(it).strip(b"\0") for it in array[count if fits else 0 :]):
            return False
    if encoding not in ENCODINGS or family and family[0] not in FAMILIES:
        return True

    def by_package() -> Pair:
        is_asn = row.call == "as_ranges"
        extensions = Extensions(asn=octets or None) if is_asn else Extensions(ip=octets or None)
        found = Resources.read(extensions, encoding=ENCODINGS[encoding])
        if is_asn:
            return b"".join(int(end).to_bytes(4, "big") for pair in found.as_ranges() for end in pair), b""
        if row.call == "cover":
            nets = found.prefixes(FAMILIES[family[0]])
            if [it for it in found.prefixes() if it.version == family[0]] != nets:
                raise AssertionError("prefixes of both families")
            return b"".join(net.network_address.packed + bytes([net.prefixlen]) for net in nets), b""
        pairs = found.ranges(FAMILIES[family[0]])
        if [it for it in found.ranges() if it[0].version == family[0]] != pairs:
            raise AssertionError("ranges of both families")
        return b"".join(end.packed.ljust(16, b"\0") for pair in pairs for end in pair), b""

    return row.is_by_package(by_package)


def packed(item: Any) -> bytes:
    """Returns a struct as a row has it: numbers in network byte order, and prefixes without padding."""
    if isinstance(item, c.AsRange):
        return item.min.to_bytes(4, "big") + item.max.to_bytes(4, "big")
    if isinstance(item, c.Prefix):
        return bytes(item.address)[: 4 if item.family == c.IPV4 else 16] + bytes([item.len])
    return bytes(item)


def struct_of(item: bytes) -> bytes:
    """Returns the struct of a VRP or of a route in a row, which has the AS number in network byte order."""
    return (item[:16] + item[16:20][::-1] + item[20:]).ljust(24, b"\0")


def structs(octets: bytes, size: int) -> bytes:
    """Returns the structs of VRPs (23 octets each) or of routes (22 octets each)."""
    return b"".join(map(struct_of, cut(octets, size)))


def values_of(kind: type[Vrp] | type[Route], octets: bytes) -> list[Any] | None:
    """Returns VRPs or routes, or None if one of them is malformed."""
    found = []
    for item in cut(octets, 23 if kind is Vrp else 22):
        network = network_at(item[:16], item[20], item[21])
        if network is None or kind is Vrp and not item[21] <= item[22] <= network.max_prefixlen:
            return None
        found.append(kind(network, int.from_bytes(item[16:20], "big"), *item[22:]))
    return found


def givens(kind: type[Vrp] | type[Route], octets: bytes) -> list[Any]:
    """Returns VRPs or routes in each form that the package takes."""
    buffer = structs(octets, 23 if kind is Vrp else 22)
    found = values_of(kind, octets)
    return [buffer] if found is None else [buffer, found, tuple(found), iter(found), memoryview(buffer)]


def vrp_octets(vrps: list[Vrp]) -> bytes:
    """Returns VRPs as a row has them."""
    return b"".join(bytes(it)[:16] + bytes(it)[16:20][::-1] + bytes(it)[20:23] for it in vrps)


def are_origins(row: Row) -> bool:
    """Returns whether the row of routes has its expected result."""
    vrps, routes = (structs(it, size) for it, size in ((row.first[0], 23), (row.second[0], 22)))
    counts = len(vrps) // 24, len(routes) // 24
    arrays = (c.Vrp * counts[0]).from_buffer_copy(vrps), (c.Route * counts[1]).from_buffer_copy(routes)
    count = len(row.expected[0])
    for capacity in (count + 3, count, 0):
        out, length, at = (c_uint8 * capacity)(), c_size_t(7), c_size_t(7)
        words = arrays[0], counts[0], arrays[1], counts[1], out, capacity, byref(length), byref(at)
        status, fits = library().pigy_validate(*words), count <= capacity
        if (status, length.value, at.value) != (row.status if fits else Status.TOO_SMALL, count, row.number):
            return False
        if bytes(out) != (row.expected[0].ljust(capacity, b"\0") if fits else bytes(capacity)):
            return False
    for given in givens(Vrp, row.first[0]):
        held: list[Table] = []

        def made() -> Pair:
            held.append(Table(given))
            return held[0].validate_octets(routes, reasons=True)

        if not row.is_by_package(made):
            return False
        for table in held:
            if not are_in_buffers(table, row) or row.status == Status.OK and not are_of_table(table, row):
                return False
            each = [octets_of_route(table, routes[at : at + 24]) for at in range(0, len(routes), 24)]
            found = b"".join(it[0] for it in each), b"".join(it[1] for it in each)
            if found != table.validate_octets(routes, allow_malformed=True, reasons=True):
                return False
            if found[0] != table.validate_octets(routes, allow_malformed=True):
                return False
            if row.status == Status.OK and (found != row.expected or not are_of_several(row)):
                return False
            if row.status >= Status.SECOND and found[0].index(NO_VALIDITY) != row.number:
                return False
    return True


def octets_of_route(table: Table, route: bytes) -> Pair:
    """Returns the octets of the validity and of the reason of one route: `NO_VALIDITY` and 0 if it is malformed."""
    try:
        return table.validate_octets(route, reasons=True)
    except PigyelundError:
        return bytes([NO_VALIDITY]), b"\0"


def are_in_buffers(table: Table, row: Row) -> bool:
    """Returns whether the call for routes has the expected result, with buffers of each capacity for both outputs."""
    routes, count = structs(row.second[0], 22), len(row.expected[0])
    size = len(routes) // 24
    array = (c.Route * size).from_buffer_copy(routes)
    for capacities in product((count + 3, count, 0), (count + 3, count, 1, 0)):
        runs, length, at = [(c_uint8 * it)() for it in capacities], c_size_t(7), c_size_t(7)
        words = [it for run in runs for it in (run or None, len(run))] + [byref(length), byref(at)]
        status = table._status(lambda handle: library().pigy_table_validate_routes(handle, array, size, *words))
        fits = count <= capacities[0] and (count <= capacities[1] or not capacities[1])
        if (status, length.value, at.value) != (row.status if fits else Status.TOO_SMALL, count, row.number):
            return False
        wanted = [it[: len(run)].ljust(len(run), b"\0") for it, run in zip(row.expected, runs)]
        if [*map(bytes, runs)] != (wanted if fits else [bytes(it) for it in capacities]):
            return False
    return True


def are_of_several(row: Row) -> bool:
    """Returns whether several tables that have the VRPs of a row give the expected validities and reasons."""
    vrps, routes = values_of(Vrp, row.first[0]) or [], values_of(Route, row.second[0]) or []
    with Table(vrps[::2]) as even, Table() as none, Table(vrps[1::2]) as odd:
        tables = [even, none, odd] if vrps else []
        found = [it.value for it in validate_routes(tables, routes)]
        validities, reasons = validate_routes(iter(tables), routes, reasons=True)
    both = bytes(it.value for it in validities), bytes(it.value if it else 0 for it in reasons)
    return both == row.expected and bytes(found) == row.expected[0]


def are_of_table(table: Table, row: Row) -> bool:
    """Returns whether a table has the expected validities and reasons, for routes in each form."""
    routes = values_of(Route, row.second[0]) or []
    validities, reasons = [table.validate(it).value for it in routes], [table.reason(it) for it in routes]
    if bytes(validities) != row.expected[0] or bytes(it.value if it else 0 for it in reasons) != row.expected[1]:
        return False
    found = [[it.value for it in table.validate_routes(given)] for given in givens(Route, row.second[0])]
    both = [table.validate_routes(given, reasons=True) for given in givens(Route, row.second[0])]
    if not all(([it.value for it in one], other) == (found[0], reasons) for one, other in both):
        return False
    return all(bytes(it) == row.expected[0] for it in found)


def is_of_table(row: Row) -> bool:
    """Returns whether the row of a table has its expected result, with VRPs in each form."""

    def covering(table: Table) -> bytes:
        route = values_of(Route, row.second[0])
        if route is None:
            asked = c.Route.from_buffer_copy(struct_of(row.second[0]))
            length = c_size_t(7)
            status = table._status(lambda it: library().pigy_table_covering(it, byref(asked), None, 0, byref(length)))
            error = PigyelundError(status)
            error.index = length.value
            raise error
        return b"".join(vrp_octets([it.vrp]) + bytes([it.mismatch.value]) for it in table.covering(route[0]))

    def listed(table: Table) -> bytes:
        found = [*table]
        if len(table) != len(found) or not all(it in table for it in found):
            raise AssertionError("VRPs of a table")
        return vrp_octets(found)

    def changed(table: Table) -> bytes:
        before = table.octets()
        try:
            with table.with_changes(announced=forms[0][0], withdrawn=forms[0][1]) as following:
                return listed(following)
        finally:
            if table.octets() != before:
                raise AssertionError("a table changes")

    call = {"covering": covering, "vrps": listed, "changed": changed}[row.call]

    def by_package(given: Any) -> Pair:
        with Table(given) as table:
            return call(table), b""

    forms: list[Any] = [[]]
    if row.call == "changed":
        forms = [[structs(it, 23) for it in row.second], [values_of(Vrp, it) for it in row.second]]
    if None in forms[-1]:
        forms.pop()
    while forms:
        if not all(row.is_by_package(lambda: by_package(given)) for given in givens(Vrp, row.first[0])):
            return False
        forms.pop(0)
    return True


def are_differences(row: Row) -> bool:
    """Returns whether the row of two tables has its expected result, with routes in each form."""

    def differ(given: Any) -> Pair:
        again = [*given] if isinstance(given, list) else given
        with Table(structs(row.first[0], 23)) as old, Table(structs(row.first[1], 23)) as new:
            found = old.revalidate_octets(new, given)
            if not hasattr(given, "__next__"):
                if [at for at, octet in enumerate(found) if octet] != old.revalidate(new, again):
                    raise AssertionError("other indices")
            return found, b""

    return all(row.is_by_package(lambda: differ(given)) for given in givens(Route, row.second[0]))


def are_changes(row: Row) -> bool:
    """Returns whether the row of the changes between tables has its expected result, with buffers of each capacity."""
    vrps = [[it[:23] for it in cut(structs(half, 23), 24)] for half in row.expected]
    counts = [len(it) for it in vrps]
    with Table(structs(row.first[0], 23)) as old, Table(structs(row.first[1], 23)) as new:
        for capacities in product(*((count + 3, count, 0) for count in counts)):
            runs, lengths = [(c.Vrp * it)() for it in capacities], [c_size_t(7), c_size_t(7)]
            words = [it for run, length in zip(runs, lengths) for it in (run or None, len(run), byref(length))]
            status = old._status(lambda one: new._status(lambda it: library().pigy_table_changes(one, it, *words)))
            fits = counts[0] <= capacities[0] and counts[1] <= capacities[1]
            if (status, [it.value for it in lengths]) != (row.status if fits else Status.TOO_SMALL, counts):
                return False
            found = [[bytes(it)[:23] for it in run] for run in runs]
            written = vrps if fits else [[], []]
            if found != [it + [bytes(23)] * (size - len(it)) for it, size in zip(written, capacities)]:
                return False

        def by_package() -> Pair:
            found = old.changes(new)
            return vrp_octets(found.announced), vrp_octets(found.withdrawn)

        return row.is_by_package(by_package)


def is_line(row: Row) -> bool:
    """Returns whether the row of a line has its expected result."""
    line, count = row.first[0], len(row.expected[0])
    for capacity in (count + 3, count, 0):
        buffer, length = ctypes.create_string_buffer(max(capacity, 1)), c_size_t(7)
        status, fits = library().pigy_answer(line, len(line), buffer, capacity, byref(length)), count <= capacity
        if (status, length.value) != (row.status if fits else Status.TOO_SMALL, count):
            return False
        if buffer.raw[:capacity] != (row.expected[0].ljust(capacity, b"\0") if fits else bytes(capacity)):
            return False
    try:
        text = line.decode("utf-8")
    except UnicodeDecodeError:
        return True
    return row.is_by_package(lambda: (answer(text).encode("utf-8"), b""))


def is_read(row: Row) -> bool:
    """Returns whether the row of a VRP file has its expected result."""
    file, expected = row.first[0], structs(row.expected[0], 23)
    count = len(expected) // 24
    for capacity in (count + 3, count, 0):
        array, length, line = (c.Vrp * capacity)(), c_size_t(7), c_size_t(7)
        status = library().pigy_vrps_read(file, len(file), array, capacity, byref(length), byref(line))
        fits = count <= capacity
        if (status, length.value, line.value) != (row.status if fits else Status.TOO_SMALL, count, row.number):
            return False
        found = [bytes(it)[:23] for it in array]
        if found != [it[:23] for it in cut(expected, 24) if fits] + [bytes(23)] * (capacity - count * fits):
            return False
    if row.status == Status.OK:
        with Table.read(file) as table, Table(expected) as wanted:
            if table.octets() != wanted.octets():
                return False
    try:
        return vrp_octets(read_vrps(file)) == row.expected[0] and row.status == Status.OK
    except VrpFileError as reason:
        return (reason.status, reason.line, reason.index) == (row.status, row.number, None)


def is_unexpired(row: Row) -> bool:
    """Returns whether the row of the unexpired VRPs of a file has its expected result."""
    (high, low), file, expected = row.numbers, row.first[0], structs(row.expected[0], 23)
    count, time = len(expected) // 24, high << 32 | low
    last = (row.number, 0) if row.status == Status.OK else (0, row.number)
    for capacity in (count + 3, count, 0):
        array, length, expired, line = (c.Vrp * capacity)(), c_size_t(7), c_size_t(7), c_size_t(7)
        status = library().pigy_vrps_read_unexpired(
            file, len(file), time, array, capacity, byref(length), byref(expired), byref(line)
        )
        fits = count <= capacity
        wanted = (row.status if fits else Status.TOO_SMALL, count, *last)
        if (status, length.value, expired.value, line.value) != wanted:
            return False
        found = [bytes(it)[:23] for it in array]
        if found != [it[:23] for it in cut(expected, 24) if fits] + [bytes(23)] * (capacity - count * fits):
            return False
    try:
        with Table.read_unexpired(file, time) as table, Table(expected) as same:
            if table.octets() != same.octets():
                return False
        unexpired = read_unexpired_vrps(file, time)
        return (vrp_octets(unexpired.vrps), unexpired.expired, row.status) == (row.expected[0], last[0], Status.OK)
    except VrpFileError as reason:
        return (reason.status, reason.line, reason.index) == (row.status, row.number, None)


def is_applied(row: Row) -> bool:
    """Returns whether the row of a SLURM file has its expected result, with VRPs in each form."""
    (file, vrps), expected = row.first, structs(row.expected[0], 23)
    given, count, number = structs(vrps, 23), len(expected) // 24, row.number or 0
    is_vrp = row.status & ~0xFF == Status.BAD_ARGUMENT
    places = (number, 0) if is_vrp else (0, number)
    array = (c.Vrp * (len(given) // 24)).from_buffer_copy(given)
    for capacity in (count + 3, count, 0):
        out, length, index, item = (c.Vrp * capacity)(), c_size_t(7), c_size_t(7), c_size_t(7)
        status = library().pigy_slurm_apply(
            file, len(file), array, len(array), out, capacity, byref(length), byref(index), byref(item)
        )
        fits = count <= capacity
        found = status, length.value, index.value, item.value
        if found != (row.status if fits else Status.TOO_SMALL, count, *places):
            return False
        found = [bytes(it)[:23] for it in out]
        if found != [it[:23] for it in cut(expected, 24) if fits] + [bytes(23)] * (capacity - count * fits):
            return False
    for form in givens(Vrp, vrps):
        again = [*form] if isinstance(form, list) else form
        try:
            if vrp_octets(apply_slurm(file, form)) != row.expected[0] or row.status != Status.OK:
                return False
            if not hasattr(form, "__next__"):
                octets = cut(apply_slurm_octets(file, again), 24)
                if [it[:23] for it in octets] != [it[:23] for it in cut(expected, 24)]:
                    return False
        except SlurmFileError as reason:
            in_list = row.status & ~0xFF == Status.BAD_SLURM_ITEM
            if (reason.status, reason.item, reason.list is not None) != (row.status, number, in_list):
                return False
        except OriginError as reason:
            if (reason.status, reason.index, is_vrp) != (row.status, number, True):
                return False
    return True


def route_octets(routes: list[Route]) -> bytes:
    """Returns routes as a row has them."""
    return b"".join(bytes(it)[:16] + bytes(it)[16:20][::-1] + bytes(it)[20:22] for it in routes)


def are_routes(row: Row) -> bool:
    """Returns whether the row of lines with routes has its expected result."""
    lines, expected = row.first[0], cut(structs(row.expected[0], 22), 24)
    count = len(expected)
    for capacity in (count + 3, count, 0):
        array, length, line = (c.Route * capacity)(), c_size_t(7), c_size_t(7)
        status = library().pigy_routes_read(lines, len(lines), array, capacity, byref(length), byref(line))
        fits = count <= capacity
        if (status, length.value, line.value) != (row.status if fits else Status.TOO_SMALL, count, row.number):
            return False
        if [bytes(it)[:22] for it in array] != [it[:22] for it in expected if fits] + [bytes(22)] * (
            capacity - count * fits
        ):
            return False
    try:
        found = read_routes(lines)
    except RouteTextError as reason:
        return (reason.status, reason.line, reason.item) == (row.status, row.number, None)
    is_same = [bytes(it)[:22] for it in found] == [it[:22] for it in cut(read_route_octets(lines), 24)]
    return is_same and route_octets(found) == row.expected[0] and row.status == Status.OK


def is_value(row: Row) -> bool:
    """Returns whether the row of the text of a VRP or of a route has its expected result."""
    is_vrp, given = row.call.startswith("vrp"), row.first[0]
    kind, struct, size = (Vrp, c.Vrp, 23) if is_vrp else (Route, c.Route, 22)
    call = getattr(library(), f"pigy_{row.call}")
    if row.call.endswith("_from_text"):
        made = struct.from_buffer_copy(b"\xa5" * 24)
        status = call(given, len(given), byref(made))
        wanted = structs(row.expected[0], size)[:size] if row.status == Status.OK else bytes(size)
        if (status, bytes(made)[:size]) != (row.status, wanted):
            return False
        try:
            found = bytes(kind(given.decode("utf-8")))
        except UnicodeDecodeError:
            return row.status & 0xFF == 1
        except RouteTextError as reason:
            return (reason.status, reason.item) == (row.status, given.decode("utf-8"))
        return (row.status, found) == (Status.OK, wanted.ljust(24, b"\0"))
    value, count = struct.from_buffer_copy(struct_of(given)), len(row.expected[0])
    for capacity in (count + 3, count, 0):
        buffer, length = ctypes.create_string_buffer(max(capacity, 1)), c_size_t(7)
        status, fits = call(byref(value), buffer, capacity, byref(length)), count <= capacity
        if (status, length.value) != (row.status if fits else Status.TOO_SMALL, count):
            return False
        if buffer.raw[:capacity] != (row.expected[0].ljust(capacity, b"\0") if fits else bytes(capacity)):
            return False
    values = values_of(kind, given)
    if values is None or row.status != Status.OK:
        return values is None and row.status != Status.OK
    return str(values[0]).encode() == row.expected[0] and kind(str(values[0])) == values[0]


def is_text(row: Row) -> bool:
    """Returns whether the row of the text of a set has its expected result."""
    (kind,), text = row.numbers, row.first[0]
    if not row.is_sets(lambda out, _: (library().pigy_set_from_text(text, len(text), kind, byref(out)), None)):
        return False
    try:
        lists = {NAMES[kind]: text.decode("utf-8")}
    except (KeyError, UnicodeDecodeError):
        return True
    return row.is_by_package(lambda: pair_of(Resources.from_text(**lists)))


ASKED = {"verify": is_verified, "path": is_verified_path, "origins": are_origins, "answer": is_line}
ASKED |= dict.fromkeys(("covering", "vrps", "changed"), is_of_table)
ASKED |= dict.fromkeys(("cover", "as_ranges", "ip_ranges"), is_listed)
ASKED |= dict.fromkeys(OPERATORS, is_operation)
ASKED |= dict.fromkeys(("contains", "equal"), is_test)
ASKED |= {"contains_asn": has_asn, "contains_prefix": has_prefix}
ASKED |= {"routes": are_routes}
ASKED |= dict.fromkeys(("vrp_from_text", "vrp_text", "route_from_text", "route_text"), is_value)
ASKED |= {"differ": are_differences, "changes": are_changes, "read": is_read, "text": is_text, "print": is_printed}
ASKED |= {"unexpired": is_unexpired, "slurm": is_applied}


def faults(lines: list[str]) -> Iterator[str]:
    """Yields the rows that have another result."""
    for line in lines:
        row = Row(line)
        if not ASKED[row.call](row):
            yield f"another answer: {line}"
