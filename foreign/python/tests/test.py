#!/usr/bin/env python3
"""Tests the package with a library: test.py LIBRARY FOLDER.

FOLDER has two files. `rows.txt` has golden tests (rows): a call, its arguments and the stored result. `texts.txt` has
the text of each status. The functions in `OTHERS` test what no row tests. The status is 1 if a result differs.
"""

import copy
import os
import pickle
import sys
from collections.abc import Callable, Iterator
from ipaddress import IPv4Network, IPv6Network, ip_address, ip_network
from itertools import chain
from pathlib import Path
from typing import Any

import rows
from pigyelund import (
    Asn,
    Certificate,
    ChangeError,
    Changes,
    Covering,
    DerError,
    Encoding,
    Extensions,
    Family,
    InheritedError,
    Mismatch,
    Mode,
    NoExtensionError,
    OriginError,
    OutOfMemoryError,
    OverclaimedError,
    PigyelundError,
    QueryError,
    Reason,
    Resources,
    Route,
    RouteTextError,
    SetTextError,
    Status,
    Table,
    Validity,
    Vrp,
    VrpFileError,
    __version__,
    answer,
    library_version,
    load,
    read_routes,
    read_unexpired_vrps,
    read_vrps,
    status_text,
    validate_routes,
)
from pigyelund import _bindings as c
from pigyelund.errors import error_for_status
from test_misuse import OF_MISUSE
from test_pages import OF_PAGES
from test_prefixes import OF_PREFIXES
from test_slurm import OF_SLURM
from test_tables import OF_TABLES

TEN, SIX = IPv4Network("10.0.0.0/8"), IPv6Network("2001:db8::/32")
ISSUER = Extensions(ip=bytes.fromhex("300c300a0402000130040302000a"))
CLAIM = Extensions(ip=bytes.fromhex("3010300e0402000130080302000a0302000c"))
TWICE = Extensions(ip=bytes.fromhex("3011300f0402000130090302000a0303000a00"))  # lists 10.0.0.0/8 and 10.0.0.0/9 ..


def same_versions(_: Path) -> Iterator[str]:
    """The package, its bindings and the library have the same version."""
    if not library_version() == __version__ == ".".join(map(str, version_of(c.VERSION_NUMBER))):
        yield f"versions: {__version__}, {c.VERSION_NUMBER}, and the library has {library_version()}"


def version_of(number: int) -> tuple[int, int, int]:
    """Returns the three numbers of a version."""
    return number // 1000000, number // 1000 % 1000, number % 1000


def texts(folder: Path) -> Iterator[str]:
    """Each status has its text in texts.txt."""
    for line in (folder / "texts.txt").read_text().splitlines():
        status, text = line.split(" ", 1)
        if status_text(int(status)) != text:
            yield f"status {status} is {status_text(int(status))!r}, and {text!r} in texts.txt"


def numbers(_: Path) -> Iterator[str]:
    """No two members of encodings, modes and families have one number. No member is an integer."""
    members = [*chain(Encoding, Mode, Family)]
    found = [it.value for it in members] + [c.HAS_AS, c.HAS_IP, c.HAS_BOTH, c.ASN]
    if len({*found}) != len(found) or 0 in found:
        yield f"numbers {found}"
    for it in (*members, *Validity, *Reason, *Mismatch):
        if isinstance(it, int) or it == it.value:
            yield f"{it!r} is an integer"
    for status in Status:
        kind = status & ~(0xFF | Status.SECOND)
        if kind & kind - 1:
            yield f"{status!r} has several bits"


class Index:
    """An integer that is no `int`, as those of numpy are."""

    def __init__(self, number: int) -> None:
        self.number = number

    def __index__(self) -> int:
        return self.number


def too_great() -> Iterator[Callable[[], object]]:
    """Yields calls with a number that is out of its range."""
    for number in (2**32, 2**32 + 1, 2**64, -1, Index(2**32 + 1), Index(-1)):
        yield lambda: Asn(number)
        yield lambda: Vrp(TEN, number)
        yield lambda: Route(TEN, number)
    for number in (256, 264, 272, 2**32 + 8, -1, 7, 33, Index(33), Index(-1)):
        yield lambda: Vrp(TEN, 1, number)
    for number in (31, 129, 256 + 32):
        yield lambda: Vrp(SIX, 1, number)
    for text in ("AS4294967296", "-1", "AS-1", "4294967296", "", "AS", "1,2", "1-1", "AS1-AS2", "1,", "0x1", "AS 1"):
        yield lambda: Asn(text)
        yield lambda: Vrp(TEN, text)
        yield lambda: Route(f"10.0.0.0/8 {text}")
    for text in ("10.0.0.0/8-7 AS1", "10.0.0.0/8-33 AS1", "10.0.0.0/8- AS1", "10.0.0.0/8--9 AS1", "10.0.0.0/8-x AS1"):
        yield lambda: Vrp(text)
    for text in ("10.0.0.1/8 AS1", "10.0.0.0/33 AS1", "10.0.0.0 AS1", "10.0.0.0/8", "AS1", "", "10.0.0.0/255.0.0.0 1"):
        yield lambda: Vrp(text)
        yield lambda: Route(text)
    yield lambda: Route("10.0.0.0/8-16 AS1")


def out_of_range(_: Path) -> Iterator[str]:
    """A number that is out of its range, or a text that is invalid, raises `ValueError`."""
    for at, call in enumerate(too_great()):
        try:
            yield f"value {at} that is out of its range answers {call()}"
        except ValueError:
            pass


def of_other_types() -> Iterator[Callable[[], Any]]:
    """Yields calls with an argument of a wrong type: a number, or a member of another enumeration."""
    issuer: Any = Resources.read(ISSUER)
    anything: Any
    for anything in (Mode.TRIM, Family.V4, 16, 17, 0, 1, None, True, "STRICT", Encoding):
        yield lambda: issuer.verify(ISSUER, encoding=anything)
        yield lambda: issuer.verify_path([Certificate(ISSUER)], encoding=anything)
        yield lambda: Resources.read(ISSUER, encoding=anything)
    for anything in (Encoding.STRICT, 32, 33, 0, 1, None, False):
        yield lambda: issuer.verify(ISSUER, mode=anything)
        yield lambda: Certificate(ISSUER, anything)
    for anything in (Encoding.STRICT, Mode.TRIM, 4, 6, 2, 10, "v4", 0, Index(4), Index(6)):
        yield lambda: issuer.prefixes(anything)
        yield lambda: issuer.ranges(anything)
    for anything in (issuer, None, (None, b""), b"", [ISSUER], Certificate(ISSUER)):
        yield lambda: issuer.verify(anything)
        yield lambda: Resources.read(anything)
        yield lambda: Certificate(anything)
        yield lambda: issuer.verify_path([anything] if anything.__class__ is not Certificate else anything)
    for anything in (1, "10.0.0.0/8", b"", None, True, 1.5, object(), Route(TEN, 1), ip_network, (TEN, 1)):
        yield lambda: anything in issuer
    for anything in (1, None, ISSUER, "10.0.0.0/8", {TEN}, (b"", b"")):
        yield lambda: issuer | anything
        yield lambda: anything & issuer
        yield lambda: issuer - anything
        yield lambda: issuer ^ anything
        yield lambda: issuer <= anything
        yield lambda: issuer < anything
        yield lambda: anything >= issuer
        yield lambda: anything > issuer
    yield lambda: issuer + issuer
    yield lambda: len(issuer)
    yield lambda: iter(issuer)
    yield lambda: issuer[0]
    yield lambda: Extensions(*issuer)
    yield lambda: issuer.verify(ISSUER, Mode.TRIM)
    yield lambda: issuer.verify_path([], Encoding.STRICT)
    yield lambda: Resources.read(ISSUER, Encoding.STRICT)
    yield lambda: Extensions("300c")  # type: ignore[arg-type]
    yield lambda: Extensions(ip=bytearray(b"0"))  # type: ignore[arg-type]
    yield lambda: Resources("10.0.0.0/8")  # type: ignore[arg-type]
    yield lambda: Resources([1])  # type: ignore[list-item]
    yield lambda: Vrp(TEN)  # type: ignore[call-overload]
    yield lambda: Vrp(TEN, None, 9)  # type: ignore[call-overload]
    yield lambda: Route(TEN)  # type: ignore[call-overload]
    for anything in (True, 1.0, None, b"1", [1], "1".join):
        yield lambda: Asn(anything)
        yield lambda: Vrp(TEN, 1, anything) if anything is not None else Asn(anything)
    for validity in Validity:
        yield lambda: bool(validity)
        yield lambda: not validity
        yield lambda: validity + 0  # type: ignore[operator]


def other_types(_: Path) -> Iterator[str]:
    """An argument of a wrong type raises `TypeError`."""
    for at, call in enumerate(of_other_types()):
        try:
            yield f"argument {at} of a wrong type answers {call()}"
        except TypeError:
            pass


def frozen(_: Path) -> Iterator[str]:
    """Values never change."""
    values: list[Any] = [Asn(1), Vrp(TEN, 1), Route(TEN, 1), Resources([TEN]), ISSUER, Certificate(ISSUER)]
    values += [Covering(Vrp(TEN, 1), Mismatch(0))]
    for value in values:
        for name in ("asn", "prefix", "max_len", "ip", "mode", "vrp", "_octets", "_handle", "_number", "new"):
            for change in (lambda: setattr(value, name, 1), lambda: delattr(value, name)):
                try:
                    yield f"{name} of {value} is {change()}"
                except AttributeError:
                    pass


def defaults(_: Path) -> Iterator[str]:
    """The defaults are the VRP's own length, `Mode.REFUSE` and `Encoding.STRICT`. Iterators are accepted."""
    long, issuer = IPv4Network("10.0.0.0/9"), Resources.read(ISSUER)
    with Table([Vrp(TEN, 1)]) as table:
        if table.validate_routes([Route(TEN, 1), Route(long, 1)]) != [Validity.VALID, Validity.INVALID]:
            yield "the maximum length of a VRP is not its own"
    routes = [Route(TEN, 1), Route(TEN, 2), Route("::/0", 1), Route(TEN, 0), Route("10.0.0.0/10", 1)]
    named = [Validity.VALID, Validity.INVALID, Validity.NOT_FOUND, Validity.INVALID, Validity.INVALID]
    reasons = [None, Reason.INVALID_AS, None, Reason.INVALID_AS, Reason.INVALID_LENGTH]
    with Table(iter([Vrp(TEN, 1, 9)])) as table:
        if table.validate_routes(iter(routes)) != named or [table.reason(it) for it in routes] != reasons:
            yield "validities"
        if table.validate_routes(iter(routes), reasons=True) != (named, reasons):
            yield "validities with reasons"
        if table.validate_routes([], reasons=True) != ([], []) or table.validate_octets([], reasons=True) != (b"", b""):
            yield "no validities with reasons"
    words = [str(it) for it in (*Validity, *Reason)]
    if words != ["valid", "not-found", "invalid", "invalid-as", "invalid-length"]:
        yield f"words {words}"
    for refused_call in (lambda: issuer.verify(CLAIM), lambda: issuer.verify_path([Certificate(CLAIM)])):
        try:
            yield f"an excess answers {refused_call()}"
        except OverclaimedError as reason:
            if reason.excess.der() != Extensions(ip=bytes.fromhex("300c300a0402000130040302000c")):
                yield "another excess"
    strict: list[Callable[[Any], Any]] = [
        lambda words: issuer.verify(TWICE, **words),
        lambda words: issuer.verify_path([Certificate(TWICE)], **words),
        lambda words: Resources.read(TWICE, **words),
    ]
    for at, call in enumerate(strict):
        try:
            yield f"call {at} is lenient by default: {call({})}"
        except DerError as reason:
            if reason.fault != 14:
                yield f"call {at}: {reason}"
        if call({"encoding": Encoding.LENIENT}) != issuer:
            yield f"call {at} is not lenient"


def empty_values(_: Path) -> Iterator[str]:
    """An extension that is present and empty is invalid, and never means no resources."""
    issuer = Resources.read(ISSUER)
    for asn, ip, status in ((b"", None, Status.BAD_AS), (None, b"", Status.BAD_IP)):
        for call, second in ((issuer.verify, Status.SECOND), (Resources.read, 0)):
            try:
                yield f"an empty extension answers {call(Extensions(asn, ip))}"
            except DerError as reason:
                if reason.status != status + second + 1:
                    yield f"an empty extension: {reason.status:#x}"
    none = Resources()
    if none or none.der() != Extensions() or str(none) or none != Resources.read(Extensions()) or none.prefixes():
        yield "the set without resources"
    try:
        yield f"a certificate without extensions answers {issuer.verify(none.der())}"
    except NoExtensionError:
        pass


def kept(value: Any) -> Any:
    """Returns a value after pickling and unpickling, by each protocol."""
    for by in range(pickle.HIGHEST_PROTOCOL + 1):
        value = pickle.loads(pickle.dumps(value, by))
    return value


def is_kept(reason: PigyelundError) -> bool:
    """Returns whether an exception is the same after pickling and unpickling."""
    other = kept(reason)
    return (type(other), other.__dict__, str(other)) == (type(reason), reason.__dict__, str(reason))


def reasons(folder: Path) -> Iterator[str]:
    """Each class of exception is raised with its text, and can be pickled."""
    issuer = Resources.read(ISSUER)
    path = [Certificate(ISSUER), Certificate(CLAIM)]
    inherits, bad = Extensions(asn=bytes.fromhex("3004a0020500")), Extensions(asn=b"\2")
    octets = bytes(Vrp(TEN, 1, 8))[:22] + b"\7\0"
    with Table([Vrp(TEN, 1)]) as table:
        asked: list[tuple[Callable[[], object], type[PigyelundError], int, str, Any]] = [
            (lambda: issuer.verify(CLAIM), OverclaimedError, Status.OVERCLAIM_V4, "", None),
            (lambda: issuer.verify_path(path), OverclaimedError, Status.OVERCLAIM_V4, "after 1 certificates: ", None),
            (lambda: Resources.read(inherits), InheritedError, Status.INHERITED, "", None),
            (lambda: Resources.read(bad), DerError, Status.BAD_AS + 1, "", None),
            (lambda: issuer.verify(bad), DerError, Status.SECOND + Status.BAD_AS + 1, "", None),
            (lambda: issuer.verify(Extensions()), NoExtensionError, Status.ABSENT, "", None),
            (lambda: Table(octets * 2), OriginError, Status.BAD_MAX_LEN, "at index 0: ", octets),
            (lambda: table.with_changes(announced=[Vrp(TEN, 1)]), ChangeError, Status.DUPLICATE_ANNOUNCEMENT,
             "at index 0: ", Vrp(TEN, 1)),
            (lambda: Resources.from_text(v4="x"), SetTextError, Status.BAD_TEXT + 4, "", None),
            (lambda: answer("x"), QueryError, Status.BAD_QUERY, "", None),
            (lambda: read_vrps(b"AS1,10.0.0.0/8,8\nAS1,10.0.0.1/8,8\n"), VrpFileError, Status.BAD_LINE + 5,
             "at line 2: ", None),
            (lambda: read_vrps(b'{"roas": [{"prefix": "10.0.0.0/8", "maxLength": 8}]}'), VrpFileError,
             Status.BAD_ITEM + 8, "at item 1: ", None),
            (lambda: read_vrps(b""), VrpFileError, Status.BAD_FILE + 6, "", None),
            (lambda: read_unexpired_vrps(b"ASN,Prefix,Max Length,Expires\nAS1,10.0.0.0/8,8,soon\n", 0), VrpFileError,
             Status.BAD_LINE + 20, "at line 2: ", None),
            (lambda: read_routes(b"::/0 1\n10.0.0.1/8 1\n"), RouteTextError, Status.BAD_ROUTE + 5, "at line 2: ", None),
            (lambda: Route("10.0.0.0/8,AS1"), RouteTextError, Status.BAD_ROUTE + 3, "", "10.0.0.0/8,AS1"),
            (lambda: Vrp("10.0.0.0/8-7 AS1"), RouteTextError, Status.BAD_LINE + 7, "", "10.0.0.0/8-7 AS1"),
        ]
        for at, (call, kind, status, begin, item) in enumerate(asked):
            try:
                yield f"error {at} is {call()}"
            except PigyelundError as reason:
                shown = item.hex() if isinstance(item, bytes) else repr(item) if isinstance(item, str) else item
                text = begin + status_text(status) + (f": {shown}" if item else "")
                if (type(reason), reason.status, str(reason), reason.item) != (kind, status, text, item):
                    yield f"{reason!r} in place of {text}"
                if not is_kept(reason):
                    yield f"{reason!r} doesn't pickle"
    for line in (folder / "texts.txt").read_text().splitlines():
        status = int(line.split(" ")[0])
        if not is_kept(error_for_status(status, issuer, 7)):
            yield f"status {status} doesn't pickle"
    for no_memory in error_for_status(Status.MEMORY, index=0), error_for_status(Status.MEMORY, verified=1):
        found = type(no_memory), str(no_memory), no_memory.verified, no_memory.index
        if found != (OutOfMemoryError, status_text(Status.MEMORY), None, None):
            yield f"out of memory: {found}"


def tables(_: Path) -> Iterator[str]:
    """A closed table raises `ValueError`. A table is made of lists, iterators, arrays and buffers, and may be empty."""
    vrps = [Vrp(TEN, 1, 9), Vrp(SIX, 2)]
    table = Table(vrps)
    if [it.prefix for it in table] != [TEN, SIX] or len(table) != 2 or repr(table) != "<Table of 2 VRPs>":
        yield "the VRPs of a table"
    if vrps[0] not in table or Vrp(TEN, 1, 8) in table or Vrp(TEN, 2, 9) in table or Vrp("10.0.0.0/9", 1) in table:
        yield "a VRP in a table"
    (covering,) = table.covering(Route(IPv4Network("10.0.0.0/24"), 2))
    if covering != Covering(vrps[0], Mismatch.OTHER_AS | Mismatch.TOO_LONG):
        yield f"{covering} covers"
    table.close()
    table.close()
    closed: list[Callable[[], object]] = [
        lambda: len(table),
        lambda: table.validate_routes([]),
        lambda: table.validate(Route(TEN, 1)),
        lambda: table.reason(Route(TEN, 1)),
        lambda: table.validate_octets([], reasons=True),
        lambda: validate_routes([Table(), table], []),
        lambda: table.changes(Table()),
        lambda: table.with_changes(),
        lambda: next(iter(table)),
        lambda: vrps[0] in table,
        lambda: table.octets(),
        lambda: bool(table),
    ]
    for at, call in enumerate(closed):
        try:
            yield f"a table that is closed answers {call()} to call {at}"
        except ValueError:
            pass
    if repr(table) != "<Table, closed>" or not Table():
        yield f"{table!r}"
    octets = b"".join(map(bytes, vrps))
    for given in (octets, bytearray(octets), memoryview(octets), iter(vrps), {*vrps}, []):
        with Table(given) as of:
            if len(of) not in (2, 0 if given == [] else 2):
                yield f"{len(of)} VRPs of {type(given)}"
    try:
        yield f"a part of a VRP answers {Table(octets[:-1])}"
    except ValueError:
        pass
    with Table(vrps) as one:
        for ask in (one.revalidate, one.changes):
            try:
                yield f"a closed table answers {ask(table, *([[]] if ask == one.revalidate else []))}"
            except ValueError:
                pass


def values() -> list[Any]:
    """Returns values that differ from one another in a field or in their type, each class in ascending order."""
    found: list[Any] = [Asn(0), Asn(1), Asn(2**32 - 1)]
    found += [Vrp(TEN, 1), Vrp(TEN, 1, 9), Vrp(TEN, 2), Vrp("10.0.0.0/9", 1, 9), Vrp("11.0.0.0/8", 1, 9)]
    found += [Vrp("::/0", 0), Vrp(SIX, 1), Vrp(SIX, 1, 48), Vrp(SIX, 2**32 - 1)]
    return found + [Route(TEN, 1), Route(TEN, 256), Route("10.0.0.0/9", 0), Route(SIX, 1)]


def equal_values(_: Path) -> Iterator[str]:
    """Values are equal if and only if their types and fields are; so are their hashes and texts. They have an order."""
    for at, item in enumerate(values()):
        for other_at, other in enumerate(values()):
            is_same = (item == other, not item != other, len({item, other}) == 1, repr(item) == repr(other))
            if is_same != (at == other_at,) * 4:
                yield f"{item} and {other}: {is_same}"
            try:
                found = item < other, item <= other, item > other, item >= other
            except TypeError:
                found = None
            wanted = (at < other_at, at <= other_at, at > other_at, at >= other_at)
            if found != (wanted if type(item) is type(other) else None):
                yield f"{item} and {other}: {found} in place of {wanted}"
        if kept(item) != item or copy.deepcopy(item) != item:
            yield f"{item} after pickling"
    if Asn(1) == 1 or Vrp(TEN, 1) == (TEN, 1, 8) or Vrp(TEN, 1) is None:
        yield "a value is an integer or a tuple"
    if sorted(reversed(values()[3:12])) != values()[3:12]:
        yield "sorted VRPs"


def value_texts(_: Path) -> Iterator[str]:
    """The text of a value is read as the same value. The representation is an expression that makes it again."""
    for item in values():
        if eval(repr(item)) != item or type(item)(str(item)) != item:
            yield f"{item} is another one"
    vrp, route = Vrp("10.0.0.0/8-9 AS1"), Route("10.0.0.0/8 AS1")
    found = [str(vrp), repr(vrp), str(route), repr(route), str(Asn(7)), repr(Asn(7)), int(Asn(7))]
    wanted = ["10.0.0.0/8-9 AS1", "Vrp('10.0.0.0/8-9 AS1')", "10.0.0.0/8 AS1", "Route('10.0.0.0/8 AS1')", "AS7"]
    if found != [*wanted, "Asn(7)", 7] or (vrp.prefix, vrp.asn, vrp.max_len) != (TEN, Asn(1), 9):
        yield f"{found}"
    same = [Vrp("10.0.0.0/8-9 1"), Vrp("10.0.0.0/8-9 as1"), Vrp("10.0.0.0/8", "AS1", 9), Vrp(TEN, Asn(1), Index(9))]
    same += [Vrp("10.0.0.0/8-+9 +1"), Vrp(" 10.0.0.0/8-9  AS1\n")]
    if {*same} != {vrp} or {Route("10.0.0.0/8", "1"), Route(TEN, Index(1))} != {route}:
        yield f"{same} and {vrp}"
    if Vrp("10.0.0.0/8 AS1") != Vrp(TEN, 1) or Vrp("::1/128-128 AS4294967295").prefix != ip_network("::1/128"):
        yield "texts of VRPs"


def sets(_: Path) -> Iterator[str]:
    """Sets can be compared, hashed, copied and pickled."""
    ten, six = Resources([TEN]), Resources([SIX, Asn(7)])
    both = ten | six
    asked = [TEN in ten, ip_address("10.1.2.3") in both, Asn(7) in both, Vrp(SIX, 1) in both, six in both, ten in ten]
    asked += [ten < both, ten <= both, both > six, both >= both, ten != six, both - ten == six, both & ten == ten]
    asked += [ten ^ both == six, bool(ten), not ten & six, both == Resources([Asn(7), SIX, TEN])]
    asked += [len({ten, Resources([TEN]), six}) == 2, kept(both) == both, ten == Resources([TEN])]
    asked += [copy.copy(both) == both == copy.deepcopy(both)]
    asked += [str(both) == "AS7, 10.0.0.0/8, 2001:db8::/32", [*both.asns()] == [Asn(7)], both.prefixes() == [TEN, SIX]]
    asked += [repr(both) == "Resources.from_text(asn='AS7', v4='10.0.0.0/8', v6='2001:db8::/32')"]
    asked += [both.as_ranges() == [(Asn(7), Asn(7))], both.ranges(Family.V4) == [(TEN[0], TEN[-1])]]
    refused = [ten < ten, both < ten, ten > ten, ten == six, Asn(8) in both, SIX in ten, TEN in six, both in ten]
    refused += [ten == 1, ten == (b"", b""), ip_address("11.0.0.0") in both, ten == None]  # noqa: E711
    for at, is_so in enumerate(asked + [not it for it in refused]):
        if is_so is not True:
            yield f"question {at} on sets: {is_so}"


def changes_by_sets(_: Path) -> Iterator[str]:
    """The differences of two tables, as changes, make the second table from the first."""
    old = [Vrp(TEN, asn, 8 + asn % 3) for asn in range(1, 9)]
    new = [Vrp(TEN, asn, 8 + asn % 2) for asn in range(3, 12)]
    with Table(old) as table, Table(new) as wanted:
        found = table.changes(wanted)
        if {*found.announced} != {*new} - {*old} or {*found.withdrawn} != {*old} - {*new}:
            yield f"{found}"
        if table.changes(table).announced or table.changes(table).withdrawn:
            yield "changes of a table to itself"
        for announced, withdrawn in ((found.announced, found.withdrawn), ({*new} - {*old}, {*old} - {*new})):
            with table.with_changes(announced=announced, withdrawn=withdrawn) as following:
                if list(following) != list(wanted) or len(following) != len(new):
                    yield f"{list(following)} after changes"
    many = [Vrp(IPv4Network((at << 8, 24)), 1) for at in range(10000)]
    with Table(many[:8000]) as table, Table(many[5000:] * 2) as following:
        if table.changes(following) != Changes(announced=many[8000:], withdrawn=many[:5000]):
            yield "many changes"


def copies(_: Path) -> Iterator[str]:
    """A VRP that is passed twice is listed twice. A withdrawal names it once, and removes both."""
    twice, other = Vrp(TEN, 1), Vrp(TEN, 2)
    with Table([twice, other, twice]) as table:
        if len(table) != 3 or list(table).count(twice) != 2 or len(table.covering(Route(TEN, 1))) != 3:
            yield f"{list(table)} of copies"
        for announced, withdrawn, expected in (([], [twice], [other]), ([twice], [twice], [other, twice])):
            with table.with_changes(announced=announced, withdrawn=withdrawn) as following:
                if list(following) != expected:
                    yield f"{list(following)} after a withdrawal of copies"
        for announced, withdrawn, status, index in (
            ([], [twice, twice], Status.UNKNOWN_WITHDRAWAL, 1),
            ([twice], [], Status.DUPLICATE_ANNOUNCEMENT, 0),
            ([Vrp(TEN, 3)] * 2, [], Status.DUPLICATE_ANNOUNCEMENT, 1),
        ):
            try:
                yield f"copies answer {table.with_changes(announced=announced, withdrawn=withdrawn)}"
            except ChangeError as reason:
                if (reason.status, reason.index) != (status, index):
                    yield f"{reason!r} of copies"


OTHERS = (same_versions, texts, numbers, out_of_range, other_types, frozen, defaults, empty_values, reasons, tables)
OTHERS += (equal_values, value_texts, sets, changes_by_sets, copies, *OF_PREFIXES, *OF_SLURM, *OF_TABLES, *OF_MISUSE)
OTHERS += OF_PAGES


def main() -> int:
    """Makes the test of each row, and the tests in `OTHERS`."""
    load(os.path.abspath(sys.argv[1]))
    folder = Path(sys.argv[2])
    lines = (folder / "rows.txt").read_text().splitlines()
    faults = [*rows.faults(lines)]
    faults += [fault for test in OTHERS for fault in test(folder)]
    for fault in faults[:20]:
        print(fault)
    print(f"Python: {len(lines)} rows, {len(faults)} faults")
    return 1 if faults or not lines else 0


if __name__ == "__main__":
    sys.exit(main())
