"""Tests of SLURM files (RFC 8416): the example of the RFC, and the faults of files. `test.py` runs them."""

import pickle
from collections.abc import Callable, Iterator
from pathlib import Path
from typing import Any

from pigyelund import (
    OriginError,
    PigyelundError,
    SlurmFileError,
    Status,
    Table,
    Vrp,
    apply_slurm,
    apply_slurm_octets,
    status_text,
)
from spies import spied

# The example of RFC 8416, 3.5.
EXAMPLE = b"""
{
  "slurmVersion": 1,
  "validationOutputFilters": {
    "prefixFilters": [
      {
        "prefix": "192.0.2.0/24",
        "comment": "All VRPs encompassed by prefix"
      },
      {
        "asn": 64496,
        "comment": "All VRPs matching ASN"
      },
      {
        "prefix": "198.51.100.0/24",
        "asn": 64497,
        "comment": "All VRPs encompassed by prefix, matching ASN"
      }
    ],
    "bgpsecFilters": [
      {
        "asn": 64496,
        "comment": "All keys for ASN"
      },
      {
        "SKI": "Zm9v",
        "comment": "Key matching Router SKI"
      },
      {
        "asn": 64497,
        "SKI": "YmFy",
        "comment": "Key for ASN 64497 matching Router SKI"
      }
    ]
  },
  "locallyAddedAssertions": {
    "prefixAssertions": [
      {
        "asn": 64496,
        "prefix": "198.51.100.0/24",
        "comment": "My other important route"
      },
      {
        "asn": 64496,
        "prefix": "2001:DB8::/32",
        "maxPrefixLength": 48,
        "comment": "My other important de-aggregated routes"
      }
    ],
    "bgpsecAssertions": [
      {
        "asn": 64496,
        "comment" : "My known key for my important ASN",
        "SKI": "<some base64 SKI>",
        "routerPublicKey": "<some base64 public key>"
      }
    ]
  }
}
"""
# The first VRP covers a filter's prefix, and is not inside it. The third one is of another AS than the filter.
KEPT = ["192.0.0.0/16-24 AS64497", "192.0.3.0/24 AS64497", "198.51.100.0/24 AS64498", "198.51.0.0/16-24 AS64497"]
KEPT += ["2001:db8::/32 AS64497"]
REMOVED = ["192.0.2.0/24 AS64497", "192.0.2.128/25 AS0", "10.0.0.0/8 AS64496", "::/0 AS64496"]
REMOVED += ["198.51.100.0/24-32 AS64497", "198.51.100.128/25 AS64497"]
ADDED = [Vrp("198.51.100.0/24", 64496), Vrp("2001:db8::/32", 64496, 48)]
EMPTY = (
    b'{"slurmVersion": 1, "validationOutputFilters": {"prefixFilters": [], "bgpsecFilters": []}, '
    b'"locallyAddedAssertions": {"prefixAssertions": [], "bgpsecAssertions": []}}'
)


def with_items(name: str, items: bytes) -> bytes:
    """Returns a file with the items of one list."""
    return EMPTY.replace(b'"%s": []' % name.encode(), b'"%s": [%s]' % (name.encode(), items))


def forms(vrps: list[Vrp]) -> list[Any]:
    """Returns VRPs in each form that the package takes."""
    octets = b"".join(map(bytes, vrps))
    return [vrps, tuple(vrps), iter(vrps), octets, bytearray(octets), memoryview(octets)]


def example(_: Path) -> Iterator[str]:
    """The filters and assertions of the example of RFC 8416. The VRPs keep their order, and the assertions follow."""
    kept, removed = ([Vrp(it) for it in texts] for texts in (KEPT, REMOVED))
    none: list[Vrp] = []
    for vrps in (kept + removed, removed[::-1] + kept[::-1], none, removed):
        wanted = [it for it in vrps if it in kept] + ADDED
        for given in forms(vrps):
            found = apply_slurm(EXAMPLE, given)
            if found != wanted:
                yield f"the example of RFC 8416: {found} in place of {wanted}"
        octets = apply_slurm_octets(EXAMPLE, vrps)
        if octets != b"".join(map(bytes, wanted)):
            yield "the octets of VRPs after the example of RFC 8416"
        with Table(octets) as table:
            if {*table} != {*wanted}:
                yield f"a table of {[*table]}"


def repeated(_: Path) -> Iterator[str]:
    """A VRP that is repeated stays repeated, and no filter removes an assertion. A byte order mark is ignored."""
    one, item = Vrp("10.0.0.0/8 AS1"), b'{"asn": 1, "prefix": "10.0.0.0/8"}'
    added = with_items("prefixAssertions", item + b", " + item)
    all_filtered = with_items("prefixFilters", b'{"prefix": "0.0.0.0/0"}, {"prefix": "::/0"}')
    asked: list[tuple[bytes, list[Vrp], list[Vrp]]] = [
        (EMPTY, [one, one], [one, one]),
        (b"\xef\xbb\xbf" + EMPTY, [one, one], [one, one]),
        (EMPTY, [], []),
        (all_filtered, [one, Vrp("::/0 AS1")], []),
        (added.replace(b'"prefixFilters": []', b'"prefixFilters": [{"asn": 1}]'), [one, one], [one, one]),
        (added, [one], [one, one, one]),
        (with_items("prefixAssertions", b",".join([b'{"asn":1,"prefix":"::/0"}'] * 999)), [], [Vrp("::/0 AS1")] * 999),
    ]
    for at, (file, vrps, wanted) in enumerate(asked):
        calls: list[str] = []

        def around(name: str, call: Callable[..., Any], words: tuple[Any, ...]) -> Any:
            calls.append(name)
            return call(*words)

        with spied(around):
            found = apply_slurm(file, vrps)
        if found != wanted or calls != ["pigy_slurm_apply"]:
            yield f"file {at}: {found} in place of {wanted}, by the calls {calls}"


def faults_of_files() -> Iterator[tuple[bytes, int, int]]:
    """Yields invalid files, each with n of PIGY_BAD_SLURM and with the number of the unknown member."""
    yield b"", 1, 0
    yield b"[]", 1, 0
    yield EMPTY[:-1], 1, 0
    yield EMPTY.replace(b"1", b"[" * 200 + b"]" * 200), 1, 0
    yield EMPTY.replace(b"slurm", b"\xff", 1), 1, 0
    yield EMPTY[:-1] + b', "x": 1}', 2, 4
    yield EMPTY.replace(b"1", b"2"), 3, 0
    yield EMPTY.replace(b'"prefixFilters"', b'"x": [], "prefixFilters"'), 4, 1
    yield EMPTY.replace(b'"bgpsecAssertions"', b'"aspaAssertions"'), 5, 2
    yield b"{}", 6, 0
    yield EMPTY.replace(b"1", b'1, "slurmVersion": 1'), 7, 0
    yield EMPTY.replace(b"1", b'"1"'), 8, 0
    yield b'{"slurmVersion": 1}', 9, 0
    lists = [b"prefixFilters", b"bgpsecFilters", b"prefixAssertions", b"bgpsecAssertions"]
    for number, name in zip(range(15, 27, 3), lists):
        member = b'"%s": []' % name
        without = EMPTY.replace(member + b", ", b"").replace(b", " + member, b"")
        yield without, number, 0
        yield EMPTY.replace(member, member + b", " + member), number + 1, 0
        yield EMPTY.replace(member, b'"%s": {}' % name), number + 2, 0


ITEMS = {  # the lists, each with a valid item
    "prefixFilters": b'{"asn": 1}',
    "bgpsecFilters": b'{"SKI": "x", "comment": "y"}',
    "prefixAssertions": b'{"asn": 1, "prefix": "::/0", "maxPrefixLength": 128}',
    "bgpsecAssertions": b'{"asn": 1, "SKI": "x", "routerPublicKey": "y"}',
}
# Invalid items, each with its list and with n of PIGY_BAD_SLURM_ITEM.
FAULTS_OF_ITEMS = [
    (0, b"1", 1),
    (0, b'{"asn": 1, "maxPrefixLength": 8}', 2),
    (0, b'{"prefix": "10.0.0.1/8"}', 3),
    (0, b'{"asn": 4294967296}', 4),
    (0, b'{"comment": "x"}', 7),
    (0, b'{"prefix": "::/0", "prefix": "::/0"}', 9),
    (0, b'{"prefix": 1}', 10),
    (0, b'{"asn": "AS1"}', 13),
    (1, b"{}", 7),
    (1, b'{"SKI": 1}', 19),
    (2, b'{"asn": 1, "prefix": "10.0.0.0/8", "maxPrefixLength": 256}', 5),
    (2, b'{"asn": 1, "prefix": "10.0.0.0/8", "maxPrefixLength": 7}', 6),
    (2, b'{"asn": 1, "prefix": "10.0.0.0/8", "maxPrefixLength": 33}', 6),
    (2, b'{"asn": 1}', 8),
    (2, b'{"prefix": "::/0"}', 11),
    (2, b'{"asn": 1, "prefix": "::/0", "maxPrefixLength": "8"}', 16),
    (2, b'{"asn": 1, "prefix": "::/0", "comment": 1}', 25),
    (3, b'{"asn": 1, "SKI": "x"}', 20),
    (3, b'{"asn": 1, "routerPublicKey": "x"}', 17),
]


def faults(_: Path) -> Iterator[str]:
    """An error has the status, the list, and the number of the item or member at fault. It can be pickled."""
    asked: list[tuple[bytes, int, str | None, int]] = []
    for file, number, member in faults_of_files():
        asked.append((file, Status.BAD_SLURM + number, None, member))
    for index, item, number in FAULTS_OF_ITEMS:
        name = [*ITEMS][index]
        file = with_items(name, b", ".join([ITEMS[name], item, item]))
        asked.append((file, Status.BAD_SLURM_ITEM + 64 * index + number, name, 2))
    for file, status, of, at in asked:
        try:
            yield f"{apply_slurm(file, [])} of the file {file!r}"
        except SlurmFileError as fault:
            place = f"at {'item' if of else 'member'} {at}: " if at else ""
            found = fault.status, fault.list, fault.item, fault.index, fault.line, str(fault)
            if found != (status, of, at, None, None, place + status_text(status)):
                yield f"{found} of the file {file!r}"
            if of is not None and f"item of {of}: " not in str(fault):
                yield f"{fault} names no list {of}"
            other = pickle.loads(pickle.dumps(fault))
            if (type(other), other.__dict__, str(other)) != (type(fault), fault.__dict__, str(fault)):
                yield f"{fault!r} doesn't pickle"
        except PigyelundError as fault:
            yield f"{fault!r} of the file {file!r}"


def malformed(_: Path) -> Iterator[str]:
    """The first malformed VRP of a buffer is reported before a fault of the file. Wrong types raise `TypeError`."""
    right = bytes(Vrp("10.0.0.0/8 AS1"))
    wrong = right[:22] + b"\7\0"
    for file in (EMPTY, b""):
        try:
            yield f"{apply_slurm(file, right + wrong + wrong)} of malformed VRPs"
        except OriginError as fault:
            if (fault.status, fault.index, fault.item) != (Status.BAD_MAX_LEN, 1, wrong):
                yield f"{fault!r} of malformed VRPs"
    anything: Any
    for anything in ("slurm.json", Path("slurm.json"), bytearray(EMPTY), None, [Vrp(KEPT[0])]):
        try:
            yield f"{apply_slurm(anything, [])} of the file {anything!r}"
        except TypeError:
            pass
    for anything in (1, None, "10.0.0.0/8 AS1", ["10.0.0.0/8 AS1"], Vrp(KEPT[0])):
        try:
            yield f"{apply_slurm(EMPTY, anything)} of the VRPs {anything!r}"
        except TypeError:
            pass
    try:
        yield f"{apply_slurm(EMPTY, right[1:])} of a part of a VRP"
    except ValueError:
        pass


OF_SLURM = (example, repeated, faults, malformed)
