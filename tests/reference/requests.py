"""How much memory calls ask for, by rules: the number of requests, and the number of octets together.

The rules depend on lengths of lists, and not on how the lists are made. An element takes what its parts take in their
order, each at a multiple of its size. A list whose length is known takes one request. A list whose length is not known
first has a capacity of four elements, and doubles its capacity when it is full. A set's list has a reference count,
which is one more request. A call that shares a set asks for nothing.
"""

import re
from collections.abc import Callable, Iterator
from typing import Any

from . import asn, ip, prefixes, resources, sets, texts
from .addresses import Family
from .calls_of_sets import read_triple
from .calls_of_values import OCTETS
from .lines import octets_of
from .prefixes import Vrp
from .sets import Set

WORD = 8
AS_BLOCK = 3 * 4  # which kind, and two numbers of 32 bits
IP_BLOCK = 3 * 16  # which kind, and two numbers of 128 bits
ASN = 4
VRP = 80  # family and address 32, length and maximum length up to 64, AS number up to 80
PACKED_VRP = 32  # a VRP in a table: an address, an AS number, two lengths, the family
LINK = 2 * 4  # two numbers of 32 bits
START = 4  # a number of 32 bits
# A count and the allocator. The list has a flag, a pointer, a length, a capacity and an allocator.
OWNERS = 7 * WORD

Rooms = list[int]  # the octets of each request


def at_once(count: int, size: int) -> Rooms:
    """Returns the request of a list whose length is known."""
    return [count * size] if count else []


def grown(count: int, size: int, room: int = 0, least: int = 4) -> Rooms:
    """Returns the requests of a list that grows to a length, from a given capacity."""
    rooms = []
    while room < count:
        room = max(2 * room, least, room + 1)
        rooms.append(room * size)
    return rooms


def reserved(count: int, room: int, size: int) -> Rooms:
    """Returns the request of a list that has a capacity and asks at once for more."""
    return [max(2 * room, count, 4) * size] if count > room else []


def shared(rooms: Rooms) -> Rooms:
    """Returns the requests of a list and of its reference count, or none for an empty list."""
    return [*rooms, OWNERS] if rooms else []


def octets(length: int) -> Rooms:
    """Returns the request of octets that are written at once: at least eight of them, as in std."""
    return [max(8, length)] if length else []


def _text(rooms: Rooms) -> str:
    return f"requests {len(rooms)}, octets {sum(rooms)}"


# ---- sets


def union(left: Set, right: Set, size: int) -> Rooms:
    """Returns the requests of a union.

    If one set is empty, the other is shared. Otherwise the list has the capacity for both.
    """
    return shared(at_once(len(left) + len(right), size)) if left and right else []


def intersection(left: Set, right: Set, size: int) -> Rooms:
    """Returns the requests of an intersection. A set inside the other is shared.

    Otherwise the number of runs before the first one that is not inside the other is known.
    """
    if sets.has_all(right, left):
        return []
    first = next(at for at, run in enumerate(left) if not sets.has_all(right, [run]))
    common = len(sets.intersection(left, right))
    return shared(at_once(first, size) + grown(common, size, first))


def difference(left: Set, right: Set, size: int) -> Rooms:
    """Returns the requests of a difference. The number of runs that are left is not known."""
    return shared(grown(len(sets.difference(left, right)), size))


OF_TWO = {"union": union, "intersection": intersection, "assign": intersection, "difference": difference}


def _built(left: int, right: int, size: int) -> Rooms:
    """Returns the requests of blocks that are added one by one, and then of more blocks that are counted first."""
    pushed = grown(left, size)
    return shared(pushed + reserved(left + right, pushed[-1] // size if pushed else 0, size))


USUAL_AS = re.compile(r" ?(AS)?\d+(-(AS)?\d+)?")
USUAL_IP = re.compile(r" ?[0-9A-Fa-f:.]+([-/][0-9A-Fa-f:.]+)?")


def _list_text(text: str, form: re.Pattern[str], size: int) -> Rooms:
    """Returns the requests of reading a list.

    Elements of the usual form are read one after the other, and so is one space at the end. At the first other element,
    or at the first other text after the last element, the list is freed and all is read again.
    """
    count = len(list(texts.elements(text)))
    usual, at = 0, 0
    while found := form.match(text, at):
        usual, at = usual + 1, found.end() + 1
        if text[found.end() : at] != ",":
            break
    is_usual = usual == count > 0 and text[at - 1 :] in ("", " ")
    return ([] if is_usual else grown(usual, size)) + shared(grown(count, size))


def _as_text(text: str) -> Rooms:
    return _list_text(text, USUAL_AS, AS_BLOCK)


def _ip_text(text: str) -> Rooms:
    """Returns the requests of reading a list of addresses of one family."""
    return _list_text(text, USUAL_IP, IP_BLOCK)


def _of_blocks(call: str, left: int, right: int, size: int) -> Rooms | None:
    given: dict[str, Callable[[], Rooms]] = {
        "text": lambda: shared(grown(left, size)),
        "from_blocks": lambda: shared(at_once(left, size)),
        "from_vec": lambda: shared(at_once(left, size)),
        "build": lambda: _built(left, right, size),
    }
    return given[call]() if call in given else None


def _path(call: str, anchor: Set, claim: Set, size: int) -> Rooms:
    """Returns the requests of a path of two steps: one that claims all of the anchor, and another claim."""
    return difference(claim, anchor, size) if call == "refuse" else intersection(claim, anchor, size)


def _of_kind(kind: str, call: str, text: str) -> str:
    size = AS_BLOCK if kind == "as" else IP_BLOCK
    family = Family.V4 if kind == "v4" else None
    read = asn.read_block if kind == "as" else lambda block: ip.read_block(block, family)
    if call == "text" and kind in ("as", "v4", "v6"):
        return _text(_as_text(text) if kind == "as" else _ip_text(text))
    left, right = ([read(part).bounds() for part in texts.elements(side)] for side in texts.cut(text, "|"))
    rooms = _of_blocks(call, len(left), len(right), size)
    if rooms is not None:
        return _text(rooms)
    one, other = sets.merged(left), sets.merged(right)
    if call == "octets":
        write = resources.written_as_blocks if kind == "as" else resources.written_ip_set
        return _text(octets(len(write(one))))
    if call in ("refuse", "trim"):
        return _text(_path(call, one, other, size))
    if call in OF_TWO:
        return _text(OF_TWO[call](one, other, size))
    answers = {"all": shared(at_once(1, size)), "copy": []}
    return _text(answers[call]) if call in answers else "no such call"


def _of_small(call: str, text: str) -> str:
    numbers = [asn.read_asn(part) for part in texts.elements(text)]
    return _text(at_once(len(numbers if call == "list" else set(numbers)), ASN))


def of_sets(operands: str) -> str:
    """Returns the answer of `rows_sets` to `requests KIND CALL A|B`."""
    kind, rest = texts.cut(operands, " ")
    call, text = texts.cut(rest, " ")
    return _of_small(call, text) if kind == "small" else _of_kind(kind, call, text)


# ---- octets


def _listed(found: Any) -> Iterator[int]:
    """Yields how many runs each set has in what was read."""
    if isinstance(found, list):
        yield len(found)
    elif isinstance(found, tuple):
        for claim in found:
            yield from _listed(claim)


def of_octets(operands: str) -> str:
    """Returns the answer of `rows_values` to `requests take READER HEX` and `requests written READER HEX`."""
    call, rest = texts.cut(operands, " ")
    kind, text = texts.cut(rest, " ")
    reader = OCTETS[kind]
    found, _ = reader.read(octets_of(text) or b"", True)
    if call == "written":
        return _text(octets(len(reader.write(found))))
    size = AS_BLOCK if kind.startswith("as") else IP_BLOCK
    return _text([room for count in _listed(found) for room in shared(grown(count, size))])


# ---- VRPs, and sets of three kinds


def _vrps(text: str) -> list[Vrp]:
    elements = (texts.trim(element) for element in text.split("|"))
    pairs = (texts.cut(element, " ") for element in elements if element)
    return [Vrp(prefixes.read_max_len(prefix), asn.read_asn(number)) for prefix, number in pairs]


def _sent(vrps: list[Vrp]) -> set[Vrp]:
    """Returns the VRPs as routers get them, each with its maximum length."""
    return {
        Vrp(prefixes.MaxLenPrefix(it.prefix.prefix, it.prefix.resolved()), it.asn) for it in vrps
    }


def _table(count: int) -> Rooms:
    """Returns the requests of a table: a packed VRP and a link for each VRP, and the starts.

    There is a start for the VRPs of each family with the same first bits, and one for the end. The number of these bits
    leaves two or three VRPs to a start. It is at least one and at most twenty.
    """
    bits = max(1, min(20, (count // 4).bit_length()))
    return at_once(count, PACKED_VRP) + at_once(count, LINK) + at_once(2 * 2**bits + 1, START)


def _changes(text: str) -> Rooms:
    one, other = (_sent(_vrps(side)) for side in texts.cut(text, ";"))
    return grown(len(other - one), VRP) + grown(len(one - other), VRP)


def _triple(call: str, text: str) -> Rooms:
    left, right = texts.cut(text, "|")
    sizes = (AS_BLOCK, IP_BLOCK, IP_BLOCK)
    if call == "lists":
        numbers, *addresses = left.split(";")
        return _as_text(numbers) + [room for side in addresses for room in _ip_text(side)]
    rooms = []
    for one, other, size in zip(read_triple(left), read_triple(right), sizes, strict=True):
        rooms += OF_TWO[call](one, other, size)
        rooms += difference(other, one, size) if call == "difference" else []
    return rooms


def of_claims(operands: str) -> str:
    """Returns the answer of `rows_claims` to `requests CALL ..`."""
    call, text = texts.cut(operands, " ")
    given: dict[str, Callable[[str], Rooms]] = {
        "table": lambda text: _table(len(_vrps(text))),
        "many": lambda text: _table(texts.number(text, 2**32 - 1)),
        "vrps": lambda text: at_once(len(_vrps(text)), VRP),
        "changes": _changes,
    }
    return _text(given[call](text) if call in given else _triple(call, text))
