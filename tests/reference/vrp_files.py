"""Files of VRPs in JSON (RFC 8259) and in comma separated values."""

import json
import re
from collections.abc import Callable, Iterator
from typing import NamedTuple

from . import asn, prefixes, texts
from .faults import Fault
from .prefixes import Vrp

_DEEPEST = 128
_UNKNOWN_HEADER = "line 1: neither a known header nor a VRP (AS number, prefix, maximum length)"
_NAMES = {
    "asn": ("ASN",),
    "prefix": ("IP Prefix", "Prefix"),
    "max_length": ("Max Length", "Max prefix length"),
}
MARK = b"\xef\xbb\xbf"
_OPENS_OBJECT = re.compile(rb"[\t\n\f\r ]*\{")
_OPENS_ARRAY = re.compile(rb"[\t\n\f\r ]*\[")


class Number(str):
    """A number of JSON, as it is written."""


class Object(list):
    """The members of an object, in their order."""

    def values(self, name: str) -> list:
        """Returns the values of the members of this name."""
        return [value for key, value in self if key == name]


def _refuse_word(word: str) -> None:
    raise ValueError(word)


def _depth(value: object) -> int:
    deepest, left = 0, [(value, 1)]
    while left:
        inner, depth = left.pop()
        if isinstance(inner, Object):
            inner = [value for _, value in inner]
        elif not isinstance(inner, list):
            continue
        deepest = max(deepest, depth)
        left += [(each, depth + 1) for each in inner]
    return deepest


def _is_text(value: object) -> bool:
    """Returns whether no text in a value has half of a surrogate pair."""
    left = [value]
    while left:
        inner = left.pop()
        if isinstance(inner, str):
            try:
                inner.encode()
            except UnicodeEncodeError:
                return False
        elif isinstance(inner, (list, tuple)):
            left += inner
    return True


def object_of(octets: bytes) -> Object:
    """Reads a JSON text. Returns the members of its object."""
    try:
        value = json.loads(
            octets.decode("utf-8"),
            object_pairs_hook=Object,
            parse_int=Number,
            parse_float=Number,
            parse_constant=_refuse_word,
        )
    except (ValueError, RecursionError):
        raise Fault("not a JSON object") from None
    if not isinstance(value, Object) or _depth(value) > _DEEPEST or not _is_text(value):
        raise Fault("not a JSON object")
    return value


def only(item: object, name: str, kinds: tuple[type, ...]) -> object:
    """Returns the value of the only member of this name. The value has to be of one of the kinds."""
    found = item.values(name) if isinstance(item, Object) else []
    if not found:
        raise Fault(f"{name}: missing")
    if len(found) > 1:
        raise Fault(f"{name}: repeated")
    if type(found[0]) not in kinds:
        raise Fault(f"{name}: wrong kind of value")
    return found[0]


def _vrp(number: str, prefix: str, length: str) -> Vrp:
    origin = asn.read_asn(number)
    try:
        found = prefixes.read_prefix(prefix)
    except Fault as fault:
        raise Fault(f"invalid prefix: {fault}") from None
    return Vrp(prefixes.with_max_len(found, length), origin)


def _vrp_of_row(number: str, prefix: str, length: str) -> Vrp:
    """Returns the VRP of a row. An empty maximum length is the length of the prefix (RFC 9582, 4.3.2.2)."""
    return _vrp(number, prefix, length or prefix.rpartition("/")[2])


def _is_read(read: Callable[[str], object], text: str) -> bool:
    try:
        read(text)
    except Fault:
        return False
    return True


def _of_json(octets: bytes) -> Iterator[Vrp]:
    for place, item in enumerate(only(object_of(octets), "roas", (list,)), 1):
        try:
            number = only(item, "asn", (Number, str))
            prefix = only(item, "prefix", (str,))
            length = only(item, "maxLength", (Number,))
            yield _vrp(number, prefix, length)
        except Fault as fault:
            raise Fault(f"item {place}: {fault}") from None


def _field(field: str) -> str:
    inner = texts.trim(field)
    return inner[1:-1] if len(inner) > 1 and inner[0] == inner[-1] == '"' else inner


def _columns(fields: list[str]) -> list[int] | None:
    """Returns the indexes of the columns with the three names, or None if a name is missing."""
    found = [next((at for at, field in enumerate(fields) if field in names), None) for names in _NAMES.values()]
    return None if None in found else found


class _Header(NamedTuple):
    """The indexes of the three columns, the number of columns, and whether a line has named them."""

    columns: list[int]
    count: int
    is_named: bool

    def wanted(self, fields: list[str]) -> list[str]:
        """Returns the fields of a row in the three columns."""
        if self.is_named and len(fields) > self.count:
            raise Fault(f"too many fields: {len(fields)}, but the header names {self.count}")
        needed = max(self.columns) + 1
        if len(fields) < needed:
            raise Fault(f"too few fields: {len(fields)}, but at least {needed} are needed")
        return [fields[column] for column in self.columns]


def _of_lines(octets: bytes) -> Iterator[Vrp]:
    lines = octets.split(b"\n")
    header = _Header([0, 1, 2], 3, False)
    for number, line in enumerate(lines[:-1] if lines[-1] == b"" else lines, 1):
        try:
            text = line.decode("utf-8")
        except UnicodeDecodeError:
            raise Fault(f"line {number}: not UTF-8") from None
        fields = [_field(field) for field in text.split(",")]
        named = _columns(fields)
        if not texts.trim(text):
            continue
        if named is not None:
            header = _Header(named, len(fields), True)
            continue
        is_vrp = _is_read(asn.read_asn, fields[0]) or _is_read(prefixes.read_prefix, (fields + [""])[1])
        if number == 1 and not is_vrp:
            raise Fault(_UNKNOWN_HEADER)
        try:
            yield _vrp_of_row(*header.wanted(fields))
        except Fault as fault:
            raise Fault(f"line {number}: {fault}") from None


def read(file: bytes) -> list[Vrp]:
    """Returns the VRPs of a file. A byte order mark may be at its front (RFC 3629, 6)."""
    octets = file.removeprefix(MARK)
    if _OPENS_ARRAY.match(octets):
        raise Fault("a JSON array, where an object with the member roas is expected")
    found = list(_of_json(octets) if _OPENS_OBJECT.match(octets) else _of_lines(octets))
    if not found:
        raise Fault("no VRP")
    return found


def answer(file: bytes) -> str:
    """Returns the VRPs of a file as a list."""
    return ", ".join(f"{vrp.prefix.text()} AS{vrp.asn}" for vrp in read(file))
