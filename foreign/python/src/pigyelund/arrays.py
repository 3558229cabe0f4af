"""Arrays of numpy with VRPs and routes. Only this module of the package needs numpy.

    >>> from pigyelund import Table
    >>> from pigyelund.arrays import routes, validate, vrps
    >>> table = Table(vrps(b"ASN,IP Prefix,Max Length\\nAS64496,10.0.0.0/8,16\\n"))
    >>> asked = routes(["10.0.0.0/16", "10.0.0.0/24", "10.0.0.1/8"], [64496, 64496, 64496])
    >>> validate(table, asked).tolist()
    [0, 2, 255]
    >>> validities, reasons = validate(table, asked, reasons=True)
    >>> reasons.tolist()
    [0, 2, 0]

`VRP` and `ROUTE` are the dtypes of the structs `pigy_vrp` and `pigy_route` of `pigyelund.h`. Their fields are `address`
(16 octets in network byte order; an IPv4 address is the first four), `asn`, `family` (4 or 6), `len`, and for a VRP
`max_len`. `Table` and its calls take arrays of these dtypes. `COVERING` is the dtype of the rows of `covering`.
"""

import socket
from collections.abc import Callable, Iterable
from functools import lru_cache
from importlib import import_module
from typing import Any, SupportsIndex, TypeAlias

from . import _bindings
from .table import Table, apply_slurm_octets, read_octets
from .values import LAST_AS, Asn, integer_of, number_of_text
from .values import ROUTE as PACKED

# mypy reads the package also where numpy is not installed.
numpy: Any = import_module("numpy")
Array: TypeAlias = Any
VRP: Any = numpy.dtype(_bindings.Vrp)
ROUTE: Any = numpy.dtype(_bindings.Route)
COVERING: Any = numpy.dtype(_bindings.Covering)


def vrps(source: bytes | Table) -> Array:
    """Returns the VRPs of a validator's file, in its order, or those of a table, as an array of `VRP`.

    Raises:
        VrpFileError, TypeError: As `read_vrps` raises them for a file.
        ValueError: The table is closed.
        OutOfMemoryError: The library is out of memory.
    """
    octets = source.octets() if isinstance(source, Table) else read_octets(source)
    return numpy.frombuffer(octets, VRP).copy()


def apply_slurm(file: bytes, given: Array) -> Array:
    """Applies a SLURM file to an array of `VRP`, as the call of the package with the same name. Returns another array.

        >>> file = b'''{"slurmVersion": 1,
        ...   "validationOutputFilters": {"prefixFilters": [{"asn": 64496}], "bgpsecFilters": []},
        ...   "locallyAddedAssertions": {"prefixAssertions": [], "bgpsecAssertions": []}}'''
        >>> apply_slurm(file, vrps(b"AS64496,10.0.0.0/8,8\\nAS64497,10.0.0.0/8,8\\n"))["asn"].tolist()
        [64497]

    Raises:
        OriginError: A row is malformed. The attribute `index` is the index, from 0, of the first one.
        SlurmFileError: The file is invalid. The attributes `list` and `item` say which item is.
        TypeError: `file` is no `bytes`, or `given` is no array of `VRP`.
        OutOfMemoryError: The library is out of memory.
    """
    check_dtype("given", given, VRP)
    return numpy.frombuffer(apply_slurm_octets(file, given), VRP).copy()


def routes(prefixes: Iterable[str], asns: Iterable[Asn | str | SupportsIndex | float | None]) -> Array:
    """Returns routes as an array of `ROUTE`.

        >>> routes(["10.0.0.0/16"] * 5, [64496, "64496", "AS64496", 64496.0, "AS64496x"])["asn"].tolist()
        [64496, 64496, 64496, 64496, 0]

    Each cell counts on its own: an invalid cell makes its row malformed, and no other row. If a cell is no address and
    length, or no AS number, the octets of its row are 0. No call says which cell of a malformed row is invalid. Call
    `Route(prefix, asn)` with both cells: the text of the exception says why.

    Args:
        prefixes: The prefixes, such as `10.0.0.0/8`. Any other text is invalid, and so is a text with a space. The
            module `socket` reads them, since the library has no call that reads the text of a prefix alone.
        asns: The AS numbers, from 0 to 4294967295. The types of the cells may differ. These are valid:

            - an integer of Python or numpy, and no `bool`
            - an `Asn`
            - a text that `Asn` reads, such as `64496` or `AS64496`
            - a `float` or a `numpy.float64` without a fraction, as pandas makes them of a column with an empty cell. A
              shorter float is invalid, since it does not have each AS number.

            Any other cell is invalid, such as an empty one (None, NaN, `pandas.NA`). A text in asdot notation, such as
            `1.0`, is invalid too. Pass `dtype=str` to pandas' `read_csv`, which otherwise makes the float 1.0 of it.

    Raises:
        ValueError: `prefixes` and `asns` have different lengths.
        OutOfMemoryError: The library is out of memory when it reads a text.
    """
    of_text = lru_cache(maxsize=None)(number_in_text)  # an AS originates many routes
    rows = [row(prefix, asn, of_text) for prefix, asn in zip(prefixes, asns, strict=True)]
    return numpy.array(rows, "V24").view(ROUTE) if rows else numpy.empty(0, ROUTE)


def validate(table: Table, asked: Array, *, reasons: bool = False) -> Array:
    """Validates routes, and returns an octet for each: the number of a `Validity`, or `NO_VALIDITY` (255).

    Compare these numbers with `Validity.VALID.value`, which is 0. A malformed row has no validity, so its octet is
    `NO_VALIDITY`.

    Args:
        table: The table.
        asked: An array of `ROUTE`.
        reasons: Whether to return the reasons too.

    Returns:
        An array of `uint8`. With `reasons` a tuple of two such arrays: the validities, and for each route the number of
        the `Reason` why it is invalid. This number is 0 for a malformed row and for a route that is not invalid. The
        arrays are read-only; `copy` makes one that you can change.

    Raises:
        TypeError: `asked` is no array of `ROUTE`.
        ValueError: The table is closed.
    """
    check_dtype("asked", asked, ROUTE)
    if not reasons:
        return numpy.frombuffer(table.validate_octets(asked, allow_malformed=True), "u1")
    found = table.validate_octets(asked, allow_malformed=True, reasons=True)
    return tuple(numpy.frombuffer(it, "u1") for it in found)


def covering(table: Table, asked: Array) -> tuple[Array, Array]:
    """Returns the VRPs that cover each route, with the reasons why they do not match it.

        >>> table = Table(vrps(b"AS64496,10.0.0.0/8,16\\nAS64497,10.0.0.0/8,8\\n"))
        >>> indices, found = covering(table, routes(["12.0.0.0/8", "10.0.0.0/16"], [64496, 64496]))
        >>> indices.tolist(), found["vrp"]["asn"].tolist(), found["mismatch"].tolist()
        ([1, 1], [64496, 64497], [0, 3])

    The result has a row for each VRP of each route. A malformed route has none.

    Args:
        table: The table.
        asked: An array of `ROUTE`.

    Returns:
        Two arrays with one row for each VRP. The first one has the index of the route in `asked`, ascending. The second
        one has the dtype `COVERING`, with the fields `vrp` (a `VRP`) and `mismatch` (the number of a `Mismatch`). The
        VRPs of a route are in the order of `Table.covering`.

    Raises:
        TypeError: `asked` is no array of `ROUTE`.
        ValueError: The table is closed.
        OutOfMemoryError: The library is out of memory.
    """
    check_dtype("asked", asked, ROUTE)
    counts, octets = table.covering_octets(asked, allow_malformed=True)
    return numpy.repeat(numpy.arange(len(counts)), counts), numpy.frombuffer(octets, COVERING).copy()


def check_dtype(name: str, given: object, dtype: Any) -> None:
    """Raises `TypeError` if an argument is no array of a dtype."""
    if not isinstance(given, numpy.ndarray) or given.dtype != dtype:
        names, of = {VRP: "VRP", ROUTE: "ROUTE"}, getattr(given, "dtype", None)
        kind = f"a {type(given).__name__}" if of is None else f"an array of {names.get(of, of)}"
        raise TypeError(f"{name}: {kind} is no array of {names[dtype]}")


def row(prefix: object, asn: object, of_text: Callable[[str], int | None]) -> bytes:
    """Returns the struct of a route, or 24 octets of 0 if the prefix or the AS number is invalid."""
    address, _, length = str(prefix).partition("/")
    family = socket.AF_INET6 if ":" in address else socket.AF_INET
    is_length = len(length) < 4 and length.isascii() and length.isdigit() and int(length) < 256
    originator = integer_of(asn)
    if originator is None:
        originator = number_in(asn, of_text)
    if originator is None or not 0 <= originator <= LAST_AS or not is_length:
        return bytes(PACKED.size)
    try:
        octets = socket.inet_pton(family, address)
    except (OSError, ValueError):
        return bytes(PACKED.size)
    number = _bindings.IPV6 if len(octets) == 16 else _bindings.IPV4
    return PACKED.pack(octets, originator, number, int(length))


def number_in(asn: object, of_text: Callable[[str], int | None]) -> int | None:
    """Returns the number of an AS cell that is no integer, or None if the cell is invalid."""
    if isinstance(asn, str):
        return of_text(asn)
    if isinstance(asn, Asn):
        return int(asn)
    return int(asn) if isinstance(asn, float) and asn.is_integer() else None


def number_in_text(text: str) -> int | None:
    """Returns the number of a text, or None if the text is no AS number."""
    try:
        return number_of_text(text)
    except ValueError:
        return None
