"""Tables of VRPs, which validate routes (RFC 6811)."""

import ctypes
import re
from collections.abc import Callable, Iterable, Iterator
from ctypes import POINTER, byref, c_size_t, c_uint8, c_void_p
from dataclasses import dataclass
from enum import Enum
from struct import iter_unpack
from typing import TYPE_CHECKING, Any, Literal, NoReturn, SupportsIndex, TypeAlias, TypeVar, overload

from . import _bindings
from ._bindings import NO_VALIDITY, Status
from ._library import Handle, library, listed, texted
from .errors import KIND, error_for_status
from .resources import check
from .values import Covering, Mismatch, Packed, Route, Vrp, integer_of

if TYPE_CHECKING:
    from _typeshed import ReadableBuffer

Vrps: TypeAlias = "Iterable[Vrp] | ReadableBuffer"
Routes: TypeAlias = "Iterable[Route] | ReadableBuffer"
Array: TypeAlias = "ctypes.Array[Any]"
Answer = TypeVar("Answer")
SIZE = 24  # octets of a VRP or of a route
PART = 1 << 12  # routes of one call of C if some may be malformed
LAST_TIME = 2**64 - 1


class Validity(Enum):
    """The validity of a route (RFC 6811, 2). It is no integer, and `bool` of it raises `TypeError`: compare it.

        >>> Validity.VALID, str(Validity.NOT_FOUND), Validity.VALID == 0
        (<Validity.VALID: 0>, 'not-found', False)

    The values are the numbers of RFC 8097, 2, which `Table.validate_octets` returns.

    Attributes:
        VALID: At least one VRP matches the route.
        NOT_FOUND: No VRP covers the route.
        INVALID: At least one VRP covers the route, and none matches it.
    """

    VALID = _bindings.VALID
    NOT_FOUND = _bindings.NOT_FOUND
    INVALID = _bindings.INVALID

    def __bool__(self) -> NoReturn:
        raise TypeError(f"{self!r} is neither true nor false; compare it, for example with Validity.VALID")

    def __str__(self) -> str:
        return self.name.lower().replace("_", "-")


class Reason(Enum):
    """The reason why a route is invalid. `str` returns the word of the program `origins`: `invalid-as`.

    Attributes:
        INVALID_AS: No VRP that covers the route has its AS, or the route's AS is AS 0.
        INVALID_LENGTH: A VRP that covers the route has its AS. The route is longer than the VRP allows.
    """

    INVALID_AS = _bindings.INVALID_AS
    INVALID_LENGTH = _bindings.INVALID_LENGTH

    def __str__(self) -> str:
        return self.name.lower().replace("_", "-")


@dataclass(frozen=True)
class Changes:
    """What differs between two tables.

    Attributes:
        announced: The VRPs of the second table that the first does not have.
        withdrawn: The VRPs of the first table that the second does not have.
    """

    announced: list[Vrp]
    withdrawn: list[Vrp]


@dataclass(frozen=True)
class UnexpiredVrps:
    """The VRPs of a validator's file that have not expired.

    Attributes:
        vrps: The VRPs that have not expired, in the order of the file. The list may be empty.
        expired: The number of VRPs that have expired.
    """

    vrps: list[Vrp]
    expired: int


def plain_format(kind: type[ctypes.Structure] | None, text: str = "") -> str:
    """Returns the format of a buffer of structs, without byte orders that are the processor's, and without padding."""
    text = memoryview((kind * 1)()).format if kind else text
    return re.sub(r":\d*x*\}$", ":}", re.sub("[<=@]", "", text))


def array_of(kind: type[ctypes.Structure], of: type[Packed], given: object) -> Array:
    """Copies structs into a new array.

    Args:
        kind: The type of the structs.
        of: The class of the items of an iterable.
        given: An iterable of `of`, or an object with the buffer protocol that has C structs, one directly after the
            other.

    Raises:
        TypeError: `given` is neither an iterable nor a buffer, or its elements are of another type. A buffer whose
            elements are structs has to have the fields of `kind`.
        ValueError: The length of the buffer in octets is no multiple of the size of a struct.
    """
    try:
        view = memoryview(given)  # type: ignore[arg-type]
    except TypeError:
        if not isinstance(given, Iterable) or isinstance(given, str):
            raise TypeError(f"{given!r} is neither an iterable of {of.__name__} nor a buffer") from None
        octets = b"".join(octets_of(of, given))
        return (kind * (len(octets) // SIZE)).from_buffer_copy(octets)
    named, kinds = "{" in view.format, re.sub(":[^:]*:", "", view.format)  # names of fields are between colons
    is_other = named and (view.itemsize != SIZE or plain_format(None, view.format) != plain_format(kind))
    if is_other or "O" in kinds:
        raise TypeError(f"a buffer of elements {view.format!r}, expected {plain_format(kind)!r} of {SIZE} octets")
    count, rest = divmod(view.nbytes, SIZE)
    if rest:
        raise ValueError(f"{view.nbytes} octets of elements of {SIZE}")
    return (kind * count).from_buffer_copy(view if view.c_contiguous else view.tobytes())


def octets_of(of: type[Packed], items: Iterable[object]) -> Iterator[bytes]:
    """Yields the struct of each item.

    Raises:
        TypeError: An item is of another type. The text has its index.
    """
    for at, item in enumerate(items):
        if not isinstance(item, of):
            raise TypeError(f"at index {at}: {item!r} is no {of.__name__}")
        yield item._octets


def item_at(array: Array, at: int) -> bytes | None:
    """Returns the octets of an item of an array, or None if no item has this index."""
    return bytes(array[at]) if at < len(array) else None


def items_from(array: Array, at: int) -> Any:
    """Returns a pointer to an item of an array."""
    return ctypes.cast(byref(array, at * ctypes.sizeof(array._type_)), POINTER(array._type_))


def vrps_of(octets: bytes) -> list[Vrp]:
    """Returns the VRPs of structs that the library wrote."""
    return [Vrp._of_struct(octets[at : at + SIZE]) for at in range(0, len(octets), SIZE)]


def refuse_no_file(file: object) -> None:
    """Raises TypeError for a file that is no `bytes`."""
    if not isinstance(file, bytes):
        kind = type(file).__name__
        raise TypeError(f"file: a {kind} is no bytes; for the name of a file pass Path(name).read_bytes()")


def read_octets(file: bytes) -> bytes:
    """Reads the VRPs of a validator's file into structs, as `read_vrps` does into objects.

    Returns:
        The structs `pigy_vrp` of `pigyelund.h`, 24 octets each. `Table` takes them.

    Raises:
        VrpFileError, TypeError, OutOfMemoryError: As in `read_vrps`.
    """
    refuse_no_file(file)
    line, length = c_size_t(), bytes.__len__(file)
    status, octets = listed(
        _bindings.Vrp,
        lambda out, capacity, count: int(
            library().pigy_vrps_read(file, length, out, capacity, count, byref(line))
        ),
        length // SIZE + 1,
    )
    if status != Status.OK:
        raise error_for_status(status, line=line.value)
    return octets


def read_vrps(file: bytes) -> list[Vrp]:
    """Reads the VRPs of a validator's file, as rpki-client, FORT and Routinator write it.

        >>> read_vrps(b"ASN,IP Prefix,Max Length\\nAS64496,10.0.0.0/8,16\\n")
        [Vrp('10.0.0.0/8-16 AS64496')]

    The first character that is not white space decides how the file is read. If it is `{`, the file is JSON, with the
    VRPs in the array `roas`. If it is `[`, the file is invalid. Any other file is CSV. `pigy_vrps_read` in
    `pigyelund.h` says what is valid. An invalid line or item makes the whole file invalid. The list has expired VRPs
    too, which `read_unexpired_vrps` leaves out. `Table.read` makes a table without a list.

    Args:
        file: The octets of the whole file.

    Returns:
        The VRPs in the order of the file. A VRP that the file repeats is repeated in the list.

    Raises:
        VrpFileError: The file is invalid. The attribute `line` is the number, from 1, of the first invalid line or
            item, or 0 if the file is invalid as a whole.
        TypeError: `file` is no `bytes`, for example the name of the file.
        OutOfMemoryError: The library is out of memory.
    """
    return vrps_of(read_octets(file))


def unexpired_octets(file: bytes, time: SupportsIndex) -> tuple[bytes, int]:
    """Reads the unexpired VRPs of a file into structs. Returns them, and the number of expired VRPs.

    Raises:
        VrpFileError, TypeError, ValueError, OutOfMemoryError: As in `read_unexpired_vrps`.
    """
    refuse_no_file(file)
    seconds = integer_of(time)
    if seconds is None:
        raise TypeError(f"time: {time!r} is no integer; for the current time pass int(time.time())")
    if not 0 <= seconds <= LAST_TIME:
        raise ValueError(f"time: {seconds} is not from 0 to {LAST_TIME}")
    line, expired, length = c_size_t(), c_size_t(), bytes.__len__(file)
    status, octets = listed(
        _bindings.Vrp,
        lambda out, capacity, count: int(
            library().pigy_vrps_read_unexpired(
                file, length, seconds, out, capacity, count, byref(expired), byref(line)
            )
        ),
        length // SIZE + 1,
    )
    if status != Status.OK:
        raise error_for_status(status, line=line.value)
    return octets, expired.value


def read_unexpired_vrps(file: bytes, time: SupportsIndex) -> UnexpiredVrps:
    """Reads the VRPs of a validator's file that have not expired. `read_vrps` describes the file.

        >>> lines = b"ASN,IP Prefix,Max Length,Expires\\nAS64496,10.0.0.0/8,16,1732600000\\nAS64497,10.0.0.0/8,16,\\n"
        >>> read_unexpired_vrps(lines, 1732600001)
        UnexpiredVrps(vrps=[Vrp('10.0.0.0/8-16 AS64497')], expired=1)

    A VRP has expired if its expiry is before `time`. In JSON the expiry is the member `expires` of the item, a number.
    In CSV it is the field in the column `Expires`. A VRP without this member or field, or with an empty field, does not
    expire. `Table.read_unexpired` makes a table without a list.

    Args:
        file: The octets of the whole file.
        time: The time in seconds since 1970-01-01 UTC, for example `int(time.time())`.

    Raises:
        VrpFileError: As in `read_vrps`, or an expiry is invalid.
        TypeError: `file` is no `bytes`, or `time` is no integer.
        ValueError: `time` is negative, or is above 2^64 - 1.
        OutOfMemoryError: The library is out of memory.
    """
    octets, expired = unexpired_octets(file, time)
    return UnexpiredVrps(vrps_of(octets), expired)


def apply_slurm_octets(file: bytes, vrps: Vrps) -> bytes:
    """Applies a SLURM file to VRPs, as `apply_slurm` does, and makes no object for each VRP.

    Returns:
        The structs `pigy_vrp` of `pigyelund.h`, 24 octets each. `Table` takes them.

    Raises:
        SlurmFileError, OriginError, TypeError, ValueError, OutOfMemoryError: As in `apply_slurm`.
    """
    refuse_no_file(file)
    given, index, number, length = array_of(_bindings.Vrp, Vrp, vrps), c_size_t(), c_size_t(), bytes.__len__(file)
    status, octets = listed(
        _bindings.Vrp,
        lambda out, capacity, count: int(
            library().pigy_slurm_apply(
                file, length, given, len(given), out, capacity, count, byref(index), byref(number)
            )
        ),
        len(given) + length // SIZE,  # an assertion has at least 25 octets
    )
    if status & KIND in (Status.BAD_SLURM, Status.BAD_SLURM_ITEM):
        raise error_for_status(status, item=number.value)
    refuse_failed(status, index.value, given)
    return octets


def apply_slurm(file: bytes, vrps: Vrps) -> list[Vrp]:
    """Applies a SLURM file (RFC 8416), the local exceptions of a network, to VRPs.

        >>> file = b'''{ "slurmVersion": 1,
        ...   "validationOutputFilters": { "prefixFilters": [{"asn": 64496}], "bgpsecFilters": [] },
        ...   "locallyAddedAssertions": {
        ...     "prefixAssertions": [{"asn": 64497, "prefix": "10.0.0.0/8"}], "bgpsecAssertions": [] } }'''
        >>> apply_slurm(file, [Vrp("192.0.2.0/24 AS64496"), Vrp("192.0.2.0/24 AS64511")])
        [Vrp('192.0.2.0/24-24 AS64511'), Vrp('10.0.0.0/8-8 AS64497')]

    Apply one file to the VRPs of all caches together. If you have several files, join them into one only if they do not
    overlap (RFC 8416, 4.2). Router keys have no effect on VRPs. The library compares each VRP with each filter. The
    time therefore grows with the product of both numbers.

    Args:
        file: The octets of the whole file, which is JSON. Each member is checked, also those of router keys.
        vrps: The VRPs: an iterable of `Vrp`, or a buffer of C structs, such as an array of `pigyelund.arrays`.

    Returns:
        The VRPs that no filter matches, in their order, and then those of `prefixAssertions`, in the order of the file.
        The list may be empty. A VRP that is repeated is repeated in the list.

    Raises:
        OriginError: A struct of a buffer is malformed. The attribute `index` is the index, from 0, of the first one.
            This is checked before the file.
        SlurmFileError: The file is invalid. The attributes `list` and `item` say which item is.
        TypeError: `file` is no `bytes`, `vrps` is neither an iterable nor a buffer, or an item of it is no `Vrp`.
        ValueError: The length of the buffer is no multiple of 24 octets.
        OutOfMemoryError: The library is out of memory.
    """
    return vrps_of(apply_slurm_octets(file, vrps))


def read_route_octets(lines: bytes) -> bytes:
    """Reads the routes of lines into structs, as `read_routes` does into objects.

    Returns:
        The structs `pigy_route` of `pigyelund.h`, 24 octets each. `Table.validate_octets` takes them.

    Raises:
        RouteTextError, TypeError, OutOfMemoryError: As in `read_routes`.
    """
    if not isinstance(lines, bytes):
        kind = type(lines).__name__
        raise TypeError(f"lines: a {kind} is no bytes; for the name of a file pass Path(name).read_bytes()")
    line, length = c_size_t(), bytes.__len__(lines)
    status, octets = listed(
        _bindings.Route,
        lambda out, capacity, count: int(
            library().pigy_routes_read(lines, length, out, capacity, count, byref(line))
        ),
        length // 16 + 1,
    )
    if status != Status.OK:
        raise error_for_status(status, line=line.value)
    return octets


def read_routes(lines: bytes) -> list[Route]:
    """Reads the routes of lines, as the program `origins` does: a prefix and an AS number, or a line of `bgpdump -m`.

        >>> read_routes(b"10.0.0.0/8 AS64496\\n2001:db8::/32 64497\\n")
        [Route('10.0.0.0/8 AS64496'), Route('2001:db8::/32 AS64497')]

    A line of `bgpdump -m` that announces no route is skipped. If the path is empty, or ends in an AS_SET or in a
    confederation segment, the AS is AS 0, which no VRP matches. `pigy_routes_read` in `pigyelund.h` has the details.

    Args:
        lines: The octets of all lines. The last line may lack its end.

    Returns:
        The routes in the order of the lines.

    Raises:
        RouteTextError: A line is invalid. The attribute `line` is the number, from 1, of the first one.
        TypeError: `lines` is no `bytes`, for example the name of a file.
        OutOfMemoryError: The library is out of memory.
    """
    octets = read_route_octets(lines)
    return [Route._of_struct(octets[at : at + SIZE]) for at in range(0, len(octets), SIZE)]


class Table:
    """A table of VRPs (validated ROA payloads) for route origin validation (RFC 6811, 2).

        >>> with Table([Vrp("10.0.0.0/8-16 AS64496")]) as table:
        ...     table.validate(Route("10.0.0.0/16 AS64496"))
        <Validity.VALID: 0>

    A table can be queried any number of times. It never changes: `with_changes` makes the next table from withdrawn and
    announced VRPs (RFC 8210, 5.3). `len` is the number of VRPs, `vrp in table` says whether it has one, and iteration
    lists all.

    Memory. `close` frees the table. The end of a `with` does the same, and so does dropping the last reference. Calls
    on a closed table raise `ValueError`. A table cannot be copied or pickled, so make it in each process.

    Threads. Any number of threads may query a table at once. ctypes releases Python's global lock during a call.

    Arguments. Pass VRPs as an iterable of `Vrp`, and routes as an iterable of `Route`. You may also pass a buffer of C
    structs, one directly after the other. A buffer is any object with the buffer protocol, such as `bytes`, a
    `memoryview` or an `array.array`. A numpy array has the dtype `VRP` or `ROUTE` of `pigyelund.arrays`. Each struct
    has 24 octets, which `bytes(vrp)` and `bytes(route)` return, and which the module `struct` makes:

        struct.pack("16sIBBBx", address, asn, family, len, max_len)    a VRP
        struct.pack("16sIBBxx", address, asn, family, len)             a route

    The address is in network byte order, and an IPv4 address is its first four octets. The AS is in the byte order of
    the processor. The family is the number of a `Family`: 4 or 6. Lengths are in bits.

    Memory errors. These calls may raise `OutOfMemoryError`: `Table`, `read`, `read_unexpired`, `with_changes`,
    `changes`, `covering`, `covering_octets`, `octets`, `in` and iteration. This error says nothing about the input. The
    library takes no memory for the other calls, such as `validate_octets`. Python takes memory for the arguments and
    the result of each call. If this memory is missing, Python raises `MemoryError`.

    Args:
        vrps: The VRPs, in any order. The table copies them, and keeps duplicates.

    Raises:
        OriginError: A struct of a buffer is malformed. The attribute `index` is the index, from 0, of the first one.
        TypeError: `vrps` is neither an iterable nor a buffer, or an item of it is no `Vrp`.
        ValueError: The length of the buffer is no multiple of 24 octets.
        ImportError: As `load` raises it.
    """

    _owner: Handle | None = None

    def __init__(self, vrps: Vrps = ()) -> None:
        array, at = array_of(_bindings.Vrp, Vrp, vrps), c_size_t()
        owner = Handle("pigy_table_free")
        status = library().pigy_table_new(array, len(array), byref(owner.stored), byref(at))
        if status != Status.OK:
            raise error_for_status(status, index=at.value, item=item_at(array, at.value))
        self._owner = owner

    @classmethod
    def _of(cls, owner: Handle) -> "Table":
        """Returns the table that owns a handle."""
        table = cls.__new__(cls)
        table._owner = owner
        return table

    @classmethod
    def read(cls, file: bytes) -> "Table":
        """Makes a table of the VRPs of a validator's file, as `read_vrps` reads it. It makes no object for each VRP.

        Raises:
            VrpFileError, TypeError: As in `read_vrps`.
        """
        return cls(read_octets(file))

    @classmethod
    def read_unexpired(cls, file: bytes, time: SupportsIndex) -> "Table":
        """Makes a table of the VRPs of a validator's file that have not expired, as `read_unexpired_vrps` reads them.

        If all VRPs have expired, the table is empty.

        Raises:
            VrpFileError, TypeError, ValueError: As in `read_unexpired_vrps`.
        """
        return cls(unexpired_octets(file, time)[0])

    def _status(self, call: Callable[[c_void_p], Any]) -> int:
        """Makes a call with the handle, as `_with_handle` does. Returns the status."""
        return int(self._with_handle(call))

    def _with_handle(self, call: Callable[[c_void_p], Answer]) -> Answer:
        """Makes a call with the handle. The table is not freed before the call returns.

        Args:
            call: The call. It takes the handle.

        Returns:
            The result of the call.

        Raises:
            ValueError: The table is closed.
        """
        owner = self._owner
        if owner is None:
            raise ValueError("the table is closed")
        try:
            return call(owner.stored)
        finally:
            del owner  # else the traceback of an error keeps the table

    def close(self) -> None:
        """Closes the table. A second call does nothing.

        This call returns at once. If other threads have calls of the table, its memory is freed when the last of these
        calls has returned.
        """
        self._owner = None

    def __enter__(self) -> "Table":
        self._with_handle(bool)
        return self

    def __exit__(self, *_: object) -> None:
        self.close()

    def _refuse_copy(self, *_: object) -> NoReturn:
        """Raises `TypeError`."""
        raise TypeError("a Table can't be copied or pickled; table.with_changes() makes another one of the same VRPs")

    __copy__ = __deepcopy__ = __reduce__ = __reduce_ex__ = _refuse_copy

    def __repr__(self) -> str:
        return "<Table, closed>" if self._owner is None else f"<Table of {len(self)} VRPs>"

    def validate(self, route: Route) -> Validity:
        """Validates one route (RFC 6811, 2).

        Args:
            route: The route.

        Returns:
            The validity of the route.

        Raises:
            TypeError: `route` is no `Route`.
            ValueError: The table is closed.
        """
        return self._validated(route)[0]

    def reason(self, route: Route) -> Reason | None:
        """Returns why a route is invalid, or None if it is not invalid.

            >>> with Table([Vrp("10.0.0.0/8-16 AS64496")]) as table:
            ...     str(table.reason(Route("10.0.0.0/24 AS64496")))
            'invalid-length'

        Raises:
            TypeError, ValueError: As in `validate`.
        """
        return self._validated(route)[1]

    def _validated(self, route: Route) -> tuple[Validity, Reason | None]:
        """Returns the validity of a route, and the reason if it is invalid."""
        asked, validity, reason = one_route(route), c_uint8(), c_uint8()
        status = self._status(
            lambda handle: library().pigy_table_validate(handle, byref(asked), byref(validity), byref(reason))
        )
        if status != Status.OK:
            raise error_for_status(status)
        return Validity(validity.value), Reason(reason.value) if reason.value else None

    @overload
    def validate_routes(self, routes: Routes, *, reasons: Literal[False] = False) -> list[Validity]: ...

    @overload
    def validate_routes(
        self, routes: Routes, *, reasons: Literal[True]
    ) -> tuple[list[Validity], list[Reason | None]]: ...

    def validate_routes(
        self, routes: Routes, *, reasons: bool = False
    ) -> list[Validity] | tuple[list[Validity], list[Reason | None]]:
        """Validates routes (RFC 6811, 2).

            >>> with Table([Vrp("10.0.0.0/8-16 AS64496")]) as table:
            ...     validities, reasons = table.validate_routes([Route("10.0.0.0/24 AS64496")], reasons=True)
            >>> validities, reasons
            ([<Validity.INVALID: 2>], [<Reason.INVALID_LENGTH: 2>])

        Args:
            routes: The routes: an iterable of `Route`, or a buffer of C structs.
            reasons: Whether to return the reasons too.

        Returns:
            The validity of each route, in the order of `routes`. With `reasons` a tuple of two lists: the validities,
            and for each route the `Reason` why it is invalid, or None if it is not invalid.

        Raises:
            OriginError: A struct of a buffer is malformed. The attribute `index` is the index, from 0, of the first
                one.
            TypeError: `routes` is neither an iterable nor a buffer, or an item of it is no `Route`.
            ValueError: The table is closed, or the length of the buffer is no multiple of 24 octets.
        """
        if not reasons:
            return [_VALIDITIES[octet] for octet in self.validate_octets(routes)]
        validities, found = self.validate_octets(routes, reasons=True)
        return [_VALIDITIES[octet] for octet in validities], [_REASONS.get(octet) for octet in found]

    @overload
    def validate_octets(
        self, routes: Routes, *, allow_malformed: bool = False, reasons: Literal[False] = False
    ) -> bytes: ...

    @overload
    def validate_octets(
        self, routes: Routes, *, allow_malformed: bool = False, reasons: Literal[True]
    ) -> tuple[bytes, bytes]: ...

    def validate_octets(
        self, routes: Routes, *, allow_malformed: bool = False, reasons: bool = False
    ) -> bytes | tuple[bytes, bytes]:
        """Validates routes like `validate_routes`, and returns one octet for each route. Use it for millions of routes.

        The call copies your buffer. During the call the copies take up to 60 octets for each route.

        Args:
            routes: The routes: a buffer of C structs, or an iterable of `Route`.
            allow_malformed: Whether a malformed struct gets an octet of its own, `NO_VALIDITY`, in place of an
                `OriginError`.
            reasons: Whether to return the reasons too.

        Returns:
            The numbers of `Validity`, one octet each: 0 for VALID, 1 for NOT_FOUND, 2 for INVALID. Compare them with
            `Validity.VALID.value`. With `allow_malformed` also 255 (`NO_VALIDITY`) for a malformed struct, which has no
            validity. With `reasons` a tuple of two `bytes`: these numbers, and the numbers of `Reason`, one octet each.
            These are 1 for INVALID_AS and 2 for INVALID_LENGTH. They are 0 for a malformed struct and for a route that
            is not invalid.

        Raises:
            OriginError: A struct is malformed, and `allow_malformed` is False. The attribute `index` is the index, from
                0, of the first one.
            TypeError: `routes` is neither an iterable nor a buffer, or an item of it is no `Route`.
            ValueError: The table is closed, or the length of the buffer is no multiple of 24 octets.
        """
        return validated(
            lambda words: self._status(lambda handle: library().pigy_table_validate_routes(handle, *words)),
            routes,
            allow_malformed,
            reasons,
        )

    def revalidate(self, following: "Table", routes: Routes) -> list[int]:
        """Returns the indices of the routes whose validity differs between this table and another one (RFC 6811, 4).

            >>> with Table() as old, Table([Vrp("10.0.0.0/8 AS64496")]) as new:
            ...     old.revalidate(new, [Route("10.0.0.0/8 AS64496")])
            [0]

        Args:
            following: The other table, for example one that `with_changes` made.
            routes: The routes: an iterable of `Route`, or a buffer of C structs.

        Returns:
            The indices in `routes`, from 0, ascending. The reason why a route is invalid is not compared.

        Raises:
            OriginError: A struct is malformed. The attribute `index` is the index, from 0, of the first one.
            TypeError: `following` is no table, `routes` is neither an iterable nor a buffer, or an item of it is no
                `Route`.
            ValueError: A table is closed, or the length of the buffer is no multiple of 24 octets.
        """
        return [at for at, octet in enumerate(self.revalidate_octets(following, routes)) if octet]

    def revalidate_octets(self, following: "Table", routes: Routes) -> bytes:
        """Compares validities like `revalidate`. Returns one octet for each route. Use it for millions of routes.

        Args:
            following: The other table.
            routes: The routes: a buffer of C structs, or an iterable of `Route`.

        Returns:
            One octet for each route: 1 if its validity differs, 0 if both tables give it the same validity.

        Raises:
            OriginError, TypeError, ValueError: As in `revalidate`.
        """
        check("following", following, Table)
        asked = array_of(_bindings.Route, Route, routes)
        out, length, at = (c_uint8 * len(asked))(), c_size_t(), c_size_t()
        words = asked, len(asked), out, len(out), byref(length), byref(at)
        status = self._status(
            lambda old: following._status(lambda new: library().pigy_table_revalidate(old, new, *words))
        )
        refuse_failed(status, at.value, asked)
        return bytes(out)

    def covering(self, route: Route) -> list[Covering]:
        """Returns the VRPs that cover a route. They explain its validity: it is VALID if one of them is a match.

        Args:
            route: The route.

        Returns:
            The VRPs, the longest prefix first. VRPs of the same prefix come by ascending AS number. VRPs of the same
            prefix and AS come by descending maximum length. The iterator of the table has another order.

        Raises:
            TypeError: `route` is no `Route`.
            ValueError: The table is closed.
        """
        asked = one_route(route)
        status, octets = self._with_handle(
            lambda handle: listed(
                _bindings.Covering, lambda *out: int(library().pigy_table_covering(handle, byref(asked), *out)), 8
            )
        )
        if status != Status.OK:
            raise error_for_status(status)
        items = iter_unpack(_COVERING_FORMAT, octets)
        return [Covering(Vrp._of_struct(vrp), Mismatch(mismatch)) for vrp, mismatch in items]

    def covering_octets(self, routes: Routes, *, allow_malformed: bool = False) -> tuple[list[int], bytes]:
        """Returns the VRPs that cover each of several routes, as structs. `arrays.covering` makes arrays of them.

            >>> with Table([Vrp("10.0.0.0/8-16 AS64496")]) as table:
            ...     counts, octets = table.covering_octets([Route("10.0.0.0/8 AS1"), Route("12.0.0.0/8 AS1")])
            >>> counts, len(octets)
            ([1, 0], 28)

        Args:
            routes: The routes: a buffer of C structs, or an iterable of `Route`.
            allow_malformed: Whether a malformed struct has no VRPs, in place of an `OriginError`.

        Returns:
            The number of VRPs for each route, and the structs `pigy_covering` of `pigyelund.h`, 28 octets each: a
            struct `pigy_vrp`, and the number of a `Mismatch` in 4 octets. The VRPs of a route are in the order of
            `covering`.

        Raises:
            OriginError: A struct is malformed, and `allow_malformed` is False. The attribute `index` is the index, from
                0, of the first one.
            TypeError: `routes` is neither an iterable nor a buffer, or an item of it is no `Route`.
            ValueError: The table is closed, or the length of the buffer is no multiple of 24 octets.
        """
        asked = array_of(_bindings.Route, Route, routes)
        return self._with_handle(lambda handle: covering_each(handle, asked, allow_malformed))

    def with_changes(self, *, announced: Vrps = (), withdrawn: Vrps = ()) -> "Table":
        """Returns a new table: this one without `withdrawn`, and then with `announced` (RFC 8210, 5.3).

        This table stays as it is. A VRP that is both withdrawn and announced is in the new table once.

        Args:
            announced: VRPs to add. Each must be listed once, and must not be in the table unless it is also withdrawn.
            withdrawn: VRPs to remove, with all their copies. Each must be listed once, and must be in the table.

        Returns:
            The new table. Close it too.

        Raises:
            OriginError: A struct of a buffer is malformed. The call checks `announced` first, and then `withdrawn`. The
                attribute `index` is an index of `withdrawn` if the status is at least `Status.SECOND`, and otherwise of
                `announced`.
            ChangeError: All VRPs are well-formed, and one breaks the rules above. The call checks `withdrawn` first,
                and then `announced`. The attribute `index` is an index of `withdrawn` if the status is
                `Status.UNKNOWN_WITHDRAWAL`, and otherwise of `announced`. Catch this class before `OriginError`.
            TypeError: An argument is neither an iterable nor a buffer, or an item of it is no `Vrp`.
            ValueError: The table is closed, or the length of a buffer is no multiple of 24 octets.
        """
        added, removed = (array_of(_bindings.Vrp, Vrp, it) for it in (announced, withdrawn))
        owner, at = Handle("pigy_table_free"), c_size_t()
        words = added, len(added), removed, len(removed), byref(owner.stored), byref(at)
        status = self._status(lambda handle: library().pigy_table_with_changes(handle, *words))
        if status != Status.OK:
            is_withdrawn = status & Status.SECOND or status == Status.UNKNOWN_WITHDRAWAL
            octets = item_at(removed if is_withdrawn else added, at.value)
            is_change = octets is not None and status & KIND == Status.BAD_CHANGE
            item = Vrp._of_struct(octets) if octets is not None and is_change else octets
            raise error_for_status(status, index=at.value, item=item)
        return self._of(owner)

    def changes(self, following: "Table") -> Changes:
        """Returns the VRPs in which this table and another one differ (RFC 8210, 5.6). Copies of a VRP count as one.

            >>> with Table([Vrp("10.0.0.0/8 AS1")]) as old, Table([Vrp("10.0.0.0/8 AS2")]) as new:
            ...     found = old.changes(new)
            >>> found
            Changes(announced=[Vrp('10.0.0.0/8-8 AS2')], withdrawn=[Vrp('10.0.0.0/8-8 AS1')])

        `with_changes` makes the other table of this one and these changes, if no table has copies.

        Args:
            following: The other table.

        Returns:
            The changes, each VRP once. IPv4 comes before IPv6. Each family is in the order of the last addresses of the
            prefixes, and prefixes with the same last address come by descending length. VRPs of the same prefix come by
            descending maximum length, and then by ascending AS number. The iterator of a table has another order.

        Raises:
            TypeError: `following` is no table.
            ValueError: A table is closed.
        """
        check("following", following, Table)
        return self._with_handle(lambda old: following._with_handle(lambda new: changes_between(old, new)))

    def octets(self) -> bytes:
        """Returns all VRPs as structs `pigy_vrp` of `pigyelund.h`, 24 octets each, in the order of the iterator.

        Raises:
            ValueError: The table is closed.
        """
        status, octets = self._with_handle(
            lambda handle: listed(
                _bindings.Vrp, lambda *out: int(library().pigy_table_vrps(handle, *out)), length_of(handle)
            )
        )
        if status != Status.OK:
            raise error_for_status(status)
        return octets

    def __len__(self) -> int:
        """Returns the number of VRPs, duplicates included. Raises `ValueError` if the table is closed."""
        return self._with_handle(length_of)

    def __bool__(self) -> bool:
        """Returns True, also for a table without VRPs. Raises `ValueError` if the table is closed."""
        return self._with_handle(bool)

    def __iter__(self) -> Iterator[Vrp]:
        """Returns an iterator over all VRPs, duplicates included.

        IPv4 comes before IPv6. Each family is in the order of the addresses, the shorter prefix first. VRPs of the same
        prefix come by descending AS number. VRPs of the same prefix and AS come by ascending maximum length. `covering`
        has another order.

        Raises:
            ValueError: The table is closed.
        """
        return iter(vrps_of(self.octets()))

    def __contains__(self, vrp: Vrp) -> bool:
        """Returns whether the table has a VRP, by a lookup.

        Raises:
            TypeError: `vrp` is no `Vrp`.
            ValueError: The table is closed.
        """
        check("vrp", vrp, Vrp)
        return any(it.vrp == vrp for it in self.covering(Route(vrp.prefix, vrp.asn)))


_VALIDITIES = {it.value: it for it in Validity}
_REASONS = {it.value: it for it in Reason}
_COVERING_FORMAT = f"@{SIZE}sI"


def length_of(handle: c_void_p) -> int:
    """Returns the number of VRPs of the table that has a handle."""
    length = c_size_t()
    library().pigy_table_len(handle, byref(length))
    return length.value


def covering_each(handle: c_void_p, asked: Array, allow_malformed: bool) -> tuple[list[int], bytes]:
    """Returns the VRPs that cover each route, as `Table.covering_octets` describes.

    Args:
        handle: The handle of the table.
        asked: The routes.
        allow_malformed: As in `Table.covering_octets`.
    """
    call, length, held = library().pigy_table_covering, c_size_t(), (_bindings.Covering * 64)()
    counts: list[int] = []
    octets = bytearray()
    for at, route in enumerate(asked):
        status = call(handle, byref(route), held, len(held), byref(length))
        if status == Status.TOO_SMALL:
            held = (_bindings.Covering * length.value)()
            status = call(handle, byref(route), held, len(held), byref(length))
        if status & KIND != Status.BAD_ARGUMENT or not allow_malformed:
            refuse_failed(status, at, asked)
        counts.append(length.value)
        octets += ctypes.string_at(held, length.value * ctypes.sizeof(_bindings.Covering))
    return counts, bytes(octets)


def changes_between(old: c_void_p, new: c_void_p) -> Changes:
    """Returns the changes from the table with one handle to the table with another.

    Raises:
        OutOfMemoryError: Out of memory.
    """
    # No more VRPs are announced than the new table has, and no more are withdrawn than the old one has.
    announced, withdrawn = ((_bindings.Vrp * length_of(handle))() for handle in (new, old))
    counts = c_size_t(), c_size_t()
    words = announced, len(announced), byref(counts[0]), withdrawn, len(withdrawn), byref(counts[1])
    status = int(library().pigy_table_changes(old, new, *words))
    if status != Status.OK:
        raise error_for_status(status)
    octets = [ctypes.string_at(it, count.value * SIZE) for it, count in zip((announced, withdrawn), counts)]
    return Changes(announced=vrps_of(octets[0]), withdrawn=vrps_of(octets[1]))


def one_route(route: object) -> _bindings.Route:
    """Returns the struct of one route. Raises `TypeError` if it is no `Route`."""
    if not isinstance(route, Route):
        raise TypeError(f"{route!r} is no Route")
    return _bindings.Route.from_buffer_copy(route._octets)


def refuse_failed(status: int, at: int, asked: Array) -> None:
    """Raises a `PigyelundError` if a call with routes failed.

    Args:
        status: The status of the call.
        at: The index of the route that the call refused, if it refused one.
        asked: The routes.
    """
    if status != Status.OK:
        raise error_for_status(status, index=at, item=item_at(asked, at))


def validate_parts(ask: Callable[[int, int], tuple[int, int]], count: int, out: Array) -> None:
    """Validates routes in parts, and gives each malformed one the octet `NO_VALIDITY`.

    Args:
        ask: Validates routes from an index on, and returns the status and the index of the first malformed one.
        count: The number of all routes.
        out: The octets of all routes.
    """
    at = 0
    while at < count:
        size = min(count - at, PART)
        status, bad = ask(at, size)
        if status & KIND == Status.BAD_ARGUMENT:
            size = bad + 1
            out[at + bad] = NO_VALIDITY
            status = ask(at, bad)[0] if bad else Status.OK
        if status != Status.OK:
            raise error_for_status(status)
        at += size


def validated(
    call: Callable[[tuple[Any, ...]], int], routes: Routes, allow_malformed: bool, reasons: bool
) -> bytes | tuple[bytes, bytes]:
    """Validates routes by a call of the library, as `Table.validate_octets` describes.

    Args:
        call: The call. It takes the arguments after the table or tables, and returns the status.
        routes, allow_malformed, reasons: As in `Table.validate_octets`.
    """
    asked = array_of(_bindings.Route, Route, routes)
    out = (c_uint8 * len(asked)).from_buffer_copy(bytes([NO_VALIDITY]) * len(asked))
    found = (c_uint8 * len(asked))() if reasons else None

    def ask(at: int, count: int) -> tuple[int, int]:
        """Validates some routes. Returns the status, and the index of the first malformed one in these routes."""
        length, index = c_size_t(), c_size_t()
        buffer = (items_from(found, at), count) if found is not None else (None, 0)
        words = items_from(asked, at), count, items_from(out, at), count, *buffer, byref(length), byref(index)
        return call(words), index.value

    if allow_malformed:
        validate_parts(ask, len(asked), out)
    else:
        refuse_failed(*ask(0, len(asked)), asked)
    return bytes(out) if found is None else (bytes(out), bytes(found))


@overload
def validate_routes(tables: Iterable[Table], routes: Routes, *, reasons: Literal[False] = False) -> list[Validity]: ...


@overload
def validate_routes(
    tables: Iterable[Table], routes: Routes, *, reasons: Literal[True]
) -> tuple[list[Validity], list[Reason | None]]: ...


def validate_routes(
    tables: Iterable[Table], routes: Routes, *, reasons: bool = False
) -> list[Validity] | tuple[list[Validity], list[Reason | None]]:
    """Validates routes by several tables at once (RFC 6811, 2), for example by a table for each cache.

        >>> with Table([Vrp("10.0.0.0/8 AS64496")]) as one, Table([Vrp("10.0.0.0/8 AS64497")]) as other:
        ...     validate_routes([one, other], [Route("10.0.0.0/8 AS64497"), Route("10.0.0.0/8 AS64498")])
        [<Validity.VALID: 0>, <Validity.INVALID: 2>]

    The validity of a route is that by the VRPs of all tables together. So a route is valid if it is valid by at least
    one table. Otherwise it is invalid if it is invalid by at least one. Otherwise it is not found.

    Args:
        tables: The tables. Without a table each route is NOT_FOUND.
        routes: The routes: an iterable of `Route`, or a buffer of C structs.
        reasons: Whether to return the reasons too, as `Table.validate_routes` returns them.

    Raises:
        OriginError: A struct of a buffer is malformed. The attribute `index` is the index, from 0, of the first one.
        TypeError: An item of `tables` is no table, `routes` is neither an iterable nor a buffer, or an item of it is no
            `Route`.
        ValueError: A table is closed, or the length of the buffer is no multiple of 24 octets.
    """
    given = [*tables]
    for it in given:
        check("tables", it, Table)
    # The list keeps the handles until the call returns, also if another thread closes a table.
    owners = [it._owner for it in given]
    handles = (c_void_p * len(owners))(*(it.stored.value for it in owners if it is not None))
    if None in owners:
        raise ValueError("a table is closed")

    def call(words: tuple[Any, ...]) -> int:
        return int(library().pigy_tables_validate_routes(handles, len(owners), *words))

    found = validated(call, routes, False, reasons)
    if isinstance(found, bytes):
        return [_VALIDITIES[octet] for octet in found]
    return [_VALIDITIES[octet] for octet in found[0]], [_REASONS.get(octet) for octet in found[1]]


def answer(line: str) -> str:
    """Returns the answer of the program `respath` to a line.

        >>> answer("norm as 64496, 64497")
        'AS64496-AS64497'

    The manual page respath(1) has all commands.

    Args:
        line: The line, without its line end.

    Returns:
        The answer, without a line end.

    Raises:
        QueryError: The line is invalid.
        TypeError: The line is no `str`.
        UnicodeEncodeError: The line has a surrogate, which UTF-8 cannot encode.
        OutOfMemoryError: The library is out of memory.
    """
    check("line", line, str)
    octets = line.encode("utf-8")
    status, text = texted(lambda *out: int(library().pigy_answer(octets, len(octets), *out)), 256 + 2 * len(octets))
    if status != Status.OK:
        raise error_for_status(status)
    return text
