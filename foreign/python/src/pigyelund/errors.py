"""The exceptions of the package: one class for each kind of error. Each has a status of `pigyelund.h` and its text."""

from typing import TYPE_CHECKING

from ._bindings import Status
from ._library import status_text

if TYPE_CHECKING:
    from .resources import Resources
    from .values import Vrp

KIND = ~0xFF & ~Status.SECOND
SLURM_LISTS = "prefixFilters", "bgpsecFilters", "prefixAssertions", "bgpsecAssertions"


class PigyelundError(Exception):
    """The base class of the exceptions of this package. Catch the subclasses to distinguish the reasons.

    An attribute that does not apply to an error is None.

    Attributes:
        status: The status of `pigyelund.h`: a member of `Status`, or a sum as that class describes it.
        excess: In an `OverclaimedError` the overclaimed resources.
        verified: For `Resources.verify_path` the number of verified certificates. This is also the index, from 0, of
            the refused certificate. It is None in an `OutOfMemoryError`.
        index: In an `OriginError`, also a `ChangeError`, the index, from 0, of the refused VRP or route.
        line: In a `VrpFileError` the number, from 1, of the first invalid line or item, or 0 if the file is invalid as
            a whole. In a `RouteTextError` of `read_routes` the number, from 1, of the first invalid line.
        item: In a `ChangeError` the refused `Vrp`. In any other `OriginError` the octets of the malformed struct. In a
            `RouteTextError` of `Vrp` or `Route` the text. In a `SlurmFileError` the number, from 1, of the invalid item
            or member, or 0 for any other fault.
    """

    def __init__(
        self,
        status: int,
        excess: "Resources | None" = None,
        verified: int | None = None,
        index: int | None = None,
        item: "Vrp | bytes | str | int | None" = None,
        line: int | None = None,
    ) -> None:
        super().__init__(status, excess, verified, index, item, line)
        self.status = status
        self.excess = excess
        self.verified = verified
        self.index = index
        self.item = item
        self.line = line

    def __str__(self) -> str:
        text = status_text(self.status)
        if self.verified is not None:
            return f"after {self.verified} certificates: {text}"
        if self.line:
            return f"at {'item' if self.status & KIND == Status.BAD_ITEM else 'line'} {self.line}: {text}"
        if isinstance(self.item, str):
            return f"{text}: {self.item!r}"
        if self.index is None:
            return text
        item = self.item.hex() if isinstance(self.item, bytes) else str(self.item)
        return f"at index {self.index}: {text}" if self.item is None else f"at index {self.index}: {text}: {item}"


class OutOfMemoryError(PigyelundError, MemoryError):
    """Out of memory. This error says nothing about the input."""


class InheritedError(PigyelundError):
    """The extensions of `Resources.read` have `inherit` in place of a list of resources."""


class OverclaimedError(PigyelundError):
    """The certificate claims resources that its issuer does not have (RFC 6487, 7.2).

    The attribute `excess` has the overclaimed resources of one kind. This is the first kind that is overclaimed, in the
    order AS numbers, IPv4, IPv6.
    """

    excess: "Resources"


class NoExtensionError(PigyelundError):
    """The certificate has neither extension (RFC 6487, 4.8.10 and 4.8.11)."""


class DerError(PigyelundError):
    """The value of an extension is not valid DER of resources (RFC 3779, 2.2.3 and 3.2.3).

    With `Encoding.STRICT` the error is also raised for an encoding that is not canonical. In this case `fault` is 14.
    """

    @property
    def fault(self) -> int:
        """The number of the first error found, 1 to 14. The text of the exception names this error.

        `pigyelund.h` lists the numbers at `PIGY_FAULT`.
        """
        return self.status & 0xFF


class OriginError(PigyelundError):
    """A struct of a buffer is a malformed VRP or route: its family, its prefix, or its maximum length is invalid.

    A `Vrp` or a `Route` is never malformed. The attribute `index` is the index, from 0, of the first malformed struct,
    and `item` has its octets. `ChangeError` is a subclass of this class. Catch `ChangeError` first.
    """


class ChangeError(OriginError):
    """A change does not apply to the table (RFC 8210, 12, codes 6 and 7).

    The attribute `status` says which rule the change breaks:

    - `Status.UNKNOWN_WITHDRAWAL`: A VRP in `withdrawn` is not in the table, or is listed twice. This is checked first.
    - `Status.DUPLICATE_ANNOUNCEMENT`: A VRP in `announced` is in the table and is not withdrawn, or is listed twice.

    The attribute `index` is the index, from 0, of the first VRP in `withdrawn` or in `announced` that breaks this rule.
    The attribute `item` is this VRP.
    """


class VrpFileError(PigyelundError, ValueError):
    """A validator's file of VRPs is invalid.

    The attribute `line` is the number, from 1, of the first invalid line of a CSV file. For a JSON file `line` is the
    number, from 1, of the first invalid item of the array `roas`. If the file is invalid as a whole, for example
    because it has no VRP, `line` is 0.
    """

    line: int


class SlurmFileError(PigyelundError, ValueError):
    """A SLURM file (RFC 8416) is invalid.

    Attributes:
        item: The number, from 1, of the first invalid item in its list, or of a member that RFC 8416 does not define in
            its object. It is 0 for any other fault of the file.
    """

    item: int

    @property
    def list(self) -> str | None:
        """The list that has the invalid item, such as `prefixFilters`. None if the fault is not in an item."""
        is_item = self.status & KIND == Status.BAD_SLURM_ITEM
        return SLURM_LISTS[self.status >> 6 & 3] if is_item else None

    def __str__(self) -> str:
        place = "" if not self.item else f"at {'item' if self.list else 'member'} {self.item}: "
        return place + status_text(self.status)


class RouteTextError(PigyelundError, ValueError):
    """A text is not that of a `Vrp` or of a `Route`, or a line with a route is invalid.

    The attribute `item` is the text. For `read_routes` it is None, and `line` is the number, from 1, of the first
    invalid line.
    """


class SetTextError(PigyelundError, ValueError):
    """A text is not an AS number, or not a list of AS numbers, or of addresses of one family.

    The text of the exception says why, and does not name the element.
    """


class QueryError(PigyelundError, ValueError):
    """The line that is passed to `answer` is invalid."""


ERROR_CLASSES: dict[int, type[PigyelundError]] = {
    Status.INHERITED: InheritedError,
    Status.OVERCLAIM: OverclaimedError,
    Status.ABSENT: NoExtensionError,
    Status.BAD_AS: DerError,
    Status.BAD_IP: DerError,
    Status.BAD_CHANGE: ChangeError,
    Status.BAD_TEXT: SetTextError,
    Status.BAD_QUERY: QueryError,
}


def error_for_status(
    status: int,
    excess: "Resources | None" = None,
    verified: int | None = None,
    index: int | None = None,
    item: "Vrp | bytes | int | None" = None,
    line: int | None = None,
) -> PigyelundError:
    """Returns the exception for the status of a call that failed.

    An `OutOfMemoryError` has neither `verified` nor `index`: it says nothing about the input. Only an `OriginError` and
    a `SlurmFileError` have the `item`, and only a `VrpFileError` and a `RouteTextError` the `line`.
    """
    kind = status & KIND
    if kind == Status.MEMORY:
        return OutOfMemoryError(status)
    if kind in (Status.BAD_LINE, Status.BAD_ITEM, Status.BAD_FILE):
        return VrpFileError(status, line=line or 0)
    if kind == Status.BAD_ROUTE:
        return RouteTextError(status, line=line)
    if kind in (Status.BAD_SLURM, Status.BAD_SLURM_ITEM):
        return SlurmFileError(status, item=item or 0)
    found = ERROR_CLASSES.get(kind, PigyelundError if index is None else OriginError)
    return found(status, excess, verified, index, item if issubclass(found, OriginError) else None)
