"""Bindings to Pigyelund, a formally verified library for RPKI resource sets and route origin validation.

The package is for programs that check the resources of certificates (RFC 3779), operate on sets of resources, or
validate route origins (RFC 6811). It calls the proved shared library through ctypes. The package itself is tested, not
proved. The guide is `docs/PYTHON.md`: installation, pandas, Dask, threads. It is in the repository, and in the folder
/usr/share/doc/python3-pigyelund of the Debian package. A wheel does not have it.

Route origins: a `Table` of VRPs (validated ROA payloads) validates routes. `Table.read` makes one of a validator's
file, and `read_vrps` lists the VRPs of such a file. `read_unexpired_vrps` leaves out those that have expired.
`apply_slurm` applies the local exceptions of a SLURM file (RFC 8416). `read_routes` lists the routes of lines.

    >>> from pigyelund import Route, Table, Vrp
    >>> table = Table([Vrp("10.0.0.0/8-16 AS64496")])
    >>> table.validate(Route("10.0.0.0/16 AS64496"))
    <Validity.VALID: 0>

Certificates: `Resources` is a set of resources, with the operators of a set. `Resources.verify` compares the claim of a
certificate with its issuer's set.

    >>> from pigyelund import Extensions, OverclaimedError, Resources
    >>> issuer = Resources.from_text(v4="10.0.0.0/8")
    >>> claim = Resources.from_text(v4="10.0.0.0/8, 12.0.0.0/8")
    >>> claim <= issuer
    False
    >>> try:
    ...     issuer.verify(claim.der())
    ... except OverclaimedError as refused:
    ...     print(refused, refused.excess)
    overclaimed IPv4 resources 12.0.0.0/8

If the library returns an error, the call raises a subclass of `PigyelundError`. An argument of a wrong type raises
`TypeError`. A number that is out of its range and a closed table raise `ValueError`. `status_text` returns the text of
a status. The calls treat a prefix with host bits, such as 10.0.0.1/8, in different ways:

- `Vrp` and `Route` raise `ValueError`.
- A call that reads a file or lines raises a subclass of `ValueError`: `VrpFileError`, `SlurmFileError` or
  `RouteTextError`.
- A call that takes a buffer of structs raises `OriginError`, which is no `ValueError`.
- `arrays.validate` returns 255 (`NO_VALIDITY`) for the route. So does `Table.validate_octets` with `allow_malformed`.
- `Resources.from_text` ignores these bits.

`pigyelund.arrays` has the calls for arrays of numpy: `vrps`, `apply_slurm`, `routes`, `validate` and `covering`.
`help("pigyelund.arrays")` describes them. This module needs numpy, and the rest of the package does not.

The first call loads the shared library, and `load` says which one. `pigyelund.__version__` is the version of the
package, and `library_version` returns that of the library. The type hints pass `mypy --strict`.
"""

from ._bindings import NO_VALIDITY, Status
from ._library import library_version, load, status_text
from .errors import (
    ChangeError,
    DerError,
    InheritedError,
    NoExtensionError,
    OriginError,
    OutOfMemoryError,
    OverclaimedError,
    PigyelundError,
    QueryError,
    RouteTextError,
    SetTextError,
    SlurmFileError,
    VrpFileError,
)
from .resources import Certificate, Encoding, Extensions, Mode, Resources
from .table import (
    Changes,
    Reason,
    Table,
    UnexpiredVrps,
    Validity,
    answer,
    apply_slurm,
    apply_slurm_octets,
    read_octets,
    read_route_octets,
    read_routes,
    read_unexpired_vrps,
    read_vrps,
    validate_routes,
)
from .values import Asn, Covering, Family, Mismatch, Route, Vrp

__all__ = [
    "NO_VALIDITY",
    "Asn",
    "Certificate",
    "ChangeError",
    "Changes",
    "Covering",
    "DerError",
    "Encoding",
    "Extensions",
    "Family",
    "InheritedError",
    "Mismatch",
    "Mode",
    "NoExtensionError",
    "OriginError",
    "OutOfMemoryError",
    "OverclaimedError",
    "PigyelundError",
    "QueryError",
    "Reason",
    "Resources",
    "Route",
    "RouteTextError",
    "SetTextError",
    "SlurmFileError",
    "Status",
    "Table",
    "UnexpiredVrps",
    "Validity",
    "Vrp",
    "VrpFileError",
    "answer",
    "apply_slurm",
    "apply_slurm_octets",
    "library_version",
    "load",
    "read_octets",
    "read_route_octets",
    "read_routes",
    "read_unexpired_vrps",
    "read_vrps",
    "status_text",
    "validate_routes",
]

__version__ = "0.2.0"
