"""The numbers, structs and calls of foreign/pigyelund.h. foreign/bindings.py makes this file."""

from ctypes import POINTER, Array, Structure, c_char_p, c_size_t, c_uint8, c_uint32, c_uint64, c_void_p
from enum import IntEnum

VERSION_NUMBER = 2000
VRP_TEXT_MAX = 62
ROUTE_TEXT_MAX = 58
HAS_AS = 1
HAS_IP = 2
HAS_BOTH = 3
IPV4 = 4
IPV6 = 6
ASN = 5
LENIENT = 16
STRICT = 17
REFUSE = 32
TRIM = 33
VALID = 0
NOT_FOUND = 1
INVALID = 2
NO_VALIDITY = 0xff
INVALID_AS = 1
INVALID_LENGTH = 2
OTHER_AS = 1
TOO_LONG = 2


class Status(IntEnum):
    """The statuses of a call. A number n, or SECOND, is added to some of them, as in `pigyelund.h`.

    Attributes:
        OK: Success.
        TOO_SMALL: No exception has this status.
        MEMORY: Out of memory.
        BAD_ARGUMENT: An argument is invalid. The number of the reason is added: one of the next nine.
        BAD_ENCODING: No exception has this status.
        BAD_MODE: No exception has this status.
        BAD_PRESENT: No exception has this status.
        BAD_FAMILY: The family is neither Family.V4 nor Family.V6.
        BAD_KIND: No exception has this status.
        BAD_PREFIX: The prefix is longer than its family allows, or has host bits set.
        BAD_MAX_LEN: The maximum length is below the prefix length, or is above 32 (IPv4) or 128 (IPv6).
        OUTSIDE: No exception has this status.
        NO_HANDLE: No exception has this status.
        BAD_AS: The AS identifiers are invalid. The number of the first error is added.
        BAD_IP: The IP address blocks are invalid. The number of the first error is added.
        INHERITED: A set has "inherit". Only a certificate may have it.
        ABSENT: The certificate has neither extension.
        OVERCLAIM: The certificate claims more than its issuer has. A kind of resources is added.
        OVERCLAIM_V4: Overclaimed IPv4 addresses.
        OVERCLAIM_AS: Overclaimed AS numbers.
        OVERCLAIM_V6: Overclaimed IPv6 addresses.
        BAD_CHANGE: A change is impossible for the table. Its code of RFC 8210, 12 is added.
        UNKNOWN_WITHDRAWAL: A withdrawn VRP is not in the table, or is listed twice.
        DUPLICATE_ANNOUNCEMENT: An announced VRP is in the table and not withdrawn, or is listed twice.
        BAD_LINE: A line of CSV, or the text of a VRP, is invalid. The number of its first error is added.
        BAD_ITEM: An item of JSON is invalid. The number of its first error is added.
        BAD_FILE: A file as a whole is invalid. The number of the error is added.
        BAD_TEXT: The text of a set is invalid. The number of the first error is added.
        BAD_QUERY: The line that is passed to answer is invalid.
        BAD_SLURM: A SLURM file is invalid, except for its items. The number of the error is added.
        BAD_ROUTE: A line with a route, or the text of a route, is invalid. The number of its first error is added.
        SECOND: SECOND is added to BAD_AS + n, BAD_IP + n, INHERITED, BAD_FAMILY, BAD_PREFIX and BAD_MAX_LEN, and to no
            other status. For these six it says which argument has the error.
        BAD_SLURM_ITEM: An item of a SLURM file is invalid. 64 times the number of its list is added, and the number of
            its first error.
    """

    OK = 0x0
    TOO_SMALL = 0x100
    MEMORY = 0x200
    BAD_ARGUMENT = 0x400
    BAD_ENCODING = 0x401
    BAD_MODE = 0x402
    BAD_PRESENT = 0x403
    BAD_FAMILY = 0x404
    BAD_KIND = 0x405
    BAD_PREFIX = 0x406
    BAD_MAX_LEN = 0x407
    OUTSIDE = 0x408
    NO_HANDLE = 0x409
    BAD_AS = 0x800
    BAD_IP = 0x1000
    INHERITED = 0x2000
    ABSENT = 0x4000
    OVERCLAIM = 0x8000
    OVERCLAIM_V4 = 0x8004
    OVERCLAIM_AS = 0x8005
    OVERCLAIM_V6 = 0x8006
    BAD_CHANGE = 0x10000
    UNKNOWN_WITHDRAWAL = 0x10006
    DUPLICATE_ANNOUNCEMENT = 0x10007
    BAD_LINE = 0x20000
    BAD_ITEM = 0x40000
    BAD_FILE = 0x80000
    BAD_TEXT = 0x100000
    BAD_QUERY = 0x200000
    BAD_SLURM = 0x400000
    BAD_ROUTE = 0x800000
    SECOND = 0x1000000
    BAD_SLURM_ITEM = 0x2000000


class Set(Structure):
    """The struct `pigy_set`."""

    _fields_ = [
        ("asn", c_void_p),
        ("as_len", c_size_t),
        ("ip", c_void_p),
        ("ip_len", c_size_t),
    ]
    asn: int | None
    as_len: int
    ip: int | None
    ip_len: int


class Buffers(Structure):
    """The struct `pigy_buffers`."""

    _fields_ = [
        ("asn", c_void_p),
        ("as_capacity", c_size_t),
        ("as_len", c_size_t),
        ("ip", c_void_p),
        ("ip_capacity", c_size_t),
        ("ip_len", c_size_t),
    ]
    asn: int | None
    as_capacity: int
    as_len: int
    ip: int | None
    ip_capacity: int
    ip_len: int


class Certificate(Structure):
    """The struct `pigy_certificate`."""

    _fields_ = [
        ("as_start", c_size_t),
        ("as_len", c_size_t),
        ("ip_start", c_size_t),
        ("ip_len", c_size_t),
        ("present", c_uint32),
        ("mode", c_uint32),
    ]
    as_start: int
    as_len: int
    ip_start: int
    ip_len: int
    present: int
    mode: int


class AsRange(Structure):
    """The struct `pigy_as_range`."""

    _fields_ = [
        ("min", c_uint32),
        ("max", c_uint32),
    ]
    min: int
    max: int


class IpRange(Structure):
    """The struct `pigy_ip_range`."""

    _fields_ = [
        ("min", c_uint8 * 16),
        ("max", c_uint8 * 16),
    ]
    min: Array[c_uint8]
    max: Array[c_uint8]


class Prefix(Structure):
    """The struct `pigy_prefix`."""

    _fields_ = [
        ("address", c_uint8 * 16),
        ("family", c_uint8),
        ("len", c_uint8),
    ]
    address: Array[c_uint8]
    family: int
    len: int


class Vrp(Structure):
    """The struct `pigy_vrp`."""

    _fields_ = [
        ("address", c_uint8 * 16),
        ("asn", c_uint32),
        ("family", c_uint8),
        ("len", c_uint8),
        ("max_len", c_uint8),
    ]
    address: Array[c_uint8]
    asn: int
    family: int
    len: int
    max_len: int


class Route(Structure):
    """The struct `pigy_route`."""

    _fields_ = [
        ("address", c_uint8 * 16),
        ("asn", c_uint32),
        ("family", c_uint8),
        ("len", c_uint8),
    ]
    address: Array[c_uint8]
    asn: int
    family: int
    len: int


class Covering(Structure):
    """The struct `pigy_covering`."""

    _fields_ = [
        ("vrp", Vrp),
        ("mismatch", c_uint32),
    ]
    vrp: Vrp
    mismatch: int


# The name of each call, with the type of its result and those of its parameters.
CALLS: dict[str, tuple[type | None, list[type]]] = {
    "pigy_version": (c_uint32, []),
    "pigy_status_text": (c_char_p, [c_uint32]),
    "pigy_resources_read": (c_uint32, [Set, c_uint32, POINTER(c_void_p)]),
    "pigy_resources_from_text": (c_uint32, [c_char_p, c_size_t, c_uint32, POINTER(c_void_p)]),
    "pigy_resources_free": (None, [c_void_p]),
    "pigy_resources_verify": (
        c_uint32,
        [
            c_void_p, Set, c_uint32, c_uint32, c_uint32, POINTER(c_void_p), POINTER(c_void_p),
        ],
    ),
    "pigy_resources_verify_path": (
        c_uint32,
        [
            c_void_p, c_char_p, c_size_t, POINTER(Certificate), c_size_t, c_uint32, POINTER(c_void_p),
            POINTER(c_void_p), POINTER(c_size_t),
        ],
    ),
    "pigy_resources_union": (c_uint32, [c_void_p, c_void_p, POINTER(c_void_p)]),
    "pigy_resources_intersection": (c_uint32, [c_void_p, c_void_p, POINTER(c_void_p)]),
    "pigy_resources_difference": (c_uint32, [c_void_p, c_void_p, POINTER(c_void_p)]),
    "pigy_resources_symmetric_difference": (c_uint32, [c_void_p, c_void_p, POINTER(c_void_p)]),
    "pigy_resources_contains": (c_uint32, [c_void_p, c_void_p, POINTER(c_uint8)]),
    "pigy_resources_contains_asn": (c_uint32, [c_void_p, c_uint32, POINTER(c_uint8)]),
    "pigy_resources_contains_prefix": (c_uint32, [c_void_p, POINTER(Prefix), POINTER(c_uint8)]),
    "pigy_resources_equal": (c_uint32, [c_void_p, c_void_p, POINTER(c_uint8)]),
    "pigy_resources_prefixes": (c_uint32, [c_void_p, c_uint32, POINTER(Prefix), c_size_t, POINTER(c_size_t)]),
    "pigy_resources_as_ranges": (c_uint32, [c_void_p, POINTER(AsRange), c_size_t, POINTER(c_size_t)]),
    "pigy_resources_ip_ranges": (c_uint32, [c_void_p, c_uint32, POINTER(IpRange), c_size_t, POINTER(c_size_t)]),
    "pigy_resources_der": (c_uint32, [c_void_p, POINTER(Buffers)]),
    "pigy_resources_text": (c_uint32, [c_void_p, c_uint32, c_char_p, c_size_t, POINTER(c_size_t)]),
    "pigy_verify": (c_uint32, [Set, Set, c_uint32, c_uint32, c_uint32, POINTER(Buffers), POINTER(Buffers)]),
    "pigy_verify_path": (
        c_uint32,
        [
            Set, c_char_p, c_size_t, POINTER(Certificate), c_size_t, c_uint32, POINTER(Buffers), POINTER(Buffers),
            POINTER(c_size_t),
        ],
    ),
    "pigy_union": (c_uint32, [Set, Set, c_uint32, POINTER(Buffers)]),
    "pigy_intersection": (c_uint32, [Set, Set, c_uint32, POINTER(Buffers)]),
    "pigy_difference": (c_uint32, [Set, Set, c_uint32, POINTER(Buffers)]),
    "pigy_contains": (c_uint32, [Set, Set, c_uint32, POINTER(c_uint8)]),
    "pigy_equal": (c_uint32, [Set, Set, c_uint32, POINTER(c_uint8)]),
    "pigy_prefixes": (c_uint32, [c_char_p, c_size_t, c_uint32, c_uint32, POINTER(Prefix), c_size_t, POINTER(c_size_t)]),
    "pigy_as_ranges": (c_uint32, [c_char_p, c_size_t, c_uint32, POINTER(AsRange), c_size_t, POINTER(c_size_t)]),
    "pigy_ip_ranges": (
        c_uint32,
        [
            c_char_p, c_size_t, c_uint32, c_uint32, POINTER(IpRange), c_size_t, POINTER(c_size_t),
        ],
    ),
    "pigy_set_from_text": (c_uint32, [c_char_p, c_size_t, c_uint32, POINTER(Buffers)]),
    "pigy_validate": (
        c_uint32,
        [
            POINTER(Vrp), c_size_t, POINTER(Route), c_size_t, POINTER(c_uint8), c_size_t, POINTER(c_size_t),
            POINTER(c_size_t),
        ],
    ),
    "pigy_vrps_read": (c_uint32, [c_char_p, c_size_t, POINTER(Vrp), c_size_t, POINTER(c_size_t), POINTER(c_size_t)]),
    "pigy_vrps_read_unexpired": (
        c_uint32,
        [
            c_char_p, c_size_t, c_uint64, POINTER(Vrp), c_size_t, POINTER(c_size_t), POINTER(c_size_t),
            POINTER(c_size_t),
        ],
    ),
    "pigy_slurm_apply": (
        c_uint32,
        [
            c_char_p, c_size_t, POINTER(Vrp), c_size_t, POINTER(Vrp), c_size_t, POINTER(c_size_t), POINTER(c_size_t),
            POINTER(c_size_t),
        ],
    ),
    "pigy_routes_read": (
        c_uint32,
        [
            c_char_p, c_size_t, POINTER(Route), c_size_t, POINTER(c_size_t), POINTER(c_size_t),
        ],
    ),
    "pigy_vrp_from_text": (c_uint32, [c_char_p, c_size_t, POINTER(Vrp)]),
    "pigy_vrp_text": (c_uint32, [POINTER(Vrp), c_char_p, c_size_t, POINTER(c_size_t)]),
    "pigy_route_from_text": (c_uint32, [c_char_p, c_size_t, POINTER(Route)]),
    "pigy_route_text": (c_uint32, [POINTER(Route), c_char_p, c_size_t, POINTER(c_size_t)]),
    "pigy_table_new": (c_uint32, [POINTER(Vrp), c_size_t, POINTER(c_void_p), POINTER(c_size_t)]),
    "pigy_table_with_changes": (
        c_uint32,
        [
            c_void_p, POINTER(Vrp), c_size_t, POINTER(Vrp), c_size_t, POINTER(c_void_p), POINTER(c_size_t),
        ],
    ),
    "pigy_table_validate": (c_uint32, [c_void_p, POINTER(Route), POINTER(c_uint8), POINTER(c_uint8)]),
    "pigy_table_validate_routes": (
        c_uint32,
        [
            c_void_p, POINTER(Route), c_size_t, POINTER(c_uint8), c_size_t, POINTER(c_uint8), c_size_t,
            POINTER(c_size_t), POINTER(c_size_t),
        ],
    ),
    "pigy_tables_validate_routes": (
        c_uint32,
        [
            POINTER(c_void_p), c_size_t, POINTER(Route), c_size_t, POINTER(c_uint8), c_size_t, POINTER(c_uint8),
            c_size_t, POINTER(c_size_t), POINTER(c_size_t),
        ],
    ),
    "pigy_table_revalidate": (
        c_uint32,
        [
            c_void_p, c_void_p, POINTER(Route), c_size_t, POINTER(c_uint8), c_size_t, POINTER(c_size_t),
            POINTER(c_size_t),
        ],
    ),
    "pigy_table_changes": (
        c_uint32,
        [
            c_void_p, c_void_p, POINTER(Vrp), c_size_t, POINTER(c_size_t), POINTER(Vrp), c_size_t, POINTER(c_size_t),
        ],
    ),
    "pigy_table_covering": (c_uint32, [c_void_p, POINTER(Route), POINTER(Covering), c_size_t, POINTER(c_size_t)]),
    "pigy_table_len": (c_uint32, [c_void_p, POINTER(c_size_t)]),
    "pigy_table_vrps": (c_uint32, [c_void_p, POINTER(Vrp), c_size_t, POINTER(c_size_t)]),
    "pigy_table_free": (None, [c_void_p]),
    "pigy_answer": (c_uint32, [c_char_p, c_size_t, c_char_p, c_size_t, POINTER(c_size_t)]),
}


# The formats of structs, with the padding of C, for the module `struct`.
ASRANGE_FORMAT = "@II0I"
IPRANGE_FORMAT = "@16s16s"
PREFIX_FORMAT = "@16sBB"
VRP_FORMAT = "@16sIBBB0I"
ROUTE_FORMAT = "@16sIBB0I"
COVERING_FORMAT = "@16sIBBBI0I"
