"""The reasons for which a text or octets are refused. The texts are those of docs/ERRORS.md."""

from enum import IntEnum


class Fault(Exception):
    """The text that is printed if something is refused."""


class Der(IntEnum):
    """The faults of DER by their numbers."""

    Truncated = 1
    BadTag = 2
    BadLength = 3
    BadInteger = 4
    BadBitString = 5
    BadNull = 6
    TrailingData = 7
    BadPrefix = 8
    BadFamily = 9
    ReversedRange = 10
    EmptyBlocks = 11
    DuplicateFamily = 12
    NoFamily = 13
    NotCanonical = 14


class DerFault(Fault):
    """A fault in octets that are read as DER."""

    def __init__(self, kind: Der) -> None:
        super().__init__(f"der error {kind.value} ({kind.name})")
        self.number = kind.value


BAD_AS_NUMBER = "Bad AS number. Expected format: AS#"
BAD_AS_RANGE = "Bad AS range. Expected format: AS#-AS#"
INVALID_AS_NUMBER = "invalid AS number"
FAMILY_MISMATCH = "address family mismatch"
BAD_RANGE = "invalid address range"
MISSING_SEPARATOR = "missing separator"
