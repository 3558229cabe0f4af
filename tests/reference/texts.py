"""Functions for all readers of texts: white space, cuts, decimals and lists."""

import re
from collections.abc import Iterator

from .faults import Fault

# The characters with the property White_Space of Unicode. Python's own strip takes others too.
WHITE_SPACE = (
    "\t\n\v\f\r \u0085\u00a0\u1680\u2000\u2001\u2002\u2003\u2004\u2005\u2006\u2007\u2008"
    "\u2009\u200a\u2028\u2029\u202f\u205f\u3000"
)

EMPTY = "cannot parse integer from empty string"
INVALID_DIGIT = "invalid digit found in string"
TOO_LARGE = "number too large to fit in target type"

_DIGITS = re.compile("[0-9]+")


def trim(text: str) -> str:
    """Returns the text without white space on both sides."""
    return text.strip(WHITE_SPACE)


def cut(text: str, mark: str) -> tuple[str, str]:
    """Returns the text before the first such mark, and the text after it. The second is empty if there is no mark."""
    left, _, right = text.partition(mark)
    return left, right


def number(text: str, limit: int) -> int:
    """Reads a decimal of at most the limit, with a plus or without."""
    if not text:
        raise Fault(EMPTY)
    unsigned = text[1:] if text[0] == "+" else text
    digits = _DIGITS.match(unsigned)
    if digits is None:
        raise Fault(INVALID_DIGIT)
    significant = digits.group().lstrip("0")
    if len(significant) > 40 or int(significant or "0") > limit:
        raise Fault(TOO_LARGE)
    if digits.end() < len(unsigned):
        raise Fault(INVALID_DIGIT)
    return int(significant or "0")


def elements(text: str) -> Iterator[str]:
    """Returns the trimmed texts between commas, without empty ones."""
    return filter(None, map(trim, text.split(",")))
