"""Sets of numbers as ascending lists of intervals that neither overlap nor touch."""

from collections.abc import Iterable

Interval = tuple[int, int]
Set = list[Interval]


def merged(intervals: Iterable[Interval]) -> Set:
    """Returns the set of the numbers in some interval, by a sweep over the intervals in order."""
    runs: Set = []
    for low, high in sorted(intervals):
        if runs and low <= runs[-1][1] + 1:
            runs[-1] = (runs[-1][0], max(high, runs[-1][1]))
        else:
            runs.append((low, high))
    return runs


LEFT, RIGHT = 1, 2


def _swept(left: Set, right: Set, kept: tuple[int, ...]) -> Set:
    """Returns the numbers whose membership in the two sets is one of the kinds `kept`.

    At each point where a set begins or ends, the sweep enters or leaves it.
    """
    turns: dict[int, int] = {}
    for side, runs in ((LEFT, left), (RIGHT, right)):
        for low, high in runs:
            turns[low] = turns.get(low, 0) ^ side
            turns[high + 1] = turns.get(high + 1, 0) ^ side
    inside, start, result = 0, None, []
    for point in sorted(turns):
        inside ^= turns[point]
        if inside in kept:
            start = point if start is None else start
        elif start is not None:
            result.append((start, point - 1))
            start = None
    return result


def union(left: Set, right: Set) -> Set:
    """Returns the numbers in either set."""
    return _swept(left, right, (LEFT, RIGHT, LEFT | RIGHT))


def intersection(left: Set, right: Set) -> Set:
    """Returns the numbers in both sets."""
    return _swept(left, right, (LEFT | RIGHT,))


def difference(left: Set, right: Set) -> Set:
    """Returns the numbers that only the first set has."""
    return _swept(left, right, (LEFT,))


def has_all(outer: Set, inner: Set) -> bool:
    """Returns whether the first set has each number of the second."""
    return not difference(inner, outer)


def meets(left: Set, right: Set) -> bool:
    """Returns whether some number is in both sets."""
    return bool(intersection(left, right))


def size(numbers: Set) -> int:
    """Returns how many numbers there are."""
    return sum(high - low + 1 for low, high in numbers)
