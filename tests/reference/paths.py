"""Computes the resources that a path of claims leaves (RFC 3779, 2.3 and 3.3; RFC 6487, 7.2; RFC 8360)."""

from collections.abc import Iterable
from typing import NamedTuple

from . import sets
from .resources import INHERIT, Claim
from .sets import Set


class Step(NamedTuple):
    """A claim, and whether its overclaimed resources are trimmed instead of refused."""

    claim: Claim
    is_trimmed: bool


class Refused(Exception):
    """A step claims more than is left for it."""

    def __init__(self, step: int, excess: Set) -> None:
        super().__init__(step, excess)
        self.step = step
        self.excess = excess


def left(root: Set, steps: Iterable[Step]) -> Set:
    """Returns the numbers of the root that the steps leave."""
    for place, step in enumerate(steps):
        if step.claim is None:
            root = []
        elif step.claim != INHERIT:
            excess = sets.difference(step.claim, root)
            if excess and not step.is_trimmed:
                raise Refused(place, excess)
            root = sets.intersection(root, step.claim)
    return root


def claim_of(numbers: Set) -> Claim:
    """Returns the claim that lists a set."""
    return numbers or None
