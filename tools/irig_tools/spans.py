"""Which base fits frames between two that are sure: each change of base costs as much as three elements that do not fit."""
from __future__ import annotations

from collections import Counter
from typing import Dict, List, NamedTuple, Optional, Sequence, Set

from . import limits
from .pieces import pieced
from .units import Base, FrameNumber
from .votes import Votes


Bases = Dict[FrameNumber, Optional[Base]]  # None if the frames near it do not agree


class Span(NamedTuple):
    """Frames `first` to `last` with one base."""

    first: FrameNumber
    last: FrameNumber
    base: Base


def _ways(choices: Sequence[Base], rows: Sequence[List[int]], start: Optional[Base]) -> List[List[int]]:
    """For each frame and each choice the least cost of a way from the start to it."""
    cost = [0 if start in (None, base) else limits.CHANGE for base in choices]
    table = []
    for row in rows:
        least = min(cost, default=0) + limits.CHANGE
        cost = [min(each, least) + fault for each, fault in zip(cost, row)]
        table.append(cost)
    return table


def _borne(votes: Votes, base: Base, gap: Sequence[FrameNumber], beside: bool) -> bool:
    """Whether at least two frames have nothing against a base, and each element that has is outvoted. If a side has another
    base, frames that show nothing do not count."""
    counts = [votes.counted(number, base) for number in gap]
    support = sum(not differ and (agree > 0 or not beside) for agree, differ in counts)
    return support >= limits.WITNESSES and votes.is_borne(gap, base)


def _choices(votes: Votes, gap: Sequence[FrameNumber], sides: Set[Base]) -> List[Base]:
    """The bases of the sides, and those that frames of the gap read: if these are too many, those that most of them read, and of
    these the ones that have the fewest elements against them."""
    often = Counter(votes.own[number] for number in gap if number in votes.own)
    others = sorted(often.keys() - sides, key=lambda base: -often[base])
    if len(sides) + len(others) > limits.MOST_BASES:
        tried, some = others[:limits.MOST_TRIED], gap[::len(gap) // limits.MOST_TRIED + 1]
        others = sorted(tried, key=lambda base: (-often[base], sum(votes.counted(number, base)[1] for number in some)))
    return sorted([*sides, *others[:limits.MOST_BASES - len(sides)]])


def fit(votes: Votes, gap: Sequence[FrameNumber], left: Optional[Base], right: Optional[Base]) -> Bases:
    """The base of each frame of a gap, or None if two are as good, between the bases `left` and `right`."""
    if not gap:
        return {}
    together = pieced(votes, gap) if left is right is None else None
    choices = _choices(votes, gap, {base for base in (left, right, together) if base is not None})
    if len(choices) == 1 and (left or right):
        return {number: choices[0] for number in gap}
    faults = [[votes.counted(number, base)[1] for base in choices] for number in gap]
    ahead = _ways(choices, faults, left)
    back = _ways(choices, faults[::-1], right)
    found: Bases = {}
    for number, row, before, after in zip(gap, faults, ahead, reversed(back)):
        whole = sorted((a + b - fault, base) for a, b, fault, base in zip(before, after, row, choices))
        found[number] = None
        if whole and (len(whole) == 1 or whole[0][0] < whole[1][0]):
            base = whole[0][1]
            if base in (left, right, together) or _borne(votes, base, gap, left is not None or right is not None):
                found[number] = base
    return found
