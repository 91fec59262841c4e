"""What became of each place of damage: the sums that are printed and the list of a page are of the same places."""
from __future__ import annotations

from bisect import bisect_left, bisect_right
from dataclasses import dataclass
from itertools import accumulate
from typing import List, Sequence, Set, Tuple

from .damage import Damage
from .kinds import STEPS
from .left import Stretches, undecided_of
from .script import Move, Repair


@dataclass(frozen=True)
class Became:
    """Times of what is damaged now are those of the repaired recording."""

    repaired: List[Damage]  # places that were found, and where nothing is damaged now
    steps: List[Damage]  # of the recorder's clock, that are there now
    undecided: List[Damage]  # what is damaged now, and a comment says that nothing decides it
    left: List[Damage]  # what else is damaged now
    comments: List[Repair]  # that say that nothing decides something, and have no place of their own

    @property
    def there(self) -> List[Damage]:
        return [*self.steps, *self.undecided, *self.left]


def became_of(found: Sequence[Damage], there: Sequence[Damage], script: Sequence[Repair], near: int) -> Became:
    """What became of the places that were `found` by a script, if these are `there` now. One that is there now and meets none of them is
    the one next to it, if that is this `near` in microseconds: a repair next to it can move where it begins."""
    moves = [move for repair in script for move in repair.moves]
    places = [_stretch_of(each, moved_by(each.at, moves)) for each in found]
    now = Stretches(_stretch_of(each) for each in there)
    met = {number for number, place in enumerate(places) if now.meets(*place)}
    before = Stretches(places)
    for each in there:
        if not before.meets(*_stretch_of(each)):
            met.update(_nearest(each.at, places, met, near))
    others = [each for each in there if each.kind not in STEPS]
    own, comments = _with_comments(others, script)
    return Became([each for number, each in enumerate(found) if number not in met], [each for each in there if each.kind in STEPS],
                  [each for number, each in enumerate(others) if number in own],
                  [each for number, each in enumerate(others) if number not in own], comments)


def _stretch_of(damage: Damage, moved: int = 0) -> Tuple[int, int]:
    """From its first microsecond to its last: what comes at once after it is another place."""
    return damage.at + moved, max(damage.at, damage.until - 1) + moved


def moved_by(time: int, moves: Sequence[Move]) -> int:
    """By how much later it comes if what comes after some times is moved."""
    return sum(by for begin, by, _ in moves if begin < time)


def moved_back(time: int, moves: Sequence[Move]) -> int:
    """By how much later a time of the repaired recording is than it was; the moves are in the order of time."""
    moved = 0
    for begin, by, _ in moves:
        moved += by if begin < time - moved else 0
    return moved


def _nearest(time: int, places: Sequence[Tuple[int, int]], met: Set[int], near: int) -> List[int]:
    """The number of the place that begins nearest to a time, if one does; places are in the order of time, and those that are met do not
    count."""
    at = bisect_left(places, (time, 0))
    around = [number for number in range(max(0, at - 1), min(len(places), at + 1)) if number not in met]
    return [number for number in sorted(around, key=lambda each: abs(places[each][0] - time)) if abs(places[number][0] - time) <= near][:1]


def _with_comments(places: Sequence[Damage], script: Sequence[Repair]) -> Tuple[Set[int], List[Repair]]:
    """Which places have a comment that says that nothing decides them, each one of its own; and the comments that have none."""
    own: Set[int] = set()
    alone: List[Repair] = []
    begins = [each.at for each in places]
    ends = list(accumulate((max(each.at, each.until) for each in places), max))  # the latest of all up to each
    for repair in undecided_of(script):
        around = range(bisect_left(ends, repair.at), bisect_right(begins, max(repair.at, repair.until)))
        meets = [number for number in around if number not in own and repair.touches(places[number].at, places[number].until)]
        own.update(meets[:len(repair.undecided)])
        alone += [repair] * (len(repair.undecided) - len(meets))
    return own, alone
