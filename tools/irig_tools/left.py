"""What is left after a repair: each place that is still damaged has a line that says where."""
from __future__ import annotations

from bisect import bisect_right
from itertools import accumulate
from typing import Iterable, List, Sequence, Tuple

from .apply import Refused
from .damage import Damage
from .joining import frames_at_fault
from .kinds import STEPS, DamageKind
from .script import Repair
from .units import ELEMENTS

LEFT_PLACE = "left: at %d: %s"


def left_by(repair: Repair) -> List[str]:
    """The comments on a step that stays, or on what nothing decides."""
    return repair.comments if not repair.edits and repair.kind in STEPS else repair.undecided


class Stretches:
    """Stretches of time: whether one of them meets another one."""

    def __init__(self, stretches: Iterable[Tuple[int, int]]) -> None:
        ranked = sorted(stretches)
        self.begins, self.ends = [begin for begin, _ in ranked], [end for _, end in ranked]
        self.ends = list(accumulate(self.ends, lambda one, other: max(one, other)))  # the latest of all up to each

    def meets(self, begin: int, end: int) -> bool:
        """Whether one begins at or before that end, and does not end before that begin."""
        many = bisect_right(self.begins, end)
        return many > 0 and self.ends[many - 1] >= begin


def undecided_of(script: Sequence[Repair]) -> List[Repair]:
    """The comments on what nothing decides, but not where another recording differs."""
    return [each for each in script if each.undecided and each.kind != DamageKind.DIFFERS]


def without_line(damages: Sequence[Damage], script: Sequence[Repair], refused: Refused, interval: int) -> List[Damage]:
    """The places that no line names: neither a comment, nor the frame because of which a repair is not kept."""
    said = _stretches_of([each for each in script if left_by(each) and not refused.drops(each)])
    begins = frames_at_fault(reason for reason in refused.reasons if reason.begin is not None)
    frames = Stretches((begin - interval, begin + ELEMENTS * interval - 1) for begin in begins)
    return [each for each in damages if not said.meets(each.at, max(each.at, each.until)) and not frames.meets(each.at, each.at)]


def _stretches_of(script: Sequence[Repair]) -> Stretches:
    return Stretches((each.at, max(each.at, each.until)) for each in script)


def left_lines(damages: Sequence[Damage]) -> List[str]:
    """What is seen at each, with its place, but not what would have to be there."""
    return [LEFT_PLACE % (each.at, each.line(" of the repaired recording").partition(" ")[2].partition(";")[0]) for each in damages]
