"""Whether a result agrees with its recording, as docs/GUARD.md has it: each moment that has a time keeps it, to both bounds, and none gets
one next to a pulse that the law of time doubts."""
from bisect import bisect_right
from functools import cached_property
from typing import Iterable, List, NamedTuple, Optional, Set, Tuple

from reference import machine, timed_lines, times
from reference.law import WIDEST, Law

LOST, OTHER = "the moment %d would have no time", "the moment %d would have another time"
DOUBTED = "the moment %d would have a time, and a pulse next to it is doubted"


class Fault(NamedTuple):
    moment: int  # microseconds
    what: str


class Agreement:
    """What a recording says, for comparisons."""

    def __init__(self, opened: machine.State) -> None:
        self.opened, self.pulses, self.period = opened, opened.pulses(), times.PERIOD[opened.kind]

    @cached_property
    def recorded(self) -> timed_lines.Track:
        return track_of(self.opened)

    def faults(self, result: machine.State) -> List[Fault]:
        """The moments at which a result does not agree, just before a rise of the recording and at it, and then of the result; in each of
        these rows none in the frame period after another one."""
        if result.pulses() == self.pulses:
            return []
        now = track_of(result)
        changed = joined(spans(self.recorded.law) ^ spans(now.law))  # elsewhere times are the same
        begins = [first for first, _ in changed]
        found: List[Fault] = []
        for rises in (self.recorded.law.rises, now.law.rises):
            for moment in (each for rise in rises for each in (max(rise - 1, 0), rise)):
                is_told = found and 0 <= moment - found[-1].moment < self.period
                last = bisect_right(begins, moment) - 1
                if not is_told and last >= 0 and moment < changed[last][1]:
                    why = self.change(moment, now)
                    found += [Fault(moment, why % moment)] if why else []
        return found

    def change(self, moment: int, now: timed_lines.Track) -> Optional[str]:
        was, new = self.recorded.time_at(moment), now.time_at(moment)
        if was is None:
            return DOUBTED if new is not None and self.is_doubted(moment) else None
        if new is None:
            return LOST
        return None if is_within(self.recorded.off(moment) + now.off(moment), was, new) else OTHER

    def is_doubted(self, moment: int) -> bool:
        """Whether the law of time doubts a pulse next to a moment."""
        risen = bisect_right(self.recorded.law.rises, moment)
        return not self.recorded.law.doubtful.isdisjoint((risen - 1, risen))


def track_of(state: machine.State) -> timed_lines.Track:
    return timed_lines.Track(timed_lines.Options(state.kind, state.expression), state.pulses())


def joined(many: Iterable[Tuple[int, int, Tuple[object, ...]]]) -> List[Tuple[int, int]]:
    """The moments that are in some of many spans, as spans that are apart, in their order."""
    found: List[Tuple[int, int]] = []
    for first, end in sorted(each[:2] for each in many):
        if found and first <= found[-1][1]:
            found[-1] = found[-1][0], max(end, found[-1][1])
        else:
            found.append((first, end))
    return found


def spans(law: Law) -> Set[Tuple[int, int, Tuple[object, ...]]]:
    """Between which rises there are times, and on what lines."""
    found = set()
    for one, other in zip(law.places, law.places[1:]):
        many = law.elements_between(one, other)
        bound = law.bound(one, other, many) if many else None
        if bound is not None and bound <= WIDEST:
            found.add((law.rises[one], law.rises[other], (law.element_of(law.points[one]), many)))
    return found


def is_within(most: int, one: times.Time, other: times.Time) -> bool:
    return one == other or any(0 < (times.passed(*pair) or 0) <= most for pair in ((one, other), (other, one)))
