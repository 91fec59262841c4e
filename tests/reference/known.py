"""What is known of a recording: of a moment the time that it has there, or else the one that is sure by the explanation; of a control
function what is recorded, here and in other recordings of the same code.

It is known of the recording as it is read (`reading`). So a moment that was moved has the time that it had.
"""
from bisect import bisect_left, bisect_right
from fractions import Fraction
from functools import cached_property, lru_cache
from typing import Dict, List, NamedTuple, Optional, Tuple

from reference import explained, explanation, machine, reading, timed_lines, times
from reference.candidates import DAY, Costs

SURE = explanation.NOTHING  # the margin of what is sure: less than a rise costs that is no element, so that noise leaves the rest sure
NEAR = Fraction(1, explained.OFF)  # of an interval: no time that is known is off by more


class Known(NamedTuple):
    """The time of a moment, without a year if none says it, and by how many microseconds it can be off."""

    time: times.Time
    off: Fraction


class Recorded:
    """What a recording says, after some moves."""

    def __init__(self, opened: machine.State, moves: Tuple[reading.Move, ...] = ()) -> None:
        self.kind, self.expression, self.interval = opened.kind, opened.expression, opened.interval()
        self.track = timed_lines.Track(timed_lines.Options(opened.kind, opened.expression), opened.pulses())
        self.law = self.track.law
        self.carried = reading.carried(self.law.pulses, moves)
        self.rises = [each.rise for each in self.carried]
        self.pulses = [(each.rise, each.fall) for each in self.carried]

    @cached_property
    def read(self) -> List[explanation.Pulse]:
        """The pulses as they were sent."""
        return reading.read(self.pulses, self.interval)

    @cached_property
    def sure(self) -> explained.Times:
        """What is sure, if it is asked for. An explanation that ends earlier does not count: time goes on, and the fewer pulses come after
        a place, the cheaper it is that they are none."""
        return explained.Times(self.read, self.kind, self.expression, SURE, False)

    # ---- times

    def origin(self, moment: Fraction) -> Optional[Fraction]:
        """Where a moment was before the moves; None between two pulses of which one was moved further."""
        later = bisect_right(self.rises, moment)
        around = {each.by for each in self.carried[max(0, later - 1):later + 1]}
        return moment - around.pop() if len(around) == 1 else None

    @lru_cache(None)
    def own(self, moment: Fraction) -> Optional[Known]:
        """The time that a moment has in the recording; it can be off as irig_time says."""
        origin = self.origin(moment)
        found = None if origin is None else self.law.time_at(origin)
        return None if found is None else Known(found.time, min(Fraction(self.track.off(origin)), NEAR * self.interval))

    @lru_cache(None)
    def known(self, moment: Fraction) -> Optional[Known]:
        """That, or else the time that is sure; none next to a pulse that the law of time doubts."""
        own = self.own(moment)
        if own is not None or self.is_doubtful(moment):
            return own
        sure = self.sure.when(moment)
        return None if sure is None else Known(of_hundredths(sure), NEAR * self.interval)

    def is_doubtful(self, moment: Fraction) -> bool:
        """Whether the law of time doubts a pulse next to a moment: two pulses of that frame of the code deny, so two events can be there,
        which look like damage."""
        later = bisect_right(self.rises, moment)
        return any(each.place in self.law.doubtful for each in self.carried[max(0, later - 1):later + 1])

    # ---- control functions

    def read_at(self, rise: int, element: int) -> Tuple[int, int]:
        """What a zero costs more there than a one, and a one more than a zero, by the explanation."""
        first, last = (bisect_left(self.claims, (rise + by,)) for by in (-self.interval // 2, self.interval // 2 + 1))
        for _, name, stretch in self.claims[first:last]:
            if name % 100 == element:
                return self.sure.costs.get((stretch, name), (0, 0))
        return 0, 0

    @cached_property
    def claims(self) -> List[Tuple[int, int, int]]:
        """Which rises are which elements of which stretch of the explanation."""
        return sorted((self.sure.rises[each.rise], each.element, stretch)
                      for stretch, claims in enumerate(self.sure.stretches) for each in claims)

    def read_in(self, time: times.Time, element: int) -> Tuple[int, int]:
        """The same in the frames that are sure to have a time; of a format and an expression as that of the time."""
        found = self.told.get((time._replace(year=None), element), [])
        return sum(zero for zero, _ in found), sum(one for _, one in found)

    @cached_property
    def told(self) -> Dict[Tuple[times.Time, int], List[Costs]]:
        """What the elements cost whose frame is sure to have a time, by that and their number."""
        found: Dict[Tuple[times.Time, int], List[Costs]] = {}
        for (stretch, element), costs in self.sure.costs.items():
            base = self.sure.base(stretch, element)
            if base is not None:
                time = of_hundredths(Fraction(self.sure.code.time(base, element // 100) * self.sure.code.period))
                found.setdefault((time, element % 100), []).append(costs)
        return found

    def is_shared(self, rise: int, element: int, name: str) -> bool:
        """Whether the believed frames next to a moment, one on each side, both have a class."""
        origin = self.origin(Fraction(rise))
        if origin is None:
            return False
        before = [frame for frame in self.law.believed if self.law.rises[frame.marker + 99] < origin]
        after = [frame for frame in self.law.believed if origin < frame.rise]
        return all(side and self.law.classes[side[0].marker + element] == name for side in (before[-1:], after[:1]))


def of_hundredths(many: Fraction) -> times.Time:
    """The time that is some hundredths of a second after the begin of a year; two years later it is in a second 60."""
    more = 2 * 366 * DAY if many >= 2 * 366 * DAY else 0
    minutes, rest = divmod(many - more, 6000)
    rest += 100 if more else 0
    return times.Time(None, int(minutes) // 1440 + 1, int(minutes) // 60 % 24, int(minutes) % 60, rest * 10_000)
