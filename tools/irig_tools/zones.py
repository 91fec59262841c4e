"""What lies between two runs: which pulse belongs to which place there."""
from __future__ import annotations

from math import floor
from typing import Dict, List, Optional, Tuple

from . import limits
from .interval import Clock, Run, change_between
from .other_code import OtherCode, other_code, survives
from .phases import ONLY_P, faults_along
from .units import ELEMENTS, Microseconds, PlaceNumber, PulseIndex, plus, through
from .wander import on_curve


def whole_steps(distance: float, interval: float) -> int:
    """How many elements further a pulse is."""
    return floor(distance / interval + limits.BEFORE_ITS_RISE)


class Zone:
    """The places from the last of one run to the first of the next, and the pulses there. Either run may be missing."""

    def __init__(self, clock: Clock, left: Optional[Run], right: Optional[Run]) -> None:
        self.clock, self.left, self.right = clock, left, right
        self.interval = clock.interval_between(left, right)
        self.rises = clock.rises
        # the last of the left run and the first of the right one are in step: that is their place
        self.ends = {**({left.last: left.last_place} if left else {}), **({right.first: right.place} if right else {})}
        self.stray = clock.stray_over(right.step if left and right else 1)
        self.end_stray = clock.stray_at_end(min([run.count for run in (left, right) if run], default=0), self.stray)
        self.late: float = 0
        if left and right and abs(right.late) > clock.least_late(right.step, right.fewest):
            self.late = right.late
        self.border: Optional[PulseIndex] = None  # the first pulse that came late
        self.border_place = PlaceNumber(0)
        if self.late and left and right:
            self.border = self._find_border(left, right)
            self.border_place = self.place_of(self.border)
        self.other = self._find_other() if left and right else None
        pulses = self._find_pulses()
        self.first, self.last = self._ends(pulses)
        self.head, self.tail = self._unsure() if left and right and right.glued else (0, 0)
        self.pulses: Dict[PlaceNumber, List[PulseIndex]] = {place: [] for place in through(self.first, self.last)}
        for pulse in pulses:
            self.pulses[min(self.last, max(self.first, self.place_of(pulse)))].append(pulse)
        self.off = self._find_off() if self.right and not self.other else 0.0
        self.vague = self.off if self.off > limits.VAGUE * self.interval else 0.0

    @property
    def glued(self) -> bool:
        return bool(self.left and self.right and self.right.glued)

    def _find_other(self) -> Optional[OtherCode]:
        """What is between two runs, if it is no damaged part of this code."""
        left, right = self.left, self.right
        assert left and right
        found = self._other_code(plus(left.last, 1), plus(right.first, -1))
        if not found:
            return None
        pulses, classes = through(found.first, found.last), self.clock.classes[found.first:found.last + 1]
        if survives(list(map(self.place_of, pulses)), classes, sum(map(self._is_own, pulses))):
            return None
        return self._other_code(*self._between_own(found))

    def _between_own(self, other: OtherCode) -> Tuple[PulseIndex, PulseIndex]:
        """The first and the last pulse of other code without those of this code on either side that do not follow it at once."""
        first, last, rises = other.first, other.last, self.rises
        while first < last and self._is_own(first) and not other.is_apart(rises[first + 1] - rises[first]):
            first = plus(first, 1)
        while first < last and self._is_own(last) and not other.is_apart(rises[last] - rises[last - 1]):
            last = plus(last, -1)
        return first, last

    def _other_code(self, first: PulseIndex, last: PulseIndex) -> Optional[OtherCode]:
        return other_code(self.rises, self.clock.listing.falls, through(first, last), self._is_own, self.interval)

    def _is_own(self, pulse: PulseIndex) -> bool:
        """Whether a pulse is of a class, about where this code has one."""
        off = abs(self.rises[pulse] - self.rise_at(self.place_of(pulse)))
        return self.clock.classes[pulse] != "b" and off <= limits.IN_STEP * self.interval

    def _find_pulses(self) -> List[PulseIndex]:
        """The last of the left run, the first of the right one, and what is between; at an end all that belong to a frame."""
        left, right = self.left, self.right
        first, last = left.last if left else PulseIndex(-1), right.first if right else PulseIndex(-1)
        if right and not left:
            first = right.first if {"<", "["} & set(right.ends) else self._reach(right.first, -1)
            if self._other_code(first, plus(right.first, -1)):
                first = right.first
        if left and not right:
            last = left.last if {">", "]"} & set(left.ends) else self._reach(left.last, 1)
            if self._other_code(plus(left.last, 1), last):
                last = left.last
        return through(first, last)

    def _ends(self, pulses: List[PulseIndex]) -> Tuple[PlaceNumber, PlaceNumber]:
        """The first and the last place."""
        known = [(self.place_of(pulse), self.rises[pulse]) for pulse in pulses]
        near = [place for place, rise in known if abs(rise - self.rise_at(place)) <= self.stray]
        zero = PlaceNumber(0)
        low = self.left.last_place if self.left else min([self.right.place if self.right else zero, *near])
        high = self.right.place if self.right else max([self.left.last_place if self.left else zero, *near])
        return low, max(low, high)

    def _unsure(self) -> Tuple[int, int]:
        """How many pulses at the head of the right run may belong to the left one, and at the tail of the left to the
        right."""
        assert self.left and self.right
        head = self.clock.text(self.right)[:-1][:limits.EITHER_SIDE].translate(ONLY_P)
        tail = self.clock.text(self.left)[1:][-limits.EITHER_SIDE:].translate(ONLY_P)
        onward = self.left.last_place + self.straight()
        back = self.right.place - self.straight() - len(tail) + 1
        behind = faults_along(tail, back % ELEMENTS)
        return faults_along(head, onward % ELEMENTS).count(0) - 1, behind.count(behind[-1]) - 1

    def straight(self) -> int:
        """The elements from run to run by the distance alone."""
        assert self.left and self.right
        return round((self.right.begin - self.left.end) / self.interval)

    def skipped(self) -> int:
        """The elements that are missing though there is no time for them."""
        assert self.right
        return self.right.step - self.straight()

    def _reach(self, pulse: PulseIndex, way: int) -> PulseIndex:
        """The last pulse this way that is not far from the one before it, nor cut by the end of the recording."""
        rises, beyond = self.rises, plus(pulse, way)
        while (
            0 <= beyond < len(rises)
            and abs(rises[beyond] - rises[pulse]) < limits.REACH * self.interval
            and rises[beyond] > 0
            and self.clock.listing.falls[beyond] < self.clock.listing.length
        ):
            pulse, beyond = beyond, plus(beyond, way)
        return pulse

    def _find_border(self, left: Run, right: Run) -> PulseIndex:
        """Goes back from the right run while pulses keep its time and not that of the left run."""
        border, margin = right.first, (limits.EXACT if self.clock.exact else self.clock.margin / self.interval)
        for pulse in map(PulseIndex, range(right.first - 1, left.last, -1)):
            back = (right.begin - self.rises[pulse]) / self.interval
            onward = (self.rises[pulse] - left.end) / self.interval
            if (
                abs(back - round(back)) <= margin < abs(onward - round(onward))
                and right.place - self._place_by_right(border) < round(back) < right.step
            ):
                border = pulse
        return border

    def _place_by_right(self, pulse: PulseIndex) -> PlaceNumber:
        assert self.right
        return plus(self.right.place, whole_steps(self.rises[pulse] - self.right.begin, self.interval))

    def place_of(self, pulse: PulseIndex) -> PlaceNumber:
        if pulse in self.ends:
            return self.ends[pulse]
        if not self.left or (self.border is not None and pulse >= self.border):
            return self._place_by_right(pulse)
        place = plus(self.left.last_place, whole_steps(self.rises[pulse] - self.left.end, self.local_interval()))
        if self._is_bent():
            place = self._place_near(self.rises[pulse], place)
        if self.late and self.right and self.right.step > 0:
            place = min(place, plus(self.right.place, -1))
        return place

    def local_interval(self) -> float:
        """Between two runs on one clock the distance is shared out."""
        if self.left and self.right and not self.late and self.right.step > 0:
            return (self.right.begin - self.left.end) / self.right.step
        return self.interval

    def stray_at(self, place: PlaceNumber) -> float:
        """How far the pulse of a place may be off."""
        return self.end_stray if place in self.ends.values() else self.stray

    def _is_bent(self) -> bool:
        """Whether both runs are on one clock that wanders, so that the interval changes from one to the other."""
        return bool(self.clock.wander and self.left and self.right and not self.late and self.right.step > 1)

    def _bent_rise(self, place: PlaceNumber) -> float:
        """When the pulse of a place should rise if the interval at both ends is that of the runs there: a curve of third degree. Or
        evenly, if that was nearer in holes of this length."""
        left, right, wander = self.left, self.right, self.clock.wander
        assert left and right and wander
        intervals = left.end_interval or self.interval, right.begin_interval or self.interval
        if wander.is_even(right.step, change_between(left, right)):
            intervals = (self.local_interval(),) * 2
        return on_curve((place - left.last_place) / right.step, right.step, (left.end, right.begin), intervals)

    def _place_near(self, rise: Microseconds, place: PlaceNumber) -> PlaceNumber:
        """The place of a pulse, near another one."""
        early = limits.BEFORE_ITS_RISE * self.interval
        while place > self.first_possible() and self._bent_rise(place) - early > rise:
            place = plus(place, -1)
        while self.right and place < self.right.place and self._bent_rise(plus(place, 1)) - early <= rise:
            place = plus(place, 1)
        return place

    def inner(self) -> List[PlaceNumber]:
        """The places between those of both runs."""
        return through(plus(self.first, 1), plus(self.last, -1))

    def _find_off(self) -> float:
        """By how much an element in the hole can be off if the clock wanders; if most of the pulses there are where the curve has them,
        in the longest stretch without one."""
        if not self._is_bent() or not self.right:
            return 0
        off = self.clock.inside(self.right.step, self.left, self.right)
        own = [place for place in self.pulses if self.first < place < self.last]
        near = [place for place in own if self._has_single(place)]
        if off < limits.ALIASED * self.interval and 2 * len(near) > sum(bool(self.pulses[place]) for place in own):
            known = [self.first, *near, self.last]
            off = self.clock.inside(max(after - before for before, after in zip(known, known[1:])), self.left, self.right)
        return off

    def _has_single(self, place: PlaceNumber) -> bool:
        """Whether a place has one pulse, of a class, about where it should be."""
        pulses = self.pulses[place]
        return len(pulses) == 1 and self.clock.classes[pulses[0]] != "b" and abs(
            self.rises[pulses[0]] - self._bent_rise(place)) <= limits.VAGUE * self.interval

    def first_possible(self) -> PlaceNumber:
        assert self.left
        return self.left.last_place

    def rise_at(self, place: PlaceNumber) -> Microseconds:
        """When the pulse of a place should rise, in the track as it is before a late rest is moved."""
        if self.right and (not self.left or (self.late and place >= self.border_place)):
            return Microseconds(round(self.right.begin - (self.right.place - place) * self.interval))
        assert self.left
        if self._is_bent() and self.right and self.left.last_place <= place <= self.right.place:
            return Microseconds(round(self._bent_rise(place)))
        return Microseconds(round(self.left.end + (place - self.left.last_place) * self.local_interval()))
