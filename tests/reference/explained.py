"""From the cheapest explanation of a recording to the times of its samples: elements counted on, the cheapest choice of a time for each
bit, and the time of a moment between two rises. It reads no year: day 365 can be followed by day 1 or 366.

A choice has for each bit, an element that says something of the time, the time of frame 0 of its stretch, counted in frames: its base; or
any other time. It pays for each bit that looks like the other class, and for each jump of the time from a bit to the next one. What is sure
at a bit is what all choices have there that cost less than the margin more than the cheapest.
"""
from __future__ import annotations

from bisect import bisect_right
from itertools import product
from math import isqrt
from typing import Dict, List, NamedTuple, Optional, Sequence, Set, Tuple

from reference import timecode
from reference.candidates import SET, Bit, Candidates, Code, Costs
from reference.explanation import JUMPS, NEXT, PART, SURE, UNUSED, WIDTH, Given, Prices, Pulse, Tables, ahead, logarithm, margins

SIXTY = 80  # a minute has a second 60
UNKNOWN = 11  # a bit of any other time: it is a zero or a one, each with a half
CONTRADICTS = 80  # a bit that looks like the other class, at most
AROUND = 8  # elements on each side by which a rise is on the line
OFF = 20  # a time is off by at most so small a part of an interval

State = Tuple[int, bool]  # a base, and whether a bit has that time, or any other one until the time goes on from that again
States = Tuple[State, ...]


class Known(NamedTuple):
    """A claim of a stretch: its element counted on, and its rise."""

    element: int
    rise: int


class Times:
    """The times that the cheapest explanation of a recording gives, of those that are sure by a margin; also by one that ends before, or
    begins after, if that is asked: it says nothing of the time there, but nobody knows whether code was sent."""

    def __init__(self, pulses: Sequence[Pulse], kind: str, expression: int, least_margin: int = SURE, ends: bool = True) -> None:
        self.code, self.least_margin = Code(kind, expression), least_margin
        self.prices = Prices(pulses, timecode.INTERVAL[kind], self.code.roles)
        self.rises = self.prices.rises
        tables = Tables(self.prices)
        self.claims = tables.explain()
        self.margins = margins(tables, Given(self.prices, self.claims), self.least_margin, ends)
        self.cost = tables.cost
        self.stretches: List[List[Known]] = []
        self.costs: Dict[Tuple[int, int], Costs] = {}  # by the stretch and the element
        self._count()
        self._line()
        self.bits = [Bit(stretch, *known, self.costs[stretch, known.element]) for stretch, knowns in enumerate(self.stretches)
                     for known in knowns if known.element % 100 in self.code.bits and (stretch, known.element) in self.costs]
        candidates = Candidates(self.code, self.bits, self.shifts).of_bits()
        self.known_joins: Dict[Tuple[States, States, Optional[Bit]], List[List[int]]] = {}
        self.bases = self._sure([tuple(product(bases, (True, False))) for bases in candidates])
        self.places = [(bit.stretch, bit.element) for bit in self.bits]

    # -- the elements

    def _count(self) -> None:
        looks: Dict[Tuple[int, int], Tuple[int, int, int]] = {}
        for number, claim in enumerate(self.claims):
            if not number or claim.kind == JUMPS:
                self.stretches.append([])
                count = claim.element
            else:
                count += ahead(self.prices, *self.claims[number - 1:number + 1])
            self.stretches[-1].append(Known(count, claim.rise))
            if claim.rise and number + 1 < len(self.claims):  # a recording can begin and end within a pulse
                looks[len(self.stretches) - 1, count] = self._look(number)
        self.unlike = {place for place, look in looks.items() if self.prices.as_roles(look)[self.code.roles[place[1] % 100]] >= WIDTH}
        most = self._contradicts([look for place, look in looks.items() if self.code.roles[place[1] % 100] == UNUSED])
        for place, (zero, one, _) in looks.items():
            self.costs[place] = (min(most, max(0, zero - one)), min(most, max(0, one - zero)))

    def _look(self, number: int) -> Tuple[int, int, int]:
        claim, after = self.claims[number:number + 2]
        whole = after.kind == NEXT and ahead(self.prices, claim, after) == 1
        end = self.rises[after.rise] if whole else min(self.rises[after.rise], self.prices.wire_end(claim.rise))
        return self.prices.look(claim.rise, end)

    @staticmethod
    def _contradicts(unused: Sequence[Tuple[int, int, int]]) -> int:
        """What a bit costs that looks like the other class: how often elements do that are zero."""
        known = [one < zero for zero, one, _ in unused if abs(zero - one) > 16]
        return min(CONTRADICTS, logarithm((len(known) + 20) * 3 // (3 * sum(known) + 1)))

    # -- the time of each bit

    def pay(self, bit: Bit, base: int, is_known: bool) -> int:
        """What a bit costs with a time, or with any other one."""
        one = bit.element % 100 in self.code.ones(self.code.time(base, bit.frame))
        return bit.costs[one] if is_known else min(UNKNOWN, sum(bit.costs))

    def join(self, one: Bit, base: int, bit: Bit, other: int) -> int:
        """What it costs that a bit has one time, and the next one another."""
        if (one.stretch, base) == (bit.stretch, other):
            return 0
        far = self.far(one, base, bit, other)
        if not far:
            return SIXTY if base < self.code.inserted <= other else 0
        return logarithm(1 + far) + (SET if one.stretch == bit.stretch else 0)

    def _join(self, one: Bit, state: State, bit: Bit, other: State) -> int:
        """The same of two states: from a time to any other one and back is a jump, too."""
        return max(self.join(one, state[0], bit, other[0]), 0 if state[1] == other[1] else SET)

    def far(self, one: Bit, base: int, bit: Bit, other: int) -> int:
        """How many frames a bit's time is from those that can follow the time of the bit before."""
        return min(self.code.far(self.code.time(base, one.frame), by + bit.frame - one.frame, self.code.time(other, bit.frame))
                   for by in self.shifts(one, bit))

    def shifts(self, one: Bit, bit: Bit) -> Set[int]:
        """How many frames frame 0 of a bit's stretch is after that of another one, by the recorder's clock: it can begin within one."""
        gone = 0 if one.stretch == bit.stretch else one.element + self.prices.gone(one.rise, bit.rise) - bit.element
        return {gone // 100, (gone + 99) // 100}

    def _joins(self, one: Bit, states: States, bit: Bit, others: States) -> List[List[int]]:
        """All of them; within a frame they are the same for all frames."""
        key = (states, others, one if (one.stretch, one.frame) != (bit.stretch, bit.frame) else None)
        if key not in self.known_joins:
            self.known_joins[key] = [[self._join(one, state, bit, other) for other in others] for state in states]
        return self.known_joins[key]

    def _sure(self, sets: Sequence[States]) -> List[Optional[int]]:
        """The base of each bit that is sure."""
        pays = [[self.pay(bit, *state) for state in states] for bit, states in zip(self.bits, sets)]
        joins = [self._joins(*each) for each in zip(self.bits, sets, self.bits[1:], sets[1:])]
        before, after = pays[:1], [[0] * len(pay) for pay in pays[-1:]]
        for pay, join in zip(pays[1:], joins):
            before.append([own + least(before[-1], ways) for own, ways in zip(pay, zip(*join))])
        for pay, join in zip(pays[:0:-1], joins[::-1]):
            rest = [own + known for own, known in zip(pay, after[-1])]
            after.append([least(rest, ways) for ways in join])
        return [self._only(states, [one + other for one, other in zip(*both)]) for states, both in zip(sets, zip(before, after[::-1]))]

    def _only(self, states: States, totals: Sequence[int]) -> Optional[int]:
        near = [state for state, total in zip(states, totals) if total < min(totals) + self.least_margin]
        return near[0][0] if len(near) == 1 and near[0][1] else None

    def base(self, stretch: int, element: int) -> Optional[int]:
        """The base of an element: that of the bits next to it, if both are sure of the same one, or that with which the time goes on."""
        place = bisect_right(self.places, (stretch, element))
        near = [(self.bits[each], self.bases[each]) for each in (place - 1, place)
                if 0 <= each < len(self.bits) and self.bits[each].stretch == stretch]
        if not near:
            return None
        (one, base), (bit, other) = near[0], near[-1]
        if base is None or other is None or base == other:
            return base if base == other else None
        frame, time = element // 100, self.code.time(base, one.frame)
        turned = not self.code.far(time, frame - one.frame, self.code.time(other, frame))
        return None if self.far(one, base, bit, other) else other if turned else base

    # -- the line

    def _line(self) -> None:
        alike = [[each for each in knowns if (stretch, each.element) not in self.unlike] for stretch, knowns in enumerate(self.stretches)]
        self.on_line = [[each for place, each in enumerate(knowns) if self._on_line(knowns, place)] for knowns in alike]
        self.moments = [[self.rises[each.rise] for each in line] for line in self.on_line]

    def _tolerance(self, one: Known, other: Known, count: int) -> int:
        """Twice the spread of that many elements, from a twentieth of an interval to a quarter."""
        interval = self.prices.interval(one.rise, other.rise)
        return max(interval // OFF, min(interval // 4, isqrt(self.prices.clock.spread_of(count))))

    def _agrees(self, one: Known, other: Known) -> bool:
        """Whether two rises are as far apart as their elements."""
        first, last = min(one, other), max(one, other)
        count = last.element - first.element
        return self.prices.deviation(first.rise, last.rise, count) <= self._tolerance(first, last, count)

    def _on_line(self, knowns: Sequence[Known], place: int) -> bool:
        """Whether a rise agrees with more than half of those before it, or of those after it."""
        here = knowns[place]
        before = [each for each in knowns[max(0, place - AROUND):place] if here.element - each.element <= AROUND]
        after = [each for each in knowns[place + 1:place + AROUND + 1] if each.element - here.element <= AROUND]
        return any(2 * sum(self._agrees(here, each) for each in side) > len(side) for side in (before, after))

    def _straight(self, one: Known, other: Known) -> bool:
        """Whether the time between two rises is known: they are as far apart as the clock around says, and that changes so little that half
        of their elements would be, too."""
        count, tolerance = other.element - one.element, self._tolerance(one, other, 1)
        near = self.prices.intervals[max(0, one.rise - count):other.rise + count + 1]
        off = PART * (self.rises[other.rise] - self.rises[one.rise]) - count * sum(near) // len(near)
        return abs(off) <= tolerance and count * (max(near) - min(near)) <= 8 * tolerance

    # -- the time of a moment

    def when(self, moment: float) -> Optional[float]:
        """The hundredths of a second since the begin of the year at a moment, or None if that is not sure; in a second 60 they are those of
        the second before it, and of two years more."""
        stretch = next((number for number, knowns in enumerate(self.stretches)
                        if self.rises[knowns[0].rise] <= moment < self.rises[knowns[-1].rise]), None)
        if stretch is None:
            return None
        place = bisect_right(self.moments[stretch], moment)
        if not 0 < place < len(self.on_line[stretch]):
            return None
        one, other = self.on_line[stretch][place - 1:place + 1]
        if min(self.margins[one.rise:other.rise]) < self.least_margin or not self._straight(one, other):
            return None
        begin, end = self.rises[one.rise], self.rises[other.rise]
        element = one.element + (moment - begin) / (end - begin) * (other.element - one.element)
        base = self.base(stretch, int(element))
        if base is None:
            return None
        return (100 * self.code.time(base, int(element) // 100) + element % 100) * self.code.period / 100


def least(costs: Sequence[int], ways: Sequence[int]) -> int:
    """What the cheapest of some ways costs, each after what it begins with."""
    return min(cost + way for cost, way in zip(costs, ways))
