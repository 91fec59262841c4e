"""The phase of a carrier whose speed changes: measured in short windows, and followed from each to the next.

The sums over single nominal cycles turn by the share by which the carrier is too fast, so what they turn by between one
and the fourth after it is the frequency, and cannot be taken for another one. With that frequency the sums of a window
add up to its phase. The frequencies say which of the phases that differ by whole cycles is the next.
"""
from __future__ import annotations

import cmath
import math
from operator import mul
from typing import Dict, Iterator, List, NamedTuple, Optional, Sequence, Tuple

APART = 4  # nominal cycles between two sums that are compared: a frequency that is off by an eighth is not taken for another
MOST_OFF = 0.08  # of the frequency: a carrier that is off by more is not followed
ALIKE = 0.3  # of the sums of nominal cycles: what adds up in one phase is at least this; of noise it is a tenth
OWN_CYCLES, NEAR_CYCLES = 10, 20  # cycles before and after the middle of a window with which that is judged, and those of others
PHASE_JUMP = 0.25  # cycles: a phase that is as far from the expected one is no longer that of one carrier
# windows of a carrier; of one with no other just before or after it, since by chance it can seem to be there
FEWEST_WINDOWS, FEWEST_ALONE = 3, 5
FINE = 1000  # steps of a frequency in the tables


class Knot(NamedTuple):
    """A phase in cycles, its time in samples, and the length of a cycle there."""

    phase: float
    time: float
    cycle: float


class Piece(NamedTuple):
    """Some more knots of one carrier; whether it begins or ends with them, and whether the next begins at once."""

    knots: List[Knot]
    opens: bool
    closes: bool
    jumps: bool = False


class Measured(NamedTuple):
    """One window: its middle in samples, its phase in cycles ahead of the nominal carrier, the share by which it is
    faster, and the powers of the sum and of all."""

    time: float
    ahead: float
    faster: float
    sum: float
    all: float


class Tracker:
    """Takes the sums of nominal cycles and gives the phase of the carrier at each half of a window."""

    def __init__(self, rate: int, hertz: int, half: int) -> None:
        self.rate, self.hertz, self.half = rate, hertz, half
        self.wide, self.near = max(OWN_CYCLES, half), max(2, math.ceil(NEAR_CYCLES / half))
        self.cycle = rate / hertz
        self.blocks: List[complex] = []
        self.dropped = self.next = 0  # blocks that are not kept; windows that were measured
        self.measured: List[Measured] = []  # of which the last are still judged
        self.judged = 0  # of these
        self.was = False  # whether the last one that was judged has a carrier
        self.rotors: Dict[Tuple[int, int], List[complex]] = {}
        self.run: Followed = Followed(self.cycle, half)

    def feed(self, blocks: Sequence[complex], final: bool) -> Iterator[Piece]:
        """The pieces that these blocks complete."""
        self.blocks += blocks
        while self.half * (self.next + 1) + self.wide <= self.dropped + len(self.blocks):
            self.measured.append(self._measure(self.half * self.next))
            self.next += 1
        if final:
            self._last()
        yield from self._judge(final)
        over = max(0, self.half * (self.next - 1) - 2 * self.wide - self.dropped)
        del self.blocks[:over]
        self.dropped += over

    def _last(self) -> None:
        """The windows that are left; one ends with the last block."""
        end = self.dropped + len(self.blocks) - 2 * self.half
        while self.half * self.next < end:
            self.measured.append(self._measure(self.half * self.next))
            self.next += 1
        if end > self.half * (self.next - 1):
            self.measured.append(self._measure(end))

    def _measure(self, first: int) -> Measured:
        """A window, by the number of its first block."""
        middle, size = first - self.dropped + self.half, 2 * self.half
        near = self.blocks[max(0, middle - size):middle + size]
        pairs = sum(map(mul, near[APART:], map(complex.conjugate, near)))
        faster = cmath.phase(pairs) / (2 * math.pi * APART) if pairs else 0.0
        whole, power = self._sum(middle, self.half, faster)
        ahead = cmath.phase(whole) / (2 * math.pi)
        if self.wide > self.half:
            whole, power = self._sum(middle, self.wide, faster)
        start, end = -(-first * self.rate // self.hertz), -(-(first + size) * self.rate // self.hertz)
        return Measured((start + end - 1) / 2, ahead, faster, abs(whole) ** 2, power)

    def _sum(self, middle: int, half: int, faster: float) -> Tuple[complex, float]:
        """The sum of the blocks around one, turned to one phase, and the power that it could have."""
        first = max(0, middle - half)
        blocks = self.blocks[first:middle + half]
        rotor = self._rotor(half, round(faster * FINE))[first - middle + half:]
        power = sum(map(mul, blocks, map(complex.conjugate, blocks)), 0j).real
        return sum(map(mul, blocks, rotor), 0j), len(blocks) * power

    def _rotor(self, half: int, faster: int) -> List[complex]:
        """What turns the blocks of a window to one phase, for a frequency in steps."""
        found = self.rotors.get((half, faster))
        if found is None:
            turn = -2j * math.pi * faster / FINE
            found = [cmath.exp(turn * (place + 0.5)) for place in range(-half, half)]
            self.rotors[half, faster] = found
        return found

    def _judge(self, final: bool) -> Iterator[Piece]:
        """Joins the windows in which there is a carrier."""
        measured = self.measured
        end = len(measured) if final else len(measured) - self.near
        for place in range(self.judged, end):
            fine = self._is_carrier(place)
            one = measured[place]
            if self.run.times and (not fine or not self.run.continues(one)):
                yield from self.run.close(fine)
            if fine:
                self.run.add(one, 0.5 if self.was and not self.run.times else 1.0)
            self.was = fine
        self.judged = max(self.judged, end)
        over = max(0, self.judged - self.near)
        del measured[:over]
        self.judged -= over
        if self.run.times:
            yield from self.run.close(False) if final else self.run.more()

    def _is_carrier(self, place: int) -> bool:
        near = self.measured[max(0, place - self.near):place + self.near + 1]
        own = self.measured[place]
        fine = own.all > 0 and own.sum >= ALIKE / 2 * own.all and abs(own.faster) <= MOST_OFF
        return fine and sum(one.sum for one in near) >= ALIKE * sum(one.all for one in near)


class Followed:
    """The windows of one carrier, without a jump."""

    def __init__(self, cycle: float, half: int) -> None:
        self.cycle, self.half = cycle, half
        self.times: List[float] = []
        self.phases: List[float] = []
        self.last: Optional[Measured] = None
        self.done, self.begin = 0, 1.0  # windows that were given; halves of a window before the first

    def _expected(self, one: Measured) -> float:
        """The phase of the next window by the frequencies of it and of the last."""
        assert self.last is not None
        faster = (self.last.faster + one.faster) / 2
        return self.phases[-1] + (1 + faster) * (one.time - self.last.time) / self.cycle

    def continues(self, one: Measured) -> bool:
        off = one.time / self.cycle + one.ahead - self._expected(one)
        return abs(off - round(off)) < PHASE_JUMP

    def add(self, one: Measured, begin: float) -> None:
        phase = one.time / self.cycle + one.ahead
        if self.times:
            phase += round(self._expected(one) - phase)
        else:
            self.done, self.begin = 0, begin
        self.times.append(one.time)
        self.phases.append(phase)
        self.last = one

    def _true(self, place: int) -> float:
        """A phase without what the window has smoothed: a sixth of the second difference of its neighbours."""
        phases, times = self.phases, self.times
        near = min(max(1, place), len(phases) - 2)  # at an end the neighbour's
        share = (times[near] - times[near - 1]) / (times[near + 1] - times[near - 1])
        between = phases[near - 1] + share * (phases[near + 1] - phases[near - 1])
        return phases[place] + (phases[near] - between) / 3

    def _knots(self, end: int) -> List[Knot]:
        """The knots up to one; two are kept, whose neighbours are known."""
        first = max(0, self.done - 1)
        true = [self._true(place) for place in range(first, min(len(self.times), end + 1))]
        times = self.times[first:first + len(true)]
        return [Knot(true[place], times[place], self._slope(true, times, place))
                for place in range(self.done - first, end - first)]

    @staticmethod
    def _slope(phases: Sequence[float], times: Sequence[float], place: int) -> float:
        """The length of a cycle; at an end as if it went on to change as between the nearest three knots."""
        one, other = max(0, place - 1), min(len(phases) - 1, place + 1)
        slope = (times[other] - times[one]) / (phases[other] - phases[one])
        if other - one == 2 or len(phases) < 3:
            return slope
        far = 2 if one == place else len(phases) - 3
        return 2 * slope - (times[far] - times[place]) / (phases[far] - phases[place])

    def more(self) -> Iterator[Piece]:
        end = len(self.times) - 2
        if end < FEWEST_WINDOWS or end <= self.done:
            return
        knots, opens = self._knots(end), self.done == 0
        over = end - 2
        del self.times[:over], self.phases[:over]
        self.done = end - over
        yield Piece([self._beyond(knots[:2], self.begin), *knots] if opens else knots, opens, False)

    def close(self, jumps: bool) -> Iterator[Piece]:
        opens = self.done == 0
        alone = opens and self.begin == 1 and not jumps
        if len(self.times) >= (FEWEST_ALONE if alone else FEWEST_WINDOWS):
            knots = self._knots(len(self.times))
            after = self._beyond(knots[:-3:-1], 0.5 if jumps else 1.0)
            yield Piece([self._beyond(knots[:2], self.begin), *knots, after] if opens else [*knots, after], opens, True, jumps)
        self.times, self.phases, self.last = [], [], None

    def _beyond(self, knots: Sequence[Knot], halves: float) -> Knot:
        """A knot that many halves of a window beyond the first of two, away from the other, with the same change of the
        speed; a whole half is a little more, as it is in nominal cycles."""
        one, other = knots
        cycles = math.copysign(halves * self.half * (1 + 2 * MOST_OFF if halves >= 1 else 1), one.phase - other.phase)
        cycle = one.cycle + (one.cycle - other.cycle) * cycles / (one.phase - other.phase)
        return Knot(one.phase + cycles, one.time + cycles * (one.cycle + cycle) / 2, cycle)
