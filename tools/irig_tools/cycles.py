"""The amplitude of each cycle of a carrier, and the pulses that it shows."""
from __future__ import annotations

import math
from bisect import bisect
from itertools import accumulate
from typing import Iterator, List, Optional, Sequence, Tuple

from .grid import Grid
from .quadrature import Window
from .samples import ranks
from .tracking import Knot, Piece

LEAST_RATIO = 1.6  # of the amplitudes; below there is no code
CUT = 0.05  # of a cycle at the ends of a recording can be missing
NEAR_LEVEL = 0.2  # of the way from low to high: the half cycles before and after a sharp step are that near
WAITING = 15  # cycles that are decided with those after them
FEWEST_CYCLES = 10  # cycles that have a low and a high amplitude
FEWEST_ELEMENTS = 4  # elements that always have them; fewer are read by those of before
FAST = 0.15  # cycles: the speed changes fast if that puts the phase so far off in half a window
PART = 3  # there one in three of the cycles around says what the phase is ahead, since it is not the same over all of them

Edge = Tuple[float, int]  # in samples, and the level after it


class Cycles:
    """Cycles from one upward crossing of zero to the next, or if `swapped` from one downward crossing to
    the next.

    `steps` counts the steps of the amplitude. `sharp` counts those of them that have the old amplitude up to
    the end of one cycle, and the new one from the beginning of the next."""

    def __init__(self, half: int, element: int, swapped: bool) -> None:
        self.half, self.element, self.swapped = half, element, swapped
        self.shift, self.sign = (0.5, -1) if swapped else (0.0, 1)
        self.level: Optional[int] = 0
        self.cut = False  # whether a pulse goes on whose rise was not heard
        self.steps = self.sharp = 0
        self.low = self.high = self.noise = 0.0
        self._open()

    def _open(self) -> None:
        """A carrier begins."""
        self.knot: Optional[Knot] = None
        self.fast: List[Tuple[float, float]] = []  # where the speed changes fast: from phase to phase
        self.starts: List[float] = []  # of cycles; the last is the end of the last cycle
        self.values: List[complex] = []  # of these, as `Window.along` has them
        self.first = self.known = 0  # the number of the first of these, and how many are decided already
        self.grid = Grid(self.element)

    def edges(self, piece: Piece, window: Window, length: int) -> Iterator[Edge]:
        """The edges that some knots of a carrier show, in a recording of that length so far."""
        if piece.opens:
            self._open()
            if piece.knots[0].time > self.half * piece.knots[0].cycle and self.level == 0:
                self.level = None
        fresh = self._starts(piece.knots, window, length)
        if not self.starts and fresh:
            self.starts = fresh[:1]
            fresh = fresh[1:]
        if fresh:
            self.values += [value * self.sign for value in window.along([self.starts[-1], *fresh])]
            self.starts += fresh
        yield from self._decide(piece.closes)
        if piece.closes and not piece.jumps:
            yield from self._end(len(self.starts) - 1)

    def _end(self, place: int) -> Iterator[Edge]:
        """The end of a pulse that is not seen any more."""
        if self.level and not self.cut and self.starts:
            yield self.starts[place], 0
        self.level, self.cut = 0, False

    def _starts(self, knots: Sequence[Knot], window: Window, length: int) -> List[float]:
        """Where cycles begin between these knots, and from the last one on."""
        found: List[float] = []
        for knot in knots:
            if self.knot:
                numbers = range(math.ceil(self.knot.phase - self.shift), math.ceil(knot.phase - self.shift))
                if numbers and not self.starts and not found:
                    self.first = numbers[0]
                found += between(self.knot, knot, [number + self.shift for number in numbers])
                if change(self.knot, knot) * self.half * self.half >= FAST:
                    self.fast.append((self.knot.phase - self.half, knot.phase + self.half))
            self.knot = knot
        least, most = -CUT * knots[0].cycle, length + CUT * knots[0].cycle
        early = 0 if self.starts else sum(1 for place in found if place < least)
        self.first += early
        return [place for place in found[early:] if place <= most]

    def _decide(self, closes: bool) -> Iterator[Edge]:
        """The edges of the cycles; the last cycles wait for the next."""
        heights = [value.real for value in self.values]
        end = len(heights) - (0 if closes else WAITING)
        if end <= self.known or len(heights) < (FEWEST_CYCLES if closes else FEWEST_ELEMENTS * self.element):
            return
        few = len(heights) - self.known < FEWEST_ELEMENTS * self.element and self.high > 0
        low, high, noise = (self.low, self.high, self.noise) if few else levels_of(heights)
        if high < LEAST_RATIO * max(low, 0) or high <= 0:
            yield from self._end(self.known)
        else:
            self.low, self.high, self.noise = low, high, noise
            yield from self._found(heights[self.known:], end - self.known)
        over = max(0, end - self.half)
        del self.starts[:over], self.values[:over]
        self.first, self.known = self.first + over, end - over
        self.fast = [(begin, after) for begin, after in self.fast if after > self.first]

    def _found(self, heights: Sequence[float], end: int) -> Iterator[Edge]:
        """The edges of the first of the cycles that are not decided, up to an end."""
        middle, scale = (self.low + self.high) / 2, 2 / (self.high - self.low)
        worth = [(height - middle) * scale for height in heights]
        number = self.first + self.known
        self.grid.costs(self.noise)
        levels = self.grid.levels(worth, number, self.level)
        if self.grid.vote(levels[:end], number):
            self.grid.costs(self.noise)
            levels = self.grid.levels(worth, number, self.level)
        if self.level is None:
            self.level, self.cut = levels[0], levels[0] == 1
        sums = list(accumulate((value * value.real for value in self.values), initial=0j))
        for place, level in enumerate(levels[:end], self.known):
            if level != self.level:
                if not self.cut:
                    yield max(self._refined(place, sums), 0.0), level
                self.level, self.cut = level, False

    def _refined(self, place: int, sums: Sequence[complex]) -> float:
        """Where a cycle begins, by what the phase of those around it is ahead."""
        fast = any(begin < self.first + place < after for begin, after in self.fast)
        half = self.half // PART if fast else self.half
        around = sums[min(len(sums) - 1, place + half)] - sums[max(0, place - half)]
        ahead = around.imag / around.real / (2 * math.pi) if around.real > 0 else 0.0
        return self.starts[place] - ahead * (self.starts[place + 1] - self.starts[place])

    def count(self, found: Sequence[Edge], window: Window, cycle: float) -> None:
        """Counts the steps at these edges, and those that are sharp."""
        for place, level in found:
            if window.begin < place - cycle / 2 and self.high > self.low:
                ends = [self.sign * window.part(start, start + cycle / 2, place, cycle) for start in (place - cycle / 2, place)]
                share = [(height - self.low) / (self.high - self.low) for height in ends]
                before, later = share if level else share[::-1]
                self.steps += 1
                self.sharp += before < NEAR_LEVEL and later > 1 - NEAR_LEVEL


def between(one: Knot, other: Knot, phases: Sequence[float]) -> List[float]:
    """The times of phases between two knots: on a curve of the third degree with the lengths of a cycle at both."""
    wide, long = other.phase - one.phase, other.time - one.time
    slope = wide * one.cycle
    bend = 3 * long - 2 * slope - wide * other.cycle
    twist = slope + wide * other.cycle - 2 * long
    first, time = one.phase, one.time
    steps = [(phase - first) / wide for phase in phases]
    return [time + step * (slope + step * (bend + step * twist)) for step in steps]


def change(one: Knot, other: Knot) -> float:
    """The share by which the length of a cycle changes from one cycle to the next."""
    return abs(other.cycle - one.cycle) / (other.phase - one.phase) / one.cycle


def levels_of(heights: Sequence[float]) -> Tuple[float, float, float]:
    """The low and the high amplitude: the middle ones of those below and above the middle between the ranks. And the
    noise, as a share of the way from low to high: how far the sixth part of the low ones that is lowest is below."""
    low, high = ranks(heights)
    ranked = sorted(heights)
    part = 0
    for _ in range(2):
        part = bisect(ranked, (low + high) / 2)
        if not 0 < part < len(ranked):
            return low, high, 0.0
        low, high = ranked[part // 2], ranked[(part + len(ranked)) // 2]
    return low, high, (low - ranked[part // 6]) / (high - low) if high > low else 0.0
