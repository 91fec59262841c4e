"""Running sums of samples times sine and cosine of a carrier's nominal frequency."""
from __future__ import annotations

import cmath
import math
from itertools import accumulate
from operator import mul
from typing import List, Sequence


class Sines:
    """Sine and cosine of the nominal carrier at each sample, from phase 0 on, as the parts of a complex number."""

    def __init__(self, rate: int, hertz: int, size: int) -> None:
        self.rate, self.hertz = rate, hertz
        turn = 2 * math.pi * hertz / rate
        self.turns = [complex(math.sin(turn * place), math.cos(turn * place)) for place in range(size)]
        self.turned = list(accumulate(self.turns, initial=0j))


class Window:
    """A stretch of samples, its first one by its number in the recording. Its mean does not count."""

    def __init__(self, begin: int, values: Sequence[float], table: Sines) -> None:
        self.begin, self.size, self.table = begin, len(values), table
        self.turn = 2 * math.pi * table.hertz / table.rate
        self.mean = sum(values) / len(values)
        self.sums = list(accumulate(map(mul, values, table.turns), initial=0j))

    def running(self, places: Sequence[int]) -> List[complex]:
        """The running sums before these samples, in their order; the places of other stretches have those of its ends."""
        sums, turned, mean, begin, size = self.sums, self.table.turned, self.mean, self.begin, self.size
        inside = [place - begin for place in places]
        if inside[0] < 0 or inside[-1] > size:
            inside = [min(size, max(0, place)) for place in inside]
        return [sums[place] - mean * turned[place] for place in inside]

    def blocks(self, first: int, end: int) -> List[complex]:
        """The sums of whole nominal cycles, from one number to another, of all the recording. The phase of each is
        that by which the carrier is ahead of the nominal one."""
        rate, hertz = self.table.rate, self.table.hertz
        sums = self.running([-(-number * rate // hertz) for number in range(first, end + 1)])
        ahead = cmath.exp(-2j * math.pi * (self.begin * hertz % rate) / rate)
        return [(after - before) * ahead for before, after in zip(sums, sums[1:])]

    def along(self, starts: Sequence[float]) -> List[complex]:
        """For each of the cycles that begin at these places, up to the last one: the amplitude, and what the phase is
        ahead by, in radians, times the amplitude."""
        first = [math.ceil(start) for start in starts]
        sums = self.running(first)
        turn, begin = 1j * self.turn, self.begin
        middles = [(one + other) / 2 - begin for one, other in zip(starts, starts[1:])]
        found = [(one - other) * cmath.exp(turn * middle) for one, other, middle in zip(sums, sums[1:], middles)]
        return [value / part for value, part in zip(found, squares(starts, first))]

    def part(self, start: float, end: float, zero: float, cycle: float) -> float:
        """The amplitude between two places, of a sine that is at phase 0 at the place `zero`."""
        places = [math.ceil(start), math.ceil(end)]
        before, after = self.running(places)
        value = (after - before) * cmath.exp(1j * self.turn * (zero - self.begin))
        return value.real / max(square(places[0] - zero, places[1] - places[0], 2 * math.pi / cycle), 1e-9)


def squares(starts: Sequence[float], first: Sequence[int]) -> List[float]:
    """The sum of the squares of a sine over each cycle: about half of its samples."""
    return [square(place - start, after - place, 2 * math.pi / (end - start)) or 1.0
            for start, end, place, after in zip(starts, starts[1:], first, first[1:])]


def square(first: float, count: int, turn: float) -> float:
    """The sum of the squares of sines of an angle that grows by `turn` from one to the next of `count`; the first is
    `first` times that."""
    return (count - math.cos(turn * (2 * first + count - 1)) * math.sin(count * turn) / math.sin(turn)) / 2
