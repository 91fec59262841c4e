"""The calendar of a code, and the candidates of a recording: the times that each of its bits can have. Nothing shows that the right one is
among them.
"""
from __future__ import annotations

import heapq
from functools import lru_cache
from itertools import groupby
from operator import itemgetter
from typing import Callable, Dict, FrozenSet, Iterator, List, NamedTuple, Sequence, Set, Tuple

from reference import timecode
from reference.explanation import BIT, CANNOT, POSITION, UNUSED, logarithm

SET = 176  # the time of the code jumps, and the logarithm of how many frames by: whole frames are lost, or a clock is set
BLOCK = 32  # frames of a stretch that have the same candidates
WINDOWS = (BLOCK, 16, 8, 4, 2, 1)  # frames in which a time is looked for
BEAM = 12  # times kept from each field to the next finer one
NEAR = 99  # frames
MOST = 16  # times of a block
DAY, MINUTE = 24 * 60 * 6000, 6000  # hundredths of a second

Costs = Tuple[int, int]  # what an element costs as a zero, and as a one, beyond the cheaper one


class Code:
    """A format and expression. Times are counted in frames from the begin of a year of 366 days. Those of a second 60 are two years later
    than those of the second before it."""

    def __init__(self, kind: str, expression: int) -> None:
        self.period = timecode.INTERVAL[kind] // 100  # hundredths of a second
        fields: Dict[str, List[List[Tuple[int, int]]]] = timecode.layout(kind, expression)
        used = {element for digits in fields.values() for rows in digits for element, _ in rows}
        self.roles = [POSITION if e in timecode.PLACES_OF_POSITIONS else BIT if e in used else UNUSED for e in range(100)]
        self.fields = {name: digits for name, digits in fields.items() if name not in ("year", "control")}
        self.bits = {element for digits in self.fields.values() for rows in digits for element, _ in rows}
        self.second, self.minute, self.day = 100 // self.period, MINUTE // self.period, DAY // self.period
        self.year = 366 * self.day
        self.inserted = 2 * self.year
        self.ones: Callable[[int], FrozenSet[int]] = lru_cache(None)(self._ones)
        self.far: Callable[[int, int, int], int] = lru_cache(None)(self._far)

    def time(self, base: int, frame: int) -> int:
        """The time of a frame of a stretch, by that of frame 0."""
        return (base + frame) % self.year + (self.inserted if base >= self.inserted else 0)

    def is_time(self, time: int) -> bool:
        """Whether a frame can have a time: only the last second of a minute has a second 60 after it."""
        return time < self.inserted or time % self.minute >= self.minute - self.second

    def _ones(self, time: int) -> FrozenSet[int]:
        """The elements of the frame of a time that are one."""
        day, rest = divmod(time % self.year * self.period, DAY)
        more = int(time >= self.inserted)
        values = {"days": day + 1, "hours": rest // 360000, "minutes": rest // 6000 % 60, "seconds": rest // 100 % 60 + more,
                  "hundredths": rest % 100, "sbs": rest // 100 + more}
        return frozenset(element for name, digits in self.fields.items() for rows in digits for element, weight in rows
                         if (values[name] if name == "sbs" else values[name] // rows[0][1] % 10) & weight // rows[0][1])

    def later(self, time: int, frames: int) -> Iterator[int]:
        """The times that can come that many frames after one. Day 365 can be the last one, and a minute can end with a second 60."""
        after = (time + frames) % self.year
        if time >= self.inserted and time % self.minute + frames < self.minute:
            yield self.inserted + after
            return
        yield after
        if (after - 365 * self.day) % self.year < frames:
            yield (after + self.day) % self.year
        if time < self.inserted and after % self.minute < min(frames, self.second):
            yield self.inserted + (after - self.second) % self.year

    def _far(self, time: int, frames: int, other: int) -> int:
        """How many frames a time is from those that can come that many frames after another one, around the year."""
        apart = [(each - other) % self.year for each in self.later(time, frames) if (each < self.inserted) == (other < self.inserted)]
        return min((min(each, self.year - each) for each in apart), default=self.year)


class Bit(NamedTuple):
    """A claim whose element says something of the time; the element is counted on in its stretch."""

    stretch: int
    element: int
    rise: int
    costs: Costs

    @property
    def frame(self) -> int:
        return self.element // 100


Frame = Sequence[Bit]  # the bits of a frame, at least one
Block = Sequence[Frame]  # the frames of a block that have a bit
Shift = Callable[[Bit, Bit], Set[int]]  # how many frames frame 0 of a bit's stretch can be after that of a bit before it


class Candidates:
    """The times that bits can have, each as the base of its stretch: those found in their block, and the best ones of the blocks next to
    it."""

    def __init__(self, code: Code, bits: Sequence[Bit], shift: Shift) -> None:
        self.code, self.shift = code, shift
        blocks = [list(group) for _, group in groupby(bits, lambda bit: (bit.stretch, bit.frame // BLOCK))]
        self.blocks = [[list(group) for _, group in groupby(block, lambda bit: bit.frame)] for block in blocks]

    def of_bits(self) -> List[List[int]]:
        """The candidates of each bit."""
        found: List[Set[int]] = []
        for number, block in enumerate(self.blocks):
            found.append(self._found(block, self._carried(self.blocks[number - 1], found[-1], block, 1) if number else set()))
        for number in reversed(range(1, len(self.blocks))):
            found[number - 1] |= self._carried(self.blocks[number], found[number], self.blocks[number - 1], -1)
        return [self._with_turns(bases, frame[0].frame) for block, bases in zip(self.blocks, found) for frame in block for _ in frame]

    def _with_turns(self, bases: Set[int], frame: int) -> List[int]:
        """Also the times of a second 60 that a frame can have, after a time or before it; and for one of day 366 those of day 365 and 1."""
        sixties = {self.code.inserted + (base - by) % self.code.year for base in bases for by in (0, self.code.second) if self.code.second}
        days = {(base + by * self.code.day) % self.code.year for base in bases for by in (-1, 1)
                if self.code.time(base, frame) // self.code.day == 365}
        return sorted(bases | days | {base for base in sixties if self.code.is_time(self.code.time(base, frame))})

    def _carried(self, block: Block, bases: Set[int], to: Block, by: int) -> Set[int]:
        """The best time of a block, as one of the block after it or before it."""
        best = min(bases, key=lambda base: (self._cost(block, base), base))
        first, last = (block, to) if by > 0 else (to, block)
        return {(best + by * shift) % self.code.year for shift in self.shift(first[-1][-1], last[0][0])}

    def _cost(self, frames: Block, base: int, enough: int = CANNOT) -> int:
        """What the bits of some frames cost with a time; those after enough are not counted."""
        total = 0
        for frame in frames:
            ones = self.code.ones(self.code.time(base, frame[0].frame))
            total += sum(bit.costs[bit.element % 100 in ones] for bit in frame)
            if total >= enough:
                break
        return total

    def _found(self, block: Block, carried: Set[int]) -> Set[int]:
        """The times that cost less than others within some window of a block; of many those that save most."""
        got = dict.fromkeys(carried or self._cheapest(block), CANNOT)
        for window in WINDOWS:
            for first in range(0, len(block), max(1, window // 2)):
                part = block[first:first + window]
                self._look_for(part, SET if len(part) == len(block) else 0, got)
        return set(heapq.nlargest(MOST, got, key=got.__getitem__))

    def _look_for(self, window: Block, excludes: int, got: Dict[int, int]) -> None:
        """Adds the times that cost less than a known one, with how far they are: of those near that, and of all; and what they save."""
        for most, base in heapq.nsmallest(2, ((self._cost(window, base) + excludes, base) for base in got), key=itemgetter(0)):
            near = ((base + by) % self.code.year for by in range(-NEAR, NEAR + 1) if by and most > logarithm(2))
            for times in (near, self._cheapest(window) if most > logarithm(2 + NEAR) else ()):
                costs = [(self._cost(window, time, most) + logarithm(1 + self.code.far(base, 0, time)), time) for time in times]
                got.update((time, max(most - cost, got.get(time, 0))) for cost, time in heapq.nsmallest(2, costs) if cost < most)

    def _cheapest(self, frames: Block) -> List[int]:
        """The two times of frame 0 that cost least over some frames: field by field, from the finest on."""
        tables = [(frame[0].frame, {name: self._digits(frame, name) for name in self.code.fields if name != "sbs"}) for frame in frames]
        size = self.code.minute
        parts = [divmod(part * self.code.period, 100) for part in range(size)]  # seconds and hundredths
        fine = [(number, [table["seconds"][second] + table.get("hundredths", [0] * 100)[rest] for second, rest in parts])
                for number, table in tables]
        beam = heapq.nsmallest(BEAM, ((sum(costs[(part + number) % size] for number, costs in fine), part) for part in range(size)))
        for name, count in (("minutes", 60), ("hours", 24), ("days", 366)):
            more: List[Tuple[int, int]] = []
            known: Dict[Tuple[int, ...], List[int]] = {}  # by the carries of the frames
            for cost, time in beam:
                carries = tuple((time + number) // size for number, _ in tables)
                if carries not in known:
                    known[carries] = [sum(table[name][(value + carry) % count] for carry, (_, table) in zip(carries, tables))
                                      for value in range(count)]
                more += [(cost + own, value * size + time) for value, own in enumerate(known[carries])]
            beam, size = heapq.nsmallest(BEAM, more), size * count
        return heapq.nsmallest(2, (time for _, time in beam), key=lambda time: (self._cost(frames, time), time))

    def _digits(self, frame: Frame, name: str) -> List[int]:
        """What each value of a field costs in a frame; days count from 0."""
        costs = {bit.element % 100: bit.costs for bit in frame}
        first = 1 if name == "days" else 0
        total = [0] * {"days": 366, "hours": 24}.get(name, 100 if name == "hundredths" else 60)
        for rows in self.code.fields[name]:
            unit = rows[0][1]
            digits = [sum(costs.get(element, (0, 0))[bool(value & weight // unit)] for element, weight in rows) for value in range(10)]
            total = [known + digits[(value + first) // unit % 10] for value, known in enumerate(total)]
        return total
