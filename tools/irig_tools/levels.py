"""Time code that is no carrier: its edges are where the level crosses the middle between low and high.

A stretch has a signal if its values are at two levels: few of them are in the middle, between 0.4 and 0.6 of the way
from the low level to the high one (of noise it is a fifth, of hum an eighth), and the levels are far enough apart. A
stretch without levels of its own is read by those of a stretch next to it, if its noise does not reach their middle.
"""
from __future__ import annotations

from typing import Iterator, List, Optional, Sequence, Tuple

from .cycles import Edge
from .samples import LITTLE, RAW, Samples, ranks

UP, DOWN = 0.6, 0.4  # of the way from low to high: what is above is high, what is below is low
MIDDLE = 0.1  # of the values of a stretch: more between these two are noise
STRETCH = 0.5  # seconds: five intervals of format E
LEAST_STRETCH, MOST_STRETCH = 1 << 12, 1 << 20  # samples in a stretch
AT_A_LEVEL = 0.15  # of the way: between two samples that are so near to low and high nothing says where the edge was
LEAST = 1 / 1000  # of the whole range of integers of 16 bits or more: levels that are nearer are noise

LowHigh = Tuple[float, float]  # a low and a high level


class Levels:
    """Edges of a level: hysteresis about the middle, and a straight line between two samples, or half-way. `gaps` are the stretches
    without a signal, in samples. Levels that are at most `threshold` apart are noise."""

    def __init__(self, samples: Samples, threshold: Optional[float] = None) -> None:
        self.samples, self.length, self.level = samples, 0, 0
        self.threshold = least_of(samples.kind) if threshold is None else threshold
        self.size = max(LEAST_STRETCH, min(MOST_STRETCH, round(samples.rate * STRETCH)))
        self.gaps: List[Tuple[int, int]] = []
        self.span: Optional[LowHigh] = None  # of the last stretch that had one of its own
        self.last = self.crossed = 0.0  # a value, and where the middle was crossed

    def edges(self) -> Iterator[Edge]:
        waiting: Optional[Tuple[Sequence[float], Optional[LowHigh]]] = None
        for values in self.samples.chunks(self.size):
            own = self._own(values)
            if waiting:
                yield from self._read(*waiting, own)
            waiting = values, own
        if waiting:
            yield from self._read(*waiting, None)

    def _own(self, values: Sequence[float]) -> Optional[LowHigh]:
        """The levels that a stretch shows."""
        low, high = ranks(values)
        wide = high - low
        if wide <= self.threshold:
            return None
        down, up = low + DOWN * wide, low + UP * wide
        between = sum(1 for value in values if down < value < up)
        return (low, high) if between <= MIDDLE * len(values) else None

    def _lent(self, values: Sequence[float], after: Optional[LowHigh]) -> Optional[LowHigh]:
        """The levels of a neighbour, if the noise of a stretch does not reach their middle."""
        span = self.span or after
        low, high = ranks(values)
        return span if span and high - low < DOWN * (span[1] - span[0]) else None

    def _read(self, values: Sequence[float], own: Optional[LowHigh], after: Optional[LowHigh]) -> Iterator[Edge]:
        """The edges in a stretch; the pulse that a gap cuts off ends there."""
        span = own or self._lent(values, after)
        self.span = own or self.span
        found = list(self._crossings(values, span)) if span else []
        self.last = values[-1]
        if not span and self.level:
            self.level = 0
            found = [(float(self.length), 0)]
        if not own and not found:
            self._add_gap(self.length, self.length + len(values))
        self.length += len(values)
        yield from found

    def _crossings(self, values: Sequence[float], span: LowHigh) -> Iterator[Edge]:
        low, high = span
        up, down, middle = low + UP * (high - low), low + DOWN * (high - low), _middle(span)
        last = self.last
        for place, value in enumerate(values, self.length):
            if (value > middle) != (last > middle) and value != last:
                self.crossed = max(0.0, place - 1 + _way(last, value, span)) if place else 0.0
            if value > up and not self.level or value < down and self.level:
                self.level = 1 - self.level
                yield self.crossed, self.level
            last = value

    def _add_gap(self, start: int, end: int) -> None:
        """Names a gap; a short end of a recording is none by itself."""
        if self.gaps and self.gaps[-1][1] == start:
            start = self.gaps.pop()[0]
        if 2 * (end - start) >= self.size:
            self.gaps.append((start, end))


def _middle(span: LowHigh) -> float:
    return (span[0] + span[1]) / 2


def _way(last: float, value: float, span: LowHigh) -> float:
    """How far from one sample to the next the middle is crossed: half-way if the level is low at one of them and high at the other, as
    noise alone would say more; else on a straight line."""
    near = AT_A_LEVEL * (span[1] - span[0])
    if min(last, value) <= span[0] + near and max(last, value) >= span[1] - near:
        return 0.5
    return (_middle(span) - last) / (value - last)


def least_of(kind: str) -> float:
    """How near to each other two levels of noise can be: of integers of 16 bits or more, as recorders have them; the
    zeros and ones of a logic analyser have 8 bits."""
    form = RAW.get(kind, LITTLE["u8"])
    return LEAST * 256.0 ** form[1] if form[1] > 1 and "f" not in kind else 0.0
