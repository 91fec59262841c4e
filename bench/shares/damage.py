"""Damage of the wire of the code. It changes pulses and no time, so it changes nothing of the truth."""
from __future__ import annotations

from bisect import bisect_right
from random import Random
from typing import Callable, Dict, List

from sent import WIDTHS, Pulse
from tape import joined


class Wire:
    """The wire of the code, by the pulses that were sent: instead of each there is itself, nothing, or several."""

    def __init__(self, sent: List[Pulse], interval: float, random: Random) -> None:
        self.pulses = [[pulse] for pulse in sent]
        self.rises = [pulse[0] for pulse in sent]  # as they were sent
        self.interval = interval
        self.random = random

    def number(self, place: float) -> int:
        """The number of the pulse that was sent at a place, or of the last one before it."""
        return max(0, bisect_right(self.rises, place) - 1)

    def share(self, least: float, most: float) -> float:
        """Some microseconds, given in intervals; at least one."""
        return max(1.0, self.random.uniform(least, most) * self.interval)

    def clear(self, number: int, count: int) -> int:
        """Pulses are lost; how many."""
        count = min(count, len(self.pulses) - number)
        self.pulses[number:number + count] = [[] for _ in range(count)]
        return count

    def gap(self, number: int, length: float) -> None:
        """A gap of some microseconds within a pulse."""
        kept: List[Pulse] = []
        for rise, fall in self.pulses[number]:
            begin = self.random.uniform(rise, fall)
            kept += [each for each in ((rise, begin), (begin + length, fall)) if each[0] < each[1]]
        self.pulses[number] = kept


# Each kind damages the pulse with a number, and returns of how many pulses from that one on.


def missing(wire: Wire, number: int) -> int:
    return wire.clear(number, 1)


def split(wire: Wire, number: int) -> int:
    """A short gap in a pulse."""
    wire.gap(number, wire.share(0.005, 0.1))
    return 1


def glitches(wire: Wire, number: int) -> int:
    """One to four short pulses after a pulse, or gaps in it."""
    for _ in range(wire.random.randint(1, 4)):
        if wire.random.random() < 0.3:
            wire.gap(number, wire.share(0.005, 0.05))
        else:
            rise = wire.rises[number] + wire.share(0.25, 0.95)
            wire.pulses[number] = joined(wire.pulses[number] + [(rise, rise + wire.share(0.005, 0.04))])
    return 1


def width(wire: Wire, number: int) -> int:
    """A pulse of another width: that of a class, or any."""
    share = wire.random.choice(WIDTHS) if wire.random.random() < 0.6 else wire.random.uniform(0.02, 0.98)
    rise = wire.rises[number]
    wire.pulses[number] = [(rise, rise + share * wire.interval)]
    return 1


def late(wire: Wire, number: int) -> int:
    """A rise comes late, with its fall or without it."""
    by = wire.share(0.02, 0.6)
    follows = wire.random.random() < 0.5
    wire.pulses[number] = joined([(rise + by, fall + by if follows else fall) for rise, fall in wire.pulses[number]])
    return 1


def merged(wire: Wire, number: int) -> int:
    """Two pulses run together, or three."""
    more = wire.random.choice((1, 1, 2))
    pulses = [pulse for each in wire.pulses[number:number + more + 1] for pulse in each]
    wire.clear(number, more + 1)
    wire.pulses[number] = [(pulses[0][0], pulses[-1][1])] if pulses else []
    return more + 1


def dropout(wire: Wire, number: int) -> int:
    """2 to 60 pulses are lost."""
    return wire.clear(number, wire.random.randint(2, 60))


def burst(wire: Wire, number: int) -> int:
    """Noise over 2 to 20 intervals instead of what was sent there."""
    count = wire.clear(number, wire.random.randint(2, 20))
    at, end = wire.rises[number], wire.rises[number] + (count - 0.2) * wire.interval
    while at < end:
        fall = at + wire.share(0.01, 0.6)
        wire.pulses[number].append((at, fall))
        at = fall + wire.share(0.01, 0.6)
    return count


KINDS: Dict[str, Callable[[Wire, int], int]] = {
    each.__name__: each for each in (missing, split, glitches, width, late, merged, dropout, burst)}
