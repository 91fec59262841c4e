"""What a recorder makes of a sender: its clock, what it loses or has twice, and the truth about each of its moments.

A place is a microsecond of the recorder's clock as if it had lost nothing. A moment of the recording is a microsecond of what it wrote.
"""
from __future__ import annotations

import math
from bisect import bisect_left, bisect_right
from typing import List, NamedTuple, Optional, Sequence, Tuple

from sent import Pulse


class Wave(NamedTuple):
    """The clock goes faster and slower by a share, with a period in microseconds."""

    share: float
    period: float
    phase: float


class Clock:
    """The place at each moment of the sender: fast by a share, which grows by `slope` each microsecond, and by waves."""

    def __init__(self, fast: float, slope: float = 0.0, waves: Sequence[Wave] = ()) -> None:
        self.fast = fast
        self.slope = slope
        self.waves = waves

    def place(self, moment: float) -> float:
        place = moment * (1 + self.fast) + self.slope * moment * moment / 2
        for wave in self.waves:
            turn = 2 * math.pi / wave.period
            place += wave.share / turn * (math.sin(turn * moment + wave.phase) - math.sin(wave.phase))
        return place

    def places(self, moments: Sequence[float]) -> List[float]:
        """The places at many moments."""
        if self.slope or self.waves:
            return list(map(self.place, moments))
        return [moment * (1 + self.fast) for moment in moments]

    def speed(self, moment: float) -> float:
        speed = 1 + self.fast + self.slope * moment
        for wave in self.waves:
            speed += wave.share * math.cos(2 * math.pi / wave.period * moment + wave.phase)
        return speed

    def moment(self, place: float) -> float:
        """The moment of the sender at a place: by Newton's steps, to a thousandth of a microsecond."""
        moment = place / (1 + self.fast)
        for _ in range(60):
            off = self.place(moment) - place
            if abs(off) < 0.001:
                break
            moment -= off / self.speed(moment)
        return moment


class Event(NamedTuple):
    """At a place some microseconds are lost, or there twice (`twice`), or nothing is heard for that long (`wait`)."""

    kind: str
    place: float
    amount: float


class Part(NamedTuple):
    """A part of a recording: from a moment up to another, and the place of its begin, or None if it heard nothing."""

    begin: float
    end: float
    place: Optional[float]


class Tape:
    """A recording from a place on, with a length and its events."""

    def __init__(self, place: float, length: float, events: Sequence[Event]) -> None:
        self.length = length
        self.parts: List[Part] = []
        self.cuts: List[float] = []  # the moments of the events
        moment = 0.0
        for event in sorted(events, key=lambda each: each.place):
            if event.place <= place or moment + event.place - place >= length:
                continue
            self.parts.append(Part(moment, moment + event.place - place, place))
            moment, place = self.parts[-1].end, event.place
            self.cuts.append(moment)
            if event.kind == "lose":
                place += event.amount
            elif event.kind == "twice":
                place -= event.amount
            else:
                self.parts.append(Part(moment, moment + event.amount, None))
                moment += event.amount
        if moment < length:
            self.parts.append(Part(moment, length, place))

    def place(self, moment: float) -> Optional[float]:
        """The place that is recorded at a moment."""
        for part in self.parts:
            if part.begin <= moment < part.end:
                return None if part.place is None else part.place + moment - part.begin
        return None

    def moments(self, place: float) -> List[float]:
        """The moments at which a place is recorded: none, one or several."""
        found = []
        for part in self.parts:
            if part.place is not None and 0 <= place - part.place < part.end - part.begin:
                found.append(part.begin + place - part.place)
        return found

    def play(self, pulses: Sequence[Pulse]) -> List[Pulse]:
        """The pulses of the recording."""
        rises = [pulse[0] for pulse in pulses]
        falls = [pulse[1] for pulse in pulses]
        played: List[Pulse] = []
        for part in self.parts:
            if part.place is None:
                continue
            last = part.place + part.end - part.begin
            heard = list(pulses[bisect_right(falls, part.place):bisect_left(rises, last)])
            if heard:
                heard[0] = (max(heard[0][0], part.place), heard[0][1])
                heard[-1] = (heard[-1][0], min(heard[-1][1], last))
            later = part.begin - part.place
            played += [(rise + later, fall + later) for rise, fall in heard]
        return joined(played)


class Spliced(Tape):
    """A recording from a place on, in which another place follows at each of some cuts."""

    def __init__(self, place: float, length: float, cuts: Sequence[Tuple[float, float]]) -> None:
        super().__init__(place, 0.0, [])
        self.length = length
        moment = 0.0
        for end, following in cuts:
            if moment + end - place >= length:
                break
            self.parts.append(Part(moment, moment + end - place, place))
            moment, place = self.parts[-1].end, following
            self.cuts.append(moment)
        self.parts.append(Part(moment, length, place))


def joined(pulses: Sequence[Pulse]) -> List[Pulse]:
    """The same levels with pulses in order that do not touch."""
    found: List[Pulse] = []
    for rise, fall in sorted(pulses):
        if found and rise <= found[-1][1]:
            found[-1] = (found[-1][0], max(found[-1][1], fall))
        elif rise < fall:
            found.append((rise, fall))
    return found


def dump(pulses: Sequence[Pulse], length: float) -> str:
    """A value change dump, in whole microseconds."""
    lines = ["$timescale 1 us $end $var wire 1 ! code $end $enddefinitions $end", "#0"]
    whole = joined([(math.floor(rise), math.floor(fall)) for rise, fall in pulses])
    if not whole or whole[0][0] > 0:
        lines.append("0!")
    for rise, fall in whole:
        lines += ["#%d" % rise, "1!", "#%d" % fall, "0!"]
    lines.append("#%d" % max(math.floor(length), whole[-1][1] if whole else 0))
    return "\n".join(lines) + "\n"
