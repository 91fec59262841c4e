"""Columns of a table and channels of a sound file as the wires of one dump, so that they are searched as those of any dump."""
from __future__ import annotations

from array import array
from contextlib import suppress
from dataclasses import dataclass, field
from heapq import merge
from typing import IO, Iterable, Iterator, List, Optional, Sequence, Tuple

from .carrier import CARRIERS, Carrier
from .cycles import Edge
from .editor import Problem
from .layout import INTERVAL
from .levels import Levels
from .samples import MICROSECONDS, Samples
from .search import WINDOW, kinds_of
from .units import ELEMENTS

LEAST_LOOKED, MOST_LOOKED = 1 << 18, 1 << 20  # samples that are looked at of a channel
FRAMES_LOOKED = 6  # of each format, if that is within these
FIRST_CODE = 33  # of a wire: !, and then the letters after it


@dataclass
class Lane:
    """A column or a channel, read in one way: its edges in microseconds, of which the first is a rise."""

    text: str  # as its user knows it
    words: List[str] = field(default_factory=list)  # with which irig_demodulate reads it
    is_carrier: bool = False
    edges: "array[int]" = field(default_factory=lambda: array("q"))
    until: int = 0  # up to which it was looked at, of a channel


class KeptSamples(Samples):
    """Samples of a channel that were read, from a time on in microseconds."""

    def __init__(self, path: str, values: Sequence[float], kind: str, rate: int, begun: float) -> None:
        self.path, self.values, self.kind, self.rate, self.begun = path, values, kind, rate, begun
        self.notes, self.negative = [], False

    def _stretches(self, length: int) -> Iterator[Sequence[float]]:
        return (self.values[first:first + length] for first in range(0, len(self.values), length))

    def begin_of(self, seconds: float) -> "KeptSamples":
        """The samples of some time at their beginning."""
        many = min(MOST_LOOKED, max(LEAST_LOOKED, round(seconds * self.rate)))
        return KeptSamples(self.path, self.values[:many], self.kind, self.rate, self.begun)

    def end(self) -> int:
        """The time after the last of them."""
        return round(self.begun + MICROSECONDS * len(self.values) / self.rate)


def lane_of(text: str, words: Sequence[str], samples: KeptSamples) -> Optional[Lane]:
    """A channel in the first way in which it looks like time code: as a level, or on a carrier. A level comes first: pulses that are high
    for longer and for shorter look like a slow carrier, and no carrier has two levels."""
    if not samples.values or min(samples.values) == max(samples.values):
        return None
    for kind in INTERVAL:
        begin = samples.begin_of(_seconds_of(kind))
        level = Levels(begin)
        lane = Lane(text, [*words, "--level"], False, _edge_times(level.samples, level.edges()), begin.end())
        if _looks_like(lane, kind):
            return lane
    for kind, hertz in [(kind, hertz) for kind in "BAE" for hertz in CARRIERS[kind]]:
        with suppress(Problem):  # too few samples for this carrier, or too many
            begin = samples.begin_of(_seconds_of(kind))
            carrier = Carrier(begin, hertz, kind)
            edges = _edge_times(carrier.samples, carrier.edges())
            lane = Lane(text, [*words, *_words_of(kind, hertz)], True, edges, begin.end())
            if _looks_like(lane, kind):
                return lane
    return None


def _seconds_of(kind: str) -> float:
    return FRAMES_LOOKED * ELEMENTS * INTERVAL[kind] / MICROSECONDS


def _words_of(kind: str, hertz: int) -> List[str]:
    """The options of a carrier, if they are needed."""
    words = [] if kind == "B" else ["--format", kind]
    return words + ([] if hertz == CARRIERS[kind][0] else ["--carrier", str(hertz)])


def _edge_times(samples: Samples, edges: Iterable[Edge]) -> "array[int]":
    return array("q", [round(samples.at(place)) for place, _ in edges])


def _looks_like(lane: Lane, kind: str) -> bool:
    steps = {each: float(step) for each, step in INTERVAL.items()}
    return any(kind == found for found, _ in kinds_of(lane.edges[:WINDOW], True, steps))


def write_lanes(lanes: Sequence[Lane], length: int, out: IO[bytes]) -> None:
    """A dump with a wire for each lane, which is called by its number."""
    codes = [chr(FIRST_CODE + number) for number in range(len(lanes))]
    out.write(b"$timescale 1 us $end\n")
    for number, code in enumerate(codes):
        out.write(("$var wire 1 %s lane%d $end\n" % (code, number)).encode())
    out.write(b"$enddefinitions $end\n#0\n" + "".join("0%s\n" % code for code in codes).encode())
    for time, level, code in merge(*(_changes_of(lane, code) for lane, code in zip(lanes, codes))):
        out.write(("#%d\n%d%s\n" % (time, level, code)).encode())
    out.write(b"#%d\n" % length)


def _changes_of(lane: Lane, code: str) -> Iterator[Tuple[int, int, str]]:
    return ((time, 1 - number % 2, code) for number, time in enumerate(lane.edges))
