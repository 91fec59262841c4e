"""A part of a recording in which each pulse has a place: 100 times its frame, counted from a marker, and its element."""
from __future__ import annotations

from bisect import bisect_left, bisect_right
from typing import Dict, List, Optional, Sequence, Tuple

from . import limits
from .grouping import grouped
from .interval import Clock, Run
from .layout import Layout
from .other_code import OtherCode
from .units import ELEMENTS, FrameNumber, Microseconds, PlaceNumber, PulseIndex, frame_of, plus, through
from .zones import Zone


class Track:
    """Runs that are linked, and the zones between them.

    A place has one letter: its class, `-` if it has no pulse, `?` if it has no single pulse in step, `~` if nobody knows.
    """

    def __init__(self, layout: Layout, clock: Clock, runs: List[Run]) -> None:
        self.listing, self.layout, self.clock, self.runs = clock.listing, layout, clock, runs
        self.rises, self.falls, self.classes = self.listing.rises, self.listing.falls, self.listing.classes
        lefts: List[Optional[Run]] = [None, *runs]
        rights: List[Optional[Run]] = [*runs, None]
        self.zones = [Zone(clock, left, right) for left, right in zip(lefts, rights)]
        self.zone_of = {place: zone for zone in self.zones for place in zone.pulses}
        self.first, self.last = self.zones[0].first, self.zones[-1].last
        self.starts = [run.place for run in runs]
        self.strays: Dict[PlaceNumber, Microseconds] = {}
        self.told, self.sure = self._letters()
        self.strays = self._find_strays()  # places whose rise is off though all else is right, and when it should be

    def _letters(self) -> Tuple[str, str]:
        """A letter for each place, and the same without what may be of either side of a place with a glued run."""
        told = bytearray(b"-" * (self.last - self.first + 1))
        for run in self.runs:
            told[run.place - self.first:run.last_place - self.first + 1] = self.clock.text(run).encode()
        for place in self.zone_of:
            told[place - self.first] = ord(self._judge(place))
        if self.falls[-1] == self.listing.length and self.pulses_at(self.last)[-1:] == [len(self.falls) - 1]:
            told[-1] = ord("~")  # cut by the end of the recording
        for zone in self.zones:
            for place in self._of_other(zone, zone.other) if zone.other else zone.inner() if zone.vague else ():
                told[place - self.first] = ord("~")
        all_told = told.decode()
        for zone in self.zones:
            if zone.glued:
                low, high = zone.first + 1 - zone.tail - self.first, zone.last + zone.head - self.first
                told[low:high] = b"~" * (high - low)
        return all_told, told.decode()

    def _find_strays(self) -> Dict[PlaceNumber, Microseconds]:
        """Those in runs, and those of single pulses between two runs on one clock."""
        found: Dict[PlaceNumber, Microseconds] = {}
        for run in self.runs:
            for pulse in self._straying(run):
                found[plus(run.place, pulse - run.first)] = self.clock.strays[pulse]
        for zone in self.zones:
            if zone.left and zone.right and not (zone.late or zone.glued or zone.vague or zone.other):
                inside = self.clock.inside(zone.right.step, zone.left, zone.right)
                most = self.clock.least_stray + max(self.clock.over(zone.right.step), inside)
                for place in zone.inner():
                    pulses = zone.pulses[place]
                    if self.told[place - self.first] in "01P" and abs(self.rises[pulses[0]] - zone.rise_at(place)) > most:
                        found[place] = zone.rise_at(place)
        return found

    def _straying(self, run: Run) -> Sequence[PulseIndex]:
        low, high = (bisect_left(self.clock.in_stray, pulse) for pulse in (run.first, run.last + 1))
        return self.clock.in_stray[low:high]

    def _of_other(self, zone: Zone, other: OtherCode) -> List[PlaceNumber]:
        """The places of a hole with other code in it, and those next to it that look as if they were of it, too."""
        found = [place for place in through(zone.first, zone.last)
                 if zone.first < place < zone.last or self._judge(place) not in "01P"]
        for run, beyond, way in ((zone.left, other.first, -1), (zone.right, other.last, 1)):
            pulse = plus(beyond, way)
            while run and run.first <= pulse <= run.last and self.classes[pulse] == "b" and other.is_apart(
                    abs(self.rises[pulse] - self.rises[plus(pulse, -way)])):
                found.append(plus(run.place, pulse - run.first))
                pulse = plus(pulse, way)
        return found

    def _judge(self, place: PlaceNumber) -> str:
        pulses = self.pulses_at(place)
        if not pulses:
            return "-"
        if len(pulses) > 1 or abs(self.rises[pulses[0]] - self.rise_at(place)) > self.stray_at(place):
            return "?"
        return self.classes[pulses[0]]

    def pulses_at(self, place: PlaceNumber) -> Sequence[PulseIndex]:
        if place in self.zone_of:
            return self.zone_of[place].pulses[place]
        run = self.runs[bisect_right(self.starts, place) - 1]
        return [plus(run.first, place - run.place)]

    def pulses_of(self, places: Sequence[PlaceNumber]) -> List[PulseIndex]:
        """The pulses of some places, in their order."""
        return sorted({pulse for place in places for pulse in self.pulses_at(place)})

    def rise_at(self, place: PlaceNumber) -> Microseconds:
        """When the pulse of a place should rise."""
        zone = self.zone_of.get(place)
        return self.strays[place] if place in self.strays else zone.rise_at(place) if zone else self.rises[self.pulses_at(place)[0]]

    def interval_at(self, place: PlaceNumber) -> float:
        """The interval near a place; on a clock that wanders as the pulses on both sides have it."""
        zone = self.zone_of.get(place)
        if not self.clock.wander:
            return self.clock.interval
        if zone and zone.left and zone.right:
            return zone.local_interval()
        run = zone.left or zone.right if zone else self.runs[bisect_right(self.starts, place) - 1]
        assert run
        pulse = run.first if place < run.place else run.first + min(place - run.place, run.count - 1)
        low, high = max(run.first, pulse - limits.SIDE), min(run.last, pulse + limits.SIDE)
        return (self.rises[high] - self.rises[low]) / (high - low) if high > low else self.clock.interval

    def stray_at(self, place: PlaceNumber) -> float:
        """How far the pulse of a place may be off."""
        if place in self.strays:
            return self.clock.least_stray
        zone = self.zone_of.get(place)
        return zone.stray_at(place) if zone else self.clock.stray

    def within(self, place: PlaceNumber) -> PlaceNumber:
        """The place, or the end of the track that is nearest to it."""
        return min(self.last, max(self.first, place))

    def spans(self, place: PlaceNumber, pulse: PulseIndex) -> int:
        """Over how many more places this pulse reaches."""
        many, overlap = 0, limits.OVERLAP * self.clock.interval
        while place + many < self.last and self.falls[pulse] > self.rise_at(plus(place, many + 1)) + overlap:
            many += 1
        return many

    def frame(self, number: FrameNumber) -> str:
        """The 100 letters of a frame; `~` before the recording begins and after it ends."""
        begin = ELEMENTS * number - self.first
        before = "~" * min(ELEMENTS, max(0, -begin))
        return (before + self.sure[max(0, begin):max(0, begin + ELEMENTS)]).ljust(ELEMENTS, "~")

    def frames(self) -> List[FrameNumber]:
        return through(frame_of(self.first), frame_of(self.last))

    def is_glued(self, last: FrameNumber, first: FrameNumber) -> bool:
        """Whether a glued run begins between frame `last` and frame `first`."""
        return any(zone.glued and last <= frame_of(zone.last) and frame_of(zone.first) <= first for zone in self.zones)

    def parted_at(self, zones: Sequence[Zone]) -> List[List[Run]]:
        """The runs, parted at each of these zones."""
        firsts = {zone.right.first for zone in zones if zone.right}
        return grouped(self.runs, lambda _, run: run.first in firsts)

    def stretches(self) -> List[List[Run]]:
        """The runs, parted at each that is glued to the one before it."""
        return self.parted_at([zone for zone in self.zones if zone.glued])

    def zone_before(self, run: Run) -> Zone:
        """What lies before one of its runs."""
        return next(zone for zone in self.zones if zone.right is run)
