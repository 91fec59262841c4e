"""Looks for time code on every wire of a dump, in one pass and little memory."""
from __future__ import annotations

from array import array
from bisect import bisect_left, bisect_right
from collections import Counter
from dataclasses import dataclass
from operator import sub
from typing import Dict, List, Optional, Sequence, Tuple

from .dump_body import Body, Wanted
from .dump_choice import Signal
from .dump_header import Header
from .dump_parts import each_dump
from .dump_run import WireRun
from .dump_source import Source
from .dump_units import MICROSECOND, unit_of
from .editor import Problem
from .every import Every
from .layout import INTERVAL

WINDOW = 1024  # edges that are judged together
FEWEST_EDGES = 16  # edges that are judged
HOPELESS = 16  # windows without time code, after which a wire is no longer looked at
ALL_JUDGED, ONE_OF = 64, 8  # windows of a wire with time code, each of which is judged; after them one of that many is, for all of them
FEWEST_OF_CLASS = 0.04  # the share of pulses that are position identifiers, and of those that are none
WIDER = 0.45  # intervals: by how much position identifiers are wider than zeros, at least; ones are by 0.3
MOST_POSITIONS = 0.3  # their share is 0.11, and more if others have run together or are lost
MOST_KEPT_EDGES = 1 << 24  # of all wires together, so that a wire does not have to be read again: 128 MB
LONGEST_KEPT = 62  # bits of a time
TRIED = ("1 us", "1 ns", "1 ps", "1 ms", "1 fs", "1 s")  # if the dump names no unit

Kind = Tuple[str, bool]  # a format, and whether the wire is upside down


def kinds_of(edges: Sequence[int], rise_first: bool, steps: Dict[str, float]) -> Dict[Kind, float]:
    """How much these edges look like each kind of time code, from 0 to 1; only what is possible is there."""
    found: Dict[Kind, float] = {}
    for inverted in (False, True):
        first = 0 if rise_first != inverted else 1
        starts, ends = edges[first::2], edges[first + 1::2]
        gaps, widths = sorted(map(sub, starts[1:], starts)), sorted(map(sub, ends, starts))
        for kind, step in steps.items():
            near = bisect_right(gaps, 1.1 * step) - bisect_left(gaps, 0.9 * step)
            if 2 * near >= len(gaps) > 0 and _has_classes(widths, step):
                found[kind, inverted] = near / len(gaps)
    return found


def _has_classes(widths: Sequence[int], step: float) -> bool:
    """Whether there are position identifiers and others among pulses of these widths, which are sorted."""
    if not widths:
        return False
    least_other, least_position, beyond = (bisect_left(widths, share * step) for share in (0.05, 0.65, 0.95))
    positions, others = beyond - least_position, least_position - least_other
    if min(positions, others) > FEWEST_OF_CLASS * len(widths):
        return True
    least = widths[int(FEWEST_OF_CLASS * len(widths))]  # of a threshold that is wrong all are longer, or all shorter
    wide = len(widths) - bisect_left(widths, least + WIDER * step)
    return FEWEST_OF_CLASS * len(widths) < wide < MOST_POSITIONS * len(widths)


@dataclass
class Room:
    """How many more edges can be kept."""

    left: int


class Probe:
    """The edges of one wire, judged a window at a time."""

    def __init__(self, signal: Signal, units: Dict[str, Dict[str, float]], room: Room) -> None:
        self.signal, self.units, self.room = signal, units, room  # the intervals in each unit that the dump can have
        self.kept: Optional["array[int]"] = array("q")  # the times of all edges, a rise first; none if there was no room
        self.high, self.rise_first = False, True
        self.edges: List[int] = []
        self.votes: Counter[Kind] = Counter()  # in the unit that is chosen
        self.in_units: Dict[str, Counter[Kind]] = {}
        self.windows = 0

    def change(self, time: int, high: bool) -> bool:
        """Whether the wire is hopeless."""
        if high != self.high:
            self.high = high
            if not self.edges:
                self.rise_first = high
            self.edges.append(time)
            if len(self.edges) == WINDOW:
                self.judge()
        return self.is_hopeless()

    def take(self, times: Sequence[int], high: bool) -> bool:
        """The same for changes of which each is to the other level, and the first to this one."""
        begin = int(high == self.high)
        high = high ^ bool(begin)
        while begin < len(times) and not self.is_hopeless():
            if not self.edges:
                self.rise_first = high
            part = times[begin:begin + WINDOW - len(self.edges)]
            self.edges += part
            begin += len(part)
            high ^= bool(len(part) % 2)
            self.high = not high
            if len(self.edges) == WINDOW:
                self.judge()
        return self.is_hopeless()

    def is_hopeless(self) -> bool:
        return self.windows >= HOPELESS and not self.in_units

    def _keep(self) -> None:
        """Adds the edges of a window to those that are kept, if there is room for all."""
        if self.kept is None or len(self.edges) > self.room.left or self.edges and self.edges[-1] >> LONGEST_KEPT:
            self.forget()
        else:
            self.room.left -= len(self.edges)
            self.kept.fromlist(self.edges)

    def forget(self) -> None:
        """Keeps no edges."""
        self.room.left += len(self.kept or ())
        self.kept = None

    def judge(self) -> None:
        self._keep()
        if len(self.edges) >= FEWEST_EDGES:
            if not self.in_units or self.windows < ALL_JUDGED:
                self._vote(1)
            elif self.windows % ONE_OF == 0:
                self._vote(ONE_OF)
            self.windows += 1
        self.edges = []

    def _vote(self, many: int) -> None:
        """What the window looks like, in each unit; it stands for that many."""
        for unit, steps in self.units.items():
            found = kinds_of(self.edges, self.rise_first, steps)
            if found:
                votes = self.in_units.setdefault(unit, Counter())
                votes[max(found, key=found.__getitem__)] += many

    @property
    def kind(self) -> Kind:
        return self.votes.most_common(1)[0][0]


@dataclass
class Found:
    """The wires on which there may be time code."""

    header: Header
    unit: str
    probes: List[Probe]
    looked_at: int
    dumps: int = 1
    is_cut: bool = False  # the file ends within a time or a value
    hopeless: int = 0  # wires that were looked at no longer
    body: Optional[Body] = None  # what came after the header


def search(path: str, unit: str, number: int) -> Found:
    """Looks through one dump of a file. It has the unit that is given, or its own, or else the first of several in which
    there is time code."""
    source, results = Source(path), []

    def use(header: Header) -> Body:
        named = unit or header.unit
        every = Every(header)
        found = Found(header, named or TRIED[0], [], every.count())
        results.append(found)
        body = _look(source, every, {one: steps_of(one) for one in ([named] if named else TRIED)}, found)
        found.body, found.is_cut = body, bool(body.ends_within(header))
        return body

    dumps = each_dump(source, number, use)
    found = results[0]
    found.dumps = dumps
    _count_votes(found, bool(unit or found.header.unit))
    if not found.looked_at:
        raise Problem("%s: has no wire of bits, and only such a wire can carry time code" % path)
    return found


def _count_votes(found: Found, is_known: bool) -> None:
    """What each wire looks like, in the unit that is known or in the first in which one has time code; wires without votes are left out."""
    for probe in found.probes:
        probe.judge()
    if not is_known:
        found.unit = next((one for one in TRIED if any(one in probe.in_units for probe in found.probes)), TRIED[0])
    for probe in found.probes:
        probe.votes = probe.in_units.get(found.unit, probe.votes)
    found.probes = [probe for probe in found.probes if probe.votes]


def steps_of(named: str) -> Dict[str, float]:
    """The index count intervals, in the unit of the dump."""
    unit = unit_of(named)
    return {kind: step * MICROSECOND / (unit.femtoseconds * unit.factor) for kind, step in INTERVAL.items()}


class Probes:
    """The probes of one dump: only a wire that is high at some time has one."""

    def __init__(self, every: Every, units: Dict[str, Dict[str, float]], found: Found) -> None:
        self.every, self.units, self.found = every, units, found
        self.room, self.only = Room(MOST_KEPT_EDGES), every.only()
        self.wanted = Wanted(every) if self.only is None else Wanted({every.signal(self.only).code: [(self.only, 0)]})
        self.by_number: Dict[int, Probe] = {}

    def begin(self, number: int) -> Probe:
        """The probe of a wire that has none yet."""
        probe = self.by_number[number] = Probe(self.every.signal(number), self.units, self.room)
        return probe

    def drop(self, number: int) -> None:
        """A wire that is hopeless is looked at no longer."""
        self.wanted.drop(number, self.by_number[number].signal.code)
        self.by_number[number].forget()
        self.found.hopeless += 1

    def take_run(self, run: WireRun) -> bool:
        """The changes of the only signal, unless it was dropped."""
        only = self.only
        assert only is not None
        if self.wanted.signals and run.marks and (only in self.by_number or run.is_high or len(run.marks) > 1):
            probe = self.by_number.get(only) or self.begin(only)
            if probe.take(run.times(), run.is_high):
                self.drop(only)
        return True


def _look(source: Source, every: Every, units: Dict[str, Dict[str, float]], found: Found) -> Body:
    """Reads one dump; the probes are in the order of the wires."""
    probes = Probes(every, units, found)
    by_number, body = probes.by_number, Body(source, probes.wanted, probes.take_run)
    for time, number, letter in body.changes():
        probe = by_number.get(number)
        if probe is None:
            if letter != "1":
                continue
            probe = probes.begin(number)
        if probe.change(time, letter == "1"):
            probes.drop(number)
    found.probes = [by_number[number] for number in sorted(by_number)]
    return body
