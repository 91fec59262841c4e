"""Looks at a listing as a whole: the wire, the threshold, the clock, and then each part of the recording."""
from __future__ import annotations

from dataclasses import dataclass, field
from typing import Callable, Iterable, Iterator, List, Optional, Sequence, Tuple

from . import limits
from .astray import astray
from .concern import NOTHING, Concern, ends_of_pulses
from .confirmed import faults_of
from .copies import settled, take_out
from .edit import Edit, repair_of
from .editor import Editor, Listing, Progress
from .faults import Faults, Remark
from .frames import Times
from .interval import Clock, Run, share_in_step
from .kinds import DamageKind
from .layout import Layout, layout_of
from .parity import Rule
from .polarity import upside_down
from .remarks import of_no_frame, remarks
from .script import Repair
from .slots import link, parts, sure_parts
from .steps import Step, apart, cut_by_a_step, step_zones, turned
from .threshold import level
from .track import Track
from .units import ELEMENTS, FrameNumber, Hundredths, Microseconds, number_of
from .witnesses import NO_WITNESSES, Witnesses

START = Microseconds(0)
OTHER_WIRE = "is it another wire?"
OTHER_FORMAT = "is it another format, or another wire?"


@dataclass
class Part:
    """A part of the recording whose runs are linked. If `copies` is not empty they go first, and `faults` comes after."""

    track: Track
    times: Times
    copies: List[Repair]
    faults: Faults
    remarks: List[Remark]


@dataclass
class Findings:
    """What was found; `whole` concerns every pulse, and if it has edits nothing else is looked at."""

    layout: Layout
    clock: Optional[Clock] = None
    turned: bool = False  # the wire is upside down
    partly: bool = False  # and not in the whole recording: some frames can be fine as they are
    whole: List[Repair] = field(default_factory=list)
    parts: List[Part] = field(default_factory=list)  # from the last to the first
    remarks: List[Remark] = field(default_factory=list)

    @property
    def grid(self) -> float:
        """How far apart samples are; 0 if nothing shows it."""
        return self.clock.grid if self.clock else 0

    @property
    def leap(self) -> Optional[Hundredths]:
        """When second 60 begins, if a part has one."""
        return next((part.times.calendar.leap for part in self.parts if part.times.calendar.leap is not None), None)

    @property
    def rule(self) -> Optional[Rule]:
        """That of the control functions, if a part has one."""
        return next((part.times.rule for part in self.parts if part.times.rule), None)

    def remark(self, at: Microseconds, seen: str, choice: str, kind: DamageKind = DamageKind.FORMAT, concern: Concern = NOTHING) -> None:
        self.remarks.append(Remark(at, seen, choice, kind=kind, is_question=kind == DamageKind.FORMAT, concern=concern))


def looks(editor: Editor, obeyed: Callable[[], Listing], progress: Progress, script: Sequence[Repair], steady: bool = False,
          move: bool = False, grid: float = 0, witnesses: Witnesses = NO_WITNESSES) -> Iterator[Tuple[Listing, Findings]]:
    """The track as it is after a script, and what is found in it; again as long as the script has grown since. How far apart
    samples are stays as it was first seen: what is repaired knows none."""
    for _ in range(limits.ROUNDS + 1):
        repairs = len(script)
        progress("reading the track" + (" as it is after %d repairs" % repairs if repairs else ""))
        listing = obeyed()
        progress("looking at %d pulses" % len(listing.rises))
        findings = editor.judged(listing, examine, steady, move, grid, witnesses)
        grid = findings.grid
        yield listing, findings
        if len(script) == repairs:
            return


def examine(listing: Listing, steady: bool = False, move: bool = False, grid: float = 0,
            witnesses: Witnesses = NO_WITNESSES) -> Findings:
    """What is found; if `move`, a rest that comes late is to be moved, and else both sides of a step are parts of their
    own. `grid` is how far apart samples are, if it is known, and `witnesses` are frames of other recordings."""
    findings = Findings(layout_of(listing.kind, listing.expression, steady))
    interval, many = findings.layout.interval, len(listing.rises)
    upright, turned_share = (share_in_step(times, interval) for times in (listing.rises, listing.falls))
    if many < limits.SURE_RUN:
        findings.remark(START, "%d pulses are too few to make a frame" % many, OTHER_WIRE)
    elif turned_share > max(limits.UPSIDE_DOWN, upright + limits.MORE_THAN_UPRIGHT):
        _turn_over(findings, upside_down(listing, interval) or [(START, listing.length)], listing)
    elif upright < limits.FIT:
        findings.remark(START, "most pulses do not follow each other by %d" % interval, OTHER_FORMAT)
    else:
        down = upside_down(listing, interval) if (1 - upright) * many > limits.TURNED_OVER else []
        if down not in ([], [(START, listing.length)]):  # all of it only if most falls are in step
            _turn_over(findings, down, listing)
        else:
            findings.whole = level(listing, findings.layout)
        if not findings.whole:
            _examine_parts(Clock(listing, interval, grid), findings, move, witnesses)
    return findings


def _turn_over(findings: Findings, stretches: Sequence[Tuple[Microseconds, Microseconds]], listing: Listing) -> None:
    """The wire is upside down in these stretches."""
    why = "the falls come at one distance, the rises do not: the wire is upside down"
    findings.turned, findings.partly = True, stretches != [(START, listing.length)]
    if findings.partly:
        why += " from " + " and from ".join("%d to %d" % stretch for stretch in stretches)
        why += "; pulses have the numbers that they have when it is turned over"
    edits = [Edit("invert", stretch) for stretch in stretches]
    findings.whole = [repair_of(DamageKind.INVERTED, stretches[0][0], [why], edits, stretches[-1][1])]


def _examine_parts(clock: Clock, findings: Findings, move: bool, witnesses: Witnesses) -> None:
    findings.clock = clock
    found = parts(clock)
    for runs in reversed(found):
        cost, linked = link(clock, runs, findings.layout.unused)
        if cost > limits.FAULTS_AT_LEAST + limits.FAULTS_A_PULSE * sum(run.count for run in runs):
            seen = "from pulse %d on the position identifiers are not ten apart" % number_of(runs[0].first)
            findings.remark(clock.rises[runs[0].first], seen, OTHER_FORMAT, concern=ends_of_pulses(runs[0].first, runs[-1].last))
        else:
            for part in reversed(sure_parts(linked)):
                track = Track(findings.layout, clock, part)
                findings.parts += (_moved if move else _kept)(track, witnesses)
            for run in linked:
                if run.lead < limits.LEAST_LEAD:
                    _remark_unsure(findings, clock, run)
    if findings.parts and not any(part.times.read or part.times.spans for part in findings.parts):
        findings.remarks.append(of_no_frame(findings.parts[-1].track))
    for before, after in zip(found, found[1:]):
        elements = round((after[0].begin - before[-1].end) / clock.interval) - 1
        seen = "after that %d elements cannot be read" % elements
        findings.remark(clock.rises[before[-1].last], seen, "that is too much to repair", DamageKind.OTHER)
    if not found:
        findings.remark(START, "no pulses follow each other in step", OTHER_WIRE)


def _remark_unsure(findings: Findings, clock: Clock, run: Run) -> None:
    """A run is left alone, since nothing decides its place."""
    elements = " or ".join(map(str, sorted({run.place % ELEMENTS, *run.others})))
    ends = number_of(run.first), number_of(run.last)
    seen = "pulses %d to %d may begin with element %s, and nothing decides which" % (*ends, elements)
    choice = "they are left, and what comes before and after them is mended for itself"
    findings.remark(clock.rises[run.first], seen, choice, DamageKind.OTHER, ends_of_pulses(run.first, run.last))


def _moved(track: Track, witnesses: Witnesses) -> List[Part]:
    """The part if what comes late is to be moved."""
    times = Times(track, witnesses.inserted(track.layout))
    copies = take_out(track, times)
    if not copies:
        again = settled(track, times)
        if again != track.runs:
            track = Track(track.layout, track.clock, again)
            times = Times(track, witnesses.inserted(track.layout))
    return [_part(track, times, witnesses, copies=copies)]


def _kept(whole: Track, witnesses: Witnesses) -> List[Part]:
    """The parts, from the last to the first, if all times are kept: what is between two steps is one."""
    inserted = witnesses.inserted(whole.layout)
    times, steps = Times(whole, inserted), step_zones(whole)
    if not steps:
        return [_part(whole, times, witnesses, _unsure(whole, times))]
    tracks = [Track(whole.layout, whole.clock, runs) for runs in apart(whole, steps)]
    pairs = [(track, Times(track, inserted)) for track in tracks]
    found, between = [_part(*pair, witnesses, _unsure(*pair)) for pair in pairs], whole.parted_at(steps)
    for zone, left, right, part in zip(steps, between, between[1:], found[1:]):
        part.remarks.append(Step(whole, times, zone, left, right).remark(part.faults))
    return found[::-1]


def _part(track: Track, times: Times, witnesses: Witnesses, left: Iterable[FrameNumber] = (), copies: Sequence[Repair] = ()) -> Part:
    """Frames that are `left`, and those with pulses at an end that fit another element, stay as they are."""
    found = astray(track)
    kept = {*left, *(number for each in found for number in each.frames())}
    said = remarks(track, times) + [each.remark(track) for each in found]
    return Part(track, times, list(copies), faults_of(track, times, witnesses, kept), said)


def _unsure(track: Track, times: Times) -> Iterator[FrameNumber]:
    """The frames that a step cuts, and those near which the times go on elsewhere."""
    yield from cut_by_a_step(track)
    yield from turned(times)
