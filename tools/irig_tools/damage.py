"""The places of damage of a recording, in the order of time, one line each."""
from __future__ import annotations

from dataclasses import dataclass
from typing import Dict, List, Sequence, Tuple

from . import limits
from .analysis import START, Findings, Part, looks
from .concern import NOTHING, Concern, ends_of_pulses
from .editor import Editor, Listing, Progress
from .faults import Faults, Remark, pulses_text
from .grouping import grouped
from .interval import Clock
from .kinds import DamageKind
from .script import Repair
from .units import ELEMENTS, Microseconds, PlaceNumber, PulseIndex, frame_of, plus

THE_WHOLE = "the whole recording"
NO_FRAME = "pulses that belong to no frame"


@dataclass(frozen=True)
class Damage:
    """One place: from when to when, its frame and element if it has them, and what is seen there."""

    at: Microseconds
    until: Microseconds
    name: str
    seen: str
    concern: Concern = NOTHING
    is_remark: bool = False  # it is named, and no damage
    kind: DamageKind = DamageKind.OTHER
    is_told: bool = False  # the text names its pulses, if it has to

    def line(self, counted_in: str = "") -> str:
        """Its pulses are counted in what was looked at, which can be named."""
        pulses = [pulses_text(*self.concern.pulses) + counted_in] if self.concern.pulses and not self.is_told else []
        names = [self.name, *pulses] if self.name else ["remark"] if self.is_remark else pulses
        return "%d %s%s" % (self.at, ", ".join(names) + ": " if names else "", self.seen)


@dataclass
class Seen:
    """The track as it is, what was found in it at last, and the damage in the order of time."""

    listing: Listing
    findings: Findings
    damages: List[Damage]


def look(editor: Editor, progress: Progress, steady: bool = False, grid: float = 0) -> Seen:
    """All damage. A threshold is first undone, so that the rest is seen; no time is moved. `grid` is how far apart samples
    are, if it is known."""
    found: List[Damage] = []
    script: List[Repair] = []
    seen: List[Tuple[Listing, Findings]] = []
    asked = looks(editor, lambda: editor.ask([each.lines() for each in script]), progress, script, steady, grid=grid)
    for listing, findings in asked:
        seen.append((listing, findings))
        if not findings.whole or listing.refused:
            found += _rest(listing, findings)
        else:
            first = findings.whole[0]
            found.append(Damage(first.at, first.at, "", first.comments[0], kind=first.kind, concern=first.concern, is_told=True))
            script += [] if findings.turned and not findings.partly else findings.whole
    progress("")
    found = sorted(set(found), key=lambda each: (each.at, each.until, each.name, each.seen))
    return Seen(seen[0][0], seen[-1][1], found)


def _rest(listing: Listing, findings: Findings) -> List[Damage]:
    """What is found if every pulse has its own class."""
    said = findings.remarks + [remark for part in findings.parts for remark in part.remarks + part.faults.remarks]
    found = [Damage(remark.at, remark.at, remark.name, _asked(remark), remark.concern, kind=remark.kind, is_told=True) for remark in said]
    if findings.clock:
        found += _of_clock(findings.clock)
    for part in findings.parts:
        found += _of_part(part)
    if findings.parts:
        found += _of_ends(listing, findings.parts[-1], findings.parts[0])
        found += _of_silence(listing, findings.parts[0].faults.clock.interval)
    return found


def _asked(remark: Remark) -> str:
    """What is seen, and whether the recording is another one than was said."""
    return remark.seen + ("; " + remark.choice if remark.is_question else "")


def _of_clock(clock: Clock) -> List[Damage]:
    """Drift and jitter, each said once."""
    said: Dict[DamageKind, str] = {}
    off = clock.interval / clock.nominal - 1
    if abs(off) >= limits.DRIFT:
        way = "slow" if off > 0 else "fast"
        said[DamageKind.CLOCK] = "the clock is %.2f %% %s: pulses come every %.1f microseconds, not every %d%s" % (
            abs(100 * off), way, clock.interval, clock.nominal, _extremes(clock))
    if clock.noise >= limits.TREMBLE * clock.nominal:
        said[DamageKind.JITTER] = (
            "rises tremble: half of all distances are off by more than %d microseconds, %.1f %% of the interval, and a step of less than "
            "%d does not show" % (clock.noise, 100 * clock.noise / clock.nominal, clock.least_step))
    return [Damage(START, clock.rises[-1], THE_WHOLE, seen, is_remark=True, kind=kind) for kind, seen in said.items()]


def _extremes(clock: Clock) -> str:
    """The least and the largest interval, if they differ."""
    local = [each for run in clock.runs for each in (run.begin_interval, run.end_interval) if each]
    if not local or max(local) - min(local) < limits.DRIFT * clock.nominal:
        return ""
    return ", in places from %.1f to %.1f" % (min(local), max(local))


def _of_part(part: Part) -> List[Damage]:
    """Its faulty places; those one after the other are a group, with what is lost between them."""
    faults = part.faults
    groups = grouped(sorted({*faults.wanted, *faults.unsaid}), lambda before, place: place != before + 1)
    return [each for group in groups if not faults.unsaid.issuperset(group) for each in _of_places(faults, group)]


def _of_places(faults: Faults, group: Sequence[PlaceNumber]) -> List[Damage]:
    """One line if they are many or one pulse reaches over them, else a line each."""
    track, first, last = faults.track, group[0], group[-1]
    at_first = track.pulses_at(first)
    reach = track.spans(first, at_first[-1]) if at_first else 0
    if len(group) == 1 or (len(group) < limits.TOGETHER and reach != len(group) - 1):
        names = [(place, faults.name(place), "%s; %s" % (faults.seen(place), faults.reason(place))) for place in group
                 if place in faults.wanted]
        return [_of_stretch(faults, [place], name, seen, faults.kind(place)) for place, name, seen in names]
    empty = sum(not track.pulses_at(place) for place in group)
    if reach == len(group) - 1:
        kind, seen = DamageKind.JOINED, "%d pulses have run together" % len(group)
    elif empty == len(group):
        kind, seen = DamageKind.MISSING, "%d elements without a pulse" % empty
    else:
        kind, seen = DamageKind.STRETCH, "%d damaged elements" % len(group) + bool(empty) * (", %d without a pulse" % empty)
    end = faults.name(last) if frame_of(first) != frame_of(last) else str(last % ELEMENTS)
    return [_of_stretch(faults, group, "%s to %s" % (faults.name(first), end), seen, kind)]


def _of_stretch(faults: Faults, group: Sequence[PlaceNumber], name: str, seen: str, kind: DamageKind) -> Damage:
    until = plus(faults.track.rise_at(group[-1]), round(faults.clock.interval))
    return Damage(faults.track.rise_at(group[0]), until, name, seen, faults.concern(group[0], group[-1]), kind=kind)


def _of_ends(listing: Listing, first: Part, last: Part) -> List[Damage]:
    """What is before the first frame and after the last one."""
    rises, found, many = listing.rises, [], len(listing.rises)
    before = min(pulse for pulses in first.track.zones[0].pulses.values() for pulse in pulses)
    after = max(pulse for pulses in last.track.zones[-1].pulses.values() for pulse in pulses)
    before = plus(before, -(before == 1 and rises[0] == 0))  # cut by the beginning
    beyond = plus(after, 1 + (after == many - 2 and listing.falls[-1] == listing.length))  # cut by the end
    if before:
        own = ends_of_pulses(PulseIndex(0), plus(before, -1))
        found.append(Damage(rises[0], rises[before], "", NO_FRAME, own, kind=DamageKind.OUTSIDE))
    if beyond < many:
        own = ends_of_pulses(beyond, PulseIndex(many - 1))
        found.append(Damage(rises[beyond], listing.length, "", NO_FRAME, own, kind=DamageKind.OUTSIDE))
    return found


def _of_silence(listing: Listing, interval: float) -> List[Damage]:
    """A recorder seldom begins at the first pulse and ends at the last one, so silence there is no damage."""
    found, first, last, end = [], listing.rises[0], listing.falls[-1], listing.length
    if first > limits.SILENCE * interval:
        found.append(Damage(START, first, "", "no pulse before %d" % first, is_remark=True, kind=DamageKind.SILENCE))
    if end - listing.rises[-1] > limits.SILENCE * interval:
        found.append(Damage(last, end, "", "no pulse from there to the end at %d" % end, is_remark=True, kind=DamageKind.SILENCE))
    return found
