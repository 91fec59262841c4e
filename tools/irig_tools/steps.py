"""Where the time code steps against the clock of the recording. Nothing there says whether the recorder slipped
with all its wires or the time code alone, so both sides are looked at on their own clocks, and no time is moved."""
from __future__ import annotations

from dataclasses import replace
from typing import Iterator, List, Sequence

from . import limits
from .copies import copy_between, without_copy
from .edit import moved_from, script_lines
from .faults import Faults, Remark
from .frames import Times
from .interval import Run
from .kinds import DamageKind
from .other_code import ONE_SECOND
from .remarks import LEFT_SET, clock_was_set, missing
from .track import Track
from .units import ELEMENTS, FrameNumber, Microseconds, PulseIndex, frame_of, number_of, plus, through
from .zones import Zone

RECORDER = "that is left: if the recorder slipped, all its wires did, and these times are right"
CODE_ALONE = "; if the time code alone slipped, irig_mend --move moves it, or after this script "


class Step:
    """What is between two stretches of runs, each of which is on one clock."""

    def __init__(self, track: Track, times: Times, zone: Zone, left: List[Run], right: List[Run]) -> None:
        self.track, self.zone = track, zone
        assert zone.border is not None
        self.pulse = zone.border  # the first one after the step
        self.at = track.rises[self.pulse]
        frames = times.frames_between(left, right)
        self.known = frames is not None  # whether the times on both sides say how many frames passed
        self.elements = right[0].step + ELEMENTS * (frames or 0)  # from the last pulse before to the first after
        self.late = round(right[0].begin - left[-1].end - self.elements * zone.interval)
        is_copied = self._is_dense() and self.late > limits.LEAST_COPY * zone.interval
        self.copy = without_copy(track, copy_between(track, times, left, right)) if is_copied else None

    def remark(self, right: Faults) -> Remark:
        """What is said of it; `right` is what comes after it."""
        if self.copy:
            return Remark(self.copy.at, self.copy.comments[0].partition("; ")[0], _choice(self.copy.edits), kind=DamageKind.TWICE,
                          concern=self.copy.concern)
        if self.known and abs(self.late) > limits.LONGEST_CUT * self.zone.interval:
            return Remark(self.at, clock_was_set(-self.late / ONE_SECOND), LEFT_SET, kind=DamageKind.TIMES)
        if self.zone.glued and self._is_dense() and not (self.known and self.late > 0):
            many = self.elements - self.zone.straight() if self.known else None
            return Remark(self.at, missing(self.zone, many), _choice(self._edits()), kind=DamageKind.CUT)
        first = right.track.first
        place = plus(first, -round((right.track.rise_at(first) - self.at) / self.zone.interval))
        concern = right.concern(place, place)._replace(pulses=(self.pulse, self.pulse), step=self.late)
        return Remark(self.at, self._moved(), _choice(self._edits()), right.name(place), DamageKind.STEP, concern=concern)

    def _moved(self) -> str:
        """By how much the rest comes late or early."""
        seen = rest_comes(self.pulse, self.at, self.late)
        if self.elements > 1 and not self._is_dense():
            seen += ", and %d elements before it are missing or damaged" % (self.elements - 1)
        return seen if self.known else seen + ", not counting whole frames"

    def _is_dense(self) -> bool:
        """Whether there is a pulse for each interval between the two sides."""
        assert self.zone.left and self.zone.right
        return self.zone.right.first - self.zone.left.last == max(1, self.zone.straight())

    def _edits(self) -> List[str]:
        """The lines that move the rest back; none if it does not fit the recording."""
        return script_lines(moved_from(self.at, -self.late)) if has_room(self.track, self.late) else []


def rest_comes(pulse: PulseIndex, at: Microseconds, late: int) -> str:
    return "from pulse %d at %d on all comes %d %s" % (number_of(pulse), at, abs(late), "late" if late > 0 else "early")


def has_room(track: Track, late: float) -> bool:
    """Whether a rest that came late or early fits the recording if it is moved back."""
    return late >= 0 or track.falls[-1] - late <= track.listing.length


def _choice(edits: List[str]) -> str:
    """Both ways to see it, and the lines of the second; none if there is no room."""
    return RECORDER + (CODE_ALONE + "; ".join(edits) if edits else "")


def step_zones(track: Track) -> List[Zone]:
    """What lies between two runs that are not on one clock."""
    return [zone for zone in track.zones if zone.left and zone.right and (zone.glued or abs(zone.late) > 0.5)]


def apart(track: Track, steps: Sequence[Zone]) -> List[List[Run]]:
    """The runs between these steps, without the pulses that may be of either side."""
    found = track.parted_at(steps)
    for zone, left, right in zip(steps, found, found[1:]):
        left[-1] = _trimmed(track, left[-1], 0, zone.tail)
        left[-1] = replace(left[-1], ends=left[-1].ends + "]")
        right[0] = _trimmed(track, right[0], zone.head, 0)
        right[0] = replace(right[0], glued=False, late=0, ends=right[0].ends + "[")
    return found


def _trimmed(track: Track, run: Run, head: int, tail: int) -> Run:
    """A run without that many pulses, but one stays."""
    head, tail = min(head, run.count - 1), min(tail, run.count - 1)
    if not head and not tail:
        return run
    first, last = plus(run.first, head), plus(run.last, -tail)
    return track.clock.fit(replace(run, first=first, last=last, place=plus(run.place, head)))


def cut_by_a_step(track: Track) -> Iterator[FrameNumber]:
    """The frames of a stretch that a step cuts."""
    if "[" in track.runs[0].ends and track.first % ELEMENTS:
        yield frame_of(track.first)
    if "]" in track.runs[-1].ends and (track.last + 1) % ELEMENTS:
        yield frame_of(track.last)


def turned(times: Times) -> Iterator[FrameNumber]:
    """The frames from which, or to which, the times of a stretch go on elsewhere."""
    for before, after in zip(times.spans, times.spans[1:]):
        yield from through(before.last, after.first)
