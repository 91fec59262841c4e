"""Other recordings of the same code: which frames of them are fine and supported, and whether they are of the same code and clock."""
from __future__ import annotations

from bisect import bisect_left
from collections import Counter, defaultdict
from dataclasses import dataclass, field
from typing import Dict, ItemsView, Iterator, List, NamedTuple, Sequence, Tuple

from . import limits
from .analysis import START, Findings, Part, looks
from .check import Frame, Frames, Moved, around
from .editor import Editor, Progress
from .frames import Times
from .kinds import DamageKind
from .moments import SECOND, Calendar
from .script import Repair
from .texts import counted
from .units import FrameNumber, Hundredths, PulseIndex
from .widths import Widths
from .witnesses import TimeOfFrame, Witness, Witnesses, time_of_frame, unlike

SET = "its control functions are those of this recording, and its times are %s: its clock was set otherwise"
OTHERWISE = "%d of %s of the same time have other control functions: its clock was set otherwise, or it is another code"
TOO_FEW = "too few frames of the same time are alike: %d"


class Timed(NamedTuple):
    """A frame with the time that it has."""

    moment: Hundredths
    time: TimeOfFrame
    text: str
    is_fine: bool = True


@dataclass
class Other:
    """Another recording: its frames that are fine and supported, and a dump of its wire alone."""

    name: str
    frames: List[Tuple[Timed, Witness]] = field(default_factory=list)
    path: str = ""


@dataclass
class Others:
    """What other recordings say, and of those that say nothing why; `lines` explain both."""

    witnesses: Witnesses
    remarks: List[Repair] = field(default_factory=list)
    lines: List[str] = field(default_factory=list)
    paths: List[str] = field(default_factory=list)  # dumps of those that are used


def seen_in(editor: Editor, progress: Progress) -> Findings:
    """What is found in a track once all its pulses have their classes."""
    script: List[Repair] = []
    for listing, findings in looks(editor, lambda: editor.ask([each.lines() for each in script]), progress, script):
        script += [] if listing.refused else findings.whole
    return findings


def frames_with_times(findings: Findings) -> Iterator[Timed]:
    """All frames whose time is known, in the order of the recording; also those that are damaged."""
    for part in reversed(findings.parts):
        times = part.times
        for number, text in times.texts.items():
            moment = times.moment(number)
            if moment is not None and number not in times.spliced:
                yield _timed(times, number, moment, text)


def _timed(times: Times, number: FrameNumber, moment: Hundredths, text: str) -> Timed:
    return Timed(moment, time_of_frame(times.layout, times.calendar.fields(moment)), text, number in times.sound)


def other_of(name: str, findings: Findings) -> Other:
    """The frames of a recording that others can rely on: fine and supported."""
    found: List[Tuple[Timed, Witness]] = []
    for part in findings.parts[:1]:  # all parts are of one listing
        fine, track = Frames(part.track.listing, part.times.calendar, Moved()).all, part.track
        widths = Widths(track.rises, track.falls, track.classes, findings.layout.interval)
        for frame in fine:
            told = findings.layout.shown(frame.text)
            near = around(fine, frame.at, 2)
            if told and any(_supports(part, frame, each) for each in near):
                first = PulseIndex(bisect_left(track.rises, frame.at))
                timed = Timed(frame.moment, time_of_frame(findings.layout, told), frame.text)
                found.append((timed, Witness(name, frame.text, track.rises, first, widths)))
    return Other(name, found)


def _supports(part: Part, one: Frame, other: Frame) -> bool:
    """Whether two frames are that many periods apart, as irig_time counts them."""
    early, late = sorted((one, other))
    periods, rest = divmod(part.times.calendar.apart(early.moment, late.moment), part.times.layout.period)
    elements = len(one.text)
    off = (late.at - early.at) / part.track.clock.interval - elements * periods
    return not rest and 0 < periods <= limits.MOST_PERIODS and 2 * abs(off) < elements


# whether it is the same code


@dataclass(frozen=True)
class Likeness:
    """How the elements that no field decides agree in frames of the same time."""

    common: int = 0  # frames of a time that both have
    agree: int = 0
    telling: int = 0  # of these, frames that have not what most have
    against: int = 0
    strange: int = 0  # sound frames that have more otherwise than damage makes

    @property
    def is_same_code(self) -> bool:
        return not self.strange and self.against <= limits.UNLIKE_ELSEWHERE + limits.UNLIKE_SHARE * self.telling


def is_compared(text: str, elements: Sequence[int]) -> bool:
    """Whether enough of these elements are recorded."""
    return sum(text[each] in "01" for each in elements) >= min(len(elements), limits.LEAST_COMPARED)


def likeness(here: Sequence[Timed], there: Dict[TimeOfFrame, str], elements: Sequence[int]) -> Likeness:
    """`there` has the classes of its frames by their times. A frame counts if enough of these elements are recorded."""
    common = [(frame.text, there[frame.time]) for frame in here if frame.time in there]
    known = [pair for pair in common if is_compared(pair[0], elements)]
    agree = [text for text, other in known if not unlike(text, other, elements)]
    usual = Counter(_part_of(text, elements) for text in agree).most_common(1)
    telling = sum(_part_of(text, elements) != usual[0][0] for text in agree)
    often = Counter(frame.time for frame in here)  # one that is there twice can be of another moment
    sound = [(frame.text, there[frame.time]) for frame in here if frame.is_fine and frame.time in there and often[frame.time] == 1]
    strange = sum(len(unlike(text, other, elements)) > limits.MOST_CONTRARY for text, other in sound)
    return Likeness(len(common), len(agree), telling, len(known) - len(agree), strange)


def _part_of(text: str, elements: Sequence[int]) -> str:
    return "".join([text[each] for each in elements])


def set_otherwise(here: Sequence[Timed], there: Sequence[Timed], calendar: Calendar, elements: Sequence[int]) -> int:
    """By how many hundredths of a second the other clock is later, if what changes from a frame to the next does so at other times
    there; 0 if nothing shows it."""
    own, changes, later = _control_changes(here, elements), _control_changes(there, elements), Counter[int]()
    for change, moments in own.items():
        if len(moments) * len(changes[change]) <= limits.MOST_ALIKE:
            later.update(calendar.apart(one, other) for one in moments for other in changes[change])
    least = min(sum(map(len, each.values())) for each in (own, changes)) / 2
    best = later.most_common(2)
    if not best or best[0][1] < max(limits.WITNESSES, least, 2 * later[0] + 1) or best[0][1] == best[-1][1] and best[1:]:
        return 0
    return best[0][0]


def _control_changes(frames: Sequence[Timed], elements: Sequence[int]) -> Dict[Tuple[str, str], List[Hundredths]]:
    """Two frames in a row that are fine and differ, and when the second begins."""
    found: Dict[Tuple[str, str], List[Hundredths]] = defaultdict(list)
    for one, other in zip(frames, frames[1:]):
        both = _part_of(one.text, elements), _part_of(other.text, elements)
        if one.is_fine and other.is_fine and both[0] != both[1]:
            found[both].append(other.moment)
    return found


class Comparison:
    """Other recordings compared with this one, in which `findings` were found."""

    def __init__(self, findings: Findings) -> None:
        times = [part.times for part in findings.parts]
        self.here = list(frames_with_times(findings))
        self.fine = [frame for frame, _ in other_of("", findings).frames] or self.here
        self.elements = sorted({each for one in times for each in one.kept})
        self.calendar = times[0].calendar if times else Calendar(findings.layout)

    def why_not(self, other: Other) -> str:
        """Why another recording is not used; nothing if it is."""
        there = [frame for frame, _ in other.frames]
        if not self.here:
            return "the time of no frame here is known"
        if not there:
            return "no frame of it is fine and supported"
        like = self.likeness(other)
        by = set_otherwise(self.here, there, self.calendar, self.elements) if like.against or not like.common else 0
        if by:
            return SET % _later(by)
        if not like.common:
            begins = self.calendar.apart(self.fine[0].moment, there[0].moment)
            return "none of its frames has the time of one here: its first one is %s" % _later(begins)
        if not like.is_same_code:
            return OTHERWISE % (like.against, counted(like.against + like.agree, "frame"))
        return "" if like.agree >= limits.WITNESSES or self._fits_one(there) else TOO_FEW % like.agree

    def _fits_one(self, there: Sequence[Timed]) -> bool:
        """Whether a frame here is like the one of its time, and like no other one: then both are of one moment."""
        of_time = {frame.time: frame.text for frame in there}
        for frame in self.here:
            other = of_time.get(frame.time)
            if other and is_compared(frame.text, self.elements) and not unlike(frame.text, other, self.elements):
                return sum(not unlike(frame.text, each.text, self.elements) for each in there) == 1
        return False

    def likeness(self, other: Other) -> Likeness:
        return likeness(self.here, {time: found[0].text for time, found in _by_time(other) if _is_one(found)}, self.elements)

    def line(self, other: Other, why: str) -> str:
        """What is said of another recording, to explain it."""
        like = self.likeness(other)
        return "with %s: %s that count, %d of a time that is here, %d of these alike, %d not; %s" % (
            other.name, counted(len(other.frames), "frame"), like.common, like.agree, like.against, "not used: " + why if why else "used")


def _later(by: int) -> str:
    return "%.2f seconds %s" % (abs(by) / SECOND, "later" if by > 0 else "earlier")


def others_of(findings: Findings, found: Sequence[Other], trusts_most: bool = False) -> Others:
    """What other recordings say of one in which this is found."""
    comparison, remarks, lines, paths = Comparison(findings), [], [], []
    witnesses: Dict[TimeOfFrame, List[Witness]] = defaultdict(list)
    for other in found:
        why = comparison.why_not(other)
        lines.append(comparison.line(other, why))
        remarks += [not_used(other.name, why)] if why else []
        paths += [] if why else [other.path]
        for time, frames in () if why else _by_time(other):
            if _is_one(frames):
                witnesses[time].append(frames[0])
    return Others(Witnesses(dict(witnesses), trusts_most), remarks, lines, paths)


def _by_time(other: Other) -> ItemsView[TimeOfFrame, List[Witness]]:
    found: Dict[TimeOfFrame, List[Witness]] = defaultdict(list)
    for frame, witness in other.frames:
        found[frame.time].append(witness)
    return found.items()


def _is_one(frames: Sequence[Witness]) -> bool:
    """Whether all frames of a time have the same; else a recording has this time twice."""
    return len({each.text for each in frames}) == 1


def not_used(name: str, why: str) -> Repair:
    """What is said of another recording that says nothing."""
    said = "%s is not used: %s" % (name, why)
    return Repair(START, [said], kind=DamageKind.DIFFERS, undecided=[said])
