"""Looks at the frames that are fine before a script and after it: the script makes none worse.

A frame that was fine stays as it is, unless its neighbours agree on another time; damage can make a frame read well with
a wrong time. If no neighbour was fine, those of the result say it: parts of at least three frames led to theirs. A frame
that becomes fine has the time to which the frames next to it lead. What is moved agrees with what is before it.
"""
from __future__ import annotations

from bisect import bisect_left
from dataclasses import dataclass
from itertools import combinations
from typing import Dict, Iterator, List, NamedTuple, Optional, Sequence, Tuple

from . import limits
from .believed import fine_frames
from .editor import Listing
from .layout import Layout
from .moments import CENTURY, DAY, Calendar
from .parity import Rule
from .script import Repair
from .units import ELEMENTS, Hundredths, Microseconds, plus
from .witnesses import NO_WITNESSES, Witnesses, time_of_frame


@dataclass
class Harm:
    """A frame that a script makes worse, or a rest that it moves to where it does not belong."""

    at: Microseconds  # the first in the repaired track
    until: Microseconds
    seen: str


class Moved:
    """Where a script moves what is at a time."""

    def __init__(self, script: Sequence[Repair] = ()) -> None:
        self.steps = [move for repair in script for move in repair.moves]

    def time(self, at: Microseconds) -> Optional[Microseconds]:
        """None if the script takes it out."""
        for begin, by, gone in self.steps:
            if begin <= at < begin + gone:
                return None
            at = plus(at, by * (at >= begin))
        return at


class Frame(NamedTuple):
    """A frame that is fine."""

    at: Microseconds  # the rise of its marker
    moment: Hundredths  # that it shows
    text: str  # its classes


class Frames:
    """The frames of a listing that are fine, where a script moves them, in the order of time."""

    def __init__(self, listing: Listing, calendar: Calendar, moved: Moved) -> None:
        found: Dict[Microseconds, Frame] = {}
        for frame in fine_frames(listing, calendar.layout):
            at = moved.time(listing.rises[frame.marker])
            if at is not None:
                found[at] = Frame(at, calendar.moment_of(frame.told), frame.text)
        self.all = [found[at] for at in sorted(found)]

    def near(self, at: Microseconds, within: float) -> Optional[Frame]:
        """The frame whose marker is no farther from a time than that."""
        place = bisect_left(self.all, (at - within,))
        return self.all[place] if place < len(self.all) and self.all[place].at <= at + within else None


def around(frames: Sequence[Frame], at: Microseconds, many: int) -> List[Frame]:
    """That many frames before a time, and after it."""
    low, high = bisect_left(frames, (at,)), bisect_left(frames, (at + 1,))
    return [*frames[max(0, low - many):low], *frames[high:high + many]]


class Check:
    """What a script does to the frames of a track; `steps` are the times at which those of the repaired track step."""

    def __init__(self, layout: Layout, interval: float, steps: Sequence[Microseconds], listings: Tuple[Listing, Listing],
                 moved: Moved, most_off: float = 0, leap: Optional[Hundredths] = None, rule: Optional[Rule] = None,
                 witnesses: Witnesses = NO_WITNESSES) -> None:
        """`leap` is when second 60 begins, if there is one, and `rule` that of the control functions; `witnesses` are frames of other
        recordings."""
        self.rule, self.witnesses = rule, witnesses
        self.drift = max(limits.CLOCK_DRIFT, limits.ABOVE_NINE_OF_TEN * most_off)
        self.layout, self.interval, self.steps, self.moved = layout, interval, sorted(steps), moved
        self.calendar = Calendar(layout, leap=leap)
        self.old, self.new = Frames(listings[0], self.calendar, moved), Frames(listings[1], self.calendar, Moved())
        self.kept = [frame for frame in self.old.all if self._stays(frame)]

    def harms(self) -> Iterator[Harm]:
        kept = set(self.kept)
        for frame in self.old.all:
            if frame not in kept and self._is_trusted(frame):
                yield self._harm(frame, "a frame that is fine would change")
        for frame in self.new.all:
            if self.old.near(frame.at, 0) != frame and not self._is_led_to(frame):
                yield self._harm(frame, "a frame would get a time that the frames around it do not lead to")
        for begin, _, _ in self.moved.steps:
            near = around(self.kept, self.moved.time(begin) or begin, 1)
            if len(near) == 2 and not self._agree(*near):
                yield Harm(begin, begin, "the frames before and after it would not follow each other")

    def _harm(self, frame: Frame, seen: str) -> Harm:
        return Harm(plus(frame.at, -round(self.interval)), plus(frame.at, round(ELEMENTS * self.interval)), seen)

    def _stays(self, frame: Frame) -> bool:
        """Whether it is there after the script, but for control functions that are said to be steady, that their rule says, or that
        another recording has."""
        new = self.new.near(frame.at, limits.MOVED * self.interval)
        if new is None:
            return False
        by_rule = self.rule is not None and self.rule.holds(new.text) and not self.rule.holds(frame.text)
        free = self.layout.control if self.layout.steady or by_rule or self._is_elsewhere(new) else ()
        return frame.text == new.text or all(a == b or element in free for element, (a, b) in enumerate(zip(frame.text, new.text)))

    def _is_elsewhere(self, frame: Frame) -> bool:
        """Whether another recording has the same frame."""
        time = time_of_frame(self.layout, self.calendar.fields(frame.moment))
        return any(each.text == frame.text for each in self.witnesses.frames.get(time, ()))

    def _is_trusted(self, frame: Frame) -> bool:
        """Whether it has the time of a frame next to it, or neither those next to it nor those of the result agree on
        another one."""
        near = around(self.old.all, frame.at, 2)
        if any(self._agree(frame, each) for each in near):
            return True
        return not any(self._agree(*pair) for pair in combinations(near, 2)) and not self._is_outvoted(frame)

    def _is_outvoted(self, frame: Frame) -> bool:
        """Whether at least three frames of the result, next to it, agree on another time."""
        near = around(self.new.all, frame.at, limits.OUTVOTED)
        return (
            len(near) >= limits.OUTVOTED
            and all(self._agree(*pair) for pair in combinations(near, 2))
            and not any(self._agree(frame, each) for each in near)
        )

    def _is_led_to(self, frame: Frame) -> bool:
        """Whether a frame that becomes fine has the time to which those that stay lead."""
        near = around(self.kept, frame.at, 1)
        if not near:
            return any(self._agree(frame, each) for each in around(self.new.all, frame.at, 1))
        said = [self._agree(frame, each) for each in near]
        return all(said) or (any(said) and not self._agree(near[0], near[-1]))

    def _agree(self, one: Frame, other: Frame) -> bool:
        """Whether two frames are as far apart as their times say."""
        low, high = sorted((one, other))
        elements = (high.at - low.at) / self.interval
        apart = high.moment - low.moment
        stepped = bisect_left(self.steps, low.at) != bisect_left(self.steps, high.at)
        most = limits.AT_STEP if stepped else min(limits.AT_STEP, limits.ON_CLOCK + self.drift * elements)
        years = (0, CENTURY) if self.layout.with_year else (0, 365 * DAY, 366 * DAY)
        return any(abs(elements - ELEMENTS * (apart + year) / self.layout.period) <= most for year in years)
