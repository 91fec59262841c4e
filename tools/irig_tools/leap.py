"""Whether a recording has a leap second: a second 60 that is shown, or one that is lost and for which there is time."""
from __future__ import annotations

from collections import Counter
from dataclasses import replace
from typing import Sequence, Set, Tuple

from .layout import Fields
from .moments import DAY, SECOND, Calendar
from .units import FrameNumber, Hundredths, plus

LEAP_DAYS = {181, 182, 365, 366}  # 30 June and 31 December

Read = Sequence[Tuple[FrameNumber, Fields]]


def _shown(calendar: Calendar, read: Read) -> Set[Hundredths]:
    """The moments at which a frame shows that second 60 begins."""
    return {plus(calendar.moment_of(told), -told.get("hundredths", 0)) for _, told in read if told["seconds"] == 60}


def _possible(calendar: Calendar, read: Read) -> Set[Hundredths]:
    """The midnights before which there is time for one second more than the frames show."""
    found: Set[Hundredths] = set()
    if not any(told["days"] in LEAP_DAYS for _, told in read):
        return found
    bases = [calendar.base(*each) for each in read]
    for (left, before), (right, after), earlier, later in zip(read, read[1:], bases, bases[1:]):
        if later - earlier == -SECOND and before["days"] in LEAP_DAYS:
            midnight = calendar.moment_of(before) // DAY * DAY + DAY
            if calendar.moment_of(after) % DAY <= (right - left) * calendar.layout.period:
                found.add(Hundredths(midnight))
    return found


def with_leap(calendar: Calendar, read: Read, elsewhere: Sequence[Fields] = ()) -> Calendar:
    """The calendar with the moment at which second 60 begins, if there is one: with it at least as many frames agree as
    without it. Frames of other recordings can show it, too."""
    if calendar.layout.period > SECOND or not read:
        return calendar
    there = _shown(calendar, [(FrameNumber(0), told) for told in elsewhere])
    for moment in sorted(_shown(calendar, read) | _possible(calendar, read) | there):
        leaping = replace(calendar, leap=moment)
        plain, counted = (Counter(each.base(*frame) for frame in read) for each in (calendar, leaping))
        before, most = max(plain.values()), max(counted.values())
        shown = any(told["seconds"] == 60 and counted[leaping.base(number, told)] == most for number, told in read)
        if most > before or (most == before and (moment in there or (shown and most > 1))):
            return leaping
    return calendar
