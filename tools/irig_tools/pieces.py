"""The time that parts of several frames say together, if no frame can be read whole."""
from __future__ import annotations

from collections import Counter
from typing import Callable, Optional, Sequence

from . import limits
from .moments import DAY, SECOND
from .units import Base, FrameNumber
from .votes import Votes

MINUTE, HOUR = 60 * SECOND, 3600 * SECOND
# each field with how many hundredths of a second one of it is, and after how many it begins again
LEVELS = (("hundredths", 1, SECOND), ("seconds", SECOND, MINUTE), ("minutes", MINUTE, HOUR), ("hours", HOUR, DAY))


class _Pieces:
    """The fields that can be read in some frames, one by one."""

    def __init__(self, votes: Votes, numbers: Sequence[FrameNumber]) -> None:
        self.votes, self.layout, self.numbers = votes, votes.layout, numbers

    def _vote(self, name: str, means: Callable[[FrameNumber, int], int]) -> Optional[int]:
        """What most frames mean by a field; None if too few say it, or as many say another thing."""
        rows = self.layout.fields[name]
        texts = [(number, self.votes.texts[number]) for number in self.numbers]
        read = [(number, text) for number, text in texts if all(text[element] in "01" for element, _ in rows)]
        values = [(number, self.layout.value(name, text)) for number, text in read]
        often = Counter(means(number, value) for number, value in values if value >= 0).most_common(2)
        if not often or often[0][1] < limits.WITNESSES or (len(often) > 1 and often[1][1] == often[0][1]):
            return None
        return often[0][0]

    def within_day(self) -> Optional[int]:
        """The time of day of frame 0, field by field from the finest."""
        known: Optional[int] = 0
        for name, unit, most in LEVELS:
            if known is not None and name in self.layout.fields:
                known = self._level(name, unit, most, known)
        return known

    def _level(self, name: str, unit: int, most: int, known: int) -> Optional[int]:
        """The time of frame 0 within `most`, from that within `unit`."""

        def means(number: FrameNumber, value: int) -> int:
            later = number * self.layout.period
            return ((known + later) % unit + value * unit - later) % most

        return self._vote(name, means)

    def base(self) -> Optional[Base]:
        within = self.within_day()
        year = self._vote("year", lambda number, value: value) if self.layout.with_year else 0
        if within is None or year is None:
            return None
        start, midnight = within, {"hours": 0, "minutes": 0, "seconds": 0, "year": year}

        def means(number: FrameNumber, value: int) -> int:
            """The base by the day of the year that a frame has."""
            later = number * self.layout.period
            return self.votes.calendar.moment_of({**midnight, "days": value}) + (start + later) % DAY - later

        base = self._vote("days", means)
        return None if base is None else self.votes.calendar.on_circle(base)


def pieced(votes: Votes, numbers: Sequence[FrameNumber]) -> Optional[Base]:
    """The base that these frames lead to together: two of them say each field, and no element is outvoted."""
    base = _Pieces(votes, numbers).base() if len(numbers) > 1 else None
    return base if base is not None and votes.is_borne(numbers, base) else None
