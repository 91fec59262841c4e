"""Moments as numbers: hundredths of a second, with a leap second counted if the recording has one."""
from __future__ import annotations

import datetime
from dataclasses import dataclass
from functools import cached_property
from typing import Optional

from .layout import Fields, Layout
from .units import Base, FrameNumber, Hundredths, plus

DAY = 8640000  # hundredths of a second
SECOND = 100  # hundredths of a second
CENTURY = 36525 * DAY  # of which a year of two digits says the year

# of each year of two digits, counted since year 1
FIRST_DAYS = [datetime.date(2000 + year, 1, 1).toordinal() for year in range(100)]


@dataclass(frozen=True)
class Calendar:
    """Counts since year 1 if the format has a year, else since the year began."""

    layout: Layout
    days: int = 365  # of the year that ends within the recording, if the format has no year
    leap: Optional[Hundredths] = None  # the moment at which second 60 begins

    @property
    def with_year(self) -> bool:
        return self.layout.with_year

    @cached_property
    def circle(self) -> int:
        """After how long the times begin again: with a year from 99 to 00, else after the last day."""
        return CENTURY if self.with_year else self.days * DAY

    @cached_property
    def _begin(self) -> int:
        return FIRST_DAYS[0] * DAY if self.with_year else DAY

    def base(self, number: FrameNumber, told: Fields) -> Base:
        """The time of frame 0, if frame `number` shows this one and the clock had run all along."""
        return self.on_circle(self.moment_of(told) - number * self.layout.period)

    def on_circle(self, base: int) -> Base:
        return Base(Hundredths((base - self._begin) % self.circle + self._begin))

    def apart(self, before: int, after: int) -> int:
        """By how much a time is later than another one, or earlier if that is less."""
        return (after - before + self.circle // 2) % self.circle - self.circle // 2

    def moment(self, number: FrameNumber, base: Base) -> Hundredths:
        """That of a frame, by a base."""
        return plus(base, number * self.layout.period)

    def moment_of(self, told: Fields) -> Hundredths:
        within = SECOND * (3600 * told["hours"] + 60 * told["minutes"] + told["seconds"]) + told.get("hundredths", 0)
        first = FIRST_DAYS[told.get("year", 0)] if self.with_year else 1
        plain = self._near_leap(Hundredths((first + told["days"] - 1) * DAY + within))
        return plus(plain, SECOND * (self.leap is not None and plain >= self.leap and told["seconds"] != 60))

    def _near_leap(self, moment: Hundredths) -> Hundredths:
        """The first day follows the last one."""
        return moment if self.leap is None else plus(self.leap, self.apart(self.leap, moment))

    def within_leap(self, moment: Hundredths) -> bool:
        """Whether this moment is in a second 60."""
        return self.leap is not None and 0 <= self._near_leap(moment) - self.leap < SECOND

    def after_leap(self, moment: Hundredths) -> bool:
        return self.leap is not None and self._near_leap(moment) >= self.leap + SECOND

    def fields(self, moment: Hundredths) -> Fields:
        if self.within_leap(moment):
            return {**self._plain_fields(plus(moment, -SECOND)), "seconds": 60, "binary": 86400}
        return self._plain_fields(plus(moment, -SECOND * self.after_leap(moment)))

    def _plain_fields(self, moment: Hundredths) -> Fields:
        day, within = divmod(moment, DAY)
        seconds, hundredths = divmod(within, SECOND)
        told = {"hundredths": hundredths, "seconds": seconds % 60, "minutes": seconds // 60 % 60,
                "hours": seconds // 3600, "binary": seconds}
        if self.with_year:
            date = datetime.date.fromordinal((day - FIRST_DAYS[0]) % (CENTURY // DAY) + FIRST_DAYS[0])
            told["year"], told["days"] = date.year % 100, date.timetuple().tm_yday
        else:
            told["days"] = (day - 1) % self.days + 1
        return told

    def text(self, moment: Hundredths) -> str:
        """The moment as the editor's `regen` takes it."""
        told = self.fields(moment)
        long = self.days == 366 or told["days"] == 366
        told["year"] = 2000 + told["year"] if self.with_year else 2024 if long else 2023
        text = "%(year)04d-%(days)03dT%(hours)02d:%(minutes)02d:%(seconds)02d" % told
        return text + (".%02d" % told["hundredths"] if "hundredths" in self.layout.fields else "")

    def name(self, moment: Hundredths) -> str:
        """The moment for people; without the year if the format has none."""
        return self.text(moment)[0 if self.with_year else 5:]
