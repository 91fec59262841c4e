"""Time code as it is sent, by docs/FORMATS.md: the pulses of a sender, and the time of day at each of its moments.

Moments of the sender are microseconds from its first frame on. A time is microseconds from the begin of the first year on, in which an
inserted second counts, so that two times are as far apart as they are.
"""
from __future__ import annotations

from typing import Callable, Dict, Iterator, List, NamedTuple, Optional, Set, Tuple

SECOND = 1_000_000
MINUTE = 60 * SECOND
HOUR = 60 * MINUTE
DAY = 24 * HOUR
POSITION = 2  # the class of a position identifier; 0 and 1 are the others
WIDTHS = (0.2, 0.5, 0.8)  # of a class, in intervals

Pulse = Tuple[float, float]  # its rise and its fall


class Format(NamedTuple):
    """A format of IRIG 200-04, its interval and its frame in microseconds."""

    name: str
    interval: int
    expressions: str

    @property
    def frame(self) -> int:
        return 100 * self.interval


FORMATS = {each.name: each for each in (
    Format("A", 1_000, "01234567"), Format("B", 10_000, "01234567"), Format("E", 100_000, "1256"), Format("G", 100, "1256"))}

# a digit of a field: the field, its decade, its elements from the weight 1 of the decade on, the formats that have it
DIGITS = (
    ("second", 1, range(1, 5), "ABG"), ("second", 10, range(6, 9), "ABEG"),
    ("minute", 1, range(10, 14), "ABEG"), ("minute", 10, range(15, 18), "ABEG"),
    ("hour", 1, range(20, 24), "ABEG"), ("hour", 10, range(25, 27), "ABEG"),
    ("day", 1, range(30, 34), "ABEG"), ("day", 10, range(35, 39), "ABEG"), ("day", 100, range(40, 42), "ABEG"),
    ("hundredth", 10, range(45, 49), "AG"), ("hundredth", 1, range(50, 54), "G"))
YEAR_DIGITS = (
    ("year", 1, range(50, 54), "ABE"), ("year", 10, range(55, 59), "ABE"),
    ("year", 1, range(60, 64), "G"), ("year", 10, range(65, 69), "G"))
BINARY_SECONDS = [*range(80, 89), *range(90, 98)]  # from the weight 1 on
FIRST_CONTROL = {"A": (50, 60), "B": (50, 60), "E": (50, 60), "G": (60, 70)}  # without the year, and with it
LAST_CONTROL = {"A": 78, "B": 78, "E": 98, "G": 98}
LARGEST = {"second": 60, "minute": 59, "hour": 23, "day": 366, "hundredth": 99, "year": 99}


def has_year(expression: int) -> bool:
    return expression >= 4


def has_controls(expression: int) -> bool:
    return expression in (0, 1, 4, 5)


def has_binary_seconds(format: Format, expression: int) -> bool:
    return format.name in "AB" and expression in (0, 3, 4, 7)


def digits(format: Format, expression: int) -> List[Tuple[str, int, range]]:
    """The digits of time and year of a frame: field, decade and elements."""
    known = DIGITS + (YEAR_DIGITS if has_year(expression) else ())
    return [(field, decade, elements) for field, decade, elements, formats in known if format.name in formats]


def control_elements(format: Format, expression: int) -> List[int]:
    if not has_controls(expression):
        return []
    first = FIRST_CONTROL[format.name][has_year(expression)]
    return [each for each in range(first, LAST_CONTROL[format.name] + 1) if each % 10 != 9]


def year_length(year: int) -> int:
    leap = year % 4 == 0 and (year % 100 != 0 or year % 400 == 0)
    return 366 if leap else 365


class Calendar:
    """Times as they are shown. An inserted second begins at the time `inserted`, if there is one."""

    def __init__(self, year: int, inserted: Optional[int] = None) -> None:
        self.year = year
        self.inserted = inserted

    def fields(self, time: int) -> Dict[str, int]:
        """The fields of a whole microsecond."""
        if self.inserted is None or time < self.inserted:
            return self._plain(time)
        if time >= self.inserted + SECOND:
            return self._plain(time - SECOND)
        micro = time - self.inserted
        return {**self._plain(self.inserted - 1), "second": 60, "hundredth": micro // 10_000, "micro": micro}

    def _plain(self, time: int) -> Dict[str, int]:
        day, rest = divmod(time, DAY)
        year = self.year
        if day >= year_length(year):
            day, year = day - year_length(year), year + 1
        return dict(year=year % 100, day=day + 1, hour=rest // HOUR, minute=rest % HOUR // MINUTE, second=rest % MINUTE // SECOND,
                    hundredth=rest % SECOND // 10_000, micro=rest % SECOND)

    def time(self, near: float, day: int, hour: int, minute: int, second: int, micro: int) -> float:
        """The time of these fields, in the year that has it nearest to another time."""
        base = ((day - 1) * DAY + hour * HOUR + minute * MINUTE + second * SECOND + micro)
        years = (base - year_length(self.year - 1) * DAY, base, base + year_length(self.year) * DAY)
        time = min(years, key=lambda each: abs(each - near))
        if self.inserted is not None and time >= self.inserted and second != 60:
            time += SECOND
        return time


class Run(NamedTuple):
    """The sender without a change of its clock: from a moment up to another. A frame with this time begins at `origin`."""

    begin: float
    end: float
    origin: float
    time: int


class Sender:
    """A sender. `controls` is what the control functions of the frame with a time are; `flips` are elements that are sent as the other
    class in the frame that begins with a time."""

    def __init__(self, format: Format, expression: int, calendar: Calendar, controls: Callable[[int], Set[int]]) -> None:
        self.format = format
        self.expression = expression
        self.calendar = calendar
        self.controls = controls
        self.runs: List[Run] = []
        self.flips: Dict[int, Set[int]] = {}
        self._digits = digits(format, expression)

    def time_at(self, moment: float) -> float:
        """The time of day at a moment."""
        for run in self.runs:
            if moment < run.end:
                break
        return run.time + (moment - run.origin)

    def classes(self, time: int) -> List[int]:
        """The classes of the elements of the frame with a time."""
        shown = self.calendar.fields(time)
        classes = [POSITION if each % 10 == 9 or each == 0 else 0 for each in range(100)]
        for field, decade, elements in self._digits:
            digit = shown[field] // decade % 10
            for bit, element in enumerate(elements):
                classes[element] = digit >> bit & 1
        if has_binary_seconds(self.format, self.expression):
            whole = 3600 * shown["hour"] + 60 * shown["minute"] + shown["second"]
            for bit, element in enumerate(BINARY_SECONDS):
                classes[element] = whole >> bit & 1
        for element in self.controls(time):
            classes[element] = 1
        for element in self.flips.get(time, ()):
            classes[element] = 1 - classes[element]
        return classes

    def pulses(self) -> Iterator[Pulse]:
        """All pulses, in order. Those that a change of the clock cuts end or begin there."""
        for run in self.runs:
            number = int((run.begin - run.origin) // self.format.frame)
            while run.origin + number * self.format.frame < run.end:
                yield from self._frame(run, number * self.format.frame)
                number += 1

    def _frame(self, run: Run, passed: int) -> List[Pulse]:
        begin, interval = run.origin + passed, self.format.interval
        kinds = enumerate(self.classes(run.time + passed))
        pulses = [(begin + element * interval, begin + (element + WIDTHS[kind]) * interval) for element, kind in kinds]
        if run.begin <= begin and begin + self.format.frame <= run.end:
            return pulses
        cut = [(max(run.begin, rise), min(run.end, fall)) for rise, fall in pulses]
        return [pulse for pulse in cut if pulse[0] < pulse[1]]


def reads_well(format: Format, expression: int, classes: List[int]) -> bool:
    """Whether the digits of a frame are decimal and fit, so that it reads well if its binary seconds are right, too."""
    values: Dict[str, int] = {}
    for field, decade, elements in digits(format, expression):
        digit = sum(classes[element] << bit for bit, element in enumerate(elements))
        if digit > 9:
            return False
        values[field] = values.get(field, 0) + decade * digit
    return all(value <= LARGEST[field] for field, value in values.items()) and values["day"] >= 1
