"""A file of samples to which irig_time has given their times: its head, and its lines in the order of time."""
from __future__ import annotations

import re
from dataclasses import dataclass, field
from itertools import islice
from operator import itemgetter
from typing import IO, Iterator, List, Optional, Tuple

from .editor import Problem
from .texts import counted

TAB = b"\t"
FORMS = (  # of a time: what it is called, and what it looks like
    ("a day of the year without a year", re.compile(rb"([0-9]{3})T[0-9:]{8}\.[0-9]{6}")),
    ("a year and its day", re.compile(rb"[0-9]{4}-[0-9]{3}T[0-9:]{8}\.[0-9]{6}")),
    ("a year, a month and a day", re.compile(rb"[0-9]{4}-[0-9]{2}-[0-9]{2}T[0-9:]{8}\.[0-9]{6}")),
)
OF_DAY = re.compile(rb"[0-9]+\.[0-9]{6}")  # as irig_time --form seconds has it
WITHOUT = re.compile(rb"-|before|unbelieved|step|after|hole")  # as irig_time has it, without --why or with it
LONGEST_LINE_READ = 1 << 20  # bytes that irig_time reads, without the newline
LINE_TOO_LONG = "%s: line %d: too long"
FIRST_IS_NO_TIME = "%s: line %d begins with no time as irig_time prints it; --header N leaves out the head, and --comma says what parts " \
    "columns"
NO_DAY = "%s: line %d: a time in seconds says no day; irig_time --form ordinal or calendar does"
TWO_FORMS = "%s: line %d: its time has %s, and those before it have %s; give irig_time the same --form and --year"
ENDS_IN_HEAD = "%s: ends before its header does, after %s"
TWO_SIZES = "%s: line %d has %d columns, and the head has %d"

TimedLine = Tuple[bytes, bytes]  # a time, and the line after it


@dataclass
class TimedFile:
    """A file at a path, which is called `name`. A line has no newline here."""

    path: str
    name: str
    comma: Optional[bytes]
    header: int  # that many lines
    head: List[bytes] = field(default_factory=list)  # the names of the columns, of the time first
    form: Optional[int] = None  # of its times
    days: List[int] = field(default_factory=list)  # without a year: the first and the last
    timed: int = 0  # lines
    untimed: int = 0
    back: int = 0  # the first line whose time is before that of a line before it

    def look(self) -> None:
        """Reads all lines once."""
        last = b""
        if self.header:
            self.head = self._head()
        for number, (time, rest) in self._lines():
            if WITHOUT.fullmatch(time):
                self.untimed += 1
            else:
                self._take(number, time)
                self.timed += 1
                self.back = self.back or number * (time < last)
                last = max(time, last)
            if self.header and len(self.cells(rest)) != len(self.head) - 1:
                raise Problem(TWO_SIZES % (self.name, number, len(self.cells(rest)) + 1, len(self.head)))

    def cells(self, rest: bytes) -> List[bytes]:
        """The columns after the time."""
        return rest.rstrip(b"\r").split(self.comma) if self.comma else rest.split()

    def in_order(self) -> Iterator[TimedLine]:
        """The lines that have a time. Two of one time stay as they are."""
        found = (each for _, each in self._lines() if not WITHOUT.fullmatch(each[0]))
        return iter(sorted(found, key=itemgetter(0))) if self.back else found

    def without_time(self) -> Iterator[TimedLine]:
        return (each for _, each in self._lines() if WITHOUT.fullmatch(each[0]))

    def _head(self) -> List[bytes]:
        with open(self.path, "rb") as file:
            lines = [line.rstrip(b"\r\n") for line in islice(file, self.header)]
        if len(lines) < self.header:
            raise Problem(ENDS_IN_HEAD % (self.name, counted(len(lines), "line")))
        time, _, rest = lines[-1].partition(self.comma or TAB)
        return [time, *self.cells(rest)]

    def _lines(self) -> Iterator[Tuple[int, TimedLine]]:
        """The number of each line after the head, its first column, and the rest of it."""
        with open(self.path, "rb") as file:
            for number, (line, is_good) in enumerate(each_line(file), 1):
                if not is_good:
                    raise Problem(LINE_TOO_LONG % (self.name, number))
                if number > self.header:
                    time, _, rest = line.rstrip(b"\n").partition(self.comma or TAB)
                    yield number, (time, rest)

    def _take(self, number: int, time: bytes) -> None:
        """The form of a time, which that of all others is."""
        found = next(((form, match) for form, (_, pattern) in enumerate(FORMS) for match in [pattern.fullmatch(time)] if match), None)
        if not found:
            raise Problem((NO_DAY if OF_DAY.fullmatch(time) else FIRST_IS_NO_TIME) % (self.name, number))
        form, match = found
        if self.form not in (None, form):
            raise Problem(TWO_FORMS % (self.name, number, FORMS[form][0], FORMS[self.form or 0][0]))
        self.form = form
        if match.groups():
            day = int(match[1])
            self.days = [min(day, *self.days[:1] or [day]), max(day, *self.days[1:] or [day])]


def each_line(stream: IO[bytes]) -> Iterator[Tuple[bytes, bool]]:
    """The lines, up to one that is longer than irig_time reads, and whether each is none of these."""
    while True:
        line = stream.readline(LONGEST_LINE_READ + 1)
        if not line:
            return
        is_good = len(line) <= LONGEST_LINE_READ or line.endswith(b"\n")
        yield line, is_good
        if not is_good:
            return
