"""Tables of logic analysers and oscilloscopes: rows of numbers with times, or at a rate, of levels or volts."""
from __future__ import annotations

import codecs
import math
from array import array
from bisect import bisect_right
from itertools import chain, islice
from typing import IO, Iterator, List, Optional, Sequence, Tuple

from .aside import Aside
from .cycles import Edge
from .digits import NUMBER
from .editor import Problem
from .first_row import heads_and_row
from .heads import Heads, fields_of, rate_of, with_values
from .row_kind import RowKind, even_distances
from .samples import LARGEST, MICROSECONDS, Samples, stream_of
from .wire import LONGEST_TIME

LONGEST_LINE = 10000  # bytes of a line
LOOKED_AT = 10000  # rows that show the rate, and whether the values are levels
ROUND = 1e-4  # a rate that is as near to one of three digits is that one
NEAR_ROW = 0.25  # of that distance: a row is where the rate has it
NEXT_ROW = 1.75  # distances of two samples: if rows are farther apart, others between them are lost
MOST_NAMED = 20  # stretches of lost rows
OR_CHANGES = "; if its rows are changes, the levels have to be 0 and 1"
COARSE_TIMES = "%s the time of the change before, so pulses are lost: the times are too coarse, or --time-column has to name another"

Row = Tuple[float, float]  # a time in seconds, and a value


def decoded(line: bytes, code: str) -> str:
    """A line in this code, or else in Latin-1, which has the micro sign of older programs."""
    try:
        return line.decode(code)
    except UnicodeDecodeError:
        return line.decode("latin-1")


def utf8_lines(stream: IO[bytes]) -> Iterator[bytes]:
    """The lines of a text; if it is UTF-16 with a byte order mark, in UTF-8. Of a line that is too long there is the beginning."""
    first = stream.readline(LONGEST_LINE)
    pieces = chain([first], iter(lambda: stream.readline(LONGEST_LINE), b""), [b""])
    if first[:2] not in (codecs.BOM_UTF16_LE, codecs.BOM_UTF16_BE):
        yield from filter(None, pieces)
        return
    decoder, rest = codecs.getincrementaldecoder("utf-16")("replace"), ""
    for piece in pieces:
        *whole, rest = (rest + decoder.decode(piece, not piece)).split("\n")
        yield from (line.encode() + b"\n" for line in whole)
        if len(rest) >= LONGEST_LINE or not piece:
            yield rest.encode()


class Table(Samples):
    """One column of a table as samples. `is_levels` if its first values are zeros and ones; of zeros alone not if it has
    `volts`."""

    def __init__(self, path: str, time: Optional[str], value: Optional[str], rate: int, negative: bool = False,
                 volts: bool = False, aside: Optional[Aside] = None) -> None:
        self.path, self.kind, self.notes, self.number, self.negative = path, "text", [], 0, negative
        self.places = array("q")  # of rows whose times are kept
        self.times = array("d")
        self.lost = 0  # stretches of rows
        self.others: List[Tuple[int, str]] = []  # columns with their names
        self.held: List[Tuple[float, Sequence[str]]] = []  # the first rows, until they show which columns have more than heads
        self.is_open = False  # the last line has no end, so it can be cut
        self.lines = self._lines(stream_of(path))
        heads, first = heads_and_row(path, self.lines, (time, value))
        self.rate = rate or rate_of(heads)
        named = Heads(heads, first, path)
        self.form = named.form(time, value, bool(rate))
        if rate and named.has_times():
            self.notes.append("the times of the table are not read, as --rate is given: its first row is at 0 in the dump")
        if self.form.time is None and not self.rate:
            raise Problem("%s: has no column of times; name it by --time-column, or give --rate, in samples a second" % path)
        self.aside = aside
        self.seen, rows = RowKind(self.form.time), self._rows(first)
        looked = list(islice(rows, LOOKED_AT))
        self.rows = chain(looked, rows)
        if aside:
            self._begin_aside(aside, named)
        values = {level for _, level in looked}
        self.is_levels = values <= {0.0, 1.0} and not (volts and values == {0.0})
        self._find_spacing([time for time, _ in looked])

    def _begin_aside(self, aside: Aside, named: Heads) -> None:
        """The other columns get their heads, and what the first rows have in them."""
        others = named.others(self.form)
        self.others = others if any(named.names) else with_values(others, [fields for _, fields in self.held], self.form)
        aside.begin(self.path, [each for _, each in self.others])
        for since, fields in self.held:
            self._set_aside(since, fields)
        self.held = []

    def _find_spacing(self, times: Sequence[float]) -> None:
        """How far apart rows are, of levels in samples, of changes 0; and the rate, by the first times."""
        self.spacing = 1 / self.rate if self.form.time is None else self.seen.spacing(times)
        if self.form.time is not None:
            self.rate = MICROSECONDS if self.is_levels else self._rate(times)

    def _lines(self, stream: IO[bytes]) -> Iterator[str]:
        for line in utf8_lines(stream):
            self.number += 1
            self.is_open = not line.endswith(b"\n")
            if len(line) >= LONGEST_LINE:
                raise Problem("%s: line %d is too long for a table" % (self.path, self.number))
            yield decoded(line, "utf-8-sig" if self.number == 1 else "utf-8").strip("\r\n\0 ")

    def _rows(self, first: str) -> Iterator[Row]:
        """The rows, by the time since the first."""
        begun, last, form = 0.0, 0.0, self.form
        numbered = enumerate(line for line in chain([first], self.lines) if line and not line.startswith(";"))
        for number, line in numbered:
            fields = fields_of(line, form.parted)
            if number < LOOKED_AT:
                self.seen.see(fields)
            if number and self.is_open and not self._is_whole(fields):
                self.notes.append("the table ends within a row, so it is cut; that row is left out")
                return
            value = self._value(fields, form.value)
            if form.time is None:
                self._set_aside(number / self.rate, fields)
                yield number / self.rate, value
                continue
            time = self._value(fields, form.time) * form.unit
            if not number:
                begun, self.start = time, time * MICROSECONDS
                self.begun = self.start if 0 <= self.start <= LONGEST_TIME else 0.0
            if time - begun < last:
                raise Problem("%s: line %d has a time before that of the last row" % (self.path, self.number))
            last = time - begun
            self._set_aside(last, fields)
            yield last, value

    def _set_aside(self, since: float, fields: Sequence[str]) -> None:
        """The other columns of a row, at its time in the dump."""
        if self.aside and self.others:
            self.aside.take_row(self._seconds(since), [fields[place] if place < len(fields) else "" for place, _ in self.others])
        elif self.aside:
            self.held.append((since, fields))

    def _is_whole(self, fields: Sequence[str]) -> bool:
        """Whether a row that has no end has its numbers."""
        places = [place for place in (self.form.time, self.form.value) if place is not None]
        return all(place < len(fields) and NUMBER.fullmatch(fields[place]) for place in places)

    def _value(self, fields: Sequence[str], place: int) -> float:
        word = fields[place] if place < len(fields) else ""
        value = float(word) if NUMBER.fullmatch(word) else math.nan
        if not -LARGEST <= value <= LARGEST:
            raise Problem("%s: line %d has no number in column %d" % (self.path, self.number, place + 1))
        return value

    def _rate(self, times: Sequence[float]) -> int:
        """The samples in a second, by the first times. Some rows can be lost or be there twice."""
        if times[0] == times[-1]:
            raise Problem("%s: its times are all the same, so they show no rate; give --rate, in samples a second" % self.path)
        _, even, uneven = even_distances(times)
        if uneven:
            text = "%s: its samples do not come at even times, first in row %d; with --rate they are taken as even, from 0 on"
            raise Problem((text + OR_CHANGES) % (self.path, uneven))
        wide = sum(even) / len(even)
        rate = float("%.3g" % (1 / wide))
        return max(1, round(rate if abs(rate * wide - 1) < ROUND else 1 / wide))

    def _stretches(self, length: int) -> Iterator[Sequence[float]]:
        while True:
            times, values = array("d"), array("d")
            for time, value in islice(self.rows, length):
                times.append(time)
                values.append(value)
            if not values:
                break
            if self.form.time is not None:
                self._know(times)
            yield values
        self.note_more_lost()

    def _know(self, times: Sequence[float]) -> None:
        """Keeps the times of the first and the last row of a stretch, and of each that is not near where the rate has it after
        one that is kept, with the row before."""
        begun, kept = self.places[-1] + 1 if self.places else 0, {0, len(times) - 1}
        last, since = 0, times[0]
        for place, (one, other) in enumerate(zip(times, times[1:]), 1):
            if abs((other - since) * self.rate - (place - last)) > NEAR_ROW:
                kept |= {place - 1, place}
                last, since = place, other
                if (other - one) * self.rate > NEXT_ROW:
                    self.lose(one, other)
        for place in sorted(kept):
            self.places.append(begun + place)
            self.times.append(times[place])

    def lose(self, one: float, other: float) -> None:
        """Notes that rows between two times are lost."""
        self.lost += 1
        if self.lost <= MOST_NAMED:
            self.notes.append("no rows from %.6f to %.6f seconds" % (self._seconds(one), self._seconds(other)))

    def note_more_lost(self) -> None:
        if self.lost > MOST_NAMED:
            self.notes.append("and %d such stretches more" % (self.lost - MOST_NAMED))

    def _seconds(self, since: float) -> float:
        return since + self.begun / MICROSECONDS

    def at(self, place: float) -> float:
        """By the rows around it whose times are kept."""
        if not self.places:
            return super().at(place)
        after = max(1, bisect_right(self.places, place))
        if after == len(self.places):
            return MICROSECONDS * self._seconds(self.times[-1] + (place - self.places[-1]) / self.rate)
        (one, other), (begin, end) = self.places[after - 1:after + 1], self.times[after - 1:after + 1]
        return MICROSECONDS * self._seconds(begin + (end - begin) * (place - one) / (other - one))


class Steps:
    """The edges of a table of zeros and ones. A change has its own time. Between two samples that differ the edge is in the middle:
    nothing says more, and at the second one all would be late, by half the distance in the mean."""

    def __init__(self, table: Table, swapped: bool) -> None:
        self.samples, self.swapped = table, swapped
        self.length = 0.0
        self.gaps: List[Tuple[int, int]] = []

    def edges(self) -> Iterator[Edge]:
        level, changed, same, last, table = 0, -1.0, 0, 0.0, self.samples
        for time, value in table.rows:
            if value not in (0.0, 1.0):
                text = "%s: line %d has no level of 0 or 1, as the first %d rows have; for volts that begin with 0 give --level, or " \
                       "--format of a carrier, and --column for another column"
                raise Problem(text % (table.path, table.number, LOOKED_AT))
            self.length = time * table.rate
            if table.spacing and time - last > NEXT_ROW * table.spacing:
                table.lose(last, time)
            if int(value) ^ self.swapped != level:
                level, same, changed = 1 - level, same + (time == changed), time
                yield (last + time) / 2 * table.rate if table.spacing else self.length, level
            last = time
        if same:
            table.notes.append(COARSE_TIMES % ("1 change has" if same == 1 else "%d changes have" % same))
        table.note_more_lost()
        self.length += table.form.time is None  # the last sample, too, has its time
