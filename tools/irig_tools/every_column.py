"""Every column of a table at once: what each has that can be time code."""
from __future__ import annotations

import io
from array import array
from collections import deque
from typing import Deque, Iterator, List, Optional, Sequence, Tuple

from .aside import Aside
from .digits import NUMBER
from .editor import Problem
from .heads import Heads
from .lanes import KeptSamples, Lane, lane_of
from .row_kind import IS_LEVEL
from .samples import MICROSECONDS
from .table import Table

ROWS_OF_PART, EDGES_OF_PART = 1 << 20, 1 << 19  # of a part; the next one is read if no column has code in it
MOST_COLUMNS = 64  # that are looked at

LanePart = Tuple[List[Lane], int]  # and its end in microseconds


class EveryColumn(Table):
    """A table that is read by one column with numbers, and of which the others are kept, too."""

    def __init__(self, path: str, time: Optional[str], rate: int, value: str) -> None:
        self.waiting: Deque[Sequence[str]] = deque()  # rows that were looked at ahead
        super().__init__(path, time, value, rate, aside=Aside(io.BytesIO()))
        names = [(place, _name_of(self.named.names, place)) for place in range(self.named.count) if place != self.form.time]
        self.columns = [_Column(place, name, self.waiting) for place, name in names if name][:MOST_COLUMNS]

    def _begin_aside(self, aside: Aside, named: Heads) -> None:
        self.named = named

    def _set_aside(self, since: float, fields: Sequence[str]) -> None:
        self.waiting.append(fields)

    def _find_spacing(self, times: Sequence[float]) -> None:
        """The rate of volts is that of the rows; changes have none."""
        self.spacing = 1 / self.rate if self.form.time is None else self.seen.spacing(times)
        try:
            self.rate = self.rate or self._rate(times)
        except Problem:
            self.rate = 0

    def parts(self) -> Iterator[LanePart]:
        """The lanes of each part."""
        last, begun, rows = 0.0, 0.0, 0
        for time, _ in self.rows:
            between = (last + time) / 2 if self.spacing else time
            fields = self.waiting.popleft()
            for column in self.columns:
                column.take(fields, between)
            last, rows = time, rows + 1
            if rows == ROWS_OF_PART or sum(len(column.edges) for column in self.columns) >= EDGES_OF_PART:
                yield self._part(begun, last)
                begun, rows = last, 0
        yield self._part(begun, last)

    def _part(self, begun: float, end: float) -> LanePart:
        lanes = [column.lane(self.path, self.rate, begun * MICROSECONDS) for column in self.columns]
        return [lane for lane in lanes if lane], round(end * MICROSECONDS)


def _name_of(names: Sequence[str], place: int) -> str:
    """What --column calls a column: its name, or its number if that is of no other; nothing if none means it alone."""
    name, number = names[place] if place < len(names) else "", str(place + 1)
    if name and names.count(name) == 1:
        return name
    return number if number not in names else ""


class _Column:
    """A column of a table: its first rows say whether it has levels or volts."""

    def __init__(self, place: int, name: str, rows: Sequence[Sequence[str]]) -> None:
        self.place, self.name = place, name
        words = [fields[place] if place < len(fields) else "" for fields in rows]
        self.is_levels = all(map(IS_LEVEL.fullmatch, words))
        self.is_volts = not self.is_levels and all(map(NUMBER.fullmatch, words))
        self.word, self.is_high, self.begins_high = "", False, False
        self.edges, self.values = array("q"), array("d")

    def take(self, fields: Sequence[str], time: float) -> None:
        word = fields[self.place] if self.place < len(fields) else ""
        if self.is_volts:
            self.values.append(float(word) if NUMBER.fullmatch(word) else 0.0)
        elif self.is_levels and word != self.word:
            self.word = word
            if word.startswith("1") != self.is_high:
                self.is_high = not self.is_high
                self.edges.append(round(time * MICROSECONDS))

    def lane(self, path: str, rate: int, begun: float) -> Optional[Lane]:
        """What it has in a part, which ends with that; nothing if that can be no code."""
        edges, values = self.edges[self.begins_high:], self.values
        self.edges, self.values, self.begins_high = array("q"), array("d"), self.is_high
        words = ["--table", "--column=" + self.name]
        if self.is_volts:
            return lane_of("column " + self.name, words, KeptSamples(path, values, "text", rate, begun)) if rate else None
        return Lane("column " + self.name, words, edges=edges) if edges else None


def every_column(path: str, time: Optional[str] = None, rate: int = 0) -> EveryColumn:
    """The table at a path, read by its first column that has numbers."""
    first: Optional[Problem] = None
    for place in range(1, MOST_COLUMNS + 1):
        try:
            return EveryColumn(path, time, rate, str(place))
        except Problem as problem:
            first = first or problem
    assert first
    raise first
