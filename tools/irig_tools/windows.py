"""Chooses the windows of a recording that is longer than a track, as it is read."""
from __future__ import annotations

import os
from array import array
from typing import Callable, List, NamedTuple, Optional, Sequence

from .digits import WHOLE
from .dump_units import MICROSECOND
from .editor import Problem
from .seams import SOUND_FRAMES, Seam, seam_in
from .units import ELEMENTS
from .wire import LONGEST_TIME, MOST_EDGES, Wish
from .wire_edges import WireEdges

SIZE = 1 << 19  # pulses of a window's own part
SIZE_NAMED = "IRIG_WINDOW"  # the variable that names another size
READ_OVER = 100 * ELEMENTS  # pulses that are read before and after the own part: a repair looks at fewer
BEFORE_ALL = 0  # microseconds
TOO_LONG = "%s: lasts longer than 12.7 days (2^40 microseconds); irig_wire --from and --to take a part of it"


class TimeWindow(NamedTuple):
    """Times are microseconds of the recording. What is read reaches over the own part; the own parts together are the recording."""

    number: int  # from 1
    start: int  # what is read, from when
    stop: int  # and up to when
    begin: int  # the own part, from when
    end: int  # and up to when; no edge is there
    is_last: bool

    def owns(self, time: int) -> bool:
        return self.begin <= time and (self.is_last or time < self.end)


def named_size() -> Optional[int]:
    """The size that the environment names."""
    named = os.environ.get(SIZE_NAMED)
    if named and (not WHOLE.fullmatch(named) or int(named) < 4 * SOUND_FRAMES * ELEMENTS):
        raise Problem("%s is a whole number of pulses, at least %d, not '%s'" % (SIZE_NAMED, 4 * SOUND_FRAMES * ELEMENTS, named))
    return int(named) if named else None


Take = Callable[[TimeWindow, "array[int]"], None]


class Windows:
    """Reads a wire and hands over each window, with its edges, as soon as it is read."""

    def __init__(self, path: str, wish: Wish, take: Take) -> None:
        self.reading, self.take = WireEdges(path, wish, self._cut), take
        size = named_size()
        self.size = size or SIZE
        self.least = 0 if size else MOST_EDGES  # edges without which it is a track
        self.gone = 0  # edges that are not kept any more
        self.seam = Seam(0, BEFORE_ALL, True)
        self.windows: List[TimeWindow] = []

    def read(self) -> WireEdges:
        """All windows are handed over then, but if the wire fits in a track."""
        reading = self.reading.read()
        if reading.length > LONGEST_TIME:
            raise Problem(TOO_LONG % reading.source.path)
        if self.is_long:
            self._cut()
            self._hand_over(Seam(self._many(), reading.length, True), True)
        return reading

    @property
    def is_long(self) -> bool:
        return self._many() > self.least

    def _many(self) -> int:
        return self.gone + len(self.reading.edges)

    def _cut(self) -> None:
        """Cuts the windows after which enough is read: the last one is up to half as large again."""
        while self.is_long and self._many() > self._searched(self.size // 2) + 2 * READ_OVER:
            first, beyond = self._searched(0) - self.gone, self._searched(self.size // 2) - self.gone
            found = seam_in(self.reading.edges, first, beyond)
            self._hand_over(found._replace(edge=found.edge + self.gone), False)

    def _searched(self, more: int) -> int:
        """The edge after that many pulses more than a window has, from its seam; it is a rise."""
        return (self.seam.edge + 2 * (self.size + more)) & ~1

    def _hand_over(self, seam: Seam, is_last: bool) -> None:
        """The window up to a seam."""
        edges, gone = self.reading.edges, self.gone
        first = max(0, (self.seam.edge - 2 * READ_OVER) & ~1)
        beyond = self._many() if is_last else (seam.edge + 2 * READ_OVER) & ~1
        part = edges[first - gone:beyond - gone]
        stop = self.reading.length if is_last else (part[-1] + edges[beyond - gone]) // 2
        start = part[0] if first else BEFORE_ALL
        window = TimeWindow(len(self.windows) + 1, start, stop, self.seam.time, seam.time, is_last)
        self.windows.append(window)
        self.seam = seam
        if not is_last:
            kept = max(first, (seam.edge - 2 * READ_OVER) & ~1)
            del edges[:kept - gone]
            self.gone = kept
        self.take(window, part)


def windows_text(path: str, wish: Wish) -> str:
    """A line for each window of a wire: what is read, and the own part, in the dump's unit."""
    windows = Windows(path, wish, lambda window, edges: None)
    reading = windows.read()

    def line(times: Sequence[int]) -> str:
        return " ".join(str((reading.begin or 0) + time * MICROSECOND // reading.scale) for time in times) + "\n"

    return "".join(line(window[1:5]) for window in windows.windows) or line((0, reading.length, 0, reading.length))
