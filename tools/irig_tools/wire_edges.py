"""The edges of one wire of a dump, by the microsecond, as the editor reads it."""
from __future__ import annotations

from array import array
from operator import lt
from typing import Callable, List, Optional

from .dump_body import Body, Wanted
from .dump_choice import choose
from .dump_header import Header
from .dump_offset import Offset, offset_of
from .dump_parts import each_dump
from .dump_run import WireRun
from .dump_source import Source
from .dump_units import MICROSECOND, Unit
from .wire import Wish, first_of, unit_in

HEARD = 1 << 16  # changes that are read one by one, after which it is heard of them


def nobody() -> None:
    """Hears of no part."""


class WireEdges:
    """Reads a dump; `heard` is called after each part, and can take edges away from the front."""

    def __init__(self, path: str, wish: Wish, heard: Callable[[], None] = nobody) -> None:
        self.source, self.wish, self.heard = Source(path), wish, heard
        self.edges: "array[int]" = array("q")  # a rise first
        self.is_high = False
        self.length = 0  # in microseconds
        self.begin = wish.start  # what is subtracted from all times, in the dump's unit
        self.offset: Optional[Offset] = None  # the same with what was subtracted before
        self.within = ""  # what the file ends within
        self.dumps = 0

    def read(self) -> WireEdges:
        self.dumps = each_dump(self.source, self.wish.dump or 1, self._read)
        return self

    def _read(self, header: Header) -> Body:
        self.unit = unit_in(header, self.wish.unit, self.source.path)
        self.scale = self.unit.femtoseconds * self.unit.factor
        self.signal, wanted = choose(header, self.wish.name), Wanted()
        wanted.add(0, self.signal.code, self.signal.place)
        body = self.body = Body(self.source, wanted, self._take_run)
        for number, (time, _, letter) in enumerate(body.changes()):
            self._take(time, letter)
            if number % HEARD == 0:
                self.heard()
        self.length = self._micro(body.now)
        self.offset, self.within = self._offset_after(header, self.unit), body.ends_within(header)
        return body

    def _offset_after(self, header: Header, unit: Unit) -> Optional[Offset]:
        return offset_of(self.begin, unit).after(header.offset) if self.begin else header.offset

    def _micro(self, time: int) -> int:
        """The microsecond of a time of the dump. The first one that is not 0 says what is subtracted."""
        if self.begin is None:
            if not time:
                return 0
            self.begin = first_of(self.body, self.unit)
        return max(0, time - self.begin) * self.scale // MICROSECOND

    def _take(self, time: int, letter: str) -> None:
        if (letter == "1") != self.is_high:
            self.is_high = not self.is_high
            at = self._micro(time)
            if self.edges and self.edges[-1] == at:
                self.edges.pop()
            else:
                self.edges.append(at)

    def _take_run(self, run: WireRun) -> bool:
        """The changes of a part; if each is in a microsecond of its own, all after the second are edges."""
        times = run.times()
        for number, time in enumerate(times[:2]):
            self._take(time, run.letter(number))
        rest = self._micros(times[2:])
        if all(map(lt, [*self.edges[-1:], *rest], rest)):
            self.edges.extend(rest)
            self.is_high = self.is_high ^ bool(len(rest) % 2)
        else:
            for number, time in enumerate(times[2:], 2):
                self._take(time, run.letter(number))
        self.heard()
        return True

    def _micros(self, times: List[int]) -> List[int]:
        begin, scale = self.begin or 0, self.scale
        if scale % MICROSECOND:
            return [(time - begin) * scale // MICROSECOND for time in times]
        factor = scale // MICROSECOND
        return times if not begin and factor == 1 else [(time - begin) * factor for time in times]
