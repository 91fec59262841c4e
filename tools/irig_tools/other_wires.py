"""What else a dump has: a line for each change of another wire of one bit, with the times of the dump that is written. Each has the time in
microseconds, the wire and its level; a tab parts them, as irig_time reads them."""
from __future__ import annotations

from typing import IO, Dict, List

from .aside import at_nanosecond
from .dump_body import Body, Wanted
from .dump_choice import Signal, singles, wire_name
from .dump_header import Header
from .editor import Problem
from .escapes import in_line
from .wire import LINES, Writer

FEMTOSECONDS_OF_NANOSECOND = 10 ** 6
NOTHING_BESIDE = "%s: has no other wire of one bit; --changes writes what they do"


class OtherWires:
    """Writes the lines as the dump is read."""

    def __init__(self, out: IO[bytes]) -> None:
        self.out = out
        self.count = 0  # of lines
        self.names: Dict[int, str] = {}  # of the wires, by their numbers
        self.levels: Dict[int, str] = {}
        self.lines: List[str] = []

    def begin(self, path: str, header: Header, signal: Signal, wanted: Wanted, number: int) -> None:
        """Looks for all others than the signal, whose numbers are from this one on."""
        others = [each for each in singles(header) if each.code != signal.code]
        if not others:
            raise Problem(NOTHING_BESIDE % path)
        for place, each in enumerate(others, number):
            wanted.add(place, each.code, each.place)
            self.names[place] = in_line(wire_name(header, each)).replace("\t", " ")

    def take(self, time: int, number: int, letter: str, writer: Writer, body: Body) -> None:
        """One change, if it is one in the part that is written."""
        end, start = writer.wish.end, writer.wish.start
        if letter == self.levels.get(number) or end is not None and time > end:
            return
        self.levels[number] = letter
        at = writer.place(time, body) * writer.unit.femtoseconds // FEMTOSECONDS_OF_NANOSECOND
        if start is None or time >= start:
            self.lines.append("%s\t%s\t%s\n" % (at_nanosecond(at), self.names[number], letter))
            if len(self.lines) > LINES:
                self.flush()

    def flush(self) -> None:
        self.count += len(self.lines)
        self.out.write("".join(self.lines).encode("utf-8", "surrogateescape"))
        self.lines = []
