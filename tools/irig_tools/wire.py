"""Makes of any dump the dump of one wire, as a stream."""
from __future__ import annotations

from bisect import bisect_right
from dataclasses import dataclass, field
from typing import IO, List, Optional, Protocol, Sequence, Tuple

from .dump_body import Body, Wanted
from .dump_choice import Signal, choose, wire_text
from .dump_header import Header
from .dump_parts import each_dump
from .dump_offset import Offset, offset_of
from .dump_run import WireRun
from .dump_source import Source
from .dump_units import MICROSECOND, Unit, unit_of
from .editor import Problem

LONGEST_TIME = 1 << 40  # microseconds that the editor reads
MOST_BYTES = 1 << 28
MOST_EDGES = 1 << 23
LINES = 1 << 14  # that are written at once
ENDS_WITHIN = {"time": "the file ends within a time, so it is cut", "value": "the file ends within a value, so it is cut",
               "back": "the last time of the file is before the one before it, so it does not count"}
SEVERAL_DUMPS = "the file has %d dumps, one after the other"
SWAPPED = {"0": "1", "1": "0", "x": "x", "z": "z"}


@dataclass
class Wish:
    """What is asked for."""

    name: Optional[str] = None
    unit: Optional[str] = None  # instead of the dump's own
    dump: Optional[int] = None  # the first, if none is named
    start: Optional[int] = None  # in the unit of the dump
    end: Optional[int] = None
    invert: bool = False


@dataclass
class Report:
    """What was done; what is doubtful is for the user to look at."""

    done: List[str] = field(default_factory=list)
    doubtful: List[str] = field(default_factory=list)
    length: int = 0  # in microseconds
    edges: int = 0
    size: int = 0

    def over(self) -> List[Tuple[str, int, int]]:
        """What it has more of than the editor reads."""
        most = ("microseconds", self.length, LONGEST_TIME), ("edges", self.edges, MOST_EDGES), ("bytes", self.size, MOST_BYTES)
        return [each for each in most if each[1] > each[2]]


def first_of(body: Body, unit: Unit) -> int:
    """What is subtracted from all times if nobody says it: the first time, if it is too late for the editor."""
    limit = LONGEST_TIME * MICROSECOND // (unit.femtoseconds * unit.factor)
    return body.begun if body.begun > limit else 0


def unit_in(header: Header, named: Optional[str], path: str) -> Unit:
    """The unit that is named, or else the one of the dump."""
    named = named or header.unit
    if not named:
        raise Problem("%s: names no unit of time; give one, as --timescale 1ns" % path)
    return unit_of(named)


class Writer:
    """Writes the changes of one wire; what comes before the start is one level at 0."""

    def __init__(self, out: IO[bytes], signal: Signal, unit: Unit, wish: Wish, before: Optional[Offset] = None) -> None:
        """`before` is what was subtracted from the times of the dump that is read."""
        self.out, self.signal, self.unit, self.wish, self.before = out, signal, unit, wish, before
        self.offset: Optional[int] = wish.start
        self.letter, self.at = "", 0
        self.size = self.edges = 0
        self.lines: List[str] = []
        self.begun = False

    def _lines(self, *lines: str) -> None:
        self.lines += lines
        if len(self.lines) > LINES:
            self.flush()

    def flush(self) -> None:
        data = "".join(line + "\n" for line in self.lines).encode("utf-8", "replace")
        self.lines = []
        self._write(data)

    def _write(self, data: bytes) -> None:
        self.size += len(data)
        self.out.write(data)

    def place(self, time: int, body: Body) -> int:
        """The time that is written for a time of the dump."""
        if self.offset is None:
            if not time:
                return 0
            self.offset = first_of(body, self.unit)
        return max(0, time - self.offset) * self.unit.factor

    def take(self, time: int, letter: str, body: Body) -> None:
        """One change, if it is one up to the end."""
        if letter != self.letter and (self.wish.end is None or time <= self.wish.end):
            self._change(self.place(time, body), letter)

    def take_run(self, run: WireRun, body: Body) -> bool:
        """The changes of a part, if they are up to the end: the first two one by one, since the first can be none."""
        start, last = first_of(body, self.unit) if self.offset is None else self.offset, self.wish.end
        if run.last <= start and (last is None or run.last <= last):
            self.letter = run.letter(len(run.marks) - 1) if run.marks else self.letter
        elif run.marks and (last is None or int(run.marks[0][1:]) <= last):
            times = run.times()
            first, beyond = bisect_right(times, start), len(times) if last is None else bisect_right(times, last)
            for number in range(max(0, min(first, beyond) - 1), min(first + 2, beyond)):
                self.take(times[number], run.letter(number), body)
            if first + 2 < beyond:
                self.take_rest(times[first + 2:beyond], run.letter(first))
        return True

    def take_rest(self, times: Sequence[int], letter: str) -> None:
        """Later changes of which each is one: to this letter, to the other, and so on; something was written before them."""
        self.flush()
        offset, factor = self.offset or 0, self.unit.factor
        written = times if not offset and factor == 1 else [(time - offset) * factor for time in times]
        other = SWAPPED[letter]
        pair = ["#%%d\n%s!\n" % (SWAPPED[each] if self.wish.invert else each) for each in (letter, other)]
        half, rest = divmod(len(times), 2)
        self._write(("".join(pair) * half + pair[0] * rest).encode() % tuple(written))
        self.edges += len(times)
        self.letter, self.at = letter if rest else other, written[-1]

    def finish(self, body: Body) -> None:
        """What comes after the last change."""
        last = body.now if self.wish.end is None else min(body.now, self.wish.end)
        at = self.place(last, body)
        self._begin()
        if at > self.at:
            self._lines("#%d" % at)
        self.at = at
        self.flush()

    def _begin(self) -> None:
        if not self.begun:
            self.begun = True
            self._lines("$timescale %s $end" % self.unit.text, *self._comments(), "$scope module irig $end",
                        "$var wire 1 ! %s $end" % self.signal.name, "$upscope $end", "$enddefinitions $end", "#0",
                        "$dumpvars", self._shown(), "$end")

    def _comments(self) -> List[str]:
        """What was subtracted, if it is a part of a dump or if the times begin late."""
        if not self.offset and self.before is None and self.wish.end is None:
            return []
        return [offset_of(self.offset or 0, self.unit).after(self.before).comment()]

    def _change(self, at: int, letter: str) -> None:
        if at:
            self._begin()
            self.edges += "1" in (letter, self.letter)
            self.letter = letter
            if at != self.at:
                self._lines("#%d" % at, self._shown())
                self.at = at
            else:
                self._lines(self._shown())
        self.letter = letter

    def _shown(self) -> str:
        letter = self.letter or "x"
        return (SWAPPED[letter] if self.wish.invert else letter) + "!"


class Beside(Protocol):
    """Takes the changes of the wires next to the one that is written; they have numbers after those of all that are written."""

    def begin(self, path: str, header: Header, signal: Signal, wanted: Wanted, number: int) -> None:
        ...

    def take(self, time: int, number: int, letter: str, writer: Writer, body: Body) -> None:
        ...

    def flush(self) -> None:
        ...


class Extract:
    """One wire out of a file of dumps."""

    def __init__(self, path: str, wish: Wish, out: IO[bytes], beside: Optional[Beside] = None) -> None:
        self.source, self.wish, self.out, self.beside = Source(path), wish, out, beside
        self.report = Report()

    def run(self) -> Report:
        """Reads the whole file, and writes the dump that is asked for."""
        number = self.wish.dump or 1
        dumps = each_dump(self.source, number, lambda header: _written(self.source, header, [self]))
        if dumps > 1:
            text = SEVERAL_DUMPS + "; this is number %d (--dump N reads another)"
            named = self.report.done if self.wish.dump else self.report.doubtful
            named.append(text % (dumps, number))
        return self.report

    def begin(self, header: Header, wanted: Wanted, number: int) -> Writer:
        """The writer of the wire, whose changes have a number."""
        unit, signal = unit_in(header, self.wish.unit, self.source.path), choose(header, self.wish.name)
        wanted.add(number, signal.code, signal.place)
        if self.beside:
            self.beside.begin(self.source.path, header, signal, wanted, number + 1)
        return Writer(self.out, signal, unit, self.wish, header.offset)

    def end(self, header: Header, body: Body, writer: Writer) -> None:
        """Says what was done."""
        self._say_header(header, writer.signal, writer.unit)
        self._say_body(header, body, writer)
        self._say_limits(writer)

    def _say_header(self, header: Header, signal: Signal, unit: Unit) -> None:
        say, named = self.report.done.append, self.wish.unit or header.unit or ""
        self.report.done += self.source.notes + header.notes
        say("the wire is %s" % wire_text(header, signal))
        others = len({wire.code for wire in header.wires} - {signal.code})
        if others and not self.beside:
            say("%d other wire%s left out" % (others, " was" if others == 1 else "s were"))
        if unit.text.replace(" ", "") != named.replace(" ", ""):
            many = "" if unit.factor == 1 else ", and every time is multiplied by %d" % unit.factor
            say("the unit %s is written as %s%s" % (named, unit.text, many))
        if self.wish.invert:
            say("high and low are swapped")

    def _say_body(self, header: Header, body: Body, writer: Writer) -> None:
        say, doubt, counts = self.report.done.append, self.report.doubtful.append, body.counts
        if writer.offset:
            say("%d of the dump's unit was subtracted from all times; a comment in the new dump has it" % writer.offset)
        if counts["letters"]:
            say("letters other than 0 1 x z were read %d times: H as 1, L as 0, the others as x" % counts["letters"])
        if counts["ports"]:
            say("the dump is an extended one: the states of ports were read as levels")
        if counts["journals"]:
            say("the history of a saved session was left out")
        if counts["unclosed"]:
            doubt("a comment has no $end, and the rest of the file was left out with it")
        if counts["strange"]:
            text = "words that mean no change were left out, %d of them; the first is '%s', after time %d"
            doubt(text % (counts["strange"], body.strange, body.strange_at))
        if body.ends_within(header):
            doubt(ENDS_WITHIN[body.ends_within(header)])
        if not writer.edges:
            doubt("the wire never changes; irig_what finds the wires with time code")

    def _say_limits(self, writer: Writer) -> None:
        report = self.report
        report.length = writer.at * writer.unit.femtoseconds // MICROSECOND
        report.edges, report.size = writer.edges, writer.size
        for what, has, limit in report.over():
            text = "it has %d %s, and irig_ed reads at most %d: take a part by --from and --to"
            report.doubtful.append(text % (has, what, limit))


def extract_all(path: str, number: int, extracts: Sequence[Extract]) -> None:
    """Writes several wires of one dump in one pass."""
    source = Source(path)
    each_dump(source, number, lambda header: _written(source, header, extracts))


def _written(source: Source, header: Header, extracts: Sequence[Extract]) -> Body:
    wanted = Wanted()
    writers = [extract.begin(header, wanted, place) for place, extract in enumerate(extracts)]
    body = Body(source, wanted, lambda run: writers[0].take_run(run, body))
    beside = extracts[0].beside
    for time, place, letter in body.changes():
        if place < len(writers):
            writers[place].take(time, letter, body)
        elif beside:
            beside.take(time, place, letter, writers[0], body)
    if beside:
        beside.flush()
    for extract, writer in zip(extracts, writers):
        writer.finish(body)
        extract.end(header, body, writer)
    return body
