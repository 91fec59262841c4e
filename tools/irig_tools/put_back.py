"""A track is put back into the dump that it was made of, as a stream.

The wire changes only in the stretches in which its level and that of the track differ, by the microsecond. There its
own changes are taken out, and the edges of the track are written. All other words are copied, byte for byte.
"""
from __future__ import annotations

from dataclasses import dataclass
from typing import IO, Iterator, List, Optional, Tuple

from .dump_body import Body, Change, Wanted
from .dump_choice import choose, wire_text
from .dump_copied import Copied
from .dump_header import Header
from .dump_offset import Offset
from .dump_parts import each_dump
from .dump_units import MICROSECOND
from .editor import Problem
from .merger import OTHER_LENGTH, Level, Merger, Origin
from .wire import ENDS_WITHIN, SEVERAL_DUMPS, Report, Wish, first_of, unit_in
from .wire_edges import WireEdges
from .wire_words import words_of

STRANGE = "words that mean no change are not written again, %d of them; the first is '%s', after time %d"
ANOTHER = 0.9  # of the time for which a track is high: a wire that differs for longer is another one


@dataclass
class TrackLevel:
    """A track by the microsecond, and what was subtracted from its times."""

    level: Level
    offset: Optional[Offset] = None


class TrackEdges(TrackLevel):
    """One wire of a dump, as the editor reads it."""

    def __init__(self, path: str, name: Optional[str]) -> None:
        reading = WireEdges(path, Wish(name, start=0)).read()
        super().__init__(Level(reading.edges, reading.length), reading.offset)


class _Body(Body):
    """The changes of the wire; the merger hears of each time before what follows it."""

    def __init__(self, source: Copied, wanted: Wanted, put: PutBack) -> None:
        super().__init__(source, wanted, put.merger.take_run)
        self.put, self.out = put, source.out
        self.value = ""  # the word of a vector, if the change is one

    def _time(self, word: bytes) -> None:
        before = self.now
        super()._time(word)
        if self.now != before:
            self.put.time(self)

    def _at_once(self, part: bytes) -> bool:
        is_taken = super()._at_once(part)
        if is_taken:
            self.out.write(part)
        return is_taken

    def _vector(self, word: str, signals: List[Tuple[int, int]]) -> Iterator[Change]:
        for change in super()._vector(word, signals):
            self.value = word
            yield change
            self.value = ""

    def _strange(self, word: bytes) -> None:
        super()._strange(word)
        self.put.source.taken[-1] = b""  # no program reads a file with it

    def _port(self, word: bytes) -> Iterator[Change]:
        for _ in super()._port(word):
            raise Problem("the wire is a port of an extended dump; no track can be put back into that")
        yield from ()


class PutBack:
    """One wire of a file of dumps, as it is in a track."""

    def __init__(self, path: str, wish: Wish, track: TrackLevel, out: IO[bytes]) -> None:
        self.source, self.wish, self.track = Copied(path, out), wish, track
        self.report = Report()

    def run(self) -> Report:
        """Reads the whole file, and writes it with the track."""
        dumps = each_dump(self.source, self.wish.dump or 1, self._put)
        self.source.copy(len(self.source.taken))
        self.report.done += self.source.notes
        if dumps > 1 and not self.wish.dump:
            text = SEVERAL_DUMPS + "; the track was put back into number 1 (--dump N names another)"
            self.report.doubtful.append(text % dumps)
        return self.report

    def _put(self, header: Header) -> Body:
        self.header, self.unit = header, unit_in(header, self.wish.unit, self.source.path)
        signal, wanted = choose(header, self.wish.name), Wanted()
        wanted.add(0, signal.code, signal.place)
        words = words_of(header, signal)
        self.merger = Merger(self.source, words, self.track.level, self.unit, self.wish.invert)
        start = self._start()
        if start is not None:
            self.merger.place = Origin(start, True)
        body = _Body(self.source, wanted, self)
        self.source.copy(len(self.source.taken))
        self.source.free = False
        for time, _, letter in body.changes():
            self.merger.change(2 if body.value else 1, time, letter, words.bits(body.value))
        within = body.ends_within(header)
        if within:  # no program reads a part of a word
            del self.source.taken[-body.end_words:]
            self.report.doubtful.append(ENDS_WITHIN[within] + "; that word is not written again")
        if body.counts["strange"]:
            self.report.doubtful.append(STRANGE % (body.counts["strange"], body.strange, body.strange_at))
        self.merger.flush(len(self.source.taken), True)
        self.source.free = True
        self._check_end(body)
        self.report.done.append("the wire is %s" % wire_text(header, signal))
        self._say()
        return body

    def time(self, body: Body) -> None:
        """A time was read; with the first that is not 0 it is known where the track begins."""
        if self.merger.place is None:
            self.merger.place = Origin(first_of(body, self.unit), self.wish.end is not None)
        self.merger.time(body.now)

    def _start(self) -> Optional[int]:
        """Where the track begins, in the dump's unit, if the track or an option says it."""
        if self.track.offset is None:
            return self.wish.start
        before = self.header.offset.femtoseconds if self.header.offset else 0
        start, rest = divmod(self.track.offset.femtoseconds - before, self.unit.femtoseconds * self.unit.factor)
        text = "the track was cut out at %s, " % self.track.offset.text()
        if start < 0 or rest:
            raise Problem(text + "and this dump has no such time: it was cut out of another one")
        if self.wish.start not in (None, start):
            raise Problem(text + "and not at --from %s; leave out --from" % self.wish.start)
        return start

    def _check_end(self, body: Body) -> None:
        """Whether the track is as long as the part that is named."""
        start = self.merger.place.start if self.merger.place else 0
        if self.wish.end is not None:
            has = (min(self.wish.end, body.now) - start) * self.merger.scale // MICROSECOND
            if has != self.track.level.length:
                raise Problem(OTHER_LENGTH % (self.track.level.length, "%d in that part" % has))

    def _say(self) -> None:
        merger = self.merger
        text = "%s of the wire %s replaced by the track, %d microseconds in all; the rest is as it was"
        many = ("1 stretch", "was") if merger.stretches == 1 else ("%d stretches" % merger.stretches, "were")
        self.report.done.append(text % (*many, merger.differ))
        if merger.place and merger.place.start:
            self.report.done.append("the track begins at %d of the dump's unit" % merger.place.start)
        if merger.differ > ANOTHER * merger.level.high:
            self.report.doubtful.append("the track and the wire have little in common: is it a track of this wire?")
