"""Merges the level of a track with the changes of a wire, a microsecond after the other."""
from __future__ import annotations

from typing import Callable, List, NamedTuple, Optional, Sequence, Tuple

from .dump_copied import MOST_TAKEN, Copied
from .dump_run import WireRun
from .dump_units import MICROSECOND, Unit
from .editor import Problem
from .wire_words import Own, Scalars


NEVER = 1 << 300  # later than all times
OTHER_LENGTH = ("the track is %d microseconds long, and the dump is %s: if it was cut out by --from or --to, give the same "
                "again; else it was made of another dump")
COARSE = ("the unit %s of the dump is too coarse for an edge at %d microseconds: move the edge in irig_ed, or keep the track as a "
          "file of its own")


class Level(NamedTuple):
    """The edges of a track and its length, in microseconds; its level is low before the first one."""

    edges: Sequence[int]
    length: int

    @property
    def high(self) -> int:
        """For how long it is high."""
        return sum(self.edges[1::2]) - sum(self.edges[::2]) + self.length * (len(self.edges) % 2)


class Origin(NamedTuple):
    """Where the track is in a dump: its 0, in the dump's unit, and whether the dump has more before or after it."""

    start: int
    is_part: bool


class Merger:
    """What the dump has in one microsecond is gathered in `source.taken`, changed if it has to be, and copied."""

    def __init__(self, source: Copied, words: Scalars, level: Level, unit: Unit, turned: bool) -> None:
        self.source, self.words, self.level, self.unit = source, words, level, unit
        self.scale = unit.femtoseconds * unit.factor
        self.high, self.low = ("0", "1") if turned else ("1", "0")
        self.place: Optional[Origin] = None  # known when the first time that is not 0 is read
        self.begin, self.first, self.many = 0, 0, 0  # of what is gathered: its first time, its first word and its end
        self.times: List[Tuple[int, int]] = []  # its words of times, and these times
        self.changes: List[Own] = []  # its changes of the wire
        self.calm = 0  # before that time nothing is written but what the dump has
        self.own = self.written = "x"  # the letters of the wire as it was, and as it is written
        self.is_known = False  # whether it had a letter
        self.bits = ""  # of its vector
        self.next, self.is_high = 0, False  # of the track: its next edge, and its level
        self.front: List[bytes] = []  # what is written before what is gathered
        self.since: Optional[int] = None  # since when both differ
        self.stretches = self.differ = 0  # stretches in which they do, and their microseconds
        self.is_begun = self.is_over = False

    def change(self, words: int, time: int, letter: str, bits: str) -> None:
        """The last words that were taken are a change of the wire."""
        end = len(self.source.taken)
        self.changes.append(Own(end - words, end, time, letter, bits))

    def time(self, now: int) -> None:
        """The last word that was taken is a time, later than all before it."""
        at = len(self.source.taken) - 1
        if now < self.calm and not self.changes:
            self.begin, self.first, self.times = now, at, [(at, now)]
            if at > MOST_TAKEN:
                self._copy(at)
        elif self.micro_of(now) == self.micro_of(self.begin):
            self.times.append((at, now))
        else:
            self.flush(at, False)
            self.begin, self.times = now, [(0, now)]

    def take_run(self, run: WireRun) -> bool:
        """Whether a part of the dump stays as it is, since the wire has the level of the track there, or the track is not there."""
        after = self.source.next_time()
        if self.place is None or not self.is_known or not self.words.is_alone or after is None:
            return False
        if self.micro_of(run.first) == self.micro_of(self.begin) or self.micro_of(run.last) == self.micro_of(after):
            return False
        self.flush(len(self.source.taken), False)
        is_out = self.is_over or self.micro_of(run.last) < 0
        if not is_out and not self._has_edges(run):
            return False
        if run.marks:
            self.own = self.written = run.letter(len(run.marks) - 1)
        if not is_out:
            self.next, self.is_high = self.next + len(run.marks), self._reads(self.own)
        self.begin, self.times, self.calm = run.last, [], self._calm()
        return True

    def _has_edges(self, run: WireRun) -> bool:
        """Whether the changes of a part are the next edges of the track, and the wire had its level before."""
        assert self.place is not None
        edges, beyond, last = self.level.edges, self.next + len(run.marks), self.micro_of(run.last)
        if not self.is_begun or self.written != self.own or self._reads(self.own) != self.is_high or last >= self.level.length:
            return False
        if beyond > len(edges) or (beyond < len(edges) and edges[beyond] <= last):
            return False
        if run.marks and self._reads(run.letter(0)) == self.is_high:
            return False
        start, scale, times = self.place.start, self.scale, run.times()
        if start or scale != MICROSECOND:
            times = [(time - start) * scale // MICROSECOND for time in times]
        return list(edges[self.next:beyond]) == times

    def micro_of(self, time: int) -> int:
        """The microsecond of the track at a time, negative before it."""
        assert self.place is not None
        return (time - self.place.start) * self.scale // MICROSECOND

    def time_of(self, micro: int) -> Tuple[int, int]:
        """The last time of the dump that is not after the beginning of a microsecond, and what is left."""
        assert self.place is not None
        many, rest = divmod(micro * MICROSECOND, self.scale)
        return self.place.start + many, rest

    def flush(self, many: int, is_last: bool) -> None:
        """Copies what is gathered, that many words, and before it the edges of the track up to it."""
        self.place = self.place or Origin(0, False)
        micro, self.many = self.micro_of(self.begin), many
        self._check(micro, is_last)
        if 0 <= micro < self.level.length:
            self._edges(micro)
            self._merge(micro)
        elif micro >= 0 and not self.is_over:
            self._leave(micro, is_last)
        elif self.changes:
            self.written = self.changes[-1].letter
        if self.changes:
            self.own, self.bits, self.is_known = self.changes[-1].letter, self.changes[-1].bits, True
        self._copy(many)
        self.changes, self.calm = [], self._calm()

    def _check(self, micro: int, is_last: bool) -> None:
        if micro > self.level.length and not (self.place and self.place.is_part):
            raise Problem(OTHER_LENGTH % (self.level.length, "longer"))
        if is_last and micro < self.level.length:
            raise Problem(OTHER_LENGTH % (self.level.length, "shorter"))

    def _calm(self) -> int:
        """Before that time the track has no edge, no beginning and no end."""
        if self.is_over:
            return NEVER
        edges = self.level.edges
        at, rest = self.time_of(0 if not self.is_begun else edges[self.next] if self.next < len(edges) else self.level.length)
        return at + (rest > 0)

    def _copy(self, many: int) -> None:
        source = self.source
        if self.front:
            source.copy(self.first)
            many -= self.first
            source.out.write(b"".join(self.front))
            self.front = []
        source.copy(many)
        self.first, self.times = 0, [(first - many, time) for first, time in self.times]

    def _edges(self, before: int) -> None:
        """The edges of the track at which the wire has no change, before this microsecond; first its beginning."""
        edges = self.level.edges
        if not self.is_begun and before > 0 and not (edges and edges[0] == 0):
            self._go_on(0)
        self.is_begun = True
        while self.next < len(edges) and edges[self.next] < before:
            at = edges[self.next]
            self._turn()
            self._go_on(at)

    def _go_on(self, at: int) -> None:
        """The track has its level from this microsecond on, and the wire its own."""
        differ = self._reads(self.own) != self.is_high
        self._count(at, differ)
        letter = self._plain() if differ else self.own
        if letter != self.written:
            self._write(at, letter)

    def _turn(self) -> None:
        self.is_high = not self.is_high
        self.next += 1

    def _merge(self, micro: int) -> None:
        """A microsecond of the track."""
        if self.next < len(self.level.edges) and self.level.edges[self.next] == micro:
            self._turn()
        last = self.changes[-1].letter if self.changes else self.own
        differ = self._reads(last) != self.is_high
        self._count(micro, differ)
        if differ:
            self._override(micro)
        elif self.written != self.own:
            self._rejoin(micro)
        if not differ:
            self.written = last

    def _override(self, micro: int) -> None:
        """The wire has the level of the track, whatever its own changes are."""
        begin = 0
        if self._reads(self.written) != self.is_high or not (self.is_known or micro):
            if self._begins_with_a_change(micro):
                self.written, begin = self._plain(), 1
                self._change(self.changes[0], self.words.replaced)
            else:
                self._write(micro, self._plain())
        for own in self.changes[begin:]:
            self._change(own, self.words.without)

    def _rejoin(self, micro: int) -> None:
        """The wire is as it was from here on: it had the level of the track before, or it changes to it now."""
        if self._reads(self.own) == self.is_high:
            if not self._begins_with_a_change(micro):
                self._write(micro, self.own)
            return
        for own in self.changes:
            joins = self._reads(own.letter) == self.is_high
            if not joins or (own.letter == self.written and self.words.is_alone):
                self._change(own, self.words.without)
            if joins:
                break

    def _leave(self, micro: int, is_last: bool) -> None:
        """What comes at the end of the track, or after it."""
        length, self.is_over = self.level.length, True
        self._edges(length)
        self._count(length, False)
        if self.changes and micro == length:
            self.is_high = self._reads(self.changes[-1].letter)
        else:
            self.is_high = self._reads(self.own)
        if self.written != self.own and not (is_last and micro == length):
            self._rejoin(length)
        self.written = self.changes[-1].letter if self.changes else self.own

    def _reads(self, letter: str) -> bool:
        return letter == self.high

    def _plain(self) -> str:
        return self.high if self.is_high else self.low

    def _count(self, at: int, differ: bool) -> None:
        if differ and self.since is None:
            self.since, self.stretches = at, self.stretches + 1
        elif not differ and self.since is not None:
            self.differ += at - self.since
            self.since = None

    def _begins_with_a_change(self, micro: int) -> bool:
        """Whether the wire has a change at the very beginning of this microsecond."""
        return bool(self.changes) and (self.changes[0].time, 0) == self.time_of(micro)

    def _change(self, own: Own, how: Callable[[Sequence[bytes], str], List[bytes]]) -> None:
        taken = self.source.taken
        taken[own.first:own.beyond] = how(taken[own.first:own.beyond], self.written)

    def _write(self, micro: int, letter: str) -> None:
        """A new change, at a time of its own or among the changes that are there."""
        self.written = letter
        at, rest = self.time_of(micro)
        if rest:
            raise Problem(COARSE % (self.unit.text, micro))
        value = self.words.value(letter, self.bits) + b"\n"
        if micro != self.micro_of(self.begin) or self.many == self.first or at < self.begin:
            self.front.append(b"#%d\n" % at + value)
            return
        beyond = next((first for first, time in self.times if time > at), self.many)
        before = self.source.taken[beyond - 1]
        self.source.taken[beyond - 1] = before + (b"" if before[-1:].isspace() else b"\n") + value
