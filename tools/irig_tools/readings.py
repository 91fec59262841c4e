"""What the editor reads on one wire under each coded expression."""
from __future__ import annotations

import re
import statistics
import subprocess
from bisect import bisect_right
from collections import Counter
from dataclasses import dataclass, field
from typing import Dict, List, Optional, Sequence

from . import limits
from .editor import CUT_OFF, Editor, Listing, Problem, find_editor, info_of
from .layout import INTERVAL, WITH_BINARY, WITH_CONTROL, WITH_YEAR, Layout
from .temporary import temporary_script
from .units import ELEMENTS
from .unread import led

EXPRESSIONS = {"A": range(8), "B": range(8), "E": (1, 2, 5, 6), "G": (1, 2, 5, 6)}
NEXT_IN_STEP = 0.05  # of the interval
NO_YEAR, TURN = "00", {"99", "00", "01"}  # a year that no frame shows, and those around a turn of the century
CONTROL_TOO = {2: 1, 3: 0, 6: 5, 7: 4}  # expressions without control functions, and those that have them besides


@dataclass
class Reading:
    """The frames under one expression."""

    kind: str
    expression: int
    frames: int = 0  # whole ones that the recording has, by their times
    listed: int = 0  # as the editor lists them: noise makes some, and a long hole hides some
    begins: List[int] = field(default_factory=list)  # of the fine ones, in microseconds
    first: str = ""  # the time of the first fine frame
    last: str = ""
    years: Counter[str] = field(default_factory=Counter)  # and in how many fine frames each is
    led: int = 0  # if no frame is fine under any: those that fit the time to which all lead together

    def line(self, words: Sequence[str]) -> None:
        """Takes one line of `frames`."""
        self.listed += 1
        if words[-1] != "fine":
            return
        self.begins.append(int(words[2]))
        self.last = " ".join(words[3:5])
        if "year" in words:
            year = words[words.index("year") + 1]
            self.years[year] += 1
            self.last += " year " + year
        self.first = self.first or self.last

    @property
    def fine(self) -> int:
        return len(self.begins)

    def measure(self, first: int, last: int) -> None:
        """Counts the whole frames between these two rises, those of the first pulse and of the last. Those that are not fine are counted by
        how long they last. A frame needs the position identifier before it, as for the editor."""
        period = ELEMENTS * INTERVAL[self.kind]
        gaps = [after - before for before, after in zip(self.begins, self.begins[1:])]
        period = statistics.median_low([gap for gap in gaps if 2 * gap < 3 * period] or [period])  # on the clock of the recording
        interval = period / ELEMENTS
        begin, end = (self.begins[0], self.begins[-1] + period) if self.begins else (first + interval, first + interval)
        before = (begin - interval / 2 - first) // period  # half an interval more: rises stray
        after = (last + 1.5 * interval - end) // period
        self.frames = int(max(0, before) + sum(max(1, round(gap / period)) for gap in gaps) + bool(self.begins) + max(0, after))

    @property
    def is_dated(self) -> bool:
        """Whether it shows a year that is not 00: in half of the fine frames, or in several at a turn of the century. Else it is damage."""
        without = self.years[NO_YEAR]
        dated = sum(self.years.values()) - without
        return 0 < len(self.years) < 3 and dated > 0 and (dated >= without or dated > 1 and TURN.issuperset(self.years))

    def text(self) -> str:
        told = "expression %d: %d of %d frames fine" % (self.expression, self.fine, self.frames)
        return told + (", %s to %s" % (self.first, self.last) if self.fine else "")

    def as_object(self) -> Dict[str, object]:
        """The same for a program."""
        return {"expression": self.expression, "frames": self.frames, "fine": self.fine, "first": self.first or None,
                "last": self.last or None}


@dataclass
class Readings:
    """All expressions of one wire, or why the editor does not read it."""

    rows: List[Reading] = field(default_factory=list)
    pulses: int = 0
    length: int = 0
    refused: str = ""
    best: Optional[Reading] = None
    listing: Optional[Listing] = None  # its pulses, if they were looked at
    has_events: bool = False  # it has control functions, since only frames that are not fine show some


def read(track: str, kind: str) -> Readings:
    """Asks the editor for the frames of a track of one wire under every expression of a format."""
    script = "".join("format %s %d\ninfo\nframes\n" % (kind, number) for number in EXPRESSIONS[kind]) + "1 list\n$ list\n"
    found, row = Readings(), Reading(kind, 0)
    ends: List[int] = []
    command = [find_editor(), "--out", "/dev/null", track]
    pipe = subprocess.PIPE
    with temporary_script(script) as lines, subprocess.Popen(command, stdin=lines, stdout=pipe, stderr=pipe) as run:
        assert run.stdout is not None and run.stderr is not None
        for line in run.stdout:
            words = line.decode(errors="replace").split()
            if words[:1] == ["length"]:
                info = info_of(line.split())
                row = Reading(kind, info.expression)
                found.rows.append(row)
                found.length, found.pulses = info.length, info.pulses
            elif len(words) > 4 and words[0].isdigit():
                row.line(words)
            elif len(words) == 4 and words[0].isdigit():
                ends.append(int(words[1]))
        found.refused = run.stderr.read().decode(errors="replace").strip().rpartition(": ")[2]
    if run.returncode < 0 or found.rows and run.returncode:  # by a signal, or after a part of the answer
        raise Problem(CUT_OFF)
    _measure(track, found, ends)
    return found


def _measure(track: str, found: Readings, ends: Sequence[int]) -> None:
    """How many frames each expression has, by the first and the last rise, and which one fits best."""
    for row in found.rows if len(ends) == 2 else ():
        row.measure(*ends)
    if found.rows:
        _choose_careful(track, found)


def _choose_careful(track: str, found: Readings) -> None:
    """The expression that fits best. If one with control functions fits as well, and a frame that is not fine has some, it is that
    one: with the other a repair would make zeros of them."""
    if not any(row.fine for row in found.rows):
        found.listing = Editor(["--format", found.rows[0].kind, track]).ask([])
        _choose_led(found.listing, found)
        return
    found.best = best(found.rows)
    kind, fine, number = found.best.kind, found.best.fine, CONTROL_TOO.get(found.best.expression)
    careful = next((row for row in found.rows if row.expression == number and 0 < row.fine == fine < row.listed), None)
    if careful:
        found.listing = Editor(["--format", kind, "--expression", str(number), track]).ask([])
        if _has_control(found.listing):
            found.best, found.has_events = careful, True


def _choose_led(listing: Listing, found: Readings) -> None:
    """The expression under which most frames fit, if none is fine."""
    seen = [(row, led(listing, row.kind, row.expression)) for row in found.rows]
    most = max((each.frames, -each.against) for _, each in seen)
    if most[0] < limits.WITNESSES:
        found.best = best(found.rows)
        return
    for row, each in seen:
        row.led, row.years = each.frames, each.years
    found.best = _plainest([row for row, each in seen if (each.frames, -each.against) == most])


def _has_control(listing: Listing) -> bool:
    """Whether a one is at a control function, by its distance from the marker before it. The pulses next to it have to be in step
    with it: noise is not."""
    layout, rises, classes = Layout(listing.kind, listing.expression), listing.rises, listing.classes
    markers = [rises[pair.start() + 1] for pair in re.finditer("P(?=P)", classes)]
    interval, control = statistics.median(listing.apart), set(layout.control)

    def in_step(at: int) -> bool:
        before, rise, after = rises[at - 1:at + 2]
        return abs(after - before - 2 * interval) < 2 * NEXT_IN_STEP * interval and abs(rise - before - interval) < NEXT_IN_STEP * interval

    def in_control(rise: int) -> bool:
        return round((rise - markers[max(0, bisect_right(markers, rise) - 1)]) / interval) % ELEMENTS in control

    ones = (one.start() for one in re.finditer("1", classes[1:-1]))
    return any(in_control(rises[at + 1]) and in_step(at + 1) for at in ones)


def is_read(track: str, wire: Optional[str], pulses: int) -> bool:
    """Whether the editor reads the wire of this dump as it is."""
    said = _info(track, [] if wire is None else ["--wire=" + wire])
    return said is not None and info_of(said.split()).pulses == pulses


def is_opened(track: str, options: Sequence[str]) -> bool:
    """Whether the editor opens the track."""
    return _info(track, options) is not None


def _info(track: str, options: Sequence[str]) -> Optional[bytes]:
    command = [find_editor(), *options, "--out", "/dev/null", track]
    with temporary_script("info\n") as lines:
        try:
            run = subprocess.run(command, stdin=lines, capture_output=True, check=False)
        except OSError as error:
            raise Problem("irig_ed cannot be run: %s" % error.strerror) from error
    return None if run.returncode else run.stdout


def best(rows: Sequence[Reading]) -> Reading:
    """The expression with the most fine frames; of several that which uses what is there, and no more."""
    most = max(row.fine for row in rows)
    if not most:
        return next(row for row in rows if row.expression == 2)
    return _plainest([row for row in rows if row.fine == most])


def _plainest(left: Sequence[Reading]) -> Reading:
    """Of expressions under which as many frames can be read that which uses what is there, and no more."""
    with_seconds = [row for row in left if row.expression in WITH_BINARY]
    left = with_seconds or left
    dated = [row for row in left if row.is_dated]
    plain = [row for row in left if row.expression not in WITH_YEAR]
    left = dated or plain or left
    quiet = [row for row in left if row.expression not in WITH_CONTROL]
    return (quiet or left)[0]
