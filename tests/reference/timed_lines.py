"""The time of each line of a recorder, as docs/ALIGN.md has it, by the law of time."""
import datetime
import re
from fractions import Fraction
from math import ceil
from typing import NamedTuple, Optional

from reference.law import Law
from reference.times import follows, is_leap

UNITS = {"s": Fraction(10**6), "ms": Fraction(10**3), "us": Fraction(1), "ns": Fraction(1, 10**3), "ps": Fraction(1, 10**6)}
UNITS.update({"%d%s" % (many, unit): many * size for unit, size in UNITS.copy().items() for many in (1, 10, 100)})
LONGEST_LINE = 2**20
YEAR_END = 300  # days by which the day of the year goes back at least if a year ends
NUMBER = re.compile(rb"[ \t\r]*([+-]?[0-9]+(?:\.[0-9]+)?)(?:[eE]([+-]?[0-9]+))?[ \t\r]*")
COLUMNS = 65536  # that a number can name
ROUNDED = 2  # microseconds: one in which a rise is recorded, and one that is printed
BOUND_NAME = b"bound_us"
FARTHEST = 4000  # an exponent that is greater says no more, as long as a column has fewer digits


class Options(NamedTuple):
    kind: str = "B"
    expression: int = 2
    unit: str = "us"
    offset: Fraction = Fraction(0)  # microseconds; whole picoseconds
    column: int = 1
    comma: Optional[bytes] = None
    header: int = 0
    year: Optional[int] = None
    form: str = "ordinal"
    alone: bool = False
    name: bytes = b"time"
    why: bool = False
    bound: bool = False
    within: Optional[int] = None  # microseconds


class Track:
    """A track of pulses, rise and fall, which gives moments their time."""

    def __init__(self, options, pulses):
        self.kind = options.kind
        self.century = options.year // 100 if options.year else 20
        self.law = Law(options.kind, options.expression, pulses, options.alone)
        self.fine, self.frames = self.law.fine, self.law.believed

    def time_at(self, moment):
        """The time some microseconds, a fraction, after the start; None if there is none."""
        found = self.law.time_at(moment)
        return found and found.time._replace(micros=int(found.time.micros))

    def off(self, moment):
        """By how many microseconds the time of a moment can be off: over a hole, rounded up, and by how much the steps at a pulse differ,
        in the believed frames around it and at the two pulses that it is between."""
        law, (one, other) = self.law, self.law.around(moment)
        bound = law.bound(one, other, law.elements_between(one, other))
        return ceil(bound * law.interval) + law.bends(one, other) + ROUNDED

    def why(self, moment):
        """Why a moment has no time: a frame that is not believed is between the pulses with a time around it, or what these show."""
        if moment < 0:
            return "before"  # the track begins
        one, other = self.law.around(moment)
        if any((one is None or one < frame.marker) and (other is None or frame.marker < other)
               for frame in self.fine if frame not in self.frames):
            return "unbelieved"
        if one is None or other is None:
            return "before" if one is None else "after"
        return "step" if self.law.is_event(one, other) else "hole"

    def is_followed(self, frame):
        return any(
            later.marker == frame.marker + 100 and follows(self.kind, self.century, frame.time, later.time)
            for later in self.fine
        )


def year_of(options, track, time):
    if time.year is not None:
        return 100 * track.century + time.year
    if options.year is None:
        return None
    return options.year + bool(track.frames and time.days + YEAR_END <= track.frames[0].time.days)


def word(options, track, time):
    """A time in the form that is asked for."""
    if time is None:
        return "-"
    seconds, micros = divmod(time.micros, 1_000_000)
    if options.form == "seconds":
        return "%d.%06d" % (3600 * time.hours + 60 * time.minutes + seconds, micros)
    clock = "T%02d:%02d:%02d.%06d" % (time.hours, time.minutes, seconds, micros)
    year = year_of(options, track, time)
    if options.form == "ordinal":
        return ("" if year is None else "%04d-" % year) + "%03d" % time.days + clock
    if time.days > 365 + is_leap(year):
        return "-"
    return (datetime.date(year, 1, 1) + datetime.timedelta(days=time.days - 1)).isoformat() + clock


def stamp(options, track, moment):
    """The words before a line with a moment: its time, or why it has none; and how far that can be off."""
    time = track.time_at(moment)
    if time is None:
        return (track.why(moment) if options.why else "-"), "-"
    off = track.off(moment)
    if options.within is not None and options.within < off:
        return ("wide" if options.why else "-"), "-"
    return word(options, track, time), str(off)


def number(options, line):
    """The recorder's time in a line, in microseconds; None if its column has no number."""
    columns = re.findall(rb"[^ \t\r]+", line) if options.comma is None else line.split(options.comma)
    if options.column > len(columns):
        return None
    found = NUMBER.fullmatch(columns[options.column - 1])
    if not found:
        return None
    exponent = max(-FARTHEST, min(int(found[2] or 0), FARTHEST))
    return Fraction(found[1].decode()) * Fraction(10)**exponent * UNITS[options.unit]


def column_named(options, name, text):
    """The column, from 1, with a name in the last line of the header; or why there is none."""
    lines = text.split(b"\n")
    if not lines[-1]:
        lines.pop()
    if len(lines) < options.header:
        return "the lines end before the header does"
    last = lines[options.header - 1]
    columns = re.findall(rb"[^ \t\r]+", last) if options.comma is None else last.split(options.comma)
    places = [place for place, column in enumerate(columns[:COLUMNS], 1) if column.strip(b" \t\r") == name]
    if len(places) == 1:
        return places[0]
    return "two columns of the header have this name" if places else "no column of the header has this name"


def table(options, pulses, length):
    """The rows of the frames that have a time: the microsecond of the marker, the time, and whether the next frame follows."""
    track = Track(options, pulses)
    rows = []
    for frame in track.fine:
        follows_it = "unsupported" if frame not in track.frames else "yes" if track.is_followed(frame) else "no"
        cells = (str(frame.rise), word(options, track, frame.time), follows_it)
        rows.append((options.comma or b"\t").decode().join(cells) + "\n")
    return "".join(rows)


def is_timed(options, pulses, length):
    """Whether a frame is believed."""
    return bool(Track(options, pulses).frames)


def doubted(options, pulses, length):
    """How many frames have a time and are not believed."""
    track = Track(options, pulses)
    return len(track.fine) - len(track.frames)


def seconds_of(picos):
    """Some picoseconds as seconds: with six decimals, rounded down, or with none if these are zeros."""
    whole, part = divmod(picos // 10**6, 10**6)
    return "%d.%06d" % (whole, part) if part else str(whole)


def closing(options, length, text, printed):
    """What is said at the end of the lines: how many there are after the header, and how many of them have a time in what was printed."""
    lines = text.split(b"\n")
    if not lines[-1]:
        lines.pop()
    lines = lines[options.header:]
    timed = sum(line[:1].isdigit() for line in printed.split(b"\n")[options.header:])
    numbers = [number(options, line) for line in lines]
    found = [(each * 10**6).__floor__() - options.offset * 10**6 for each in numbers if each is not None]
    inside = [int(picos) for picos in found if 0 <= picos < length * 10**6]
    one = len(lines) == 1
    said = "%d %s, %d with a time, %d without" % (len(lines), "line" if one else "lines", timed, len(lines) - timed)
    if None in numbers:
        said += ", %d of these without a number" % numbers.count(None)
    whole = seconds_of(length * 10**6)
    if not inside:
        return said + "; none is within the %s s of the track" % whole
    return said + "; %s %s s of %s s of the track" % ("it covers" if one else "they cover", seconds_of(max(inside) - min(inside)), whole)


def aligned(options, pulses, length, text):
    """What is printed for the lines, and the status: 1 also if no frame has a time, or some are not believed."""
    track = Track(options, pulses)
    lines = text.split(b"\n")
    if not lines[-1]:
        lines.pop()
    printed, status = [], int(not track.frames or len(track.fine) > len(track.frames))
    for place, line in enumerate(lines):
        if len(line) > LONGEST_LINE:
            return b"".join(printed), 4
        last = place == options.header - 1  # of the header: it has the names of the columns
        words = (options.name, BOUND_NAME) if last else (b"-", b"-")
        moment = number(options, line)
        if place >= options.header and moment is not None:
            words = [each.encode() for each in stamp(options, track, moment - options.offset)]
        status = status or int(place >= options.header and moment is None)
        printed.append((options.comma or b"\t").join([*words[:1 + options.bound], line]) + b"\n")
    return b"".join(printed), status
