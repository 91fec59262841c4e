"""What the heads of a table say: which line has the names, what parts its fields, and the units."""
from __future__ import annotations

import re
from fractions import Fraction
from typing import List, NamedTuple, Optional, Pattern, Sequence, Tuple

from .digits import FRACTION, NUMBER, WHOLE
from .editor import Problem

OF_A_SECOND = {"": "e0", "m": "e-3", "milli": "e-3", "u": "e-6", "\u00b5": "e-6", "\u03bc": "e-6", "micro": "e-6", "mikro": "e-6",
               "n": "e-9", "nano": "e-9", "p": "e-12", "pico": "e-12", "f": "e-15", "femto": "e-15"}
SECOND_NAMES = ("s", "sec", "second", "seconds", "sek", "sekunden", "secondes")
SECONDS_IN = {part + name: float("1" + size) for part, size in OF_A_SECOND.items() for name in SECOND_NAMES}
TICKS = ("1", "10", "100")  # of a unit, as a dump can have them
SECONDS_IN.update({many + part + name: float(many + size) for many in TICKS for part, size in OF_A_SECOND.items() for name in SECOND_NAMES})
NO_TIMES = ("v", "mv", "volt", "volts", "sequence")
# the names of SECONDS_IN, in short: an alternative for each takes 20 ms at each start of a tool
NAME_OF_UNIT = "(%s)?(%s)(%s)" % tuple(map("|".join, (TICKS, OF_A_SECOND, SECOND_NAMES)))
TIME = re.compile(r"(?i)\W*(time|t|timestamp|zeit|temps|x|x-axis|seconds?|sec)(\W.*|_%s)?" % NAME_OF_UNIT)
# each letter has one place in the form, so that no way to read many of them is tried twice
RATE_LINE = re.compile(r"(?i)\W*(?:meta )?samplerate\W*([0-9]+(?:\.[0-9]*)?)(?!\.)(?: *(?=[kmgh])([kmg]?)(?:hz)?)?\W*")
WORD, LETTER = re.compile(r"\w"), re.compile(r"[^\W\d_]")
BEGINS_NUMBER = "+-,0123456789"
COLUMNS_SHOWN = 20  # names of columns
MOST_ROWS_OF_HEADS = 50  # if they are next to the first rows
CHANNELS = re.compile(r"; *Channels \([0-9/]+\): *(.*)")  # of sigrok, which can call each column `logic`
PREFIXES = {"": 1, "k": 1000, "m": 1000000, "g": 1000000000}


class Columns(NamedTuple):
    """What parts the fields, which of them have the time and the value, from 0, and how many seconds a unit of time is."""

    parted: str
    time: Optional[int]
    value: int
    unit: float = 1.0


def fields_of(line: str, parted: str) -> List[str]:
    """The fields of a line, with a point in a number instead of a comma. Next to a number with a point it parts thousands, and stays:
    so the field is no number."""
    has_quotes = '"' in line
    fields = [field.strip() for field in (_parts_of(line, parted) if has_quotes else line.split(parted))]
    if "," not in line or parted == "," and not has_quotes:
        return fields
    if any("." in field and NUMBER.fullmatch(field) for field in fields):
        return fields
    return [field.replace(",", ".") if field[:1] in BEGINS_NUMBER else field for field in fields]


def _parts_of(line: str, parted: str) -> List[str]:
    """What is between the signs that part fields; within quotes they part nothing."""
    pieces = line.split('"')
    if len(pieces) % 2 == 0:  # a quote that is not closed
        return line.split(parted)
    pieces[::2] = [piece.replace(parted, "\n") for piece in pieces[::2]]
    return "".join(pieces).split("\n")


def parted_by(line: str) -> str:
    """What parts the fields of a line."""
    return ";" if ";" in line.lstrip("; ") else "\t" if "\t" in line else ","


def is_row(line: str, places: Sequence[int]) -> bool:
    """Whether a line has numbers: in all fields, or in those with these places."""
    fields = fields_of(line, parted_by(line))
    if places:
        are_names = len(places) == 1 and any(map(TIME.fullmatch, fields))  # of times, and of channels that can be numbers
        return not are_names and all(place < len(fields) and NUMBER.fullmatch(fields[place]) for place in places)
    full = fields[:-1] if len(fields) > 1 and not fields[-1] else fields
    return bool(full) and all(NUMBER.fullmatch(field) for field in full if field) and any(full)


def rate_of(heads: Sequence[str]) -> int:
    """The samples in a second that the heads of sigrok name; 0 if they do not."""
    for head in heads:
        found = RATE_LINE.fullmatch(head)
        if found:
            return hertz(found[1], found[2] or "")
    return 0


def hertz(number: str, prefix: str) -> int:
    """A rate that a file names, with a prefix as k; 0 if it is no whole number."""
    rate = Fraction(number if FRACTION.fullmatch(number) else 0) * PREFIXES[prefix.lower()]
    return int(rate) if rate.denominator == 1 else 0


class Heads:
    """The names of the columns, and the unit of each."""

    def __init__(self, heads: Sequence[str], first: str, path: str) -> None:
        self.path, self.parted = path, parted_by(first)
        self.first = fields_of(first, self.parted)
        self.count = len(self.first)
        lines = [fields_of(head, self.parted) for head in heads if head and not head.startswith(";")]
        lines = [fields for fields in lines if len(fields) >= self.count - 1]
        last = lines[-1] if lines else []
        units = [field.strip("()[] ").lower().replace(" ", "") for field in last]
        has_units = len(lines) > 1 and all(not unit or unit in SECONDS_IN or unit in NO_TIMES or NUMBER.fullmatch(unit) for unit in units)
        self.names = _distinct(lines[-2] if has_units else last, heads)
        self.units = units if has_units else [_in_name(name) for name in self.names]

    def form(self, time: Optional[str], value: Optional[str], counted: bool) -> Columns:
        """The columns that are meant; without times if the rows are counted."""
        place = self._place(time) if time else None if counted else self._time()
        unit = "" if place is None else self._unit(place)
        if place is not None and unit in NO_TIMES:
            raise Problem("%s: column %d has no times, but '%s'; give --rate, in samples a second" % (self.path, place + 1, unit))
        if place is not None and not unit:
            self._check_unit(place)
        of_value = self._place(value) if value else self._value(place, counted)
        return Columns(self.parted, place, of_value, SECONDS_IN.get(unit, 1.0))

    def others(self, form: Columns) -> List[Tuple[int, str]]:
        """The columns that are neither the time nor the value, with their names."""
        return [(place, self._name(place) or "column %d" % (place + 1)) for place in range(self.count)
                if place not in (form.time, form.value)]

    def has_times(self) -> bool:
        """Whether a column is named as one of times, and does not count rows."""
        return any(TIME.fullmatch(name) and self._unit(place) not in NO_TIMES for place, name in enumerate(self.names))

    def _unit(self, place: int) -> str:
        return self.units[place] if place < len(self.units) else ""

    def _check_unit(self, place: int) -> None:
        """Times without a unit are seconds, but not those in an unknown one."""
        found = in_brackets(self._name(place))
        if found:
            text = "%s: the times of column %d are in '%s', which is not read as a unit; change its head, as 'Time [s]', or give --rate"
            raise Problem(text % (self.path, place + 1, found))

    def _time(self) -> Optional[int]:
        for place, name in enumerate(self.names):
            if TIME.fullmatch(name):
                return place
        return 0 if not self.names and self.count > 1 else None

    def _value(self, time: Optional[int], counted: bool) -> int:
        named = any(self.names)
        places = [place for place in range(self.count) if place != time and not TIME.fullmatch(self._name(place))]
        places = [place for place in places if self._name(place) or not named] or places
        if len(places) == 1:
            return places[0]
        numbered = [] if time is not None or counted else self._numbered()
        if len(numbered) > 1:
            text = "%s: its heads are in its first columns; give the numbers of times and values, as --time-column %d --column %d"
            raise Problem(text % (self.path, numbered[0] + 1, numbered[1] + 1))
        own = [self._name(place) if self.names.count(self._name(place)) == 1 else "" for place in places]
        listed = _first_names([name or "number %d" % (place + 1) for place, name in zip(places, own)])
        raise Problem("%s: has several columns; name one or its number, as --column '%s': %s" % (
            self.path, own[0] or places[0] + 1, listed) if places else "%s: has no column of values" % self.path)

    def _numbered(self) -> List[int]:
        """The columns that have a number in the last of the heads, too: the rows begin there, and other columns have the heads."""
        return [place for place, (name, field) in enumerate(zip(self.names, self.first))
                if NUMBER.fullmatch(name) and NUMBER.fullmatch(field)]

    def _name(self, place: int) -> str:
        return self.names[place] if place < len(self.names) else ""

    def _place(self, name: str) -> int:
        """The column with a name, or else with a number, from 1."""
        if self.names.count(name) > 1:
            raise Problem("%s: has several columns '%s'; give the number of one, from 1" % (self.path, name))
        if name in self.names:
            return self.names.index(name)
        if WHOLE.fullmatch(name) and 1 <= int(name) <= self.count:
            return int(name) - 1
        listed = _first_names([each for each in self.names if each]) or "the numbers 1 to %d" % self.count
        raise Problem("%s: has no column '%s'; there are: %s" % (self.path, name, listed))


def _first_names(names: Sequence[str]) -> str:
    """These names, or the first of them and how many more there are."""
    return ", ".join([*names[:COLUMNS_SHOWN], *["and %d more" % (len(names) - COLUMNS_SHOWN)] * (len(names) > COLUMNS_SHOWN)])


def with_values(others: Sequence[Tuple[int, str]], rows: Sequence[Sequence[str]], form: Columns) -> List[Tuple[int, str]]:
    """Of the other columns of a table that names none, those that have values in its first rows. Heads can be next to these rows: words in
    the first column, what they name in those up to the time, and nothing below."""
    first = min(place for place in (form.time, form.value) if place is not None)
    beside = first if rows[0][0] and not NUMBER.fullmatch(rows[0][0]) else 0
    found = []
    for place, name in others:
        filled = [number for number, fields in enumerate(rows, 1) if fields[place:place + 1] not in ([], [""])]
        is_head = place < beside and bool(filled) and filled[-1] <= min(MOST_ROWS_OF_HEADS, len(rows) // 2)
        if filled and not is_head:
            found.append((place, name))
    return found


def _distinct(names: List[str], heads: Sequence[str]) -> List[str]:
    """The names of the columns, or those of sigrok's channels if two columns have one name."""
    channels: List[str] = next((found[1].split(", ") for found in map(CHANNELS.fullmatch, heads) if found), [])
    return channels if len(set(names)) < len(names) == len(channels) else names


def _in_name(name: str) -> str:
    """The last unit that a name has, as in `Time [s]`, `time_us`, `Time in ms`, `Milliseconds` and `Time (100 ns)`."""
    words: List[str] = re.findall(r"[^\W_]+", name.lower())
    if _has_other_ticks(name):
        return ""
    for before, word in zip(reversed(["", *words[:-1]]), reversed(words)):
        if word in SECONDS_IN:
            return before + word if before in TICKS and before + word in SECONDS_IN else word
    return ""


def _has_other_ticks(name: str) -> bool:
    """Whether times are counted in other ticks than those of a dump, as in `Time (25 ns)`."""
    found = in_brackets(name)
    return found[:1].isdigit() and "".join(found.lower().split()) not in SECONDS_IN


def in_brackets(name: str) -> str:
    """What is last in brackets, with no word after it, and has a letter: it may be a unit."""
    end = _beyond(WORD, name)
    rest = name[end:]
    closed = min((at for at in map(rest.find, ")]") if at >= 0), default=-1)
    begin = max(name.rfind(bracket, 0, end) for bracket in ")]") + 1
    letter = begin + _beyond(LETTER, name[begin:end])
    place = max(name.rfind(bracket, begin, letter) for bracket in "([")
    return name[place + 1:end + closed].strip() if place >= 0 and closed >= 0 else ""


def _beyond(form: Pattern[str], text: str) -> int:
    """The place after the last letter of this form; 0 if there is none."""
    return next((place + 1 for place in reversed(range(len(text))) if form.match(text, place)), 0)
