"""The track that irig_damage and irig_mend look at: a wire of any dump, with its format and its expression."""
from __future__ import annotations

from contextlib import contextmanager
from dataclasses import dataclass, field
from typing import Iterator, List, Optional

from .dump_choice import Signal, choose, singles, wire_name, wire_text, wire_texts
from .dump_header import Header, Reader
from .dump_offset import Offset
from .dump_source import Source
from .editor import Problem, called, find_editor
from .ending import Usage
from .escapes import in_command
from .kept_wire import write_kept
from .options import DUMP, EXPRESSION, FORMAT, TIMESCALE, WIRE, Given
from .proposal import no_option
from .readings import EXPRESSIONS, is_opened, is_read, read
from .search import Found, Probe, search
from .temporary import named_if_no_room, temporary_track
from .wire import Extract, Wish

MOST_READ = 8  # wires that are read; the others are at most named


class SeveralWires(Problem):
    """Several wires of a file carry time code."""

    def __init__(self, name: str, wires: List[str]) -> None:
        self.wires = ", ".join(wires)
        super().__init__("%s: several wires carry time code, and --wire names one: %s; %s" % (name, self.wires, _more_of(name)))


@dataclass
class Opened:
    """What the editor is given, and what is said of it."""

    path: str
    code: List[str]  # the options of its format and expression
    wire: Optional[str] = None  # its name in the file, if there are several
    offset: Optional[Offset] = None  # what was subtracted from its times
    notes: List[str] = field(default_factory=list)

    is_as_it_is: bool = False  # the file of the user, and not a dump of its wire
    unit: Optional[str] = None  # that was chosen, if not the one of the file
    dump: Optional[int] = None  # its number in the file, if it was given
    is_as_given: bool = False  # as it is, and with the options of the user

    @property
    def options(self) -> List[str]:
        """The options for the editor."""
        return self.named + self.code

    @property
    def named(self) -> List[str]:
        """The option that names the wire for the editor."""
        return _wire_words(self.wire) if self.is_as_it_is else []

    @property
    def words(self) -> List[str]:
        """The words for the editor."""
        return [*self.options, self.path]

    @property
    def comments(self) -> List[str]:
        """How the editor has to be run for a script, if that was found."""
        if self.is_as_given:
            return []
        made = ["--timescale=" + self.unit.replace(" ", "")] if self.unit else []
        made += [] if self.dump is None else ["--dump=%d" % self.dump]
        made += [] if self.wire is None else [self.wire]
        made = [] if self.is_as_it_is else ["and the dump of irig_wire", *map(in_command, made)]
        return [" ".join(["for irig_ed", *map(in_command, self.options), *made])]


@dataclass
class Taken:
    """A wire with time code, as it is read best."""

    found: Found
    probe: Probe
    expression: int = 2
    frames: int = 0
    fine: int = 0
    led: int = 0
    pulses: int = 0
    refused: str = ""

    @property
    def wire(self) -> Optional[str]:
        return needed_name(self.found.header, self.probe.signal)

    @property
    def code(self) -> List[str]:
        return ["%s=%s" % (FORMAT.name, self.probe.kind[0]), "%s=%d" % (EXPRESSION.name, self.expression)]

    def text(self) -> str:
        said = "wire %s, format %s, expression %d: %d of %d frames fine" % (
            wire_text(self.found.header, self.probe.signal), self.probe.kind[0], self.expression, self.fine, self.frames)
        return said + (", but %d lead to a time together" % self.led if self.led else "")


@contextmanager
def opened(path: str, name: str, given: Given, wire: Optional[str]) -> Iterator[Opened]:
    """The track, as it is or as a dump of its wire; `name` is what the user calls the file."""
    find_editor()
    check_code(given)
    named = given.has(FORMAT) or given.has(EXPRESSION)
    as_is = not given.has(TIMESCALE) and not given.has(DUMP)
    if named and as_is and is_opened(path, _wire_words(wire)):
        yield Opened(path, _code_words(given), wire, _offset(path), [], True, is_as_given=True)
        return
    wire = wire if wire is None or given.has(DUMP) else _usual_name(path, wire)
    taken = None if named and (wire is not None or is_of_one_wire(path)) else _take(path, name, given, wire)
    wire = taken.wire if taken and wire is None else wire
    code = _code_words(given) if named or not taken else taken.code
    notes = [taken.text()] if taken else []
    if taken and as_is and not taken.probe.kind[1] and is_read(path, wire, taken.pulses):
        yield Opened(path, code, wire, _offset(path), notes, True)
        return
    with temporary_track() as track:
        unit = given.text(TIMESCALE)
        wish = Wish(wire, taken.found.unit if taken else unit, given.number(DUMP))
        with named_if_no_room():
            notes += Extract(path, wish, track).run().doubtful
            track.flush()
        found = taken.found.unit if taken and not taken.found.header.unit else None
        with called(track.name, path):
            yield Opened(track.name, code, wire, _offset(track.name), notes, unit=unit or found, dump=given.number(DUMP))


def check_code(given: Given) -> None:
    """Refuses an expression that a format does not have."""
    kind, expression = given.text(FORMAT), given.text(EXPRESSION)
    if kind and expression and int(expression) not in EXPRESSIONS[kind]:
        has = ", ".join(map(str, EXPRESSIONS[kind]))
        raise Usage("%s %s has no expression %s; it has %s" % (FORMAT.name, kind, expression, has))


def _wire_words(name: Optional[str]) -> List[str]:
    return [] if name is None else ["%s=%s" % (WIRE.name, name)]


def _code_words(given: Given) -> List[str]:
    return ["%s=%s" % (option.name, given.text(option)) for option in (FORMAT, EXPRESSION) if given.has(option)]


def _header(path: str) -> Optional[Header]:
    try:
        return Reader(Source(path)).read()
    except Problem:
        return None


def _offset(path: str) -> Optional[Offset]:
    header = _header(path)
    return header.offset if header else None


def _usual_name(path: str, wire: str) -> str:
    """The name of a wire that all programs take; as it is given if only the editor can read the file."""
    header = _header(path)
    return wire_name(header, choose(header, wire)) if header else wire


def is_of_one_wire(path: str) -> bool:
    """Whether a dump has just one wire of one bit."""
    header = _header(path)
    return header is not None and len(singles(header)) == 1


def _take(path: str, name: str, given: Given, wire: Optional[str]) -> Taken:
    """The one wire whose frames can be read; a problem if there is none, or several."""
    unit, dump = given.text(TIMESCALE) or "", given.number(DUMP) or 1
    found = search(path, unit, dump)
    probes = found.probes
    if wire is not None:
        signal = choose(found.header, wire)
        probes = [probe for probe in probes if (probe.signal.code, probe.signal.place) == (signal.code, signal.place)]
    if given.has(FORMAT):
        probes = [probe for probe in probes if probe.kind[0] == given.text(FORMAT)]
    read_ones = [_read(path, found, probe, dump) for probe in probes[:MOST_READ]]
    fine = [taken for taken in read_ones if taken.fine] or [taken for taken in read_ones if taken.led]
    if len(fine) == 1:
        return fine[0]
    raise _of_none([taken.refused for taken in read_ones if taken.refused], fine, name)


def _of_none(refused: List[str], fine: List[Taken], name: str) -> Problem:
    """Why no wire is taken."""
    if refused and not fine:
        return Problem(refused[0])
    if fine:
        return SeveralWires(name, wire_texts(fine[0].found.header, [taken.probe.signal for taken in fine]))
    return Problem("%s: no frame can be read in any format and expression; %s" % (name, _more_of(name)))


def _more_of(name: str) -> str:
    """Which command says more of a file."""
    return "'irig_what %s' says more" % in_command(no_option(name))


def _read(path: str, found: Found, probe: Probe, dump: int) -> Taken:
    kind, inverted = probe.kind
    wish = Wish(wire_name(found.header, probe.signal), found.unit, dump, invert=inverted)
    with temporary_track() as track:
        with named_if_no_room():
            if not write_kept(found, probe, Extract(path, wish, track)):
                track.seek(0)
                track.truncate()
                Extract(path, wish, track).run()
            track.flush()
        probe.forget()
        readings = read(track.name, kind)
    row = readings.best
    if row is None:
        return Taken(found, probe, refused=readings.refused)
    return Taken(found, probe, row.expression, row.frames, row.fine, row.led, readings.pulses)


def needed_name(header: Header, signal: Signal) -> Optional[str]:
    """What names a signal, if it is not the only wire of one bit."""
    alone = singles(header)
    return None if len(alone) == 1 and alone[0] == signal else wire_name(header, signal)
