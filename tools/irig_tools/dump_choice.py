"""Which wire of a dump is meant by a name, and the name by which a wire is printed."""
from __future__ import annotations

import re
from typing import Dict, Iterable, List, NamedTuple, Optional, Sequence, Tuple

from .dump_header import Header, Wire, shown
from .editor import Problem

BIT = re.compile(r"(.+)\[(-?[0-9]{1,9})\]", re.S)
MOST_SHOWN = 20


class Signal(NamedTuple):
    """One bit: a code, the place of the bit from the right, and its name."""

    code: bytes
    place: int
    path: str

    @property
    def name(self) -> str:
        return _last_word(self.path) or self.path

    @property
    def names(self) -> List[str]:
        """What can name it, the best first."""
        return [*_path_ends(self.path), shown(self.code)]


def bit_of(wire: Wire, number: int) -> Optional[Signal]:
    """A bit of a vector by its number."""
    if wire.bits and min(wire.first, wire.last) <= number <= max(wire.first, wire.last):
        return Signal(wire.code, abs(number - wire.last), "%s[%d]" % (wire.path, number))
    return None


def singles(header: Header) -> List[Signal]:
    """The wires of one bit, each code once."""
    found: Dict[bytes, Signal] = {}
    for wire in header.wires:
        if wire.single:
            found.setdefault(wire.code, Signal(wire.code, 0, wire.path))
    return list(found.values())


def _ranked(wires: Iterable[Wire], name: str) -> List[Wire]:
    """The wires with this path, or else with this end of a path, or else with this code."""
    code = name.encode("utf-8", "surrogateescape")
    whole = [wire for wire in wires if wire.path == name]
    end = [wire for wire in wires if wire.path.endswith("." + name)]
    return whole or end or [wire for wire in wires if wire.code == code]


def _candidates(wires: Iterable[Wire], name: str) -> Tuple[List[Signal], List[Wire]]:
    """What the name means: wires and bits; and vectors, if it names no bit of them."""
    ranked = _ranked(wires, name)
    found = [Signal(wire.code, 0, wire.path) for wire in ranked if wire.single]
    bit = BIT.fullmatch(name)
    if not ranked and bit:
        of_bit = [bit_of(wire, int(bit[2])) for wire in _ranked(wires, bit[1])]
        found = [signal for signal in of_bit if signal]
    return found, [wire for wire in ranked if not wire.single]


def _by_place(signals: Sequence[Signal]) -> Dict[Tuple[bytes, int], Signal]:
    """Each signal once, by its code and its place."""
    found: Dict[Tuple[bytes, int], Signal] = {}
    for signal in signals:
        found.setdefault((signal.code, signal.place), signal)
    return found


def choose(header: Header, name: Optional[str]) -> Signal:
    """The signal that is meant; a problem if there is none, or more than one."""
    found, wide = _candidates(header.wires, name) if name is not None else (singles(header), [])
    by_place = _by_place(found)
    if len(by_place) == 1:
        return next(iter(by_place.values()))
    if by_place:
        listed = _listed(wire_texts(header, list(by_place.values())[:MOST_SHOWN]), len(by_place))
        many = "the dump has several wires of one bit"
        what = many if name is None else "several wires are named '%s'" % name
        raise Problem("%s; name one by its path or its code, or let irig_what find it:" % what, listed)
    if wide and wide[0].bits:
        raise Problem("%s has %d bits; name one of them, as '%s[%d]'" % (
            wide[0].path, wide[0].size, wide[0].path, wide[0].last))
    if wide:
        raise Problem("%s is not made of bits; name a wire or a bit of a vector" % wide[0].path)
    wires = [wire for wire, _ in zip(header.wires, range(MOST_SHOWN))]
    texts = wire_texts(header, [Signal(wire.code, 0, wire.path) for wire in wires])
    bits = ["%d bit%s" % (wire.size, "s" * (wire.size != 1)) for wire in wires]
    listed = _listed(list(map("%s, %s".__mod__, zip(texts, bits))), len(header.wires))
    what = "no wire is named '%s'" % name if name is not None else "the dump has no wire of one bit"
    raise Problem("%s; there are:%s" % (what, "" if listed else " none"), listed)


def _listed(texts: List[str], many: int) -> List[str]:
    """The first of that many, a line each."""
    return texts + ["and %d more" % (many - MOST_SHOWN)] * (many > MOST_SHOWN)


def wire_name(header: Header, signal: Signal) -> str:
    """What means just this signal: its reference or its code, which all programs take; if neither does, as of a bit of a vector, what the
    tools take."""
    name = _name(_near(header, [signal]), signal)
    if name is None:
        raise Problem("no name means the wire %s alone" % signal.path)
    return name


def _name(wires: Sequence[Wire], signal: Signal) -> Optional[str]:
    """The first name that the programs take, too, or else the first one."""
    first, of_programs = None, {wire.reference for wire in wires if wire.code == signal.code} | {shown(signal.code)}
    for name in [shown(signal.code)] if _shares_its_path(wires, signal) else signal.names:
        if first is not None and name not in of_programs:
            continue
        if _by_place(_candidates(wires, name)[0]).keys() == {(signal.code, signal.place)}:
            if _programs_take(wires, name, signal):
                return name
            first = name if first is None else first
    return first


def _shares_its_path(wires: Sequence[Wire], signal: Signal) -> bool:
    """Whether another wire of one bit has the whole path: no end of it means just this one."""
    return any(wire.path == signal.path and wire.single and wire.code != signal.code for wire in wires)


def _programs_take(wires: Sequence[Wire], name: str, signal: Signal) -> bool:
    """Whether the proved programs choose this signal, as docs/FORMATS.md says: by the reference, or else by the code."""
    chosen = [wire for wire in wires if wire.reference == name] or [wire for wire in wires if shown(wire.code) == name]
    return all(wire.single and wire.code == signal.code for wire in chosen) and bool(chosen)


def wire_text(header: Header, signal: Signal) -> str:
    """How a signal is printed: its name, its code, and its path if that is more."""
    return wire_texts(header, [signal])[0]


def wire_texts(header: Header, signals: Sequence[Signal]) -> List[str]:
    """The same of several."""
    near, texts = _near(header, signals), []
    for signal in signals:
        name, code = _name(near, signal) or signal.path, shown(signal.code)
        parts = ["code " + code] * (name != code) + ["path " + signal.path] * (name != signal.path)
        texts.append("%s (%s)" % (name, ", ".join(parts)))
    return texts


def _near(header: Header, signals: Sequence[Signal]) -> List[Wire]:
    """The wires that a name of these signals can mean: a dump can have a million others."""
    names = {name for signal in signals for each in signal.names for name in (each, each.rpartition("[")[0])}
    ends: Dict[str, List[str]] = {}  # of paths, by the last word
    for name in names:
        ends.setdefault(_last_word(name), []).append("." + name)
    near = []
    for wire in header.wires:
        last = _last_word(wire.path)
        is_meant = last in names or wire.reference in names or shown(wire.code) in names
        if is_meant or any(map(("." + wire.path).endswith, ends.get(last, ()))):
            near.append(wire)
    return near


def _last_word(path: str) -> str:
    return path.rpartition(".")[2]


def _path_ends(path: str) -> List[str]:
    """The ends of a path that begin after a dot, the shortest first, and the path."""
    words = path.split(".")
    return [".".join(words[-many:]) for many in range(1, len(words) + 1)]
