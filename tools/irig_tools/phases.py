"""Position identifiers in a run of classes: with which element it begins, and where it continues with another one.

A phase is the element, 0 to 99, of the first pulse of a text. `P` has to be at elements 0, 9, 19, .. 99 and nowhere else.
"""
from __future__ import annotations

from collections import Counter
from itertools import accumulate, cycle, islice
from operator import add, ne
from typing import Callable, Container, Iterable, List, Sequence, Tuple

from . import limits
from .layout import POSITIONS
from .units import ELEMENTS

ONLY_P = str.maketrans("01b", "---")
NO_DIGITS = str.maketrans("01", "--")
PATTERN = "".join("P" if element in POSITIONS else "-" for element in range(ELEMENTS))

Turn = Tuple[int, int]  # the first and the last place in a text at which the phase may change


def whole_frames(classes: str) -> List[int]:
    """Where a frame begins that can be read, between two markers, or between one and the end of a run."""
    text, found, wanted = classes.translate(NO_DIGITS), [], "P" + PATTERN
    at = text.find(wanted)
    while at >= 0:
        if text[at + ELEMENTS + 1:at + ELEMENTS + 2] in ("P", ""):
            found.append(at + 1)
            at += ELEMENTS - 1
        at = text.find(wanted, at + 1)
    return found


class Marks:
    """The position identifiers of a run, counted by their distance from its first pulse, modulo 100."""

    def __init__(self, text: str) -> None:
        self.count = len(text)
        self.places = [text[place::ELEMENTS].count("P") for place in range(ELEMENTS)]
        self.many = sum(self.places)
        self.whole: Container[int] = {-start % ELEMENTS for start in whole_frames(text)} if self.count > ELEMENTS else ()

    def faults(self, phase: int) -> int:
        """How many pulses are position identifiers by mistake, or are none by mistake, if the first is element `phase`;
        some more if frames that are whole say otherwise."""
        cycles, rest = divmod(self.count, ELEMENTS)
        hits = wanted = 0
        for element in POSITIONS:
            place = (element - phase) % ELEMENTS
            hits += self.places[place]
            wanted += cycles + (place < rest)
        against = self.whole and phase not in self.whole
        return self.many - hits + wanted - hits + (limits.NO_WHOLE_FRAME if against else 0)

    def best(self, within: int, most: int) -> List[int]:
        """The phases with the fewest faults, and with at most `within` more."""
        faults = sorted((self.faults(phase), phase) for phase in range(ELEMENTS))
        return [phase for fault, phase in faults if fault <= faults[0][0] + within][:most]


class Usual:
    """The classes that most frames have, element by element."""

    def __init__(self, unused: Iterable[int], runs: Iterable[Tuple[str, int]] = ()) -> None:
        """From elements that are always zero, and from texts of classes, each with its phase."""
        counted: List[Counter[str]] = [Counter() for _ in range(ELEMENTS)]
        for element in unused:
            counted[element]["0"] = 2
        for text, phase in runs:
            for element in range(ELEMENTS):
                part = text[(element - phase) % ELEMENTS::ELEMENTS]
                for name in "01":
                    counted[element][name] += part.count(name)
        self.zeros, self.ones = (_mask(counted, name) for name in "01")

    def unlike(self, text: str) -> Callable[[int], int]:
        """How many pulses of a text, of less than 100, have another class if the first is at a phase."""
        zeros, ones = (int("".join("01"[each == name] for each in reversed(text)), 2) for name in "01")
        return lambda phase: bin((zeros & self.ones >> phase) | (ones & self.zeros >> phase)).count("1")


def _mask(counted: Sequence[Counter[str]], name: str) -> int:
    """A bit for each element that is mostly of this class, twice one after the other."""
    usual = [each[name] >= max(2, limits.MOSTLY * (each["0"] + each["1"])) for each in counted]
    return sum(1 << at for at, is_usual in enumerate(usual * 2) if is_usual)


def faults_along(text: str, phase: int) -> List[int]:
    """How many faults are before each pulse, and in all, if the first is element `phase`; in a text of `P` and `-` alone."""
    return list(accumulate(map(ne, text, islice(cycle(PATTERN), phase, None)), initial=0))


def parting(text: str, lefts: Iterable[int], rights: Iterable[int]) -> Tuple[int, int, int, int, int]:
    """Where the text is parted best: its faults then, the first and the last such place, and the phases of both sides."""
    before, rest = ({phase: faults_along(text, phase) for phase in phases} for phases in (lefts, rights))
    after = {phase: [row[-1] - faults for faults in row] for phase, row in rest.items()}
    total = list(map(add, map(min, zip(*before.values())), map(min, zip(*after.values()))))
    least = min(total)
    low, high = total.index(least), len(total) - 1 - total[::-1].index(least)
    left = min(before, key=lambda phase: before[phase][low])
    return least, low, high, left, min(after, key=lambda phase: after[phase][high])


def _has_marker(phase: int, count: int) -> bool:
    """Whether that many elements from `phase` on have both position identifiers of a marker."""
    return (ELEMENTS - 1 - phase) % ELEMENTS + 1 < count


def _turn(text: str, lefts: Sequence[int], rights: Sequence[int], at: int = 0) -> List[Turn]:
    """Where the phase may change in a text that begins at a place, if it does. At most one side's phase is known."""
    text = text[:-1]  # the last pulse can be cut, by the end of the recording or by what ends the run
    marks = Marks(text)
    whole = min(map(marks.faults, lefts if len(lefts) <= len(rights) else rights))
    if whole < 2 or len(text) > limits.LONGEST_TURN:
        return []
    least, low, high, left, right = parting(text, lefts, rights)
    one_known = len(lefts) + len(rights) == ELEMENTS + 1
    if whole - least >= (limits.FEWER_AFTER_ONE if one_known else limits.FEWER_FAULTS):
        return [(at + low, at + high)]
    # position identifiers that are ten apart agree on both sides but for the marker
    ten_apart = left != right and (left - right) % 10 == 0 and least == 0 and one_known
    # what is before `high` agrees on both sides, so the first position identifier of a marker is there
    begin = high - 1
    marked = _has_marker(left, low) if len(lefts) > 1 else _has_marker((right + begin) % ELEMENTS, len(text) - begin)
    return [(at + low, at + high)] if whole - least >= limits.FEWER_AT_MARKER and ten_apart and marked else []


def turns(classes: str) -> List[Turn]:
    """Where a run continues with another phase: between whole frames, before and after them."""
    whole = whole_frames(classes)
    text, every = classes.translate(ONLY_P), range(ELEMENTS)
    if not whole:
        return _turn(text, every, every)
    found = _turn(text[:whole[0] + ELEMENTS], every, [-whole[0] % ELEMENTS])
    for before, after in zip(whole, whole[1:]):
        if (after - before) % ELEMENTS:
            _, low, high, _, _ = parting(text[before:after + ELEMENTS], [0], [(before - after) % ELEMENTS])
            found.append((before + low, before + high))
    return found + _turn(text[whole[-1]:], [0], every, whole[-1])


def turn_near(classes: str, phase: int, begins: bool) -> List[Turn]:
    """Where a run without a whole frame continues with another phase, after its first pulse. The phase is that with which it
    begins, or that with which it ends, as if no element were missing."""
    text, every = classes.translate(ONLY_P), range(ELEMENTS)
    lefts, rights = ([phase], every) if begins else (every, [phase])
    found = [] if whole_frames(classes) else _turn(text, lefts, rights)
    return [(max(1, low), max(1, high)) for low, high in found]


def tells_phase(text: str) -> bool:
    """Whether just one phase fits best."""
    return len(Marks(text).best(0, 2)) == 1
