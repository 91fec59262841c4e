"""An edit: one line of a script, and what it moves."""
from __future__ import annotations

from dataclasses import dataclass
from typing import List, Optional, Sequence, Tuple, Union

from .concern import NOTHING, Concern
from .kinds import DamageKind
from .script import Repair
from .units import Microseconds, PulseIndex, number_of

THE_LAST = PulseIndex(-1)  # instead of a pulse: the last one of the track


@dataclass(frozen=True)
class Edit:
    """A word of the editor, the pulses that it concerns (`first` can be a mark), and its values."""

    word: str
    values: Tuple[Union[int, str], ...] = ()
    first: Union[PulseIndex, str, None] = None
    last: Optional[PulseIndex] = None  # if it is not the first

    def line(self) -> str:
        """As the editor reads it."""
        return " ".join([*self._address(), self.word, *map(str, self.values)])

    def _address(self) -> List[str]:
        if self.first is None:
            return []
        first = self.first if isinstance(self.first, str) else str(number_of(self.first))
        if self.last in (None, self.first):
            return [first]
        return ["%s,%s" % (first, "$" if self.last == THE_LAST else number_of(self.last or PulseIndex(0)))]

    @property
    def move(self) -> int:
        """By how many microseconds it moves all that follow."""
        return int(self.values[0]) if self.word == "shift" and self.last == THE_LAST else 0


def of_pulses(word: str, first: PulseIndex, last: PulseIndex) -> Edit:
    return Edit(word, (), first, last)


def of_pulse(word: str, pulse: PulseIndex, *values: Union[int, str]) -> Edit:
    return Edit(word, values, pulse)


def inserted(rise: Microseconds, width: int) -> Edit:
    return Edit("insert", (rise, rise + width))


def moved_rest(first: PulseIndex, by: int) -> Edit:
    """Moves a pulse and all after it."""
    return Edit("shift", (by,), first, THE_LAST)


def moved_from(at: Microseconds, by: int) -> List[Edit]:
    """Moves all from a time on, whatever the numbers of the pulses are then."""
    return [Edit("mark", ("z", at)), Edit("shift", (by,), "'z", THE_LAST), Edit("unmark", ("z",))]


def script_lines(edits: Sequence[Edit]) -> List[str]:
    return [edit.line() for edit in edits]


def repair_of(kind: DamageKind, at: Microseconds, comments: Sequence[str], edits: Sequence[Edit], until: Microseconds = Microseconds(0),
              removed: int = 0, instead: Sequence[Edit] = (), concern: Concern = NOTHING) -> Repair:
    """The edits that belong together, with what they move; `removed` microseconds are taken out."""
    moves = [(at, edit.move, removed) for edit in edits if edit.move]
    return Repair(at, list(comments), script_lines(edits), script_lines(instead), until, moves, kind, concern=concern)
