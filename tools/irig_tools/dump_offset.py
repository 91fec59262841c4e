"""What was subtracted from all times of a dump: its 0 is at this time of the dump that it was cut out of."""
from __future__ import annotations

from dataclasses import dataclass
from typing import Optional, Sequence

from .dump_units import FEMTOSECONDS, UNIT_NAMES, Unit

MARK = (b"irig_wire:", b"offset")  # the first words of the comment
MOST_DIGITS = 60


@dataclass(frozen=True)
class Offset:
    """A count of one of the units s, ms, us, ns, ps and fs."""

    count: int
    name: str

    @property
    def femtoseconds(self) -> int:
        return self.count * FEMTOSECONDS[self.name]

    def text(self) -> str:
        return "%d %s" % (self.count, self.name)

    def comment(self) -> str:
        """How a dump has it."""
        return "$comment %s %s $end" % (b" ".join(MARK).decode("ascii"), self.text())

    def after(self, other: Optional[Offset]) -> Offset:
        """The sum, in the finer of both units."""
        if other is None:
            return self
        name = max(self.name, other.name, key=UNIT_NAMES.index)
        return Offset((self.femtoseconds + other.femtoseconds) // FEMTOSECONDS[name], name)

    def in_units(self, unit: Unit) -> Optional[int]:
        """How many of the unit it is, if it is a whole number of them."""
        many, rest = divmod(self.femtoseconds, unit.femtoseconds * unit.factor)
        return None if rest else many


def offset_of(count: int, unit: Unit) -> Offset:
    """The offset of a count of the unit."""
    number, name = unit.text.split()
    return Offset(count * unit.factor * int(number), name)


def read_offset(words: Sequence[bytes]) -> Optional[Offset]:
    """The offset that the words of a comment mean."""
    if len(words) != 4 or tuple(words[:2]) != MARK:
        return None
    digits, name = words[2], words[3].decode("ascii", "replace")
    if not digits.isdigit() or len(digits) > MOST_DIGITS or name not in FEMTOSECONDS:
        return None
    return Offset(int(digits), name)
