"""Edits whose pulses are counted from a mark, so that they stay right if a repair before them is left out.

The repairs of one look go from the end to the beginning, so each has the numbers of the track as it was seen. Those of a later look have
the numbers after all repairs of the looks before. If one of these is dropped, as irig_guard can do, or is not in the own part of a window,
each number after it would be that of another pulse.
"""
from __future__ import annotations

import re
from dataclasses import replace
from typing import List, Sequence

from .edit import Edit
from .script import Repair
from .units import PulseIndex

MARK_LETTER = "z"
ADDRESSED = re.compile(r"([0-9]+)(?:,([0-9]+))?(?= (?:delete|join|split|force|shift)\b)")
CHANGES_NUMBERS = re.compile(r"(?:insert|[0-9']\S* (?:delete|join|split))\b")


def changes_numbers(repair: Repair) -> bool:
    """Whether pulses after it have other numbers if it is left out. A wire that is turned over is so before all else."""
    return any(CHANGES_NUMBERS.match(line) for line in repair.edits)


def by_mark(repair: Repair, rises: Sequence[int]) -> Repair:
    """The repair with a mark at the pulse before its first one; as it is if it has no numbers of pulses, or if no pulse is before them.
    `rises` are those of the track that its numbers are of."""
    numbers = [int(number) for line in [*repair.edits, *repair.instead] for found in [ADDRESSED.match(line)] if found
               for number in found.groups() if number]
    base = min(numbers, default=1) - 1
    if not base or any(line.startswith("mark ") for line in repair.edits):
        return repair
    return replace(repair, edits=_from_mark(repair.edits, base, rises), instead=_from_mark(repair.instead, base, rises))


def _from_mark(lines: Sequence[str], base: int, rises: Sequence[int]) -> List[str]:
    """The lines with their pulses counted from pulse `base`."""
    def address(found: "re.Match[str]") -> str:
        return ",".join("'%s+%d" % (MARK_LETTER, int(number) - base) for number in found.groups() if number)

    mark = Edit("mark", (MARK_LETTER, rises[PulseIndex(base - 1)])).line()
    return [mark, *(ADDRESSED.sub(address, line, 1) for line in lines), Edit("unmark", (MARK_LETTER,)).line()] if lines else []
