"""Whether the rows of a table of levels are samples, at even times, or changes, each at its own time."""
from __future__ import annotations

import re
from typing import List, Optional, Sequence, Tuple

IS_LEVEL = re.compile(r"[01](\.0*)?")
EVEN = 0.5  # of the distance of two rows: it is off by at most that
MOST_EVEN = 0.99  # of the first distances are even
STILL = 0.1  # of the first rows: a table of changes has fewer in which no level changes
ENDS = 2  # rows of such a table that can be still: at its begin and at its end


def even_distances(times: Sequence[float]) -> Tuple[float, List[float], int]:
    """The distance that rows mostly have, those that are near it, and the first row, from 1, that comes at another one; 0 if nearly
    none does."""
    apart = [other - one for one, other in zip(times, times[1:])]
    usual = sorted(apart)[len(apart) // 2] if apart else 0.0
    even = [each for each in apart if abs(each - usual) <= EVEN * usual]
    if usual and len(even) >= MOST_EVEN * len(apart):
        return usual, even, 0
    return usual, even, next((row for row, each in enumerate(apart, 2) if abs(each - usual) > EVEN * usual), 1)


class RowKind:
    """Sees the first rows; `time` is the column of the times."""

    def __init__(self, time: Optional[int]) -> None:
        self.time, self.last = time, []  # type: Optional[int], Sequence[str]
        self.rows = self.still = 0

    def see(self, fields: Sequence[str]) -> None:
        """A row is still if no column that has levels changes."""
        changed = any(one != other and place != self.time and IS_LEVEL.fullmatch(one) and IS_LEVEL.fullmatch(other)
                      for place, (one, other) in enumerate(zip(self.last, fields)))
        self.still += not changed and self.rows > 0
        self.rows += 1
        self.last = fields

    def spacing(self, times: Sequence[float]) -> float:
        """How far apart samples are, in seconds; 0 if the rows are changes."""
        usual, _, uneven = even_distances(times)
        return usual if not uneven and self.still > max(ENDS, STILL * self.rows) else 0.0
