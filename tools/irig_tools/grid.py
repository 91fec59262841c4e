"""Which cycles of a carrier are high: the amplitudes decide, and a little the clock of the code.

In code a pulse begins every ten cycles (or hundred), and ends two, five or eight tenths of that later. An edge somewhere
else needs more of an amplitude, the more the more noise there is, and so does a pulse that is missing. So noise does not
move an edge by a cycle, and damage is still seen.
"""
from __future__ import annotations

import math
from typing import List, Optional, Sequence

RISE = 0.5  # what a rise costs at least that is not where code has one; a sure cycle is worth 1
BY_NOISE, MOST_RISE = 20, 1.5  # what it costs more with noise: so often its square; and at most
FALL, UNPLACED, MISSING = 0.5, 0.5, 0.5  # of that: a fall; an edge before the place is known; a rise that is not there
MOST_WORTH = 1.5  # that a cycle is worth
SEEN, SAME_PLACE, KEPT = 4, 0.6, 0.75  # rises that say where they are; that are at one place; and how they count later


class Grid:
    """Where in an element of that many cycles pulses begin."""

    def __init__(self, element: int) -> None:
        self.element = element
        self.votes = [0.0] * element
        self.place = -1
        self.costs(0.0)

    def costs(self, noise: float) -> None:
        """Sets what each edge costs; the noise is a share of the way from low to high."""
        rise, place = min(MOST_RISE, max(RISE, BY_NOISE * noise * noise)), self.place
        self.rises = self.falls = [UNPLACED * rise] * self.element
        self.stays = [0.0] * self.element
        if place >= 0:
            self.rises = [rise * (at != place) for at in range(self.element)]
            ends = {(place + self.element * tenths // 10) % self.element for tenths in (2, 5, 8)}
            self.falls = [FALL * rise * (at not in ends) for at in range(self.element)]
            self.stays[place] = MISSING * min(MOST_RISE, BY_NOISE * noise * noise)

    def vote(self, levels: Sequence[int], number: int) -> bool:
        """Counts the rises of cycles; the first has a number. Whether another place is known then."""
        self.votes = [KEPT * vote for vote in self.votes]
        for place, (before, now) in enumerate(zip(levels, levels[1:]), number + 1):
            if now > before:
                self.votes[place % self.element] += 1
        total, most = sum(self.votes), max(self.votes)
        place = self.votes.index(most) if most >= SAME_PLACE * total and total >= SEEN else -1
        changed, self.place = place != self.place, place
        return changed

    def levels(self, worth: Sequence[float], number: int, level: Optional[int]) -> List[int]:
        """The levels that are worth most, after a level or any; a cycle is worth something if it is high, and else 0."""
        low, high = (-1e9 if level == 1 else 0.0), (-1e9 if level == 0 else 0.0)
        rises, falls, stays, element = self.rises, self.falls, self.stays, self.element
        rose, fell = bytearray(), bytearray()
        for place, value in enumerate(worth, number):
            at = place % element
            up, down = low - rises[at], high - falls[at]
            low, high = low - stays[at], high - stays[at]
            rises_now, falls_now = up > high, down > low
            rose.append(rises_now)
            fell.append(falls_now)
            low = down if falls_now else low
            high = (up if rises_now else high) + (value if -MOST_WORTH < value < MOST_WORTH else math.copysign(MOST_WORTH, value))
        return self._back(rose, fell, int(high > low))

    @staticmethod
    def _back(rose: bytearray, fell: bytearray, level: int) -> List[int]:
        """The levels from the last one on backward."""
        found = []
        for up, down in zip(reversed(rose), reversed(fell)):
            found.append(level)
            if up if level else down:
                level = 1 - level
        return found[::-1]
