"""Finds where the code of a long recording is sound, so that it can be cut there: before a marker, with sound frames on both sides."""
from __future__ import annotations

import re
from operator import sub
from statistics import median
from typing import NamedTuple, Optional, Sequence

from .units import ELEMENTS

SOUND_FRAMES = 8  # frames on each side of a seam that have to be sound
FRAME_LETTERS = "P[01]{8}P(?:[01]{9}P){9}"  # the classes of a frame, from its marker on
SOUND_CODE = re.compile("(?:%s){%d}" % (FRAME_LETTERS, 2 * SOUND_FRAMES))
ALL_IN_STEP = re.compile("[^b]{%d}" % (2 * SOUND_FRAMES * ELEMENTS))
OFF_IN_STEP = 0.08  # intervals: irig_ed reads a rise that is off by less than a tenth
NARROWER = ((0.05, "?"), (0.35, "0"), (0.65, "1"), (0.95, "P"))  # intervals: a pulse of a class is narrower than that
SEARCHED = 1 << 13  # pulses that are looked at together


class Seam(NamedTuple):
    """A place between two edges: the number of the edge after it, and its time."""

    edge: int
    time: int
    is_sound: bool


def seam_in(edges: Sequence[int], first: int, beyond: int) -> Seam:
    """The first place for a cut between these edges, of which the first one is a rise: before a marker with sound frames on both
    sides, or else where all pulses are in step, or else before the first edge."""
    for pattern in (SOUND_CODE, ALL_IN_STEP):
        for start in range(first, beyond, 2 * (SEARCHED - 2 * SOUND_FRAMES * ELEMENTS)):
            for turned in (0, 1):  # a wire that is upside down has its pulses between those that are seen
                place = _place_in(edges[start + turned:min(beyond, start + 2 * SEARCHED)], pattern)
                if place is not None:
                    return _seam(edges, start + turned + 2 * place, True)
    return _seam(edges, first, False)


def _place_in(edges: Sequence[int], pattern: "re.Pattern[str]") -> Optional[int]:
    """The pulse before which frames are as the pattern has them, and after which, too."""
    found = pattern.search(classes_of(edges[::2], edges[1::2]))
    return None if found is None else found.start() + SOUND_FRAMES * ELEMENTS


def classes_of(rises: Sequence[int], falls: Sequence[int]) -> str:
    """A letter for each pulse: its class, `?` if it has none, and `b` if it is not in step with the one before."""
    apart = list(map(sub, rises[1:], rises))
    if not apart:
        return "b" * len(rises)
    interval = median(apart)
    steps = [True, *(abs(each - interval) <= OFF_IN_STEP * interval for each in apart)]
    return "".join(_class_of(width / interval) if step else "b" for width, step in zip(map(sub, falls, rises), steps))


def _class_of(width: float) -> str:
    return next((name for limit, name in NARROWER if width < limit), "?")


def _seam(edges: Sequence[int], edge: int, is_sound: bool) -> Seam:
    """In the middle of the level before an edge."""
    return Seam(edge, (edges[edge - 1] + edges[edge] + 1) // 2 if edge else 0, is_sound)
