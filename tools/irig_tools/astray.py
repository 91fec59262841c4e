"""Pulses at an end of a track that fit another place of the code: a recorder can have lost some next to them. They are left."""
from __future__ import annotations

from typing import Iterator, List, NamedTuple, Sequence

from . import limits
from .concern import ends_of_pulses
from .faults import Remark, pulses_text
from .phases import PATTERN
from .track import Track
from .units import ELEMENTS, FrameNumber, PlaceNumber, frame_of, through

LEFT_ASTRAY = "either they are damaged, or elements are missing or there twice next to them; they are left"


class Astray(NamedTuple):
    """The first and the last place of such pulses."""

    first: PlaceNumber
    last: PlaceNumber

    def frames(self) -> List[FrameNumber]:
        return through(frame_of(self.first), frame_of(self.last))

    def remark(self, track: Track) -> Remark:
        pulses = track.pulses_of(through(self.first, self.last))
        words = pulses_text(pulses[0], pulses[-1]), "" if pulses[1:] else "s"
        seen = "%s fit%s another element, and not the one to which the others lead" % words
        return Remark(track.rises[pulses[0]], seen, LEFT_ASTRAY, concern=ends_of_pulses(pulses[0], pulses[-1]))


def astray(track: Track) -> List[Astray]:
    """Those before the first place that fits and after the last one."""
    places = through(track.first, track.last)
    return [found for each in (places, places[::-1]) for found in _at_end(track, each[:limits.LONGEST_ASTRAY])]


def _at_end(track: Track, places: Sequence[PlaceNumber]) -> Iterator[Astray]:
    """Those of some places, of which the first is an end of the track."""
    letters = [track.told[place - track.first] for place in places]
    many = _many_astray(letters, [place % ELEMENTS for place in places])
    if many:
        first, last = sorted((places[0], places[many - 1]))
        yield Astray(first, last)


def _many_astray(letters: Sequence[str], elements: Sequence[int]) -> int:
    """How many of them, from the end on, fit another element so much better that nothing decides; 0 if none do."""
    others, best, many = [0] * ELEMENTS, limits.FEWEST_ASTRAY - 1, 0
    for number, (letter, element) in enumerate(zip(letters, elements), 1):
        if letter not in "01P":
            continue
        unlike = "-" if letter == "P" else "P"
        others = [each + (PATTERN[(element + by) % ELEMENTS] == unlike) for by, each in enumerate(others)]
        if others[0] - min(others) > best:
            best, many = others[0] - min(others), number
    return many
