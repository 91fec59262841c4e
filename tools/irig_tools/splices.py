"""Frames that are put together of two: within them whole frames were cut out, or begin again."""
from __future__ import annotations

from typing import Dict, Sequence

from .layout import READABLE
from .spans import Span
from .units import Base, FrameNumber, plus, through
from .votes import Votes


def spliced(votes: Votes, spans: Sequence[Span]) -> Dict[FrameNumber, Base]:
    """The base that the marker of each such frame has: the one that the frames before it lead to."""
    found: Dict[FrameNumber, Base] = {}
    for before, after in zip(spans, spans[1:]):
        if not votes.track.is_glued(before.last, after.first):
            # the frames that have one of `before` before them, and one of `after` after them
            numbers = through(max(before.last, plus(before.first, 1)), min(after.first, plus(after.last, -1)))
            found.update({each: before.base for each in numbers if _is_spliced(votes, each, before.base, after.base)})
    return found


def _is_spliced(votes: Votes, number: FrameNumber, left: Base, right: Base) -> bool:
    """Whether a frame that can be read shows one time up to an element, another from there on, and neither as a whole."""
    if not READABLE.fullmatch(votes.texts[number]):
        return False
    unlike_left, unlike_right = (
        [element for element, vote in votes.votes(number, base).items() if vote < 0] for base in (left, right)
    )
    return bool(unlike_left and unlike_right) and max(unlike_right) < min(unlike_left)
