"""What is said of all wires of a dump, or of all columns or channels, that may have time code."""
from __future__ import annotations

from typing import List, Protocol, Sequence


class WithCode(Protocol):
    """A wire, a column or a channel."""

    @property
    def has_frames(self) -> bool:
        """Whether a frame is fine, or some lead to a time together. Else it can be any clock that is as fast as time code."""

    def first_line(self) -> str:
        """Its name, which side is up, and its format."""

    def lines(self) -> List[str]:
        """All that is said of it."""


def lines_with_code(found: Sequence[WithCode]) -> List[str]:
    """Those with the most fine frames are first. If some have frames, one without has a line that says so."""
    is_some = any(each.has_frames for each in found)
    return [line for each in found for line in (
        each.lines() if each.has_frames or not is_some else [each.first_line() + ": no frame is fine under any expression"])]
