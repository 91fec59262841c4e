"""Numbers that must not be taken for each other: each is an int, and a type of its own for mypy."""
from __future__ import annotations

from typing import List, NewType, TypeVar, cast

ELEMENTS = 100  # of a frame: from the marker of one to that of the next

Microseconds = NewType("Microseconds", int)  # a time, since the recording began
PulseIndex = NewType("PulseIndex", int)  # of a listing: from 0
PulseNumber = NewType("PulseNumber", int)  # the same as the editor and its users count: from 1
FrameNumber = NewType("FrameNumber", int)  # of a part of a recording: from 0, and negative before it
PlaceNumber = NewType("PlaceNumber", int)  # ELEMENTS times the number of the frame, and the element
Hundredths = NewType("Hundredths", int)  # of a second: a moment, since year 1 or since the year began
Base = NewType("Base", Hundredths)  # the moment of frame 0 that a frame leads to
Number = TypeVar("Number", PulseIndex, PlaceNumber, FrameNumber, Microseconds, Hundredths)  # what is added to it is a plain int


def number_of(pulse: PulseIndex) -> PulseNumber:
    return PulseNumber(pulse + 1)


def frame_of(place: float) -> FrameNumber:
    return FrameNumber(int(place // ELEMENTS))


def place_in(frame: FrameNumber, element: int = 0) -> PlaceNumber:
    return PlaceNumber(ELEMENTS * frame + element)


def plus(one: Number, many: int) -> Number:
    """The number that is that many further on the same axis."""
    return cast(Number, one + many)


def through(first: Number, last: Number) -> List[Number]:
    """From the first to the last."""
    return cast(List[Number], list(range(first, last + 1)))
