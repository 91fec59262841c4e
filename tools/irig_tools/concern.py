"""What a damage, a remark or a repair concerns, as values for programs."""
from __future__ import annotations

from typing import NamedTuple, Optional, Sequence, Tuple

from .units import PulseIndex


class Concern(NamedTuple):
    """The first and the last of each, as far as it has them, and a step in time."""

    frames: Tuple[str, ...] = ()  # the times that they show, or should show
    elements: Tuple[int, ...] = ()  # the first in the first frame, the last in the last one
    pulses: Tuple[PulseIndex, ...] = ()
    step: Optional[int] = None  # by how many microseconds all that follows comes late, or early if negative


NOTHING = Concern()


def of_frame(shown: str, elements: Sequence[int] = ()) -> Concern:
    """Some elements of a frame, or all of it, by the time that it shows; that can be an empty text."""
    return Concern((shown, shown) if shown else (), (elements[0], elements[-1]) if elements else ())


def ends_of_pulses(first: PulseIndex, last: PulseIndex) -> Concern:
    return Concern(pulses=(first, last))


def of_all(concerns: Sequence[Concern]) -> Concern:
    """From the first to the last of several that are in the order of time. Of several steps none is that of all."""
    frames = [each for concern in concerns for each in concern.frames]
    elements = [each for concern in concerns for each in concern.elements]
    pulses = sorted(each for concern in concerns for each in concern.pulses)
    steps = [concern.step for concern in concerns if concern.step is not None]
    return Concern(tuple(frames[:1] + frames[-1:]), tuple(elements[:1] + elements[-1:]), tuple(pulses[:1] + pulses[-1:]),
                   steps[0] if len(steps) == 1 else None)
