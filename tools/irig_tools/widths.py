"""How wide the pulses of a recording are, class by class: which of them is not as wide as the others."""
from __future__ import annotations

from statistics import median_low
from typing import Dict, NamedTuple, Optional, Sequence

from . import limits
from .units import ELEMENTS, Microseconds, PulseIndex


class UsualWidth(NamedTuple):
    """How wide nearly all pulses of a class are, and by how much more or less is still as wide."""

    width: int
    most_off: float


class Widths:
    """The pulses of a recording. None is looked at before it is asked for."""

    def __init__(self, rises: Sequence[Microseconds], falls: Sequence[Microseconds], classes: str, interval: float) -> None:
        self._rises, self._falls, self._classes, self._interval = rises, falls, classes, interval
        self._usual: Dict[str, Optional[UsualWidth]] = {}

    def is_usual(self, pulse: PulseIndex) -> bool:
        """Whether a pulse is as wide as nearly all others of its class."""
        return self._is_as_wide(pulse) is True

    def is_odd(self, pulse: PulseIndex) -> bool:
        """Whether nearly all others of its class are as wide as each other, and this one is not."""
        return self._is_as_wide(pulse) is False

    def is_apart(self, marker: PulseIndex, element: int) -> bool:
        """Whether a pulse of a fine frame is wider than all others of its class there, or narrower, as irig_guard sees it: by more than a
        hundredth of an interval and twice what these differ by."""
        pulse, pulses = marker + element, range(marker, marker + ELEMENTS)
        others = [self._falls[each] - self._rises[each] for each in pulses
                  if each != pulse and self._classes[each] == self._classes[pulse]]
        if len(others) < limits.LEAST_ALIKE:
            return False
        low, high = min(others), max(others)
        margin = int(limits.ODD_WIDTH * self._interval) + limits.FOR_DIFFERENCE * (high - low)
        return not low - margin <= self._falls[pulse] - self._rises[pulse] <= high + margin

    def _is_as_wide(self, pulse: PulseIndex) -> Optional[bool]:
        """Whether a pulse is as wide as is usual; None if nothing is."""
        name = self._classes[pulse]
        if name not in self._usual:
            self._usual[name] = self._usual_of(name)
        usual = self._usual[name]
        return None if usual is None else abs(self._falls[pulse] - self._rises[pulse] - usual.width) <= usual.most_off

    def _usual_of(self, name: str) -> Optional[UsualWidth]:
        """The width of nearly all pulses of a class; None if too many are off."""
        widths = [fall - rise for rise, fall, each in zip(self._rises, self._falls, self._classes) if each == name]
        usual, most = median_low(widths), limits.AS_WIDE * self._interval
        off = sorted(abs(width - usual) for width in widths)
        nearly_all = off[int((1 - limits.OF_OTHER_WIDTH) * (len(off) - 1))]
        if nearly_all > most:
            return None
        return UsualWidth(usual, min(most, max(limits.AS_WIDE_IF_EVEN * self._interval, limits.OF_NEARLY_ALL * nearly_all)))
