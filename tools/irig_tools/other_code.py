"""Other code in a hole: a recorder was switched to another signal for a while. Its pulses are steady by an interval of their own."""
from __future__ import annotations

from statistics import median_low
from typing import Callable, NamedTuple, Optional, Sequence

from . import limits
from .layout import INTERVAL, POSITIONS, SHARE
from .units import ELEMENTS, PlaceNumber, PulseIndex

ONE_SECOND = 1000000


class OtherCode(NamedTuple):
    """Pulses that are not of this code: the first and the last one, and how far apart they are."""

    first: PulseIndex
    last: PulseIndex
    interval: float
    kind: str  # the format that has this interval, or an empty text

    def is_apart(self, distance: float) -> bool:
        """Whether pulses at a distance follow each other in it."""
        return abs(distance - self.interval) <= limits.IN_STEP * self.interval


def other_code(rises: Sequence[int], falls: Sequence[int], pulses: Sequence[PulseIndex], is_own: Callable[[PulseIndex], bool],
               own: float) -> Optional[OtherCode]:
    """What these pulses are, if most of them follow each other by one interval that is not the own one; also if some are lost, but then
    most must not be where this code has pulses, as `is_own` says."""
    if len(pulses) < limits.SURE_RUN:
        return None
    first, last = pulses[0], pulses[-1]
    apart = [rises[at + 1] - rises[at] for at in range(first, last)]
    usual = median_low(apart)
    is_steady = _is_steady(apart, usual) or _is_thinned(apart, usual) and not _are(pulses, is_own)
    if not is_steady or abs(usual - own) <= limits.IN_STEP * own:
        return None
    return OtherCode(first, last, usual, _kind(usual, [falls[at] - rises[at] for at in range(first, last + 1)]))


def _is_steady(apart: Sequence[int], usual: int) -> bool:
    """Whether most distances are the usual one."""
    return sum(abs(each - usual) <= limits.IN_STEP * usual for each in apart) >= limits.STEADY_CODE * len(apart)


def _is_thinned(apart: Sequence[int], usual: int) -> bool:
    """Whether half of the distances are the usual one, and most are some of it, as if pulses were lost between."""
    many = [each / usual for each in apart]
    once = sum(abs(each - 1) <= limits.IN_STEP for each in many)
    some = sum(abs(each - max(1, round(each))) <= limits.IN_STEP for each in many)
    return once >= limits.THINNED_CODE * len(many) and some >= limits.STEADY_CODE * len(many)


def _are(pulses: Sequence[PulseIndex], is_own: Callable[[PulseIndex], bool]) -> bool:
    """Whether most of them are pulses of this code."""
    return sum(map(is_own, pulses)) >= limits.STEADY_CODE * len(pulses)


def _kind(interval: int, widths: Sequence[int]) -> str:
    """The format of pulses that are so far apart, if their widths are those of its classes."""
    for kind, nominal in INTERVAL.items():
        alike = sum(min(abs(width / nominal - share) for share in SHARE.values()) <= limits.IN_STEP for width in widths)
        if abs(interval - nominal) <= limits.IN_STEP * nominal and alike >= limits.STEADY_CODE * len(widths):
            return kind
    return ""


def survives(places: Sequence[PlaceNumber], classes: str, own: int) -> bool:
    """Whether pulses with other distances are what is left of this code: most are position identifiers in their places, as the wide ones
    are seen where the signal is weak; or most are `own` pulses, and position identifiers are in their places and nowhere else."""
    least = limits.STEADY_CODE * len(classes)
    is_position = [place % ELEMENTS in POSITIONS for place in places]
    positions = sum(known and name == "P" for known, name in zip(is_position, classes))
    strange = any((name == "P") != known for known, name in zip(is_position, classes) if name != "b")
    return positions >= least or positions >= limits.OWN_POSITIONS and own >= least and not strange


def named(other: OtherCode, end: int) -> str:
    """What is seen."""
    often = "one in a second" if other.is_apart(ONE_SECOND) else "one in %d microseconds" % other.interval
    said = "time code of format %s, " % other.kind if other.kind else "pulses, "
    return "from there to %d is other code: %s%s, %d in all" % (end, said, often, other.last - other.first + 1)
