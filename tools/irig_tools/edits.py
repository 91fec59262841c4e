"""The fewest edits that give each place the pulse that it has to have."""
from __future__ import annotations

from bisect import bisect_left
from dataclasses import dataclass, field
from typing import Dict, Iterator, List, Optional, Sequence, Tuple

from . import limits
from .edit import Edit, inserted, of_pulse, of_pulses
from .faults import Faults
from .kinds import DamageKind
from .layout import NAMES
from .units import PlaceNumber, PulseIndex, plus, through


@dataclass
class Item:
    """Edits for the places `low` to `high`, in the order in which they are to be obeyed, and why."""

    low: float
    high: float
    edits: List[Edit]
    why: str
    lost: bool = False  # a pulse that is missing
    single: bool = False  # it gives each of its places the pulse that is wanted
    targets: Dict[PlaceNumber, str] = field(default_factory=dict)  # the classes of a frame that is generated again
    kind: DamageKind = DamageKind.OTHER
    is_guess: bool = False  # nothing decides one of its classes
    is_in_fine: bool = False  # its rise alone is off, in a frame that is fine
    is_trusted: bool = False  # it changes the class alone, in a sound frame, as most recordings have it
    step: Optional[int] = None  # by how many microseconds a rest that it moves is late


def items(faults: Faults) -> List[Item]:
    """One item for each faulty place, or for several over which one pulse reaches."""
    found: List[Item] = []
    for place in sorted(faults.wanted):
        if not found or place > found[-1].high:
            item = _item(faults, place)
            if item:
                found.append(item)
    return found


def _item(faults: Faults, place: PlaceNumber) -> Optional[Item]:
    pulses, target = faults.track.pulses_at(place), faults.wanted[place]
    if place in faults.trusted:
        why = "%s: %s; %s" % (faults.where(place), faults.seen(place), faults.reason(place))
        return Item(place, place, [of_pulse("force", pulses[0], NAMES[target])], why, kind=DamageKind.CONTROL, is_trusted=True)
    if not pulses:
        why = "%s: no pulse; %s" % (faults.where(place), faults.reason(place))
        insert = inserted(faults.track.rise_at(place), faults.width(target, place))
        is_guess = place in faults.guesses
        return Item(place, place, [insert], why, True, True, kind=DamageKind.MISSING, is_guess=is_guess)
    many = faults.track.spans(place, pulses[-1])
    return _divide(faults, place, many, pulses) if many else _reduce(faults, place, pulses, target)


def _divide(faults: Faults, place: PlaceNumber, many: int, pulses: Sequence[PulseIndex]) -> Optional[Item]:
    """Parts one pulse that reaches over several places."""
    over = through(place, plus(place, many))
    if any(each not in faults.wanted for each in over):
        return None
    track, last = faults.track, over[-1]
    edits: List[Edit] = []
    extra = [pulse for each in over[1:] for pulse in track.pulses_at(each)]
    if extra:
        edits.append(of_pulses("delete", extra[0], extra[-1]))
    if len(pulses) > 1:
        edits.append(of_pulses("join", pulses[0], pulses[-1]))
    parts = through(pulses[0], plus(pulses[0], many))
    for pulse, each, after in zip(parts, over, over[1:]):
        fall = track.rise_at(each) + faults.width(faults.wanted[each], each)
        edits.append(of_pulse("split", pulse, fall, track.rise_at(after)))
    if _is_unlike(faults, last, track.falls[pulses[-1]] - track.rise_at(last), faults.wanted[last]):
        edits.append(of_pulse("force", parts[-1], NAMES[faults.wanted[last]]))
    reasons = ", then ".join(map(faults.reason, over))
    why = "%s: %s; %s" % (faults.where(place), faults.seen(place), reasons)
    return Item(place, last, edits, why, single=True, kind=DamageKind.JOINED, is_guess=not faults.guesses.keys().isdisjoint(over))


def _is_unlike(faults: Faults, place: PlaceNumber, width: int, target: str) -> bool:
    """Whether a pulse that is edited anyway gets its width, too."""
    return abs(width - faults.width(target, place)) > limits.UNLIKE * faults.layout.interval


def _choose(faults: Faults, pulses: Sequence[PulseIndex], place: PlaceNumber, target: str) -> Tuple[int, int, bool, bool]:
    """Which pulses are joined to the one that is wanted, and whether it is then off in time, and of a wrong class."""
    width, choices = faults.width(target, place), []
    begin, stray = faults.track.rise_at(place), faults.track.stray_at(place)
    for first, last in _worth_a_look([faults.rises[each] + width for each in pulses], [faults.falls[each] for each in pulses]):
        rise, fall = faults.rises[pulses[first]], faults.falls[pulses[last]]
        off, wrong = abs(rise - begin) > stray, faults.layout.class_of(fall - rise) != target
        edits = (first > 0) + (last < len(pulses) - 1) + (last > first) + off + wrong
        choices.append((edits, abs(rise - begin) + abs(fall - rise - width), first, last, off, wrong))
    return min(choices)[2:]


def _worth_a_look(due: Sequence[int], falls: Sequence[int]) -> Iterator[Tuple[int, int]]:
    """With which pulses a join can begin and end; `due` is when it has to fall if it begins with a pulse. A class is one stretch of
    widths, so none ends better than with the pulse itself, the last one, or those whose falls are next to when one is due."""
    for first, fall in enumerate(due):
        at = bisect_left(falls, fall, first)
        for last in {first, max(first, at - 1), min(at, len(falls) - 1), len(falls) - 1}:
            yield first, last


def _reduce(faults: Faults, place: PlaceNumber, pulses: Sequence[PulseIndex], target: str) -> Item:
    """Of the pulses of a place the one that is wanted: some joined, others deleted."""
    begin = faults.track.rise_at(place)
    first, last, off, wrong = _choose(faults, pulses, place, target)
    edits: List[Edit] = []
    if last < len(pulses) - 1:
        edits.append(of_pulses("delete", pulses[last + 1], pulses[-1]))
    if last > first:
        edits.append(of_pulses("join", pulses[first], pulses[last]))
    if first > 0:
        edits.append(of_pulses("delete", pulses[0], pulses[first - 1]))
    rise, fall = faults.rises[pulses[first]], faults.falls[pulses[last]]
    is_edited = bool(edits or off or wrong)
    off = off or (is_edited and abs(rise - begin) > faults.clock.least_late(1))
    wrong = wrong or (is_edited and _is_unlike(faults, place, fall - rise, target))
    force, shift = of_pulse("force", pulses[0], NAMES[target]), of_pulse("shift", pulses[0], begin - rise)
    change = [force] * wrong + [shift] * off
    edits += change if begin > rise else reversed(change)
    why = "%s: %s; %s" % (faults.where(place), faults.seen(place), faults.reason(place))
    return Item(place, place, edits, why, single=True, kind=faults.kind(place), is_guess=place in faults.guesses,
                is_in_fine=place in faults.in_fine)
