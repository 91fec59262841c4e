"""The repairs of a track, with their reasons, from its end to its beginning, so that numbers of pulses stay true."""
from __future__ import annotations

from dataclasses import replace
from math import ceil
from typing import Dict, List, Sequence, Tuple

from . import limits
from .chance import misread
from .edit import Edit, inserted, of_pulses, repair_of
from .edits import Item, items
from .faults import Faults, Remark
from .grouping import grouped
from .guess import Guess, guess_lines
from .kinds import DamageKind
from .layout import NAMES, SHARE
from .script import Repair
from .units import ELEMENTS, Microseconds, PlaceNumber, frame_of, plus, through
from .wholes import as_elsewhere, late_zones, left_rest, lost_frames, shift

OFF_HERE = "the clock wanders: what is filled in here can be %.3g milliseconds off"


def repairs(seen: Faults) -> Tuple[List[Repair], List[Remark]]:
    """What the faults call for, and what is said of a rest that is left. What is close together is one repair."""
    moved, left = late_zones(seen)
    faults = seen.without({place for zone in left for place in through(plus(zone.first, 1), plus(zone.last, -1))})
    whole = lost_frames(faults)
    single = faults.without({place for item in whole for place in item.targets})
    found = [shift(faults, zone) for zone in moved] + whole + misread(single) + items(single)
    groups = grouped(sorted(found, key=lambda item: -item.low),
                     lambda before, item: before.low - item.high > 1 or _is_otherwise(before, item))
    return [_repair(single, group) for group in groups], [left_rest(seen, zone) for zone in left]


def _is_otherwise(one: Item, other: Item) -> bool:
    """Whether one is a repair of another kind of frame."""
    return (one.is_in_fine, one.is_trusted) != (other.is_in_fine, other.is_trusted)


def _repair(faults: Faults, group: List[Item]) -> Repair:
    track = faults.track
    first, last = (track.within(PlaceNumber(int(place + 0.5))) for place in (group[-1].low, group[0].high))
    at, until = track.rise_at(first), track.rise_at(last)
    concern = faults.concern(first, last)._replace(step=next((item.step for item in group if item.step), None))
    off = _can_be_off(faults, group)
    comments = _comments(faults, group, at) + ([OFF_HERE % (off / 1000)] if off else [])
    edits, instead = [edit for item in group for edit in item.edits], _written_again(faults, group)
    if all(item.single for item in group) and 0 < len(instead) < len(edits):
        edits, instead = instead, []
    found = repair_of(_kind_of(group), at, comments, edits, until, instead=instead, concern=concern)
    return replace(found, off=off, guesses=_guesses(faults, group, at), is_in_fine=group[0].is_in_fine, is_trusted=group[0].is_trusted)


def _comments(faults: Faults, group: List[Item], hole: Microseconds) -> List[str]:
    """What was seen, and why each item follows; pulses that are missing one after the other have it together."""
    parts = grouped(group, lambda before, item: not (before.lost and item.lost))
    return [comment for part in parts for comment in (_of_lost(faults, part, hole) if part[0].lost else [part[0].why])]


def _guesses(faults: Faults, group: Sequence[Item], hole: Microseconds) -> List[Guess]:
    """What these items fill in though nothing decides it, in a hole that begins there."""
    own = (place for item in group if item.is_guess for place in through(PlaceNumber(int(item.low)), PlaceNumber(int(item.high))))
    return [_guess(faults, place, hole) for place in own if place in faults.guesses]


def _guess(faults: Faults, place: PlaceNumber, hole: Microseconds) -> Guess:
    name = NAMES[faults.guesses[place]]
    frame = faults.times.name(frame_of(place))
    return Guess(faults.track.rise_at(place), hole, frame, place % ELEMENTS, name, faults.guessed(place, name))


def _can_be_off(faults: Faults, group: List[Item]) -> int:
    """By how many microseconds what is filled in can be off, as the clock wanders; 0 if that is less than a step that is seen."""
    zones = faults.track.zone_of
    places = (PlaceNumber(int(item.low)) for item in group if item.edits and item.low == int(item.low))
    off = max((zones[place].off for place in places if place in zones and zones[place].first < place < zones[place].last), default=0)
    return ceil(off) if off >= limits.WANDER_STEP * faults.layout.interval else 0


def _kind_of(group: List[Item]) -> DamageKind:
    """That of all, or of a rest that is moved; of several kinds of damage it is a stretch."""
    kinds = {item.kind for item in group}
    return kinds.pop() if len(kinds) == 1 else DamageKind.STEP if DamageKind.STEP in kinds else DamageKind.STRETCH


def _written_again(faults: Faults, group: List[Item]) -> List[Edit]:
    """Deletes all pulses from the first to the last faulty place and inserts those that are wanted; nothing if more than
    that is to be done, or if a class is not known there."""
    if not all(item.targets or item.single or item.low in faults.wanted for item in group):
        return []
    targets: Dict[PlaceNumber, str] = {}
    for item in group:
        own = through(PlaceNumber(int(item.low)), PlaceNumber(int(item.high)))
        targets.update(item.targets or {place: faults.wanted[place] for place in own if place in faults.wanted})
    written = through(min(targets), max(targets))
    if len(written) > limits.MOST_AGAIN:
        return []
    for place in written:
        targets.setdefault(place, faults.track.told[place - faults.track.first])
    if not set(targets.values()) <= set(SHARE):
        return []
    pulses = faults.track.pulses_of(written)
    edits = [of_pulses("delete", pulses[0], pulses[-1])] if pulses else []
    return edits + [inserted(faults.track.rise_at(place), faults.width(targets[place], place)) for place in reversed(written)]


def _of_lost(faults: Faults, lost: List[Item], hole: Microseconds) -> List[str]:
    """One sentence for pulses that are missing one after the other, and one for those of them that are guesses of a kind."""
    sure, unsure = ([item for item in lost if item.is_guess == is_guess] for is_guess in (False, True))
    guessed = guess_lines(_guesses(faults, lost, hole)) if len(unsure) > 1 else [item.why for item in unsure]
    if len(sure) < 2:
        return [item.why for item in sure] + guessed
    places = [PlaceNumber(int(item.low)) for item in reversed(sure)]
    said = "%d pulses are missing, from %s on; each follows from the frames around it" % (len(sure), faults.where(places[0]))
    return [said + as_elsewhere(faults, places), *guessed]
