"""Repairs of whole stretches: a rest that came late is moved, whole frames that are lost are generated."""
from __future__ import annotations

from bisect import bisect_left
from typing import List, NamedTuple, Optional, Sequence, Tuple

from . import limits
from .edit import Edit, moved_from, moved_rest
from .edits import Item
from .faults import Faults, Remark
from .grouping import grouped
from .kinds import DamageKind
from .steps import has_room, rest_comes
from .units import ELEMENTS, Base, FrameNumber, Microseconds, PlaceNumber, frame_of, place_in, plus, through
from .zones import Zone


def late_zones(faults: Faults) -> Tuple[List[Zone], List[Zone]]:
    """Those after which the rest is moved, and those after which it is left, with all that is between."""
    zones = [zone for zone in faults.track.zones if round(zone.late) and not zone.glued]
    late = [(zone, _why_not(faults, zone)) for zone in zones]
    return [zone for zone, why in late if not why], [zone for zone, why in late if why]


def left_rest(faults: Faults, zone: Zone) -> Remark:
    """What is said of a rest that is not moved."""
    assert zone.right and zone.border is not None
    way = "late" if zone.late > 0 else "early"
    seen = "%d elements are missing, and the rest comes %d %s" % (zone.right.step - 1, abs(round(zone.late)), way)
    return Remark(faults.rises[zone.border], seen, _why_not(faults, zone), kind=DamageKind.STEP,
                  concern=faults.concern(zone.border_place, zone.border_place)._replace(step=round(zone.late)))


def shift(faults: Faults, zone: Zone) -> Item:
    """Moves the rest back to where it should be."""
    assert zone.right and zone.border is not None
    late, at, between = round(zone.late), faults.rises[zone.border], zone.right.step - 1
    why = rest_comes(zone.border, at, late)
    if between:
        why += ", and %d elements before it are missing or damaged" % between
    if late > 0 and any(place in faults.wanted for place in through(zone.first, plus(zone.border_place, -1))):
        # what is before it is repaired first, and that may change the numbers of pulses
        return Item(zone.first - 0.5, zone.border_place - 0.5, moved_from(at, -late), why, kind=DamageKind.STEP, step=late)
    return Item(zone.border_place - 0.5, zone.border_place - 0.5, [moved_rest(zone.border, -late)], why, kind=DamageKind.STEP,
                step=late)


def _why_not(faults: Faults, zone: Zone) -> str:
    """Why a rest is not moved, or an empty text."""
    assert zone.left and zone.right
    if not has_room(faults.track, zone.late):
        return "the recording is too short to move the rest back"
    if faults.clock.wander and faults.clock.over(zone.right.step, zone.right.fewest) > limits.VAGUE * zone.interval:
        return "the clock wanders too much to say by how much"
    sure = min(zone.left.lead, zone.right.lead) >= limits.LEAD
    timed = any(place_in(number, ELEMENTS - 1) <= zone.first for number in faults.times.own)
    if abs(zone.late) > limits.MOST_LATE * zone.interval and zone.right.step > 1 and not (sure and timed):
        return "that is too uncertain to move the rest"
    return ""


def _control_of(faults: Faults, number: FrameNumber) -> int:
    """The control functions that a frame has after its repairs."""
    text = faults.times.texts[number]
    told = [faults.wanted.get(place_in(number, element), text[element]) for element in faults.layout.control]
    return sum((each == "1") << bit for bit, each in enumerate(told))


def _can_generate(faults: Faults, number: FrameNumber) -> bool:
    """Whether `regen` of a frame takes away nothing but its damage."""
    track, own, moment = faults.track, through(place_in(number), place_in(number, ELEMENTS - 1)), faults.times.moment(number)
    if own[0] < track.first or own[-1] > track.last or faults.clock.interval != faults.layout.interval or faults.clock.wander:
        return False
    lost = sum(place in faults.wanted for place in own)
    if lost < limits.FEWEST_LOST or (lost < ELEMENTS and not faults.clock.exact) or moment is None:
        return False
    begin = track.rise_at(own[0])
    return (
        not faults.times.calendar.within_leap(moment)
        and begin + ELEMENTS * faults.clock.interval <= track.listing.length
        and not any(zone.late and own[0] < zone.border_place <= own[-1] for zone in track.zones)
        and _stands_alone(faults, own, begin)
        and all(_as_generated(faults, place, begin) for place in own)
    )


def _stands_alone(faults: Faults, own: List[PlaceNumber], begin: Microseconds) -> bool:
    """Whether no pulse of another frame reaches into this one, or is taken away with it."""
    track, end = faults.track, begin + ELEMENTS * faults.clock.interval
    before, after = bisect_left(faults.rises, begin) - 1, bisect_left(faults.rises, end)
    if before >= 0 and (faults.falls[before] >= begin or before in track.pulses_at(own[0])):
        return False
    return own[-1] == track.last or after <= min(track.pulses_at(plus(own[-1], 1)), default=after)


def _as_generated(faults: Faults, place: PlaceNumber, begin: Microseconds) -> bool:
    """Whether the pulse of a place is, or is to be, just as `regen` writes it."""
    element, track = place % ELEMENTS, faults.track
    pulses, due = track.pulses_at(place), begin + element * faults.clock.interval
    told = faults.wanted.get(place, faults.times.texts[frame_of(place)][element])
    if told not in "01P" or (element in faults.layout.unused and told != "0"):
        return False
    if place in faults.wanted:
        reaches_beyond = pulses and element + track.spans(place, pulses[-1]) >= ELEMENTS
        return not reaches_beyond and track.rise_at(place) == due
    return faults.rises[pulses[0]] == due and faults.width_of(pulses[0]) == faults.width(told, place)


class _Lost(NamedTuple):
    """A frame that a `regen` writes."""

    number: FrameNumber
    rise: Microseconds
    shown: Tuple[int, Optional[Base], bool]  # the control functions, the base, and whether a leap second is over


def lost_frames(faults: Faults) -> List[Item]:
    """Whole frames that are generated again; their places are then not repaired one by one."""
    found: List[_Lost] = []
    for number in sorted({frame_of(place) for place in faults.wanted}):
        moment = faults.times.moment(number)
        if moment is None or not _can_generate(faults, number):
            continue
        rise, base = faults.track.rise_at(place_in(number)), faults.times.bases[number]
        found.append(_Lost(number, rise, (_control_of(faults, number), base, faults.times.calendar.after_leap(moment))))
    frame = ELEMENTS * faults.clock.interval
    groups = grouped(found, lambda one, other: other != _Lost(plus(one.number, 1), plus(one.rise, round(frame)), one.shown))
    return [_generate(faults, group) for group in groups]


def as_elsewhere(faults: Faults, places: Sequence[PlaceNumber]) -> str:
    """Which other recording decides some of these places, from the first of them on."""
    found = [place for place in places if place in faults.by_others]
    if not found:
        return ""
    sources = faults.elsewhere.sources(frame_of(found[0]), found[0] % ELEMENTS, faults.wanted[found[0]])
    return ", or is as recorded in " + sources + " and later" * (len(found) > 1)


def _generate(faults: Faults, frames: List[_Lost]) -> Item:
    """Frames one after the other, with the same control functions and the same base."""
    first, many = frames[0], len(frames)
    own = through(place_in(first.number), place_in(first.number, ELEMENTS * many - 1))
    lost = {place: faults.wanted[place] for place in own if place in faults.wanted}
    moment = faults.times.moment(first.number)
    assert moment is not None
    values = first.rise, many, faults.times.calendar.text(moment)
    why = "%d elements of %d frame(s) from %d on are lost or damaged; the frames around them lead to %s" % (
        len(lost), many, first.rise, faults.times.name(first.number))
    control = ["%x" % first.shown[0]] if first.shown[0] else []
    if control:
        why += " and to the control functions 0x" + control[0]
    elsewhere = as_elsewhere(faults, own)
    if elsewhere:
        why += "; what no frame around them says" + elsewhere.replace(", or is", " is")
    guessed = sorted({place % ELEMENTS for place in faults.guesses if own[0] <= place <= own[-1]})
    if guessed:
        why += "; guesses are the control elements %s" % ", ".join(map(str, guessed))
    return Item(own[0], own[-1], [Edit("regen", (*values, *control))], why, targets=lost, kind=DamageKind.STRETCH, is_guess=bool(guessed))
