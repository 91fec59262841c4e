"""Elements of two frames, between which others were cut out, that read as one frame of another time."""
from __future__ import annotations

from typing import List, Optional

from .edit import of_pulse
from .edits import Item
from .faults import Faults
from .layout import READABLE
from .units import ELEMENTS, PlaceNumber, PulseIndex, frame_of, place_in, plus, through
from .zones import Zone


def misread(faults: Faults) -> List[Item]:
    """Takes out the first pulse of each such frame that is not of the time of its marker, so that no time is
    read there."""
    found = []
    for zone in faults.track.zones:
        for marker in _markers(faults, zone):
            other = _other(faults, zone, marker)
            if other is not None:
                found.append(_broken(faults, _place_by_count(zone, other), marker, other))
    return found


def _markers(faults: Faults, zone: Zone) -> List[PulseIndex]:
    """The pulses of a run with which a frame begins that can be read, and that ends after the run."""
    left, right, classes = zone.left, zone.right, faults.track.classes
    if not (left and right and right.glued and right.first - left.last == zone.straight()):
        return []
    near = through(max(plus(left.first, 1), plus(left.last, -98)), left.last)
    return [pulse for pulse in near if classes[pulse - 1] == "P" and READABLE.fullmatch(classes, pulse, pulse + ELEMENTS)]


def _place_by_count(zone: Zone, pulse: PulseIndex) -> PlaceNumber:
    """Its place if nothing were missing."""
    assert zone.left
    return plus(zone.left.place, pulse - zone.left.first)


def _other(faults: Faults, zone: Zone, marker: PulseIndex) -> Optional[PulseIndex]:
    """The first pulse, in a frame that shows a time, that is not of the time that its neighbours lead to."""
    text, number = faults.track.classes[marker:marker + ELEMENTS], frame_of(_place_by_count(zone, marker))
    moment = faults.times.moment(number)
    if faults.layout.decode(text) is None or moment is None:
        return None
    due = faults.layout.encode(faults.times.calendar.fields(moment))
    unlike = [each for each in faults.layout.carried if text[each] != due[each]]
    if not unlike or any(place_in(number, each) in faults.wanted for each in unlike):  # is repaired first
        return None
    return plus(marker, unlike[0])


def _broken(faults: Faults, place: PlaceNumber, marker: PulseIndex, other: PulseIndex) -> Item:
    why = (
        "%s, pulse %d: elements are missing before it, so from pulse %d on pieces of two frames read as one frame with a wrong "
        "time; pulse %d is deleted, so that this frame is broken"
        % (faults.name(place), other + 1, marker + 1, other + 1)
    )
    return Item(place, place, [of_pulse("delete", other)], why)
