"""A stretch that was cut out, or is there twice: how long it is by the times on both sides, and the repair of a copy."""
from __future__ import annotations

from bisect import bisect_left
from dataclasses import replace
from itertools import accumulate
from typing import Dict, Iterable, List, NamedTuple, Optional, Tuple

from . import limits
from .concern import ends_of_pulses
from .edit import moved_rest, of_pulses, repair_of
from .frames import Times
from .interval import Run
from .kinds import DamageKind
from .script import Repair
from .spans import Span
from .track import Track
from .units import ELEMENTS, PulseIndex, frame_of, place_in, plus
from .zones import Zone


class Again(NamedTuple):
    """A stretch that is as the one before it."""

    first: PulseIndex
    many: int  # elements
    within: bool = True  # whether it begins within a frame for sure; else the clock may have been set back


def settled(track: Track, times: Times) -> List[Run]:
    """The runs, moved on by whole frames if a rest came more than a frame late: the times on both sides say how many
    frames were really lost."""
    gone: Dict[PulseIndex, int] = {}  # by the first pulse of a run
    on: Dict[PulseIndex, int] = {}  # how many places it is moved on, with all that follow
    stretches = track.stretches()
    for left, right in zip(stretches, stretches[1:]):
        frames, skipped = times.frames_between(left, right), track.zone_before(right[0]).skipped()
        if frames is not None and skipped + ELEMENTS * frames > 0:
            gone[right[0].first] = skipped + ELEMENTS * frames
            if frames and skipped + ELEMENTS * frames <= limits.LONGEST_CUT:
                on[right[0].first] = ELEMENTS * frames
    on = on or _late_frames(track, times)
    moved, found = 0, []
    for run in track.runs:
        by = on.get(run.first, 0)
        moved += by
        late, place = run.late - by * track.clock.interval, plus(run.place, moved)
        found.append(replace(run, gone=gone.get(run.first, run.gone), step=run.step + by, late=late, place=place))
    return found


def _late_frames(track: Track, times: Times) -> Dict[PulseIndex, int]:
    """By how many places the runs are moved on, by their first pulse, if whole frames were taken for lost."""
    found: Dict[PulseIndex, int] = {}
    for before, after in zip(times.spans, times.spans[1:]):
        frames = times.calendar.apart(after.base, before.base) // track.layout.period
        between = [
            zone for zone in track.zones if before.last <= frame_of(zone.first) and frame_of(zone.last) <= after.first
        ]
        rights = [zone.right for zone in between if zone.right and not zone.right.glued]
        late = [run for run in rights if run.step > ELEMENTS * frames > 0]
        if late:
            found[late[-1].first] = -ELEMENTS * frames
    return found


def _counted(pairs: Iterable[Tuple[str, str]]) -> Tuple[List[int], List[int]]:
    """How many pairs of classes differ before each, and how many are alike."""
    known = [(a, b, a in "01P" and b in "01P") for a, b in pairs]
    unlike = list(accumulate((a != b and both for a, b, both in known), initial=0))
    return unlike, list(accumulate((a == b and both for a, b, both in known), initial=0))


def _copied(track: Track, zone: Zone, many: int) -> Optional[PulseIndex]:
    """The first pulse of the stretch of that many elements that is as the one before it, near a glued run."""
    right, straight = zone.right, zone.straight()
    assert right and zone.left
    first, place = right.first, right.place
    shift, dense = zone.left.last_place + straight, first - zone.left.last == straight
    low, high = (1 - straight - zone.tail, zone.head) if dense else (0, 0)

    def told(offset: int) -> str:
        """The class that many elements after the first of the right run."""
        if -straight < offset < 0:
            return track.classes[first + offset] if dense else "?"
        at = (place if offset >= 0 else shift) + offset - track.first
        return track.told[at] if 0 <= at < len(track.told) else "~"

    unlike, alike = _counted((told(at - many), told(at)) for at in range(low, high + many))
    faults, at = min((unlike[at + many] - unlike[at], at) for at in range(high - low + 1))
    fit, same = many // limits.UNLIKE_IN_COPY, many // limits.ALIKE_IN_COPY
    is_copy = faults <= fit and alike[at + many] - alike[at] >= same
    return plus(first, low + at) if is_copy else None


def again_within(track: Track, times: Times, before: Span, after: Span) -> Optional[Again]:
    """Whether the times of two spans say that whole frames are there twice, and the elements do; None if they do not."""
    many = ELEMENTS * times.calendar.apart(after.base, before.base) // track.layout.period
    low = max(place_in(before.last), plus(track.first, many))
    high = min(place_in(after.first, ELEMENTS - 1), plus(track.last, -many))
    if many <= 0 or low >= high or max(many, high - low) > limits.LONGEST_CUT:
        return None
    text, begin = track.told, low - track.first
    unlike, _ = _counted(zip(text[begin - many:], text[begin:high + many + 1 - track.first]))
    faults = [there - here for here, there in zip(unlike, unlike[many:])]
    least = min(faults)
    place = plus(low, faults.index(least))
    first, rest = track.pulses_at(place), track.pulses_at(plus(place, many))
    if least > many // limits.UNLIKE_IN_COPY or len(first) != 1 or len(rest) != 1 or rest[0] - first[0] != many:
        return None
    return Again(first[0], many, min(faults[-low % ELEMENTS:: ELEMENTS], default=9) > least + 1)


def without_copy(track: Track, again: Optional[Again]) -> Optional[Repair]:
    """The repair that takes a stretch out; None if there is none, or if the rest does not follow it."""
    if not again:
        return None
    many, begin, by = again.many, track.rises[again.first], round(again.many * track.clock.interval)
    after = bisect_left(track.rises, begin + by - limits.BEFORE_ITS_RISE * track.clock.interval)
    if after == len(track.rises):
        return None
    if abs(track.rises[after] - begin - by) <= track.clock.slack(many):
        by = track.rises[after] - begin
    why = (
        "the %d elements from %d on are there twice: at %d the times begin again; the second are deleted, "
        "and the rest goes back by %d" % (many, begin - by, begin, by)
    )
    own = again.first, PulseIndex(after - 1)
    edits = [of_pulses("delete", *own), moved_rest(again.first, -by)]
    return repair_of(DamageKind.TWICE, begin, [why], edits, removed=by, concern=ends_of_pulses(*own))


def copy_between(track: Track, times: Times, left: List[Run], right: List[Run]) -> Optional[Again]:
    """The stretch that is as the one before it, between these runs; None if there is none."""
    frames, zone = times.frames_between(left, right), track.zone_before(right[0])
    many = 0 if frames is None else -zone.skipped() - ELEMENTS * frames
    first = _copied(track, zone, many) if 0 < many <= limits.LONGEST_CUT else None
    return None if first is None else Again(first, many)


def take_out(track: Track, times: Times) -> List[Repair]:
    """The repairs that take out what is there twice, from the end to the beginning."""
    spans, stretches = zip(times.spans, times.spans[1:]), track.stretches()
    found = [again_within(track, times, *pair) for pair in spans if not track.is_glued(pair[0].last, pair[1].first)]
    found += [copy_between(track, times, *pair) for pair in zip(stretches, stretches[1:])]
    repairs, done = [], len(track.rises)
    for again in sorted((each for each in found if each and each.within), reverse=True):
        repair = without_copy(track, again) if again.first + again.many <= done else None
        if repair:
            repairs.append(repair)
            done = again.first - again.many
    return repairs
