"""What is said of a track apart from its faulty places: what nothing decides, and what no edit repairs."""
from __future__ import annotations

from collections import Counter
from operator import itemgetter
from typing import List, Optional

from . import limits
from .concern import of_frame, ends_of_pulses
from .copies import again_within, without_copy
from .faults import Remark
from .frames import Times
from .interval import Run
from .kinds import DamageKind
from .moments import SECOND
from .other_code import ONE_SECOND, OtherCode, named
from .spans import Span
from .track import Track
from .units import ELEMENTS, place_in
from .zones import Zone

LEFT_CONTROL = "they are left; irig_mend --steady takes them for damage"
LEFT_VAGUE = "they are left"
LEFT_OTHER = "it is left, and so are the elements of this code that are missing there"
LEFT_CUT = "that is left, as a track cannot be made longer"
LEFT_SET = "that is left, and each side is mended by its own times"
OTHER_EXPRESSION = "is it another expression?"
CAUSES_OF_LATER = "a stretch was cut out and the rest moved, or the clock was set, or the recorder stopped"
CAUSES_OF_EARLIER = "a stretch is there twice, or the clock was set"


def remarks(track: Track, times: Times) -> List[Remark]:
    found = _of_expression(track, times) + _of_elsewhere(track)
    found += [_of_other(track, zone.other) for zone in track.zones if zone.other]
    found += [_of_vague(track, zone) for zone in track.zones if zone.vague]
    stretches = track.stretches()
    found += [_of_cut(track, times, *pair) for pair in zip(stretches, stretches[1:])]
    for before, after in zip(times.spans, times.spans[1:]):
        if not track.is_glued(before.last, after.first):
            found.append(_of_times(track, times, before, after))
    return found + _of_control(track, times)


def of_no_frame(track: Track) -> Remark:
    """What is said if no part of the recording has a frame that can be read; the track is its first part."""
    seen = "no frame can be read with expression %d, and only position identifiers are looked at" % track.layout.expression
    return _another(track, seen)


def _another(track: Track, seen: str) -> Remark:
    return Remark(track.rises[track.runs[0].first], seen, OTHER_EXPRESSION, kind=DamageKind.FORMAT, is_question=True)


def _of_expression(track: Track, times: Times) -> List[Remark]:
    seen = "many frames have ones that expression %d does not use" % track.layout.expression
    return [_another(track, seen)] if times.doubtful else []


def _of_elsewhere(track: Track) -> List[Remark]:
    """Pulses at an end that have another phase, and are too few to say which."""
    first, last = track.runs[0], track.runs[-1]
    ends = ((first, "<", "before", first.first), (last, ">", "after", last.last))
    seen = "%s that the position identifiers are elsewhere, and too few to say where"
    choice = "a stretch is missing or is there twice; these pulses are left"
    return [Remark(track.rises[pulse], seen % word, choice) for run, sign, word, pulse in ends if sign in run.ends]


def clock_was_set(seconds: float) -> str:
    """What is seen if the times of the frames go on far away. If they are later, the recorder can have stopped for as long, and its clock
    with it; no time that goes back is from that."""
    way, cause = ("later", "the clock was set, or the recorder stopped") if seconds > 0 else ("earlier", "the clock was set")
    return "from this frame on the times are %.2f seconds %s than the frames before lead to: %s" % (abs(seconds), way, cause)


def missing(zone: Zone, many: Optional[int]) -> str:
    """What is seen if a glued run follows; None if the times of the frames do not say how many elements are missing."""
    if many is None:
        said = "%d elements are missing, not counting whole frames" % (zone.skipped() % ELEMENTS)
    else:
        said = "%d elements are missing by the times of the frames" % many
    return said + ", and the rest follows at once"


def _of_other(track: Track, other: OtherCode) -> Remark:
    """Pulses in a hole that are not of this code."""
    return Remark(track.rises[other.first], named(other, track.falls[other.last]), LEFT_OTHER, kind=DamageKind.FORMAT,
                  concern=ends_of_pulses(other.first, other.last))


def _of_vague(track: Track, zone: Zone) -> Remark:
    """A long hole on a clock that wanders."""
    places = zone.inner()
    seen = "%d elements are lost or damaged from there to %d, and the clock wanders: they can be %.3g milliseconds off what both sides say"
    said = seen % (len(places), track.rise_at(zone.last), zone.vague / 1000)
    return Remark(track.rise_at(places[0]), said, LEFT_VAGUE, kind=DamageKind.STRETCH)


def _of_cut(track: Track, times: Times, left: List[Run], right: List[Run]) -> Remark:
    """Between two stretches elements are missing, or the clock was set."""
    zone, frames, at = track.zone_before(right[0]), times.frames_between(left, right), track.rises[right[0].first]
    many = 0 if frames is None else zone.skipped() + ELEMENTS * frames
    if abs(many) > limits.LONGEST_CUT:
        return Remark(at, clock_was_set(many * zone.clock.nominal / ONE_SECOND), LEFT_SET, kind=DamageKind.TIMES)
    return Remark(at, missing(zone, right[0].gone or None), LEFT_CUT, kind=DamageKind.CUT)


def _of_times(track: Track, times: Times, before: Span, after: Span) -> Remark:
    """The times of the frames go on elsewhere."""
    apart = times.calendar.apart(before.base, after.base) / SECOND
    way, causes = ("later", CAUSES_OF_LATER) if apart > 0 else ("earlier", CAUSES_OF_EARLIER)
    seen = "from this frame on the times are %.2f seconds %s than the frames before lead to" % (abs(apart), way)
    choice = "either " + causes
    repair = without_copy(track, again_within(track, times, before, after))
    if repair:
        choice += "; if it is there twice, this takes the second out: " + "; ".join(repair.edits)
    return Remark(track.rise_at(place_in(after.first)), seen, choice, kind=DamageKind.TIMES)


def _of_control(track: Track, times: Times) -> List[Remark]:
    """Names the frames whose control functions are like those of no other frame, if most are alike. If many of the first or the last frame
    are, they change there: nothing beyond it shows that, and damage would seldom leave a nominal width to each of them."""
    elements = [each for each in track.layout.control if not times.rule or each > times.rule.element]  # the others it confirms
    if not elements or not times.sound:
        return []
    control = itemgetter(*elements)
    told = [(number, control(times.texts[number])) for number in sorted(times.sound)]
    often = Counter(value for _, value in told)
    usual, many = often.most_common(1)[0]
    if many < limits.MOSTLY * len(told) - 1:
        return []
    found = []
    for number, value in told:
        if often[value] == 1 and value != usual:
            unlike = [each for each, a, b in zip(elements, value, usual) if a != b]
            if len(unlike) > limits.MOST_CONTRARY and number in (told[0][0], told[-1][0]):
                continue
            seen = "%s, element %s: control functions that no other frame has" % (
                times.name(number), ", ".join(map(str, unlike)))
            at, concern = track.rise_at(place_in(number, unlike[0])), of_frame(times.shown(number), unlike)
            found.append(Remark(at, seen, LEFT_CONTROL, kind=DamageKind.CONTROL, concern=concern))
    return found
