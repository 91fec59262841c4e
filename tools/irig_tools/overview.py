"""A recording, its damage and its repairs as the data that a page or a picture shows."""
from __future__ import annotations

import time
from bisect import bisect_left
from collections import Counter
from dataclasses import replace
from typing import Dict, Iterator, List, Optional, Sequence, Tuple

from .analysis import Findings, Part
from .became import Became, became_of, moved_back, moved_by
from .damage import THE_WHOLE, Damage, Seen
from .editor import Listing
from .escapes import in_line
from .kinds import DamageKind
from .moments import DAY, SECOND
from .repairs import OFF_HERE
from .script import Repair
from .sheet import DAMAGED, LOST, SOUND, STATES, Changes, Place, Sheet, Stretch, Wave, cut, merged
from .spans import Span
from .steps import cut_by_a_step
from .texts import seconds
from .units import ELEMENTS, FrameNumber, PlaceNumber, frame_of, place_in, plus
from .version import version

AROUND = 4  # intervals that are shown on both sides of a place
MOST_KNOWN = 1000  # times whose time of day is on a page
HUNDREDTH = 10000  # microseconds


def sheet_of(name: str, wire: str, seen: Seen, script: Sequence[Repair] = (), after: Optional[Listing] = None,
             changes: Optional[Changes] = None, there: Sequence[Damage] = ()) -> Sheet:
    """The data of a wire of a recording; `after` is the listing after the script, or after what was made of it, with its changes and
    what is still damaged then."""
    layout = seen.findings.layout
    found = [each for each in seen.damages if not each.is_remark]
    lines = tuple(line for repair in script for line in repair.lines())
    kind = "%s %d" % (layout.kind, layout.expression)
    said = tuple(note_of(each) for each in seen.damages if each.is_remark or each.name == THE_WHOLE)
    if changes and after:
        became = became_of(found, there, script, ELEMENTS * layout.interval)
        places = sorted(_places_after(seen, became, script, after), key=lambda place: place.at)
    else:
        places = [_place_of_damage(seen, each, script, after) for each in found]
    stretches = _stretches(seen.findings, seen.listing)
    return Sheet(name, seen.listing.length, layout.interval, kind, stretches, tuple(places), lines, said, changes, wire=wire,
                 span=_span_of_times(seen), clock=tuple(_clock_of(seen)))


def note_of(damage: Damage) -> str:
    """What a page says of the whole recording, or of silence at an end of it: a line of a tool has its time first, in microseconds."""
    is_silence = damage.kind == DamageKind.SILENCE
    return "no pulse from %s to %s" % (seconds(damage.at), seconds(damage.until)) if is_silence else damage.seen


def of_program(sheet: Sheet, program: str, summary: str) -> Sheet:
    """The data with what a program says of it, its version and the date."""
    made = "by %s %s on %s" % (program, version(), time.strftime("%Y-%m-%d at %H:%M"))
    return replace(sheet, summary=in_line(summary), made=made)


def _span_of_times(seen: Seen) -> str:
    """The times of the first and of the last frame that has one."""
    names = [part.times.calendar.name(moment) for part in reversed(seen.findings.parts) for number in part.times.texts
             for moment in [part.times.moment(number)] if moment is not None]
    return "%s to %s" % (names[0], names[-1]) if names else ""


def _clock_of(seen: Seen) -> Iterator[Tuple[int, ...]]:
    """The time of day, stretch by stretch: some times, each with the microsecond of the day. In a stretch the times go on; a leap
    second parts two."""
    spans = [(part, span) for part in reversed(seen.findings.parts) for span in part.times.spans]
    every = max(1, sum(span.last - span.first + 1 for _, span in spans) // MOST_KNOWN)
    for part, span in spans:
        track, element = part.track, part.times.layout.period * HUNDREDTH // ELEMENTS
        numbers = (*range(span.first, span.last + 1, every), span.last + 1)
        found: List[int] = []
        last = place_in(span.first)
        for place in sorted({track.within(place_in(FrameNumber(number))) for number in numbers}):
            day = _of_day(part, span, place) + element * (place % ELEMENTS)
            if found and (day - found[-1] - element * (place - last)) % (DAY * HUNDREDTH):
                yield tuple(found)
                found = []
            found += [track.rise_at(place), day]
            last = place
        if len(found) > 2:
            yield tuple(found)


def _of_day(part: Part, span: Span, place: PlaceNumber) -> int:
    """The microsecond of the day at which the frame of a place begins."""
    calendar = part.times.calendar
    told = calendar.fields(calendar.moment(frame_of(place), span.base))
    hundredths = SECOND * (3600 * told["hours"] + 60 * told["minutes"] + told["seconds"]) + told["hundredths"]
    return HUNDREDTH * hundredths % (DAY * HUNDREDTH)


def _places_after(seen: Seen, became: Became, script: Sequence[Repair], after: Listing) -> Iterator[Place]:
    """The places of a repair that was made: those that are repaired, as they were found, and those that are damaged now, or of which a
    comment says that nothing decides them, as they are now. All are at their times in the recording."""
    moves = sorted(move for repair in script for move in repair.moves)
    found = {(each.name, each.seen) for each in seen.damages}
    for damage in became.repaired:
        place = _place_of_damage(seen, damage, script, after)
        yield replace(place, after=place.after or _wave_after(seen, after, place.at, place.end, moved_by(place.at, moves)), is_left=False)
    for damage in became.there:
        moved = moved_back(damage.at, moves)
        own = replace(damage, at=damage.at - moved, until=max(damage.at, damage.until) - moved)
        place = _place_of_damage(seen, own, [each for each in script if not each.edits], None)
        now = _wave_after(seen, after, place.at, place.end, moved)
        said = place.reason if (own.name, own.seen) in found else "after the repair: " + place.reason
        yield replace(place, reason=said, after=None if now == place.before else now)
    for repair in became.comments:
        begin = repair.at - moved_back(repair.at, moves)
        end = max(begin, repair.until)
        yield Place(begin, end, "undecided", repair.undecided[0], _wave(seen, seen.listing, begin, end), is_left=True,
                    lines=tuple(repair.lines()))


def _wave(seen: Seen, listing: Listing, start: int, end: int) -> Wave:
    """The pulses of a listing in some time and around it."""
    around = AROUND * seen.findings.layout.interval
    return cut(listing.rises, listing.falls, listing.classes, start - around, end + around)


def _wave_after(seen: Seen, after: Listing, start: int, end: int, moved: int) -> Wave:
    """The same after the script, which has moved all that, at the times of the recording."""
    around = AROUND * seen.findings.layout.interval
    start, end = max(0, start - around), min(seen.listing.length, end + around)
    cut_out = cut(after.rises, after.falls, after.classes, start + moved, end + moved)
    return tuple((rise - moved, fall - moved, name) for rise, fall, name in cut_out)


def _place_of_damage(seen: Seen, damage: Damage, script: Sequence[Repair], after: Optional[Listing]) -> Place:
    """A place; if the script repairs it also its pulses after it, else it is left."""
    until = max(damage.until, damage.at)
    repairs = [each for each in script if each.touches(damage.at, damage.at)]
    lines = tuple(line for repair in repairs[:1] for line in repair.lines())
    wave: Optional[Wave] = None
    if after and repairs and repairs[0].edits:
        wave = _wave_after(seen, after, damage.at, until, moved_by(damage.at, [move for repair in script for move in repair.moves]))
    off = "".join("; " + OFF_HERE % (each.off / 1000) for each in repairs[:1] if each.off)
    before = _wave(seen, seen.listing, damage.at, until)
    return Place(damage.at, until, damage.seen.partition(";")[0], damage.seen + off, before, wave, lines, damage.name, wave is None)


def _stretches(findings: Findings, listing: Listing) -> Tuple[Stretch, ...]:
    """All from the first frame to the last, each microsecond once. An element lasts up to the next part at most."""
    found: List[Stretch] = []
    for stretch in (each for part in reversed(findings.parts) for each in _frame_stretches(part, listing.length)):
        begin = max(stretch.start, found[-1].start) if found else stretch.start
        if found and begin < found[-1].end:
            found[-1] = replace(found[-1], end=begin)
        elif found:
            found += _between_parts(listing, found[-1].end, begin, findings.layout.interval)
        found.append(replace(stretch, start=begin))
    return merged(found) if found else (Stretch(0, listing.length, DAMAGED),)


def _between_parts(listing: Listing, begin: int, end: int, interval: int) -> Iterator[Stretch]:
    """What is between two parts, as long as a frame each, but the last one. As of a frame, it is lost if more than half of the elements
    have no pulse."""
    for start in range(begin, end, ELEMENTS * interval):
        beyond = min(end, start + ELEMENTS * interval)
        pulses = bisect_left(listing.rises, beyond) - bisect_left(listing.rises, start)
        state = LOST if 2 * pulses * interval < beyond - start else DAMAGED
        yield Stretch(start, beyond, state)


def lasting_of(findings: Findings, listing: Listing, turned: Sequence[Tuple[int, int]] = ()) -> Dict[str, int]:
    """For how many microseconds a recording is in each state. What is sound in these stretches is damaged: they were upside down before."""
    found = dict.fromkeys(STATES, 0)
    for stretch in _stretches(findings, listing):
        spoilt = sum(max(0, min(end, stretch.end) - max(start, stretch.start)) for start, end in turned)
        found[stretch.state] += stretch.end - stretch.start
        if stretch.state == SOUND:
            found[SOUND] -= spoilt
            found[DAMAGED] += spoilt
    return found


def _frame_stretches(part: Part, length: int) -> Iterator[Stretch]:
    """A stretch for each frame. The last element that is there lasts an interval, in a recording of this length."""
    track, done = part.track, part.track.rise_at(part.track.first)
    empty = Counter(frame_of(place) for place in part.faults.wanted if not track.pulses_at(place))
    damaged = {*map(frame_of, part.faults.wanted), *cut_by_a_step(track)}
    undecided = [remark.at for remark in part.remarks + part.faults.remarks]
    for number in track.frames():
        start, end = (track.rise_at(track.within(place_in(number, element))) for element in (0, ELEMENTS))
        if place_in(number, ELEMENTS) > track.last:
            end = plus(end, min(round(part.faults.clock.interval), max(0, length - end)))
        is_damaged = number in damaged or any(start <= at < end for at in undecided)
        start = max(start, done)
        if start < end:
            yield Stretch(start, end, LOST if empty[number] > 50 else DAMAGED if is_damaged else SOUND)
            done = end
