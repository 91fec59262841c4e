"""What the first look at a recording finds, step by step: the clock, the runs with their costs, the frames with their votes,
and the places. docs/METHOD.md has the words."""
from __future__ import annotations

from typing import Iterator, List

from .analysis import Findings, Part
from .editor import Listing
from .frames import Times
from .interval import Clock
from .layout import NAMES
from .units import FrameNumber, number_of, plus


def explained(listing: Listing, findings: Findings) -> List[str]:
    lines = ["%d pulses in %d microseconds" % (len(listing.rises), listing.length)]
    lines += ["the whole recording: " + repair.comments[0] for repair in findings.whole]
    if findings.clock:
        lines.append(_clock_line(findings.clock))
    lines += ["remark: at %d: %s" % (remark.at, remark.seen) for remark in findings.remarks]
    for number, part in enumerate(reversed(findings.parts), 1):
        lines.append("part %d of %d" % (number, len(findings.parts)))
        lines += [*_run_lines(part), *_frame_lines(part.times), *_place_lines(part)]
    return lines


def _clock_line(clock: Clock) -> str:
    return ("clock: interval %.2f of %d, noise %.1f%s; in step within %.0f, a step from %.0f on, doubt %.3f an interval"
            % (clock.interval, clock.nominal, clock.noise, ", exact" if clock.exact else "", clock.margin,
               clock.least_step, clock.doubt))


def _run_lines(part: Part) -> Iterator[str]:
    before = 0.0
    for run in part.track.runs:
        glued = ", glued" if run.glued else ""
        others = ", or from element " + " or ".join(map(str, run.others)) if run.others else ""
        yield "run: pulses %d to %d, places %d to %d; step %d%s, %.0f late; cost %.1f, and %.1f in all; lead %.1f%s" % (
            number_of(run.first), number_of(run.last), run.place, run.last_place, run.step, glued, run.late,
            run.cost - before, run.cost, run.lead, others)
        before = run.cost


def _frame_lines(times: Times) -> Iterator[str]:
    for span in times.spans:
        yield "frames %d to %d: base %d, frame 0 at %s" % (
            span.first, span.last, span.base, times.calendar.name(span.base))
    for number, text in times.texts.items():
        if number not in times.sound:
            own = "reads base %d" % times.own[number] if number in times.own else "not read"
            yield "frame %d: %s, %s; %s" % (number, text, own, _votes(times, number))


def _votes(times: Times, number: FrameNumber) -> str:
    """How its elements vote on each base that a span has."""
    bases = sorted({span.base for span in times.spans})
    votes = [(base, *times.counted(number, base)) for base in bases]
    said = ["%d votes on base %d, %d of them against it" % (agree + differ, base, differ) for base, agree, differ in votes]
    return ", ".join(said) or "no base"


def _place_lines(part: Part) -> Iterator[str]:
    """What is wanted at each faulty place; those without a pulse one after the other are one line."""
    faults, track, lost = part.faults, part.track, ""
    for place, name in sorted(faults.wanted.items()):
        after = plus(place, 1)
        lost += name
        if track.pulses_at(place):
            guess = ", a guess" if place in faults.guesses else ""
            yield "place %d, at %d: %s; %s is wanted%s" % (
                place, track.rise_at(place), faults.seen(place), NAMES[name], guess)
            lost = ""
        elif after not in faults.wanted or track.pulses_at(after):
            first = plus(after, -len(lost))
            yield "places %d to %d, from %d on: no pulse; wanted are %s" % (first, place, track.rise_at(first), lost)
            lost = ""
