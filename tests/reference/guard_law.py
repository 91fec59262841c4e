"""The law of the guard: what a script may do to a recording.

Each moment of the result has the time that is known of it: the one that it has in the recording; if it has none there, the one that is sure
by the explanation of the recording (`known`). What is kept takes no time away. Each pulse that the recording shows in step has one in its
place, and each pulse that is not recorded is an element whose class is known. A control function that nothing shows is said to be a guess.
So a repair adds nothing: it writes as clean code what the recording says. `law` has the times, `explained` what is sure.

What is kept is not judged again. A recording is the first state of a session, and what a script goes on from is kept.
"""
from bisect import bisect_left, bisect_right
from fractions import Fraction
from functools import lru_cache
from typing import Iterator, List, NamedTuple, Optional, Sequence, Set, Tuple

from reference import guard, machine, timecode, times
from reference.known import NEAR, Recorded
from reference.law import WIDEST, Law, Moment
from reference.reading import Move

JUST = Fraction(1, 1_000_000)  # microseconds: a moment just before a rise
RESOLUTION = 1  # microseconds: of rises
READ = 16  # an element is read as a class if the other one costs that much more: as also `explained` knows a class
LOST, OTHER = "the moment %d would have no time", "the moment %d would have another time"
UNSURE = "the moment %d would have a time that is not sure"
GONE = "the pulse at %d is in step, and would be gone"
ADDED, DENIED = "the pulse at %d would be no element that is sure", "the pulse at %d would be of another class than is sure"
GUESSED = "the class of the pulse at %d is a guess"


class Span(NamedTuple):
    """Between two neighbouring pulses with a time, if moments between them have one: when they rise, and what the line is."""

    begin: int
    end: int
    first: Tuple[times.Time, int]  # the frame of the code, by its time, and the element
    many: int  # elements
    bound: Fraction


@lru_cache(4)
def spans(law: Law) -> Set[Span]:
    """All of them: where two recordings have the same, they have the same times."""
    found = set()
    for one, other in zip(law.places, law.places[1:]):
        many = law.elements_between(one, other)
        bound = law.bound(one, other, many) if many else None
        if bound is not None and bound <= WIDEST:
            found.add(Span(law.rises[one], law.rises[other], law.element_of(law.points[one]), many, bound))
    return found


class Safety:
    """What a recording says, and whether a result says the same. `others` are recordings of the same code; `moves` is what a
    script moves."""

    def __init__(self, opened: machine.State, others: Sequence[machine.State] = ()) -> None:
        self.opened, self.interval = opened, opened.interval()
        self.recorded = Recorded(opened)
        self.law = self.recorded.law
        self.others = [Recorded(other._replace(kind=opened.kind, expression=opened.expression)) for other in others]
        fields = timecode.layout(opened.kind, opened.expression)
        self.controls, self.years = ([element for digit in fields.get(name, []) for element, _ in digit] for name in ("control", "year"))

    @lru_cache(8)
    def read(self, moves: Tuple[Move, ...]) -> Recorded:
        """The recording after some moves."""
        return Recorded(self.opened, moves) if moves else self.recorded

    def fault(self, before: Law, now: Law, moves: Tuple[Move, ...] = ()) -> Optional[str]:
        """Why a result cannot be kept, if `before` is that of what was kept; None if it can be."""
        return next(self.faults(self.read(moves), before, now), None)

    def faults(self, recorded: Recorded, before: Law, now: Law) -> Iterator[str]:
        yield from self.gone(recorded, before, now)
        yield from self.added(recorded, before, now)
        yield from self.wrong_times(recorded, before, now)

    # ---- times

    def wrong_times(self, recorded: Recorded, before: Law, now: Law) -> Iterator[str]:
        """Each moment whose time cannot be what it is now."""
        changed = spans(before) ^ spans(now)
        for moment in self.moments(recorded, changed, now):
            why = self.wrong_time(recorded, moment, before, now)
            if why:
                yield why % int(moment)

    def moments(self, recorded: Recorded, changed: Set[Span], now: Law) -> List[Fraction]:
        """The moments at which times can begin to differ within some spans, and those just before them: between two of them each time is
        on one line."""
        rises = sorted({*recorded.rises, *now.rises, *(end for span in changed for end in span[:2])})
        found: Set[Fraction] = set()
        for span in changed:
            found.update(map(Fraction, rises[bisect_left(rises, span.begin):bisect_left(rises, span.end)]))
            found.update(rise - JUST for rise in rises[bisect_right(rises, span.begin):bisect_right(rises, span.end)])
        return sorted(found)

    def wrong_time(self, recorded: Recorded, moment: Fraction, before: Law, now: Law) -> Optional[str]:
        new = now.time_at(moment)
        if new is None:
            was = recorded.own(moment) if recorded is not self.recorded else before.time_at(moment)
            return LOST if was else None
        told = recorded.known(moment)
        if told is None:
            return None if self.is_at_end(recorded, moment) else UNSURE
        return None if apart(told.time, new.time) <= told.off + off(now, new) else OTHER

    def is_at_end(self, recorded: Recorded, moment: Fraction) -> bool:
        """Whether a moment is in the first or the last step of the recording, and that is in step: a recording begins and ends within an
        element, so its first pulse and its last one can look like none. But time goes on."""
        rises, in_step = recorded.rises, self.law.in_step
        return len(rises) > 1 and (in_step[1] and rises[0] <= moment < rises[1] or in_step[-1] and rises[-2] <= moment < rises[-1])

    # ---- pulses

    def gone(self, recorded: Recorded, before: Law, now: Law) -> Iterator[str]:
        """The recorded pulses that are in step, and in whose place none is any more."""
        for each in recorded.carried:
            is_gone = not self.is_there(each.rise, now) and (recorded is not self.recorded or self.is_there(each.rise, before))
            if is_gone and self.law.counts(each.place):
                yield GONE % each.rise

    def is_there(self, rise: int, law: Law) -> bool:
        """Whether a pulse rises there, to a tenth of an interval, or one falls when it rose, as if it was turned over."""
        reach = self.interval // guard.IN_STEP
        return bisect_left(law.rises, rise - reach) < bisect_right(law.rises, rise + reach) or rise in falls(law)

    def added(self, recorded: Recorded, before: Law, now: Law) -> Iterator[str]:
        kept = set(before.pulses) if recorded is self.recorded else set()
        return (why % rise for rise, why in self.doubts(recorded, [each for each in now.pulses if each not in kept]) if why != GUESSED)

    def guesses(self, now: Law, moves: Tuple[Move, ...] = ()) -> List[str]:
        return [why % rise for rise, why in self.doubts(self.read(moves), now.pulses) if why == GUESSED]

    def doubts(self, recorded: Recorded, pulses: Sequence[Tuple[int, int]]) -> Iterator[Tuple[int, str]]:
        """The pulses that are not recorded, and are not what is known: when they rise, and what is said."""
        are_recorded = {*recorded.pulses, *recorded.read}
        for rise, fall in pulses:
            why = None if (rise, fall) in are_recorded else self.doubt(recorded, rise, timecode.class_of(self.interval, fall - rise))
            if why:
                yield rise, why

    def doubt(self, recorded: Recorded, rise: int, name: str) -> Optional[str]:
        """What is said of a pulse of a class that is not recorded."""
        told = recorded.known(Fraction(rise))
        if told is None:
            return ADDED
        number = round(told.time.micros / self.interval)  # elements since the minute began
        if abs(told.time.micros - number * self.interval) > NEAR * self.interval + RESOLUTION:
            return ADDED
        frame = told.time._replace(micros=number // 100 * times.PERIOD[self.opened.kind])
        if number % 100 in self.controls or frame.year is None and number % 100 in self.years:
            return self.doubt_of_bit(recorded, rise, frame, number % 100, name)
        return None if name == classes_of(self.law, frame)[number % 100] else DENIED

    def doubt_of_bit(self, recorded: Recorded, rise: int, frame: times.Time, element: int, name: str) -> Optional[str]:
        """The same of a control function, or of the year if no time says it: it is recorded, by all that this recording and the others say;
        or both frames around have it."""
        here = recorded.read_at(rise, element)
        read = [here, *(other.read_in(frame, element) for other in self.others)]
        costs = dict(zip(("zero", "one"), (sum(each) for each in zip(*read))))
        if name not in costs:
            return DENIED
        more = costs["one" if name == "zero" else "zero"] - costs[name]  # what the other class costs more
        if more >= READ:
            return None
        if more <= -READ or here[name == "one"] >= READ:
            return DENIED
        return None if recorded.is_shared(rise, element, name) else GUESSED if element in self.controls else ADDED


@lru_cache(4)
def falls(law: Law) -> Set[int]:
    return {fall for _, fall in law.pulses}


def off(law: Law, found: Moment) -> Fraction:
    """By how many microseconds a time of a result can be off the line that it is on."""
    return RESOLUTION + found.bound * law.interval


def classes_of(law: Law, frame: times.Time) -> List[str]:
    """The classes of the elements of a frame, by its time; of control functions, and of a year that is not known, zeros."""
    seconds, parts = divmod(int(frame.micros), 1_000_000)
    return timecode.encode(law.kind, law.expression, {
        "year": frame.year or 0, "days": frame.days, "hours": frame.hours, "minutes": frame.minutes, "seconds": seconds,
        "hundredths": parts // 10_000, "sbs": 3600 * frame.hours + 60 * frame.minutes + seconds, "control": 0})


def apart(known: times.Time, new: times.Time) -> Fraction:
    """How many microseconds two times are apart. The first can have no year."""
    new = new if known.year is not None else new._replace(year=None)
    gaps = times.passed(known, new), times.passed(new, known)
    return min((Fraction(gap) for gap in gaps if gap is not None and gap >= 0), default=Fraction(times.HOUR))
