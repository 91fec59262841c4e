"""The law of time: which pulses of a recording have a time, the time of each moment between two of them, and how far it can be off.

An explanation says which frames that read well are right, and where there were events: something was lost, was recorded twice, or a clock
was set. What all explanations with the fewest events say has a time, and nothing else. So a frame is believed if its story is not mixed
with another one that is as long. Pulses have names: how many elements they are from the marker of a believed frame, by its clock. Between
two believed frames that fit there was no event. Else there was one, at a place that no pulse denies, and a pulse is on one side of it if
two pulses deny the other one. At an end no pulse may deny. Over a hole time goes on the line, if that is nearly right wherever something
was lost.
"""
from bisect import bisect_right
from collections import Counter
from fractions import Fraction
from typing import NamedTuple

from reference import timecode, times
from reference.times import HOUR, LONG_MINUTE, MINUTE, PERIOD, TIME_ELEMENTS, Time

MORE = 2  # times the frames of the other story that a story has more than, if two are mixed and it is believed
FARTHEST = 495  # periods up to which two frames can agree, and rows up to which two are of one story
COUNTED = 100  # pulses that an end of the recording has at most
SHOWING = 2  # pulses that show on which side of an event another one is
DOUBTING = 2  # pulses that deny, and take its time from a frame of the code
WIDEST = Fraction(1, 50)  # of an interval: the greatest bound of a time
FRAME = 99  # elements after the marker of a frame
UNITS = 10**12  # of an interval, in which bounds are counted


class Clock(NamedTuple):
    """A recorder's clock, in 99ths of a microsecond: how long an interval lasts, how far each can be off, and how far a rise can."""

    interval: int
    slack: int
    tenth: int

    def nearest(self, micros):
        """How many intervals are nearest to a distance."""
        return (2 * 99 * micros + self.interval) // (2 * self.interval)

    def is_near(self, micros, many):
        return many > 0 and abs(99 * micros - many * self.interval) <= self.tenth + many * self.slack

    def is_sure(self, many):
        """Whether the clock, as far as it strays, can make no other number of a distance."""
        return self.tenth + (2 * many + 1) * self.slack < self.interval


class Point(NamedTuple):
    """What a pulse is: that many elements from the marker of a believed frame."""

    frame: int  # its place among the believed frames
    name: int


class Moment(NamedTuple):
    time: Time  # the microseconds of its minute are a fraction
    bound: Fraction  # by how many intervals the line over a hole can be off


class Law:
    """The times of a recording: pulses, rise and fall in microseconds; whether each frame that reads well is believed."""

    def __init__(self, kind, expression, pulses, alone=False):
        self.kind, self.expression, self.pulses, self.alone = kind, expression, pulses, alone
        self.interval, self.last = timecode.INTERVAL[kind], len(pulses) - 1
        self.rises = [rise for rise, _ in pulses]
        self.classes = [timecode.class_of(self.interval, fall - rise) for rise, fall in pulses]
        self.in_step = self.steps()
        self.timed = timed_elements(kind, expression)
        self.fine = times.frames_of(kind, expression, pulses)
        self.believed = self.trusted()
        self.markers = [frame.marker for frame in self.believed]
        self.classes_at = {}  # of the elements of the frame of a time
        self.points = {}  # what the pulses that have a time are
        self.quiet = []  # of each stretch between two believed frames: how many elements they are apart, or None if there was an event
        self.doubtful = set()  # pulses of frames of the code in which two pulses deny that there was no event
        self.find_points()
        self.places = sorted(self.points)
        self.risen = [self.rises[place] for place in self.places]

    # ---- what a frame shows of the clock

    def span(self, frame):
        """How long the 99 intervals of a frame last."""
        return self.rises[frame.marker + 99] - self.rises[frame.marker]

    def strays(self, frame):
        """By how many 99ths of a microsecond an interval differs, in the mean of the quarter that differs most."""
        quarters = [self.rises[frame.marker + first + 24] - self.rises[frame.marker + first] for first in (0, 24, 48, 72)]
        return max(abs(99 * quarter - 24 * self.span(frame)) // 24 for quarter in quarters)

    def clock(self, frame, slack):
        return Clock(self.span(frame), slack, 99 * self.interval // 10)

    def slack(self, one, other):
        """How much the clock strays between two frames: as in them, or from one to the other, and two parts in a hundred thousand."""
        most = max(self.strays(one), self.strays(other), abs(self.span(one) - self.span(other)))
        return most + self.span(one) // 50_000 + 1

    def slack_at_end(self, frame):
        return self.span(frame) // 1000 + 1

    def is_long(self, one, other, micros, many, within):
        """Whether some microseconds are that many intervals by the clock of two frames, to within some."""
        both = self.span(one) + self.span(other)
        return abs(198 * micros - many * both) <= within * both

    # ---- which frames are believed

    def periods(self, one, other):
        """How many periods the second time is after the first."""
        micros = times.passed(one.time, other.time)
        return None if micros is None or micros <= 0 or micros % PERIOD[self.kind] else micros // PERIOD[self.kind]

    def agree(self, one, other):
        """Whether two frames are as many periods apart by their times as by their markers, to half a period."""
        many = self.periods(one, other)
        return many is not None and many < FARTHEST and self.is_long(one, other, other.rise - one.rise, 100 * many, 50)

    def rows(self):
        """The frames that read well, in rows: each but the first of a row agrees with the one before it."""
        found = []
        for frame in self.fine:
            if found and self.agree(found[-1][-1], frame):
                found[-1].append(frame)
            else:
                found.append([frame])
        return found

    def trusted(self):
        """The frames of the rows that are not doubted, and whose story has more frames than one, or the only frame; all, if each is
        believed alone. The story of a row is it and all rows near it that agree with it, the last frame of the one with the first of the
        other."""
        rows = self.rows()
        stories = [{place} for place in range(len(rows))]
        for one in range(len(rows)):
            for other in range(one + 1, min(one + FARTHEST + 1, len(rows))):
                if self.agree(rows[one][-1], rows[other][0]):
                    stories[one].add(other)
                    stories[other].add(one)
        sizes = [sum(len(rows[place]) for place in story) for story in stories]
        right = [place for place in range(len(rows)) if sizes[place] > 1 and not is_doubted(place, stories, sizes)]
        return self.fine if self.alone or len(self.fine) == 1 else [frame for place in right for frame in rows[place]]

    # ---- the names of pulses

    def steps(self):
        """Of each pulse, whether it is in step with the one before it: it rises one interval later, to a tenth, and that step is as long as
        those next to it, to a tenth of them."""
        steps = [0] + [later - rise for rise, later in zip(self.rises, self.rises[1:])] + [0]
        even = [timecode.in_step(self.interval, step) for step in steps]

        def is_as_long(place, other):
            return not even[other] or 10 * abs(steps[place] - steps[other]) <= steps[other]

        return [even[place] and is_as_long(place, place - 1) and is_as_long(place, place + 1) for place in range(self.last + 1)]

    def is_in_row(self, first, last):
        """Whether each of some pulses is in step with the one before it, if both are there."""
        return all(self.in_step[number] for number in range(max(1, first), min(last, self.last) + 1))

    def counts(self, place):
        """Whether the two pulses before a pulse and the two after it are in step with it."""
        return self.is_in_row(place - 1, place + 2)

    def names(self, frame, places, slack):
        """Of the pulses from a frame's marker on, or back from it: the names of those with which the two before and the two after are in
        step, those that are on no grid, and the names of those with which the two on one side are in step."""
        clock, names, astray, loose, last = self.clock(frame, slack), {frame.marker: 0}, set(), {}, frame.marker
        for place in places[1:]:
            before, after = self.is_in_row(place - 1, place), self.is_in_row(place + 1, place + 2)
            many = clock.nearest(abs(self.rises[place] - self.rises[last]))
            if not clock.is_sure(many) or not (before or after):
                continue
            if not clock.is_near(abs(self.rises[place] - self.rises[last]), many):
                astray |= {place} if before and after else set()
            elif before and after:
                names[place], last = names[last] + many * places.step, place
            else:
                loose[place] = names[last] + many * places.step
        return names, astray, loose

    def element(self, frame, name):
        """The frame of the code, by its time, and the element that a name is; None beyond the hour: a second can be inserted there."""
        many, element = divmod(name, 100)
        time = in_hour(frame.time, many * PERIOD[self.kind])
        return time and (time, element)

    def denies(self, place, element):
        """Whether a pulse is of another class than an element: an identifier or none, or another one of the elements of the time."""
        if element is None or self.classes[place] == "bad":
            return False
        time, number = element
        wanted, found = self.wanted(time)[number], self.classes[place]
        return wanted != found and (number in self.timed or "position" in (wanted, found))

    def wanted(self, time):
        """The classes of a frame with a time; control functions are 0. A second 60 has the binary seconds of its own believed frame."""
        if time in self.classes_at:
            return self.classes_at[time]
        second = time.micros // 1_000_000
        values = {"year": time.year, "days": time.days, "hours": time.hours, "minutes": time.minutes, "seconds": second,
                  "hundredths": time.micros // 10_000 % 100, "sbs": 3600 * time.hours + 60 * time.minutes + second, "control": 0}
        self.classes_at[time] = timecode.encode(self.kind, self.expression, values)
        return self.classes_at[time]

    # ---- which pulses have a time

    def find_points(self):
        """A pulse of a believed frame has its time, and one that a stretch names; but none that a stretch or an end takes it from."""
        lost = set()
        for number, frame in enumerate(self.believed):
            self.points.update((frame.marker + name, Point(number, name)) for name in range(100))
        for number in range(len(self.believed) - 1):
            lost |= self.stretch(number)
        if self.believed:
            lost |= self.begin(self.believed[0]) | self.end(len(self.believed) - 1, self.believed[-1])
        for place in lost:
            self.points.pop(place, None)

    def stretch(self, number):
        """What is between a believed frame and the next one; the pulses from which it takes the time."""
        one, other = self.believed[number:number + 2]
        many = self.periods(one, other)
        if many == 1 and other.marker == one.marker + 100:
            self.quiet.append(100)  # and no pulse is between them: all are in step
            return set()
        slack, ahead = self.slack(one, other), other.marker + TIME_ELEMENTS[self.kind]
        after, astray_after, _ = self.names(one, range(one.marker, ahead), slack)
        before, astray_before, _ = self.names(other, range(other.marker, one.marker - 1, -1), slack)
        if many is not None and self.fit(one, other, 100 * many, after, before):
            self.quiet.append(100 * many)
            return self.without_event(number, after, before)
        self.quiet.append(None)
        first = sorted(self.deniers(one, after) | astray_after)
        second = sorted(self.deniers(other, before) | astray_before)
        before.update((place, place - other.marker) for place in range(other.marker, ahead))
        return self.with_event(number, range(one.marker + 1, ahead), (after, first), (before, second))

    def fit(self, one, other, whole, after, before):
        """Whether no event has to be between two frames whose times are some elements apart: a pulse has the same name by both, or from
        the last pulse with a name by the first, up to the marker of the second, to the first one with a name by the second it is as many
        elements as it has to be, to half an interval and what the clock strays."""
        if any(after.get(place) == whole + name for place, name in before.items()):
            return True
        last, first = max(place for place in after if place <= other.marker), min(before)
        many = whole + before[first] - after[last]
        within = Fraction(1, 2) + Fraction(2 * many * self.slack(one, other), self.span(one) + self.span(other))
        return many > 0 and self.is_long(one, other, self.rises[first] - self.rises[last], many, within)

    def deniers(self, frame, names):
        return {place for place, name in names.items() if self.denies(place, self.element(frame, name))}

    def without_event(self, number, after, before):
        """Each pulse has its name by one frame, and no other one by the other frame. If two deny in a frame of the code, it has no time."""
        whole, found, denying = self.quiet[number], {}, Counter()
        for place in range(self.believed[number].marker + 100, self.believed[number + 1].marker):
            names = {after[place]} if place in after else set()
            names |= {whole + before[place]} if place in before else set()
            ways = [Point(number, name) for name in names] + [Point(number + 1, name - whole) for name in names]
            known = [point for point in ways if self.element_of(point)]
            if len(names) == 1 and known:
                found[place] = known[0], min(names) // 100
                denying[min(names) // 100] += self.denies(place, self.element_of(known[0]))
        self.points.update((place, point) for place, (point, frame) in found.items() if denying[frame] < DOUBTING)
        self.doubtful.update(place for place, (_, frame) in found.items() if denying[frame] >= DOUBTING)
        return set()

    def with_event(self, number, places, first, second):
        """Those before the event have their name by the first frame, those after it theirs by the second. `first` and `second` are the
        names of the pulses, and which pulses deny theirs."""
        (after, denying_first), (before, denying_second) = first, second
        is_possible = not denying_first or not denying_second or denying_second[-1] <= denying_first[0]
        lost = set()
        for place in places:
            is_before = sum(other > place for other in denying_second) >= SHOWING
            is_after = sum(other < place for other in denying_first) >= SHOWING
            if is_possible and is_before and place in after and self.element_of(Point(number, after[place])):
                self.points[place] = Point(number, after[place])
            elif is_possible and is_after and place in before and self.element_of(Point(number + 1, before[place])):
                self.points[place] = Point(number + 1, before[place])
            else:
                lost.add(place)
        return lost

    def begin(self, frame):
        """Before the first believed frame."""
        names, _, loose = self.names(frame, range(frame.marker, -1, -1), self.slack_at_end(frame))
        if self.element(frame, -1) is None or self.is_denied(frame, {**loose, **names}):
            return set(range(frame.marker + TIME_ELEMENTS[self.kind]))
        self.in_step_with(0, range(frame.marker, max(-1, frame.marker - COUNTED - 1), -1), names)
        return set()

    def end(self, number, frame):
        """After the last one."""
        names, _, loose = self.names(frame, range(frame.marker, self.last + 1), self.slack_at_end(frame))
        if self.element(frame, 100) is None or self.is_denied(frame, {**loose, **names}):
            return set(range(frame.marker + 1, self.last + 1))
        self.in_step_with(number, range(frame.marker, min(self.last + 1, frame.marker + 100 + COUNTED)), names)
        return set()

    def is_denied(self, frame, names):
        """Whether a pulse denies its name at an end of the recording. The last of all does not: the end can have cut it."""
        return not self.deniers(frame, names) <= {self.last}

    def in_step_with(self, number, places, names):
        """Counts the pulses from a marker on, or back from it, as far as each is the next element."""
        for place in places:
            point = Point(number, place - places[0])
            if names.get(place) != point.name or not self.element_of(point):
                break
            self.points[place] = point

    def element_of(self, point):
        return self.element(self.believed[point.frame], point.name)

    # ---- the time of a moment

    def time_at(self, moment):
        """The time some microseconds, a fraction, after the start; None if there is none."""
        one, other = self.around(moment)
        many = self.elements_between(one, other)
        bound = self.bound(one, other, many) if many else None
        if bound is None or bound > WIDEST:
            return None
        share = (moment - self.rises[one]) * many * self.interval / (self.rises[other] - self.rises[one])
        time, rest = self.later(self.points[one], share), share - many * self.interval
        return Moment(time or self.later(self.points[other], rest), bound)

    def around(self, moment):
        """The last pulse with a time that has risen by then, and the next one with a time; None for one that is not there."""
        later = bisect_right(self.risen, moment)
        return self.places[later - 1] if later else None, self.places[later] if later < len(self.places) else None

    def elements_between(self, one, other):
        """How many elements one pulse is after another by their times; None if it is not, or one of them is not there."""
        if one is None or other is None:
            return None
        (time, element), (later, following) = self.element_of(self.points[one]), self.element_of(self.points[other])
        micros = 0 if time == later else times.passed(time, later)
        if micros is None or micros < 0 or micros % PERIOD[self.kind]:
            return None
        many = 100 * (micros // PERIOD[self.kind]) + following - element
        return many if many > 0 else None

    def frames_around(self, one):
        """The last believed frame that begins with a pulse or before it, and the next one; None for one that is not there."""
        after = bisect_right(self.markers, one)
        return self.believed[after - 1] if after else None, self.believed[after] if after < len(self.believed) else None

    def rates(self, one):
        """How many units at least and at most pass in a microsecond by the two believed frames around a pulse."""
        before, after = self.frames_around(one)
        if before is None or after is None:
            return None
        span, slack = self.span(before), self.slack(before, after)
        return (99 * UNITS // (span + slack), 99 * UNITS // (span - slack) + 1) if slack < span else None

    def bound(self, one, other, many):
        """By how many intervals the line between two pulses can be off: its clock ran as it does in the frames around, but the recorder
        lost what the distance shows at any place between them."""
        long = self.rises[other] - self.rises[one]
        if other == one + 1 and many == 1 and timecode.in_step(self.interval, long):
            return Fraction(0)
        rates = self.rates(one)
        if rates is None or any(self.counts(place) for place in range(one + 1, other)):
            return None
        units = many * UNITS
        if many > FRAME:
            return Fraction(max(rates[1] * long - units, units - rates[0] * long, 0) + 1, UNITS)
        strays = max(self.strays_over(frame, many, long) for frame in self.frames_around(one))
        return Fraction(max(UNITS * strays // long - self.bends(one, other) * (UNITS // self.interval), 0) + 1, UNITS)

    def strays_over(self, frame, many, long):
        """The most by which the rises of a frame are, up to some elements after any of them, off a line of as many elements, in parts of
        a microsecond."""
        rises = self.rises[frame.marker:frame.marker + FRAME + 1]
        offs = [many * rise - place * long for place, rise in enumerate(rises)]
        near = [offs[first:first + many + 1] for first in range(len(offs))]
        return max(max(each) - min(each) for each in near)

    def bends(self, one, other):
        """The most by which two steps next to each other differ: in the believed frames around a pulse, and at it and another one."""
        frames = [frame for frame in self.frames_around(one) if frame]
        return max(self.bend(place) for place in (one, other, *(frame.marker + each for frame in frames for each in range(1, FRAME))))

    def bend(self, place):
        """By how much the two steps at a pulse differ, if both are one interval."""
        if not 0 < place < self.last:
            return 0
        before, after = self.rises[place] - self.rises[place - 1], self.rises[place + 1] - self.rises[place]
        even = timecode.in_step(self.interval, before) and timecode.in_step(self.interval, after)
        return abs(before - after) if even else 0

    def is_event(self, one, other):
        """Whether the clock shows, by more than half an interval, another number of elements between two pulses than their times."""
        many, rates, long = self.elements_between(one, other), self.rates(one), self.rises[other] - self.rises[one]
        units, half = (many or 0) * UNITS, UNITS // 2
        return not many or rates is not None and (rates[1] * long + half < units or units + half < rates[0] * long)

    def later(self, point, micros):
        """The time some microseconds after a point, or before it, in its hour."""
        time, element = self.element_of(point)
        return in_hour(time, element * self.interval + micros)


def timed_elements(kind, expression):
    """The elements that carry a part of the time: its seconds and their parts, the year, the straight binary seconds, and what is between
    their digits."""
    layout = timecode.layout(kind, expression)
    more = [[element for digit in layout[name] for element, _ in digit] for name in ("year", "sbs") if name in layout]
    return {*range(TIME_ELEMENTS[kind]), *(element for each in more for element in range(min(each), max(each) + 1))}


def in_hour(time, micros):
    """The time some microseconds later, or earlier, in the same hour, to which a second 60 belongs that the time is in; None if there is
    none."""
    micros += time.micros
    if MINUTE <= time.micros and MINUTE <= micros:
        return time._replace(micros=micros) if micros < LONG_MINUTE else None
    micros += MINUTE * time.minutes
    return time._replace(minutes=int(micros // MINUTE), micros=micros % MINUTE) if 0 <= micros < HOUR else None


def is_doubted(place, stories, sizes):
    """Whether a row of a story is between two rows of another one, and the story does not have more than twice as many frames as that."""
    for between in stories[place]:
        for one in set(range(between)) - stories[place]:
            if max(stories[one] - stories[place]) > between and sizes[place] <= MORE * sizes[one]:
                return True
    return False
