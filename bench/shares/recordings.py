"""Makes recordings at random whose truth is known: `make(kind, seed)` is always the same recording.

The truth is that of the model: which moment of the sender was recorded at a moment of the recording, and which time it sent then. No
program of this repository is asked.
"""
from __future__ import annotations

import math
import re
from bisect import bisect_left
from random import Random
from typing import Callable, Dict, List, NamedTuple, Optional, Set, Tuple

import attacks
import damage
import dense
from sent import (
    DAY, FORMATS, HOUR, MINUTE, SECOND, Calendar, Run, Sender, control_elements, digits, has_binary_seconds, has_controls, reads_well,
    year_length)
from tape import Clock, Event, Spliced, Tape, Wave, dump, joined

MOST_JITTER = 0.0005  # of an interval: 5 microseconds in format B
LEAST_JITTER = 0.00001
MOST_OFF = 0.0002  # of the recorder's clock, if the kind says nothing else
PARITY = 75  # the element
EVEN = 400  # samples of a recording, evenly over it
NEAR = 100  # more samples near its damage
SHOWN = re.compile(r"(?:\d{4}-)?(\d{3})T(\d\d):(\d\d):(\d\d)\.(\d{6})")


class Recording:
    """A recording: its dump, and the truth about it."""

    def __init__(self, kind: str, seed: int, draft: Draft) -> None:
        self.kind = kind
        self.seed = seed
        self.format = draft.format.name
        self.interval = draft.format.interval  # microseconds
        self.frame = draft.format.frame
        self.expression = draft.expression
        self.frames = draft.frames
        self.jitter = draft.jitter  # microseconds
        self.length = draft.length  # microseconds
        self.says = draft.says  # what was done, for people
        self.sender = draft.sender
        self.clock = draft.clock
        self.tape = draft.tape
        self.text = dump(draft.played, draft.length)
        moments = [moment for place in draft.places for moment in draft.tape.moments(place)]
        self.places = sorted(moments + draft.tape.cuts)  # moments of damage

    def time_at(self, moment: float) -> Optional[float]:
        """The time of day as it was sent at a moment of the recording; None if nobody can know it."""
        place = self.tape.place(moment)
        return None if place is None else self.sender.time_at(self.clock.moment(place))

    def off(self, moment: float, shown: str) -> Optional[float]:
        """By how many microseconds a time of `irig_time` is too late at a moment; None if nobody can know it."""
        true = self.time_at(moment)
        if true is None:
            return None
        fields = SHOWN.fullmatch(shown)
        assert fields, shown
        day, hour, minute, second, micro = map(int, fields.groups())
        return self.sender.calendar.time(true, day, hour, minute, second, micro) - true


class Draft:
    """A recording that is being made. The first half of a kind changes what is sent and the clock, the second the recording."""

    def __init__(self, kind: str, seed: int, formats: str) -> None:
        self.random = Random("%s %d" % (kind, seed))
        self.format = FORMATS[self.random.choice(formats)]
        self.expressions = self.format.expressions
        self.frames = self.random.randint(20, 120)
        self.jitter = math.exp(self.random.uniform(math.log(LEAST_JITTER), math.log(MOST_JITTER))) * self.format.interval
        self.length = (self.frames + self.random.random()) * self.format.frame
        self.first = self.random.random() * self.format.frame  # the moment at which the recording begins
        self.sent = self.first + 1.06 * self.length + 8 * self.format.frame  # up to that moment something is sent
        self.year = self.random.choice((1987, 1987, 1988, self.random.randint(1970, 2069)))
        self.inserted: Optional[int] = None
        self.time = self._first_time()
        self.clock = Clock(self.random.uniform(-MOST_OFF, MOST_OFF))
        self.events: List[Event] = []
        self.cuts: List[Tuple[float, float]] = []  # a place, and the one that is recorded next
        self.parity = False
        self.runs: List[Run] = []
        self.flips: Dict[int, Set[int]] = {}
        self.places: List[float] = []
        self.says: List[str] = []

    def _first_time(self) -> int:
        """The time of the first frame: any, that of 1987-061, or before the end of a minute, an hour, a day or a year."""
        random, span = self.random, self.frames * self.format.frame
        last = year_length(self.year) * DAY
        time = random.randrange(last)
        end = random.choice((0, 0, 0, MINUTE, HOUR, DAY, last))
        if random.random() < 0.3:
            time = 60 * DAY + random.randrange(DAY)
        if end:
            time = (time // end + 1) * end - random.randrange(span)
        return max(0, time // self.format.frame * self.format.frame)

    def send(self) -> None:
        """What is sent, as the recorder's clock has it, each rise a little early or late."""
        self.expression = int(self.random.choice(self.expressions))
        calendar = Calendar(self.year, self.inserted)
        timed = Sender(self.format, self.expression, calendar, lambda time: set())  # times alone
        self.sender = Sender(self.format, self.expression, calendar, self._controls(timed))
        self.sender.runs = self.runs or [Run(0, self.sent, 0, self.time)]
        self.sender.flips = self.flips
        self.hear()

    def hear(self) -> None:
        """What comes to the recorder, before any damage."""
        pulses = list(self.sender.pulses())
        rises, falls = (self.clock.places([pulse[end] for pulse in pulses]) for end in (0, 1))
        source = Random(self.random.random())
        late = [self.jitter * (2 * source.random() - 1) for _ in pulses]
        sent = [(rise + by, fall + by) for rise, fall, by in zip(rises, falls, late)]
        self.wire = damage.Wire(sent, self.format.interval, self.random)

    def _controls(self, timed: Sender) -> Callable[[int], Set[int]]:
        """The control functions of the frame with a time: none, always the same, others in each frame, or with a parity. As in IEEE C37.118
        the parity is of all elements before it, so also of the time that the frame shows."""
        elements = control_elements(self.format, self.expression)
        way = "each" if self.parity and self.random.random() < 0.6 else self.random.choice(("none", "same", "same", "each", "rare"))
        if self.parity and way == "none":
            way = "same"
        word, odd, period = self.random.random(), self.random.random() < 0.5, self.format.frame

        def controls(time: int) -> Set[int]:
            count = {"none": 0, "same": 0, "rare": time // period // 40, "each": time // period}[way]
            source = Random("%f %d" % (word, count))
            ones = set() if way == "none" else {each for each in elements if source.random() < 0.3}
            if self.parity:
                ones.discard(PARITY)
                before = timed.classes(time)[:PARITY].count(1) + sum(each < PARITY for each in ones)
                if before % 2 != odd:
                    ones.add(PARITY)
            return ones

        return controls

    def play(self) -> None:
        """What the recorder writes."""
        first = self.clock.place(self.first)
        self.tape = Spliced(first, self.length, self.cuts) if self.cuts else Tape(first, self.length, self.events)
        self.played = self.tape.play(joined([pulse for each in self.wire.pulses for pulse in each]))

    def cut(self, *cuts: Tuple[float, float]) -> None:
        """At each of these places another one follows. Then it has no events."""
        self.cuts = list(cuts)
        self.places += [place for cut in cuts for place in cut]
        self.says += ["cut from place %d to %d" % cut for cut in cuts]

    def any_place(self) -> float:
        """Any place of the recording, before anything is lost."""
        return self.clock.place(self.first) + self.random.random() * self.length

    def damage(self, place: float, kind: str = "") -> None:
        """Damages the code at a place."""
        kind = kind or self.random.choice(sorted(damage.KINDS))
        number = self.wire.number(place)
        count = damage.KINDS[kind](self.wire, number)
        begin = self.wire.rises[number]
        self.places += [begin, begin + count * self.format.interval]
        self.says.append("%s of %d at place %d" % (kind, count, begin))

    def some_damage(self, least: int, most: int, near: Optional[float] = None) -> None:
        """Damage in several places: anywhere, or at most 20 intervals from a place."""
        for _ in range(self.random.randint(least, most)):
            self.damage(self.any_place() if near is None else near + self.random.uniform(-20, 20) * self.format.interval)

    def silence(self, begin: float, end: float) -> None:
        """Nothing is heard from a place up to another."""
        first, last = bisect_left(self.wire.rises, begin), bisect_left(self.wire.rises, end)
        self.wire.clear(first, last - first)
        self.places += [begin, end]
        self.says.append("silence from %d to %d" % (begin, end))

    def silent_ends(self) -> None:
        """Some recordings begin or end with silence."""
        first = self.clock.place(self.first)
        last = first + self.length + sum(event.amount for event in self.events if event.kind == "lose")
        if self.random.random() < 0.15:
            self.silence(first - self.format.frame, first + self.random.uniform(0.05, 3) * self.format.frame)
        if self.random.random() < 0.15:
            self.silence(last - self.random.uniform(0.05, 3) * self.format.frame, last + self.format.frame)

    def event(self, kind: str, place: float, amount: float) -> None:
        self.events.append(Event(kind, place, amount))
        self.says.append("%s %.1f at place %d" % (kind, amount, place))


def whole_or_any(draft: Draft, least: float, most: float) -> float:
    """Some intervals of the recorder's clock, in half of the cases a whole number of them."""
    count = draft.random.uniform(least, most)
    if draft.random.random() < 0.5:
        count = max(1, round(count))
    return count * draft.format.interval * (1 + draft.clock.fast)


def nothing(draft: Draft) -> None:
    pass


def one(draft: Draft) -> None:
    draft.some_damage(1, 1)


def many(draft: Draft) -> None:
    draft.some_damage(2, 12)


def few(draft: Draft) -> None:
    draft.some_damage(2, 6)


def hole(draft: Draft) -> None:
    """A hole of 0.05 to 8 frames, within which the recorder loses or stops for up to half an interval."""
    begin, long = draft.any_place(), draft.random.uniform(0.05, 8) * draft.format.frame
    draft.silence(begin, begin + long)
    kind = draft.random.choice(("lose", "wait"))
    draft.event(kind, begin + draft.random.random() * long, draft.random.uniform(0, 0.5) * draft.format.interval)


def gap(draft: Draft) -> None:
    """A hole of 0.05 to 8 frames, in which nothing is lost."""
    begin = draft.any_place()
    draft.silence(begin, begin + draft.random.uniform(0.05, 8) * draft.format.frame)


def slip(draft: Draft) -> None:
    """The recorder loses 0.2 to 40 intervals, in half of the cases next to other damage."""
    place = draft.any_place()
    draft.event("lose", place, whole_or_any(draft, 0.2, 40))
    if draft.random.random() < 0.5:
        draft.some_damage(1, 1, place)


def twice(draft: Draft) -> None:
    """A stretch of up to 300 intervals is there twice."""
    place = draft.any_place()
    draft.event("twice", place, min(whole_or_any(draft, 0.2, 300), place - draft.clock.place(draft.first)))
    draft.some_damage(0, 1)


def longer(draft: Draft) -> None:
    """Enough is sent for what a buffer loses."""
    draft.sent += 1.2 * SECOND


def buffer(draft: Draft) -> None:
    """20 to 400 milliseconds are lost, up to three times."""
    for _ in range(draft.random.randint(1, 3)):
        round_one = draft.random.choice((20, 40, 50, 100, 200, 250, 400))
        milliseconds = round_one if draft.random.random() < 0.5 else draft.random.uniform(20, 400)
        draft.event("lose", draft.any_place(), milliseconds * 1000)


def frameslip(draft: Draft) -> None:
    """One to five whole frames are lost."""
    place = draft.any_place()
    draft.event("lose", place, draft.random.randint(1, 5) * draft.format.frame * (1 + draft.clock.fast))
    if draft.random.random() < 0.5:
        draft.some_damage(1, 2, place)


def tens(draft: Draft) -> None:
    """Ten to ninety intervals are lost, by tens; other damage next to it in half of the cases."""
    place = draft.any_place()
    draft.event("lose", place, 10 * draft.random.randint(1, 9) * draft.format.interval * (1 + draft.clock.fast))
    if draft.random.random() < 0.5:
        draft.some_damage(1, 2, place)


def two(draft: Draft) -> None:
    """The recorder loses 0.2 to 40 intervals twice, within three frames."""
    place = draft.any_place()
    for each in (place, place + draft.random.uniform(0.01, 3) * draft.format.frame):
        draft.event("lose", each, whole_or_any(draft, 0.2, 40))


def ends(draft: Draft) -> None:
    """At most a frame and a half from the begin or the end the recorder loses 0.2 to 40 intervals, or one to three frames."""
    far = draft.random.uniform(0.02, 1.5) * draft.format.frame
    frames = draft.random.randint(1, 3) * draft.format.frame * (1 + draft.clock.fast)
    amount = frames if draft.random.random() < 0.5 else whole_or_any(draft, 0.2, 40)
    draft.event("lose", draft.clock.place(draft.first) + (far if draft.random.random() < 0.5 else draft.length - far), amount)
    draft.some_damage(0, 1)


def tremble(share: float) -> Callable[[Draft], None]:
    """Rises are up to a share of the interval late or early."""
    def before(draft: Draft) -> None:
        draft.jitter = share * draft.format.interval

    return before


def bursts(draft: Draft) -> None:
    for _ in range(draft.random.randint(1, 4)):
        draft.damage(draft.any_place(), "burst")


def at_leap(draft: Draft) -> None:
    """Up to two places anywhere, and in half of the cases one next to the inserted second."""
    draft.some_damage(0, 2)
    if draft.random.random() < 0.5:
        assert draft.inserted is not None
        draft.some_damage(1, 1, draft.clock.place(draft.inserted - draft.time + draft.random.uniform(-1, 2) * SECOND))


def off(draft: Draft) -> None:
    draft.clock = Clock(draft.random.choice((-1, 1)) * draft.random.uniform(0.03, 0.05))


def sweep(draft: Draft) -> None:
    """From 5 % slow to 5 % fast, or the other way."""
    begin = draft.random.choice((-0.05, 0.05))
    slope = -2 * begin / draft.length
    draft.clock = Clock(begin - slope * draft.first, slope)


def waves(draft: Draft, count: int, least: float, most: float, shortest: float, longest: float) -> None:
    """Waves of the clock: the least and the greatest share, and the shortest and the longest period in intervals."""
    found = []
    for _ in range(count):
        period = math.exp(draft.random.uniform(math.log(shortest), math.log(longest))) * draft.format.interval
        found.append(Wave(draft.random.uniform(least, most) / count, period, draft.random.uniform(0, 2 * math.pi)))
    draft.clock = Clock(draft.clock.fast, 0.0, found)


def wow(draft: Draft) -> None:
    waves(draft, 1, 0.002, 0.02, 30, 1000)


def flutter(draft: Draft) -> None:
    waves(draft, 2, 0.0005, 0.01, 2, 30)


def drift(draft: Draft) -> None:
    waves(draft, 3, 0.002, 0.02, 2_000, 20_000)


def parity(draft: Draft) -> None:
    draft.parity = True
    draft.expressions = "".join(each for each in draft.expressions if has_controls(int(each)))


def changed(draft: Draft) -> None:
    """The sender's clock is set: it sends another time from a moment on, and its frames begin with that."""
    random, frame = draft.random, draft.format.frame
    moment = draft.first + random.uniform(0.02, 0.98) * draft.length
    if random.random() < 0.5:
        moment = round(moment / frame) * frame
    by = random.choice((1, -1)) * random.choice((frame, random.randint(1, 9) * frame, SECOND, MINUTE, HOUR, random.randrange(10 * MINUTE)))
    if random.random() < 0.5:
        by = round(by / frame) * frame or frame
    time = max(0, draft.time + math.floor(moment) + by)  # at the whole microsecond of the moment
    origin = math.floor(moment) - time % frame
    draft.runs = [Run(0, moment, 0, draft.time), Run(moment, draft.sent, origin, time - time % frame)]
    draft.places.append(draft.clock.place(moment))
    draft.says.append("set by %d at %d" % (by, moment))


def flipped(draft: Draft) -> None:
    """One to three neighbouring frames have one element each of the other class, and read well. It is the same one, or others."""
    random, frame = draft.random, draft.format.frame
    draft.expressions = "".join(each for each in draft.expressions if not has_binary_seconds(draft.format, int(each)))
    first = math.ceil(draft.first / frame) + random.randrange(draft.frames - 4)
    same = random.random() < 0.5
    element = -1
    for number in range(first, first + random.randint(1, 3)):
        choice = flips_that_read(draft, draft.time + number * frame)
        element = element if same and element in choice else random.choice(choice)
        draft.flips[draft.time + number * frame] = {element}
        draft.places.append(draft.clock.place(number * frame))
        draft.says.append("element %d is flipped in frame %d" % (element, number))


def flips_that_read(draft: Draft, time: int) -> List[int]:
    """The elements of a frame's time whose other class reads well."""
    expression = 1  # without year and binary seconds
    sender = Sender(draft.format, expression, Calendar(draft.year), lambda _: set())
    classes = sender.classes(time)
    found = []
    for _, _, elements in digits(draft.format, expression):
        for element in elements:
            other = list(classes)
            other[element] = 1 - other[element]
            if reads_well(draft.format, expression, other):
                found.append(element)
    return found


def leap(draft: Draft) -> None:
    """A second is inserted at the end of June or of the year, and the recording is from around it."""
    days = year_length(draft.year)
    draft.inserted = draft.random.choice((days - 184, days)) * DAY
    draft.time = draft.inserted - int(draft.random.uniform(0.05, 0.95) * draft.frames) * draft.format.frame


class Kind(NamedTuple):
    """What is done before anything is sent, what after it, and the formats."""

    before: Callable[[Draft], None]
    after: Callable[[Draft], None]
    formats: str = "ABEG"


KINDS: Dict[str, Kind] = {
    "one": Kind(nothing, one),
    "many": Kind(nothing, many),
    "slip": Kind(nothing, slip),
    "hole": Kind(nothing, hole),
    "off": Kind(off, few),
    "sweep": Kind(sweep, few),
    "parity": Kind(parity, few),
    "set": Kind(changed, lambda draft: draft.some_damage(0, 1)),
    "wow": Kind(wow, few),
    "flutter": Kind(flutter, few),
    "drift": Kind(drift, few),
    "wrong": Kind(flipped, lambda draft: draft.some_damage(0, 2)),
    "twice": Kind(nothing, twice),
    "buffer": Kind(longer, buffer),
    "frameslip": Kind(nothing, frameslip),
    "leap": Kind(leap, at_leap, "ABG"),
    "noise": Kind(nothing, bursts),
    "undamaged": Kind(nothing, nothing),
    "gap": Kind(nothing, gap),
    "tens": Kind(nothing, tens),
    "two": Kind(nothing, two),
    "ends": Kind(nothing, ends),
    "jit2": Kind(tremble(0.02), few),
    "jit4": Kind(tremble(0.04), few),
}
ATTACKS = {name: Kind(*each) for name, each in attacks.KINDS.items()}
DENSE = {**{name: Kind(nothing, each) for name, each in dense.KINDS.items()},
         "jit7": Kind(tremble(0.07), few), "jit10": Kind(tremble(0.1), few)}
ALL = {**KINDS, **ATTACKS, **DENSE}
TABLE = ("one", "many", "slip", "hole", "off", "sweep", "parity")  # those of the table in docs/ALIGN.md


def frames_of(kind: str, seed: int) -> int:
    """How many frames a recording has."""
    return Draft(kind, seed, ALL[kind].formats).frames


def make(kind: str, seed: int) -> Recording:
    """The recording of a kind with a seed."""
    what = ALL[kind]
    draft = Draft(kind, seed, what.formats)
    what.before(draft)
    draft.send()
    what.after(draft)
    draft.silent_ends()
    draft.play()
    return Recording(kind, seed, draft)


def samples(recording: Recording) -> List[float]:
    """Moments evenly over a recording, and then others near its damage."""
    random = Random("samples of %s %d" % (recording.kind, recording.seed))
    found = [(number + random.random()) / EVEN * recording.length for number in range(EVEN)]
    for number in range(NEAR):
        near = random.choice(recording.places) if recording.places else random.random() * recording.length
        far = 15 if number % 2 else 150
        found.append(min(max(0.0, near + random.uniform(-far, far) * recording.interval), recording.length - 1))
    return [round(each, 3) for each in found]


def kept(recording: Recording) -> Tuple[str, str]:
    """The dump, and what is known of it for people."""
    said = ["kind %s, seed %d, format %s, expression %d, %d microseconds" % (
        recording.kind, recording.seed, recording.format, recording.expression, recording.length)]
    said += ["clock %+.6f" % recording.clock.fast] + recording.says
    said += ["recorded from %.1f to %.1f: %s" % (part.begin, part.end, "place %.1f" % part.place if part.place is not None else "silence")
             for part in recording.tape.parts]
    return recording.text, "\n".join(said) + "\n"
