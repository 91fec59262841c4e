"""Makes several recordings of one sender at random: `session(kind, seed, count)` is always the same.

Each recorder has a clock, a beginning, an end and damage of its own. The first one is to be mended by the others. Of these some kinds have
heard another sender: one whose clock was set otherwise, or that sends other control functions. Then nothing of them may be taken.
"""
from __future__ import annotations

from random import Random
from typing import Callable, Dict, List, NamedTuple, Set

from recordings import PARITY, Draft, Recording
from sent import DAY, HOUR, MINUTE, SECOND, Calendar, Run, Sender, control_elements, has_controls, year_length
from tape import Clock

Controls = Callable[[int, int], Set[int]]  # the ones of the frame of a time, which shows another one if the clock was set otherwise

MOST_OFF = 0.001  # of a recorder's clock
ALWAYS = 0.7  # of the sessions have other control functions in each frame
LEAST_DAMAGE, MOST_DAMAGE = 2, 12  # places of damage


class Frame(NamedTuple):
    """A frame that was sent: its moment, what is shown of it without its control functions, and these."""

    moment: int
    shown: str
    control: int


class Source(Draft):
    """A sender with control functions, and how long there is something to record."""

    def __init__(self, kind: str, seed: int) -> None:
        super().__init__("recorders " + kind, seed, KINDS[kind].formats)
        random = self.random
        self.frames = random.randint(14, 40)
        self.time = min(max(self._first_time(), 2 * DAY), 360 * DAY)  # so that a clock can be set otherwise
        self.hole = (0.0, 0.0)  # moments of the sender between which the first recorder hears nothing
        KINDS[kind].before(self)
        self.length = self.frames * self.format.frame
        self.sent = self.length + 2 * self.format.frame
        self.parity = random.random() < 0.5
        self.expression = int(random.choice([each for each in self.expressions if has_controls(int(each))]))
        self.timed = Sender(self.format, self.expression, Calendar(self.year, self.inserted), lambda time: set())  # times alone
        self.controls = control_functions(self, random.random(), random.random() < ALWAYS)
        self.sender = self.heard(self.controls)

    def heard(self, controls: Controls, later: int = 0) -> Sender:
        """A sender with these control functions, whose clock is later by some microseconds."""
        sender = Sender(self.format, self.expression, self.timed.calendar, lambda time: controls(time - later, time))
        runs = self.runs or [Run(0, self.sent, 0, self.time)]
        sender.runs = [each._replace(time=each.time + later, end=min(each.end, self.sent)) for each in runs]
        return sender

    def frames_sent(self) -> List[Frame]:
        """All whole frames."""
        found = []
        for run in self.sender.runs:
            for number in range(int(run.end - run.begin) // self.format.frame):
                passed = number * self.format.frame
                found.append(Frame(int(run.begin) + passed, self._shown(run.time + passed), self._control(run.time + passed)))
        return found

    def _shown(self, time: int) -> str:
        """The time of a frame, as irig_ed prints it."""
        fields = self.sender.calendar.fields(time)
        text = "%03d %02d:%02d:%02d" % (fields["day"], fields["hour"], fields["minute"], fields["second"])
        return text + {"A": ".%d0" % (fields["hundredth"] // 10), "G": ".%02d" % fields["hundredth"]}.get(self.format.name, "")

    def _control(self, time: int) -> int:
        ones = self.sender.controls(time)
        return sum(1 << bit for bit, element in enumerate(control_elements(self.format, self.expression)) if element in ones)


def control_functions(source: Source, word: float, always: bool) -> Controls:
    """The elements that are ones in the frame of a time: others in each, or seldom; with a parity or without it. As in IEEE C37.118 the
    parity is of all elements before it, so also of the time that the frame shows."""
    elements, odd = control_elements(source.format, source.expression), word < 0.5
    period = source.format.frame * (1 if always else 9)

    def controls(time: int, shown: int) -> Set[int]:
        chance = Random("%f %d" % (word, time // period))
        ones = {each for each in elements if chance.random() < 0.5}
        if source.parity:
            ones.discard(PARITY)
            before = source.timed.classes(shown)[:PARITY].count(1) + sum(each < PARITY for each in ones)
            if before % 2 != odd:
                ones.add(PARITY)
        return ones

    return controls


class Recorder(Draft):
    """What one recorder makes of a sender."""

    def __init__(self, source: Source, sender: Sender, random: Random, begins: float, ends: float) -> None:
        self.random, self.sender, self.format, self.expression = random, sender, source.format, source.expression
        self.frames, self.parity, self.jitter = source.frames, source.parity, source.jitter
        self.clock = Clock(random.uniform(-MOST_OFF, MOST_OFF))
        self.first = begins * source.length
        self.length = self.clock.place(ends * source.length) - self.clock.place(self.first)
        self.events, self.cuts, self.places, self.says = [], [], [], []
        self.hear()

    def record(self) -> None:
        self.some_damage(LEAST_DAMAGE, MOST_DAMAGE)
        self.play()

    def place(self, moment: float) -> float:
        """Where a moment of the sender is in the recording."""
        return self.clock.place(moment) - self.clock.place(self.first)


def nothing(source: Source) -> None:
    pass


def long_hole(source: Source) -> None:
    """A hole in which frames are more than 495 frame periods from both ends."""
    hole = source.random.randint(1000, 1900)
    source.frames += hole
    begin = (source.random.uniform(0.35, 0.65) * (source.frames - hole)) * source.format.frame
    source.hole = begin, begin + hole * source.format.frame


def leap_in_hole(source: Source) -> None:
    """An inserted second is lost, with up to three seconds on each side."""
    random, frame = source.random, source.format.frame
    days = year_length(source.year)
    source.inserted = random.choice((days - 184, days)) * DAY
    source.frames += 3 * SECOND // frame
    source.time = source.inserted - int(random.uniform(0.45, 0.55) * source.frames) * frame
    far = min(3 * SECOND, 0.2 * source.frames * frame)
    begin = source.inserted - source.time - random.random() * far
    source.hole = begin, source.inserted - source.time + SECOND + random.random() * far


def set_in_hole(source: Source) -> None:
    """The sender's clock is set, and the frames next to that are lost."""
    random, frame = source.random, source.format.frame
    source.frames += 12
    moment = int(random.uniform(0.4, 0.6) * source.frames) * frame
    by = random.choice((1, -1)) * (random.randint(2, 9) * source.frames * frame + random.choice((0, SECOND, MINUTE)) // frame * frame)
    sent = (source.frames + 2) * frame
    source.runs = [Run(0, moment, 0, source.time), Run(moment, sent, moment, source.time + moment + by)]
    source.hole = moment - random.uniform(1, 6) * frame, moment + random.uniform(1, 6) * frame


def same(source: Source) -> Sender:
    return source.sender


def frames_off(source: Source) -> Sender:
    """Its clock was set otherwise by some frames, or seconds."""
    frame = source.format.frame
    by = source.random.choice((frame, 2 * frame, 5 * frame, SECOND, 2 * SECOND))
    return source.heard(source.controls, source.random.choice((1, -1)) * max(frame, by // frame * frame))


def hours_off(source: Source) -> Sender:
    return source.heard(source.controls, source.random.choice((1, -1, 3)) * HOUR)


def days_off(source: Source) -> Sender:
    return source.heard(source.controls, source.random.choice((1, -1)) * DAY)


def other_code(source: Source) -> Sender:
    return source.heard(control_functions(source, source.random.random(), True))


class Kind(NamedTuple):
    """What the others have heard, where they begin at least, and what is sent."""

    heard: Callable[[Source], Sender]
    least: float = 0.0
    before: Callable[[Source], None] = nothing
    formats: str = "ABEG"


KINDS: Dict[str, Kind] = {
    "pair": Kind(same), "middle": Kind(same, 0.4), "long": Kind(same, 0.0, long_hole, "AG"), "leap": Kind(same, 0.0, leap_in_hole, "ABG"),
    "set": Kind(same, 0.0, set_in_hole),
    "frames": Kind(frames_off), "hour": Kind(hours_off), "day": Kind(days_off), "code": Kind(other_code)}
ALIEN = ("frames", "hour", "day", "code")  # the others have heard another sender


class Session(NamedTuple):
    """Several recordings of one sender; the first is to be mended."""

    source: Source
    drafts: List[Recorder]
    recordings: List[Recording]


def session(kind: str, seed: int, count: int) -> Session:
    """The recordings of a kind with a seed, and the sender."""
    source = Source(kind, seed)
    other, random, least = KINDS[kind].heard(source), source.random, KINDS[kind].least
    heard = [(source.sender, 0.0)] + [(other, least)] * (count - 1)
    drafts = [Recorder(source, sender, Random(random.random()), random.uniform(begin, begin + 0.2), random.uniform(0.8, 1.0))
              for sender, begin in heard]
    drafts[0].silence(*map(drafts[0].clock.place, source.hole))
    for each in drafts:
        each.record()
    return Session(source, drafts, [Recording(kind, seed, each) for each in drafts])
