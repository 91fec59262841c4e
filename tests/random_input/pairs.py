"""Pairs of recordings of one time code: each recorder has a clock, a beginning, an end and damage of its own.

The control functions change from frame to frame, or hardly ever, with and without a parity. A moment of the signal is in true
microseconds, one of a recording in those of its recorder.
"""
import copy

from random_input import damages, recorders
from reference import timecode

PARITY = 75  # the element of IEEE 1344
MOST_OFF = 0.001  # of its clock


class Signal(recorders.Changing):
    """Whole frames of time code with control functions. `always`: these are others in each frame; `parity`: element 75 makes the
    ones up to it odd in number (1), or even (0)."""

    def __init__(self, rng, frames, always, parity):
        self.always, self.parity, self.sent = always, parity, []
        super().__init__(rng, frames)

    def control_of(self, rng, k):
        many = len(timecode.control_elements(self.kind, self.expression >= 4))
        self.sent.append(rng.getrandbits(many) if self.always else super().control_of(rng, k))
        return self.sent[-1]

    def add_frame(self, classes):
        if self.parity is not None:
            classes[PARITY] = "one" if (classes[:PARITY].count("one") + self.parity) % 2 else "zero"
        super().add_frame(classes)

    def cut(self, rng, many):
        """The recorders cut it."""
        return 0

    def set_otherwise(self, days, hundredths):
        """The same code with a clock that is later."""
        found = copy.copy(self)
        found.start, found.pulses = (self.start[0] + days, self.start[1] + hundredths), []
        for k, control in enumerate(self.sent):
            values = timecode.generated(self.kind, found.start, k, control)
            found.add_frame(timecode.encode(self.kind, self.expression, values))
        return found


class Recorder:
    """What a recorder kept of a signal from one moment to another; its clock is slow by `rate`."""

    def __init__(self, rng, signal):
        length, self.signal = signal.length, signal
        self.begin, self.end = rng.randrange(length // 5), length - rng.randrange(length // 5)
        self.rate = rng.uniform(-MOST_OFF, MOST_OFF)
        self.true = [[max(rise, self.begin) - self.begin, min(fall, self.end) - self.begin]
                     for rise, fall in signal.pulses if rise < self.end and fall > self.begin]
        self.pulses, self.length = copy.deepcopy(self.true), self.end - self.begin

    def damage(self, rng, many, kinds=damages.PLACES):
        for _ in range(many):
            rng.choice(kinds)(rng, self.pulses, self.signal.interval)
            damages.tidy(self.pulses, self.length)

    def place(self, moment):
        """Where a moment is in the recording."""
        return round((moment - self.begin) * (1 + self.rate))

    def dump(self, unit=None, true=False):
        """The recording as a dump; if its times are in `unit` nanoseconds, with a wire of data."""
        pulses = copy.deepcopy(self.true if true else self.pulses)
        length = damages.drift(pulses, self.length, self.rate)
        return in_nanoseconds(pulses, length, unit) if unit else damages.dump(pulses, length)


def in_nanoseconds(pulses, length, unit):
    """A dump of the same pulses at another unit, next to a wire of data."""
    many = 1000 // unit
    lines = ["$timescale %d ns $end $var wire 1 d data $end $var wire 1 ' irig $end $enddefinitions $end #0 0d 0'" % unit]
    for number, (rise, fall) in enumerate(pulses):
        lines += ["#%d 1'" % (many * rise), "#%d %dd" % (many * rise + 1, number % 2)]
        lines += ["#%d 0'" % (many * fall)] * (fall < length)
    return "\n".join([*lines, "#%d" % (many * length), ""])


def signal(rng):
    """A signal with control functions: half have a parity, most have others in each frame."""
    always, parity = rng.random() < 0.7, rng.choice((None, None, 0, 1))
    while True:
        found = Signal(rng, rng.randint(14, 24), always, parity)
        if found.controls():
            return found


def recorder(rng, sent):
    """A recorder of a signal, with 2 to 12 places of damage."""
    found = Recorder(rng, sent)
    found.damage(rng, rng.randint(2, 12))
    return found


def pair(rng):
    """A signal, and two recorders of it."""
    found = signal(rng)
    return found, [recorder(rng, found) for _ in range(2)]
