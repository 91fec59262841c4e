"""Recorders that slip: they lose samples of all wires at once, or record some of them twice. Next to the time
code they recorded data.

A moment of the signal is in true microseconds, a moment of the recording in those of the file.
"""
from random_input import damages
from reference import timecode

SAMPLES = 300  # of data in each recording


class Tape:
    """Which stretches of the signal the file has, one after the other."""

    def __init__(self, length, slips):
        """`slips` are (when, by how much) in true microseconds, in their order: above 0 that much is recorded
        twice, below 0 it is lost."""
        self.parts, begin = [], 0
        for when, by in slips:
            self.parts.append((begin, when))
            begin = when - by
        self.parts.append((begin, length))
        self.length = sum(end - begin for begin, end in self.parts)

    def _placed(self):
        """Each stretch with its place in the file."""
        at = 0
        for begin, end in self.parts:
            yield at, begin, end
            at += end - begin

    def pulses(self, pulses):
        """The pulses of the signal as the file has them."""
        found = []
        for at, begin, end in self._placed():
            found += [
                [max(rise, begin) - begin + at, min(fall, end) - begin + at]
                for rise, fall in pulses
                if rise < end and fall > begin
            ]
        damages.tidy(found, self.length)
        return found

    def samples(self, rng):
        """Samples of data: where the file has them, and when they were."""
        length = max(end for _, end in self.parts)
        moments = sorted(rng.sample(range(length), SAMPLES))
        return [
            (moment - begin + at, moment)
            for at, begin, end in self._placed()
            for moment in moments
            if begin <= moment < end
        ]

    def moments(self, where, near):
        """When the file was recorded there; two moments near a slip."""
        return [
            where - at + begin for at, begin, end in self._placed() if -near <= where - at < end - begin + near
        ]


class Changing(damages.Recording):
    """Some control functions change from frame to frame."""

    def control_of(self, rng, k):
        if not hasattr(self, "rates"):
            many = len(timecode.control_elements(self.kind, self.expression >= 4))
            self.rates = [rng.choice((0, 0, 0.02, 0.1, 0.5)) for _ in range(many)]
            self.rates[rng.randrange(many)] = 0.5
        for bit, rate in enumerate(self.rates):
            self.control ^= (rng.random() < rate) << bit
        return self.control


def slip(rng, interval, most):
    """By how much a recorder slips: from a fiftieth of an interval on, now and then by whole intervals or
    frames."""
    size = min(most, rng.choice((0.02, 0.05, 0.5, 2.5, 12, 60, most)))
    by = max(1, round(rng.uniform(size / 5, size) * interval))
    luck = rng.random()
    if luck < 0.1:
        by = max(1, by // interval) * interval
    elif luck < 0.15 and by > 100 * interval:
        by = by // (100 * interval) * 100 * interval
    return by * rng.choice((-1, 1))


def slips(rng, recording, many):
    """That many slips, at least two frames from the ends and 1.5 frames apart."""
    interval = recording.interval
    low, high = 200 * interval, recording.length - 200 * interval
    room = (high - low) // many
    found = []
    for k in range(many):
        by = slip(rng, interval, min(300, room // interval - 150))
        begin = low + k * room
        found.append((rng.randrange(begin + max(0, by), begin + room - max(0, -by) - 140 * interval * (many > 1)), by))
    return found


def hole(rng, recording):
    """A hole in the time code of 0.2 to 3.4 frames, and in it a slip of 0.02 to 2.5 intervals: its first and
    last moment, and the slip."""
    interval, many = recording.interval, len(recording.pulses)
    size = rng.randint(20, 340)
    first = rng.randrange(100, many - 100 - size)
    begin, end = recording.pulses[first][0], recording.pulses[first + size][0]
    by = round(rng.uniform(*rng.choice(((0.02, 0.1), (0.05, 0.5), (0.5, 2.5)))) * interval) * rng.choice((-1, 1))
    return begin, end, (rng.randrange(begin + abs(by) + 1, end - abs(by) - 1), by)


def without_controls(rng, recording, pulses, many):
    """Some control functions are lost, alone or several in a row."""
    controls = recording.controls()
    for _ in range(many):
        at, count = rng.randrange(len(controls)), rng.choice((1, 1, 1, 2, 7, 27))
        lost = controls[at:at + count]
        pulses[:] = [pulse for pulse in pulses if pulse not in lost]
