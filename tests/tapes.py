"""Time code on a carrier from a tape whose speed changes, by the definition of the modulated code (IRIG 200-04): a sine
whose upward crossings of zero are the on-time points, ten times as high in a pulse as three parts outside. The speed
bends the time, so the true rises are known."""
import math
from array import array
from bisect import bisect_right
from dataclasses import dataclass
from itertools import accumulate

from reference import timecode
from rows.tools_what import track

HERTZ = {"A": 10000, "B": 1000, "E": 100}
SPACE = 0.3  # the height outside pulses, of that inside


@dataclass
class Tape:
    """`off` is by how much the tape is too fast, `wow` are a depth, a frequency and a phase each; it needs `start` and
    `stop` seconds to come to its speed and to halt; silence is before and after, and in `holes` from second to second."""

    off: float = 0.0
    wow: tuple = ()
    start: float = 0.0
    stop: float = 0.0
    silence: float = 0.0
    holes: tuple = ()

    def speed(self, time, length):
        """At a time of the recording, which has that length without the silence."""
        value = 1 + self.off
        for depth, hertz, phase in self.wow:
            value += depth * math.sin(2 * math.pi * hertz * time + phase)
        if time < self.start:
            value *= time / self.start
        if length - time < self.stop:
            value *= max(0.0, (length - time) / self.stop)
        return value


@dataclass
class Recording:
    """Samples of 16 bits, and each true rise in microseconds with the speed then."""

    values: array
    rate: int
    rises: list
    kind: str
    hertz: int

    @property
    def element(self):
        """The index count interval, in microseconds."""
        return timecode.INTERVAL[self.kind]


def with_silence(tape, heard, rate):
    """What is heard, with the silence before it, after it and in the holes."""
    quiet = [0.0] * round(tape.silence * rate)
    heard = quiet + heard + quiet
    for first, last in tape.holes:
        heard[round(first * rate):round(last * rate)] = [0.0] * (round(last * rate) - round(first * rate))
    return heard


def recorded(tape, kind, frames, rate, decibels, rng, hertz=0):
    """Some frames, played by a tape, with noise that is that far below the power of the carrier in a pulse."""
    hertz = hertz or HERTZ[kind]
    edges, code = track(kind, frames)
    code /= 1e6
    count = round((1.01 * code / (1 + tape.off) + 0.6 * (tape.start + tape.stop)) * rate)
    length = count / rate
    speeds = [tape.speed(number / rate, length) for number in range(count + 1)]
    times = list(accumulate(((one + other) / 2 / rate for one, other in zip(speeds, speeds[1:])), initial=0.0))
    levels, places, heard = [level for _, level in edges], [time / 1e6 for time, _ in edges], []
    for time in times[:count]:
        at = bisect_right(places, time)
        height = (1 if at and levels[at - 1] else SPACE) if time < code else 0
        heard.append(height * math.sin(2 * math.pi * hertz * time))
    noise = 10 ** (-decibels / 20) / math.sqrt(2)
    values = array("h", [round(9000 * (value + rng.gauss(0, noise)) + 500) for value in with_silence(tape, heard, rate)])
    quiet, rises = round(tape.silence * rate), []
    for time, level in zip(places, levels):
        at = bisect_right(times, time) - 1
        if level and at < count:
            part = (time - times[at]) / max(times[at + 1] - times[at], 1e-12)
            rises.append(((quiet + at + part) / rate * 1e6, speeds[at]))
    return Recording(values, rate, rises, kind, hertz)
