"""Random tapes: how many frames and rises of code on a carrier irig_demodulate reads if the speed changes.

A frame counts if the speed is off by at most 6.5 % from the position identifier before it to its end, and no hole is in it. It is
right if it is fine, begins where its marker does, and has its time. A rise counts if the speed is off by no more there, and
it is none of the two first or last next to silence."""
import random
from bisect import bisect_left
from collections import Counter

import tapes
from cases import case
from rows.in_process import run
from rows.tools_carrier import fine_lines, rises_of, wav

SPEED = 0.065  # by which a tape can be off
NEAR = 0.02  # of a cycle: how near a rise has to be
SHAPES = (("B", 8000, 0, 4), ("A", 48000, 0, 20), ("E", 8000, 0, 1), ("B", 48000, 0, 2), ("E", 8000, 1000, 1), ("A", 96000, 0, 10))


def wow(rng):
    return ((0.01, 10 ** rng.uniform(-1, 1), rng.uniform(0, 6.28)),)


def off(rng):
    return tapes.Tape(rng.uniform(-0.05, 0.05))


def fluttering(rng):
    return tapes.Tape(0.0, wow(rng))


def both(rng):
    return tapes.Tape(rng.uniform(-0.05, 0.05), wow(rng))


def starting(rng):
    return tapes.Tape(rng.uniform(-0.05, 0.05), wow(rng), rng.uniform(0.1, 1.5), rng.uniform(0.1, 1.5), rng.uniform(0, 1))


def holed(rng):
    start, second = rng.uniform(0.3, 0.9), rng.uniform(1.4, 1.6)
    return tapes.Tape(rng.uniform(-0.05, 0.05), wow(rng),
                      holes=((start, start + rng.uniform(0.01, 0.3)), (second, second + rng.uniform(0.01, 0.1))))


# what the tape does, maker, decibels, signals, signals with --whole, share of the frames that is promised
KINDS = (
    ("the clock is off by up to 5 %", off, 20, 6, 60, 1),
    ("wow and flutter of 1 %, at 0.1 to 10 Hz", fluttering, 20, 6, 60, 1),
    ("both", both, 20, 6, 60, 1),
    ("both, and the tape starts and stops", starting, 20, 6, 60, 1),
    ("both, and the carrier is gone twice", holed, 20, 6, 60, 1),
    ("both", both, 10, 12, 120, 0.99),
    ("both, and the tape starts and stops", starting, 10, 6, 60, 0.99),
)


def whole_rises(tape, made):
    """For each true rise whether it counts: the speed is right, and it is not in a hole nor next to one."""
    near = 3 * made.element
    gaps = [(first * 1e6 - near, last * 1e6 + near) for first, last in tape.holes]
    steady = [abs(speed - 1) <= SPEED and not any(first < time < last for first, last in gaps) for time, speed in made.rises]
    return [all(steady[max(0, place - 2):place + 3]) and 2 <= place < len(steady) - 2 for place in range(len(steady))], steady


def frames_of(dump, kind):
    """Where the editor finds a fine frame, and its time."""
    return {int(words[2]): words[4] for words in fine_lines(dump, kind)}


def shown(kind, number):
    """The time of a frame of `rows.tools_what.track`."""
    second = {"A": 20, "B": 20 + number, "E": 10 * (number % 6)}[kind]
    return "12:34:%02d" % second + (".%02d" % (10 * number % 100) if kind == "A" else "")


def distances(made, found):
    """How far each true rise is from the nearest of those that were found, in cycles of the carrier."""
    for time, speed in made.rises:
        at = bisect_left(found, time)
        yield min((abs(other - time) for other in found[max(0, at - 1):at + 1]), default=1e9) * made.hertz * speed / 1e6


def allowed(made):
    """How far a rise that is near can be: a dump has whole microseconds."""
    return NEAR + made.hertz / 2e6


def measured(make, decibels, name, seed):
    """Counts of one signal: frames, those that are right, rises, those that are near, and pulses that are none."""
    rng = random.Random("%s, %d dB, %d" % (name, decibels, seed))
    kind, rate, hertz, frames = SHAPES[seed % len(SHAPES)]
    tape = make(rng)
    made = tapes.recorded(tape, kind, frames, rate, decibels, rng, hertz)
    words = ["--format=" + kind, "--carrier=%d" % made.hertz, "--no-swap", "-"]
    _, dump, said = run("irig_demodulate", words, wav(made.values, rate))
    found, counted = rises_of(dump), Counter(signals=1)
    counts, steady = whole_rises(tape, made)
    for distance, wanted in zip(distances(made, found), counts):
        counted["rises"] += wanted
        counted["near"] += wanted and distance <= allowed(made)
    listed = frames_of(dump, kind)
    for number in range(frames):
        if all(steady[100 * number:100 * number + 101]) and len(steady) > 100 * number + 100:
            counted["frames"] += 1
            marker = made.rises[100 * number + 1][0]
            counted["right"] += any(abs(time - marker) < 0.1 * made.element and text == shown(kind, number)
                                    for time, text in listed.items())
    true = sorted(time for time, _ in made.rises)
    counted["none"] = sum(1 for time in found if all(
        abs(time - other) > 0.5 * made.element for other in true[max(0, bisect_left(true, time) - 1):][:2]))
    counted["gaps"] = said.count("no carrier from")
    return counted


def rate(name, make, decibels, signals):
    counted = Counter()
    for seed in range(signals):
        counted += measured(make, decibels, name, seed)
    return counted


def holds(name, make, decibels, signals, share):
    """Whether enough frames are right, and at 20 dB every rise is near."""
    counted = rate(name, make, decibels, signals)
    good = counted["right"] >= share * counted["frames"] > 0 and not counted["none"]
    good = good and (decibels < 20 or counted["near"] == counted["rises"] > 0)
    good or print("FAILED irig_demodulate, a tape at %d dB, %s: %s" % (decibels, name, dict(counted)))
    return good


def soon(kind, rate, start):
    """Whether each rise is near although a tape comes to its speed that fast, almost without noise."""
    tape = tapes.Tape(0.02, start=start, silence=0.1)
    made = tapes.recorded(tape, kind, 2, rate, 40, random.Random(1))
    _, dump, _ = run("irig_demodulate", ["--format=" + kind, "--no-swap", "-"], wav(made.values, rate))
    counts, _ = whole_rises(tape, made)
    far = [distance for distance, wanted in zip(distances(made, rises_of(dump)), counts) if wanted and distance > allowed(made)]
    far and print("FAILED irig_demodulate, a tape that starts within %.2f seconds: %s" % (start, far))
    return not far and any(counts)


def slowly(seed):
    """Whether no pulse is found while a tape is slower than six tenths of its speed."""
    made = tapes.recorded(tapes.Tape(start=1.0, silence=0.05), "B", 1, 8000, 20, random.Random(seed))
    _, dump, _ = run("irig_demodulate", ["--no-swap", "-"], wav(made.values[:4800], made.rate))
    return not rises_of(dump)


def whole():
    """Prints the rates on large samples, as bench/README.md has them."""
    for name, make, decibels, _, signals, _ in KINDS:
        counted = rate(name, make, decibels, signals)
        print("| %s | %d dB | %d | %d | %d | %d | %d | %d |" % (
            name, decibels, signals, counted["frames"], counted["right"], counted["rises"], counted["near"], counted["none"]), flush=True)


def cases(_):
    random_tapes = [case("tape: %s, %d dB" % (name, decibels), holds, name, make, decibels, signals, share)
                    for name, make, decibels, signals, _, share in KINDS]
    quick = [case("tape: at its speed in %.2f seconds" % start, soon, "A", 48000, start) for start in (0.12, 0.14, 0.16, 0.2)]
    return random_tapes + quick + [case("tape: slower than six tenths, %d" % seed, slowly, seed) for seed in (9, 24, 31)]
