"""Small recordings at random, damaged, and repairs that are proposed for them: right ones, wrong ones, and junk."""
import datetime
import random

from random_input import damages
from reference import timecode

MOST_LINES = 14
CLASSES = sorted(timecode.TWENTIETHS)
JUNK = (
    "", "# why", "  # why", "hello", "\x00\xff", "undo", "redo", "quit", "write", "save", "frames", "info", "marks", ",list", "7",
    "abort", "end", "begin", "format B 2", "'a", "x" * 1001, "# " + "x" * 999, "+", "1,2 list", "mark z 0", "unmark z",
)
TURNS = ((2023, 12, 31), (2024, 12, 31), (2024, 2, 28), (2023, 2, 28), (1999, 12, 31), (2024, 6, 30))


class Recording:
    """Frames of a format as they should be, at a moment at which much may change."""

    def __init__(self, rng):
        self.kind = rng.choice("AABBBGGE")
        self.expression = rng.choice(list(timecode.EXPRESSIONS[self.kind]))
        self.interval = timecode.INTERVAL[self.kind]
        self.period = self.interval // 100
        self.many = rng.randint(3, 6)
        self.start = self.start_of(rng)
        self.controls = self.controls_of(rng)
        self.begin = rng.choice((0, self.interval, 2 * self.interval + 11))
        self.pulses = []
        for k in range(self.many):
            self.add(self.values(k))
        self.length = self.begin + len(self.pulses) * self.interval + rng.choice((0, 3 * self.interval))

    def start_of(self, rng):
        if rng.random() < 0.6:
            return rng.randrange(730486, 738000), rng.randrange(0, timecode.DAY, self.period)
        back = rng.randrange(1, self.many + 1) * self.period
        return datetime.date(*rng.choice(TURNS)).toordinal(), timecode.DAY - back

    def controls_of(self, rng):
        """The control functions of each frame: mostly the same."""
        width = len(timecode.layout(self.kind, self.expression).get("control", [[]])[0])
        first = rng.getrandbits(width) if width else 0
        changes = rng.random() < 0.3
        return [first ^ (rng.getrandbits(width) if changes and width and rng.random() < 0.5 else 0) for _ in range(self.many)]

    def values(self, k):
        return timecode.generated(self.kind, self.start, k, self.controls[k])

    def add(self, values):
        for name in timecode.encode(self.kind, self.expression, values):
            rise = self.begin + len(self.pulses) * self.interval
            self.pulses.append([rise, rise + timecode.nominal(self.interval, name)])

    def moment(self, k):
        """The text of the moment of a frame; some seconds are wrong on purpose."""
        day, hundredths = self.start
        elapsed = hundredths + k * self.period
        date = datetime.date.fromordinal(day + elapsed // timecode.DAY)
        rest = elapsed % timecode.DAY
        parts = (date.year, date.timetuple().tm_yday, rest // 360000, rest // 6000 % 60, rest // 100 % 60, rest % 100)
        return "%04d-%03dT%02d:%02d:%02d.%02d" % parts


def with_second_60(rng, recording):
    """Second 60 is put in, now and then, where a minute ends: from there on all frames are one second later."""
    if recording.kind != "B" or rng.random() > 0.15:
        return
    at = rng.randrange(1, recording.many)
    shown = [recording.values(k) for k in range(recording.many)]
    minute = dict(shown[at], seconds=60, sbs=shown[at]["sbs"] - shown[at]["seconds"] + 60)
    after = [dict(values, seconds=k, minutes=(minute["minutes"] + 1) % 60) for k, values in enumerate(shown[at:])]
    for k, values in enumerate(shown[:at]):
        values.update(seconds=60 - at + k, minutes=minute["minutes"])
    recording.pulses = []
    for values in [*shown[:at], minute, *after][:recording.many]:
        values["sbs"] = 3600 * values["hours"] + 60 * values["minutes"] + values["seconds"]
        recording.add(values)


# what a recorder did


def slow(rng, pulses, recording):
    """The clock is off by up to 3 %."""
    rate = rng.choice((0.0005, 0.001, 0.002, 0.01, 0.02, 0.03)) * rng.choice((-1, 1))
    recording.length = max(damages.drift(pulses, recording.length, rate), pulses[-1][1])


def slip(rng, pulses, recording):
    """The rest comes late, by a little or by whole frames."""
    by = rng.choice((recording.interval // 50, recording.interval // 3, 3 * recording.interval, 30 * recording.interval,
                     60 * recording.interval, 100 * recording.interval))
    at = rng.randrange(1, len(pulses))
    for pulse in pulses[at:]:
        pulse[0], pulse[1] = pulse[0] + by, pulse[1] + by
    recording.length += by


def turned(rng, pulses, recording):
    """Upside down."""
    pulses[:] = [[one[1], other[0]] for one, other in zip(pulses, pulses[1:])]


def left_alone(rng, pulses, recording):
    """As it should be."""


RECORDERS = (left_alone, left_alone, left_alone, slow, slow, slip, slip, turned)
PLACES = (*damages.PLACES, damages.wrong_class, damages.wrong_class)


def frame_lost(rng, pulses, recording):
    """All pulses of a frame and some of the next."""
    at = 100 * rng.randrange(recording.many)
    del pulses[at:at + rng.choice((99, 99, 100, 150))]


def function_changed(rng, pulses, recording):
    """A control function of a frame is the other one, often not as wide as the others."""
    elements = [element for element, _ in timecode.layout(recording.kind, recording.expression).get("control", [[]])[0]]
    if not elements:
        return
    pulse = pulses[min(100 * rng.randrange(recording.many) + rng.choice(elements), len(pulses) - 1)]
    is_one = timecode.class_of(recording.interval, pulse[1] - pulse[0]) == "one"
    off = rng.choice((0, 0, 1, -1)) * (recording.interval // 50)
    pulse[1] = pulse[0] + timecode.nominal(recording.interval, "zero" if is_one else "one") + off


def damaged(rng, recording, pulses):
    found = [list(pulse) for pulse in pulses]
    for _ in range(rng.choice((0, 0, 1, 2))):
        function_changed(rng, found, recording)
    if rng.random() < 0.4:
        frame_lost(rng, found, recording)
    for _ in range(rng.choice((0, 1, 1, 2, 3))):
        if len(found) > 20:
            rng.choice(PLACES)(rng, found, recording.interval)
            damages.tidy(found, recording.length)
    return found


# what is proposed


def right(rng, recording, pulses, found):
    """Lines that undo the damage; if they are many, the frames that are generated again."""
    edges = sorted({edge for pulse in pulses for edge in pulse} ^ {edge for pulse in found for edge in pulse})
    lines = ["invert %d %d" % pair for pair in zip(edges[::2], edges[1::2])]
    if len(lines) > MOST_LINES:
        touched = {min((edge - recording.begin) // (100 * recording.interval), recording.many - 1) for edge in edges}
        return [regenerated(recording, pulses, k) for k in sorted(touched) if k >= 0 and 100 * k < len(pulses)]
    size = rng.choice((1, 1, 2, 3, MOST_LINES))
    parts = [lines[k:k + size] for k in range(0, len(lines), size)]
    return [part if len(part) == 1 else ["begin", *part, "end"] for part in parts]


def regenerated(recording, pulses, k):
    return ["regen %d 1 %s %x" % (pulses[100 * k][0], recording.moment(k), recording.controls[k])]


def generated(rng, recording, pulses):
    """Frames where they belong, or near to it, with their times or others."""
    k = rng.randrange(recording.many)
    at = max(0, pulses[min(100 * k, len(pulses) - 1)][0] + rng.choice((0, 0, 0, 0, 1, -1, recording.interval // 12)))
    wrong = rng.choice((0, 0, 0, 1, -1, 10, 365 * timecode.DAY // recording.period))
    many = rng.choice((1, 1, 1, 2))
    control = recording.controls[k] ^ rng.choice((0, 0, 0, 1))
    return ["regen %d %d %s %x" % (at, many, recording.moment(k + wrong), control)]


def wild(rng, recording, pulses):
    """An edit of any pulse."""
    n, count = rng.randint(0, len(pulses) + 1), len(pulses)
    time = rng.randrange(recording.length + 2)
    return [rng.choice((
        "%d delete" % n, "%d force %s" % (n, rng.choice(CLASSES)), "%d,%d join" % (n, n + 1),
        "%d shift %d" % (n, rng.choice((1, -1, recording.interval // 20, 7))), "insert %d %d" % (time, time + recording.interval // 5),
        "%d,$ shift %d" % (max(1, n), rng.choice((1, -1, recording.interval // 9))), "1,%d delete" % count,
        "%d,$ shift %d" % (rng.choice((1, 101, 201, 301)), rng.choice((1, -1, 3, -3, -30, -60, -100)) * recording.interval // 3),
        "invert 0 %d" % recording.length, "mark %s %d" % (rng.choice("ab"), time), "invert %d %d" % (time, time + 3),
    ))]


def begun(number):
    """A recording as it should be, and what decides the rest."""
    rng = random.Random("irig_guard, %d" % number)
    recording = Recording(rng)
    with_second_60(rng, recording)
    return rng, recording


def sent(number):
    """The pulses that another recorder has of the same code."""
    return begun(number)[1].pulses


def case(number):
    """Kind, expression, pulses, length and script."""
    rng, recording = begun(number)
    pulses = [list(pulse) for pulse in recording.pulses]
    rng.choice(RECORDERS)(rng, pulses, recording)
    damages.tidy(pulses, recording.length)
    found = damaged(rng, recording, pulses)
    repairs = right(rng, recording, pulses, found) if rng.random() < 0.8 else []
    for _ in range(rng.choice((0, 1, 1, 2, 3))):
        new = rng.choice((generated, wild, wild, junk))(rng, recording, pulses)
        repairs.insert(rng.randint(0, len(repairs)), new)
    text = "\n".join(line for repair in repairs for line in repair) + rng.choice(("\n", "\n", ""))
    return recording.kind, recording.expression, found, recording.length, text.encode("latin-1")


def junk(rng, recording, pulses):
    """Lines that are no edit, or a group of such."""
    lines = [rng.choice(JUNK) for _ in range(rng.choice((1, 1, 2)))]
    return lines if rng.random() < 0.7 else ["begin", *lines, "end"]
