"""Recordings of every format at random, and damage of every kind. Each takes a `random.Random`, so a seed
says it all.

A pulse is [rise, fall] in microseconds. The kinds are functions that change a list of pulses in place.
"""
from reference import timecode

MOST_FRAMES = {"A": 40, "B": 40, "E": 20, "G": 40}


class Recording:
    """A recording as it should be: its format, its frames, its pulses and its length."""

    def __init__(self, rng, frames=None):
        self.kind = rng.choice("AABBBBEG")
        self.expression = rng.choice(list(timecode.EXPRESSIONS[self.kind]))
        self.interval = timecode.INTERVAL[self.kind]
        self.begin = rng.choice((0, 0, 3 * self.interval // 7, 2 * self.interval + 11))
        many = frames or rng.randint(8, MOST_FRAMES[self.kind])
        self.control = rng.getrandbits(len(timecode.control_elements(self.kind, self.expression >= 4)))
        self.control *= rng.random() < 0.7
        period = self.interval // 100
        self.start = start = (rng.randrange(730486, 738000), rng.randrange(0, timecode.DAY, period))
        self.pulses = []
        for k in range(many):
            values = timecode.generated(self.kind, start, k, self.control_of(rng, k))
            self.add_frame(timecode.encode(self.kind, self.expression, values))
        self.length = self.begin + len(self.pulses) * self.interval
        self.first_element = self.cut(rng, many)

    def control_of(self, rng, k):
        """The control functions of a frame: here they never change."""
        return self.control

    def add_frame(self, classes):
        for name in classes:
            rise = self.begin + len(self.pulses) * self.interval
            self.pulses.append([rise, rise + timecode.nominal(self.interval, name)])

    def controls(self):
        """The pulses of control functions."""
        wanted = timecode.layout(self.kind, self.expression).get("control", [])
        elements = {element for digit in wanted for element, _ in digit}
        return [pulse for at, pulse in enumerate(self.pulses) if (at + self.first_element) % 100 in elements]

    def cut(self, rng, many):
        """Cuts the first and the last frame, mostly. Returns the element with which the recording then
        begins."""
        first = rng.randrange(100) if rng.random() < 0.7 else 0
        last = rng.randrange(100) if rng.random() < 0.7 else 0
        self.pulses = self.pulses[first:len(self.pulses) - last]
        for pulse in self.pulses:
            pulse[0] -= first * self.interval
            pulse[1] -= first * self.interval
        self.length = self.begin + len(self.pulses) * self.interval
        return first

    def options(self):
        return ["--format", self.kind, "--expression", str(self.expression)]


def dump(pulses, length):
    """The dump of pulses. One that is cut by the end has its fall there, and no edge is written for it."""
    lines = ["$timescale 1 us $end", "$var wire 1 ! code $end", "$enddefinitions $end"]
    if not pulses or pulses[0][0] > 0:
        lines.append("#0 0!")
    for rise, fall in pulses:
        lines.append("#%d 1!" % rise)
        if fall < length:
            lines.append("#%d 0!" % fall)
    return "\n".join(lines + ["#%d" % length, ""])


def tidy(pulses, length):
    """Pulses that touch are one, none is empty, and all are in the recording."""
    found = []
    for rise, fall in sorted(pulses):
        rise, fall = max(0, rise), min(length, fall)
        if rise >= fall:
            continue
        if found and rise <= found[-1][1]:
            found[-1][1] = max(found[-1][1], fall)
        else:
            found.append([rise, fall])
    pulses[:] = found


# one place


def glitch_in(rng, pulses, interval):
    """A short gap in a pulse."""
    at = rng.randrange(2, len(pulses) - 2)
    rise, fall = pulses[at]
    gap = max(2, interval // rng.choice((20, 50, 100)))
    low = rng.randrange(rise + 1, max(rise + 2, fall - gap - 1))
    pulses[at:at + 1] = [[rise, low], [min(low + gap, fall - 1), fall]]


def glitch_between(rng, pulses, interval):
    """A short pulse between two."""
    at = rng.randrange(2, len(pulses) - 3)
    low, high = pulses[at][1] + 2, pulses[at + 1][0] - 2
    width = max(1, interval // rng.choice((20, 50, 100)))
    if high - low > width + 2:
        rise = rng.randrange(low, high - width)
        pulses.insert(at + 1, [rise, rise + width])


def merged(rng, pulses, interval):
    """Two or three pulses run together."""
    at = rng.randrange(2, len(pulses) - 5)
    many = rng.choice((2, 2, 3))
    pulses[at:at + many] = [[pulses[at][0], pulses[at + many - 1][1]]]


def missing(rng, pulses, interval):
    del pulses[rng.randrange(2, len(pulses) - 2)]


def lost(rng, pulses, interval):
    """A stretch without a signal."""
    at = rng.randrange(2, max(3, len(pulses) - 400))
    del pulses[at:at + rng.choice((3, 10, 60, 150, 330))]


def wrong_class(rng, pulses, interval):
    at = rng.randrange(2, len(pulses) - 2)
    rise, fall = pulses[at]
    name = rng.choice(
        [name for name in timecode.TWENTIETHS if timecode.nominal(interval, name) != fall - rise]
    )
    pulses[at][1] = rise + timecode.nominal(interval, name)


def wrong_width(rng, pulses, interval):
    """A width that has no class, or one near the border of two."""
    at = rng.randrange(2, len(pulses) - 2)
    pulses[at][1] = pulses[at][0] + interval * rng.choice((2, 3, 97, 98)) // 100


def marker(rng, pulses, interval):
    """A position identifier that is none."""
    wide = [at for at in range(2, len(pulses) - 2) if pulses[at][1] - pulses[at][0] > interval * 7 // 10]
    at = rng.choice(wide)
    pulses[at][1] = pulses[at][0] + interval * rng.choice((20, 50)) // 100


def late_rise(rng, pulses, interval):
    """A pulse that comes late as a whole."""
    at = rng.randrange(2, len(pulses) - 2)
    by = interval * rng.choice((8, 12, 15)) // 100
    pulses[at] = [pulses[at][0] + by, pulses[at][1] + by]


def extra(rng, pulses, interval):
    """A pulse that is as wide as a zero, between two."""
    at = rng.randrange(2, len(pulses) - 3)
    low, high = pulses[at][1] + 2, pulses[at + 1][0] - 2
    width = interval * 20 // 100
    if high - low > width + 2:
        rise = rng.randrange(low, high - width)
        pulses.insert(at + 1, [rise, rise + width])


def late_rest(rng, pulses, interval):
    """From a pulse on all is late."""
    at, by = rng.randrange(150, len(pulses) - 150), interval * rng.randrange(15, 900) // 100
    for pulse in pulses[at:]:
        pulse[0] += by
        pulse[1] += by


def short(rng, pulses, interval):
    """A pulse that begins late and ends in time."""
    at = rng.randrange(2, len(pulses) - 2)
    pulses[at][0] = min(pulses[at][1] - 1, pulses[at][0] + interval * 15 // 100)


PLACES = (
    glitch_in,
    glitch_between,
    merged,
    missing,
    lost,
    wrong_class,
    wrong_width,
    marker,
    late_rise,
    extra,
    short,
)
TWELVE = (*PLACES, late_rest)


# a stretch


def noise(rng, pulses, interval):
    """A burst of noise over 2 to 20 elements."""
    many = rng.randint(2, 20)
    at = rng.randrange(120, len(pulses) - 120 - many)
    begin, end = pulses[at][0], pulses[at + many][0] - 1
    edges = sorted(rng.sample(range(begin, end), 2 * rng.randint(many, 4 * many)))
    pulses[at:at + many] = [[rise, fall] for rise, fall in zip(edges[::2], edges[1::2])]


def chatter(rng, pulses, interval):
    """Each edge of 20 to 300 pulses chatters."""
    many = min(rng.randint(20, 300), len(pulses) - 300)
    at = rng.randrange(120, len(pulses) - 120 - many)
    new = []
    for rise, fall in pulses[at:at + many]:
        low, gap = max(1, interval // 100), max(1, interval // 60)
        new += [[rise, rise + low], [rise + low + gap, fall], [fall + gap, fall + gap + low]]
    pulses[at:at + many] = new


def fade(rng, pulses, interval):
    """Of 10 to 150 pulses some are lost and some are short."""
    many = rng.randint(10, 150)
    at = rng.randrange(120, len(pulses) - 120 - many)
    new = []
    for rise, fall in pulses[at:at + many]:
        luck = rng.random()
        if luck > 0.3:
            new.append([rise, fall] if luck > 0.6 else [rise, fall - interval * rng.randint(2, 6) // 100])
    pulses[at:at + many] = new


def stuck(rng, pulses, interval):
    """The level is stuck high for 2 to 150 elements."""
    many = rng.randint(2, 150)
    at = rng.randrange(120, len(pulses) - 120 - many)
    pulses[at:at + many] = [[pulses[at][0], pulses[at + many - 1][1]]]


# the whole recording


def threshold(rng, pulses, interval):
    """Every pulse is longer, or every pulse is shorter, by 8 to 25 % of the interval (at most 16 %
    shorter)."""
    by = rng.choice((rng.randint(8, 25), -rng.randint(8, 16))) * interval // 100
    for at, pulse in enumerate(pulses):
        end = pulses[at + 1][0] - 1 if at + 1 < len(pulses) else pulse[0] + interval - 2
        pulse[1] = min(pulse[1] + by, max(end, pulse[0] + 1))


def twice(rng, pulses, interval):
    """A stretch of 20 to 300 elements is there twice. Returns how much longer the recording is."""
    many = rng.randint(20, 300)
    at = (
        rng.randrange(250, len(pulses) - 250 - many)
        if len(pulses) > 510 + many
        else len(pulses) // 2 - many // 2
    )
    by = pulses[at + many][0] - pulses[at][0]
    copy = [[rise + by, fall + by] for rise, fall in pulses[at:at + many]]
    rest = [[rise + by, fall + by] for rise, fall in pulses[at + many:]]
    pulses[at + many:] = copy + rest
    return by


def cut_out(rng, pulses, interval):
    """A stretch of 20 to 300 elements is cut out, and the rest comes at once. Returns how many elements are
    gone."""
    many = rng.randint(20, 300)
    at = rng.randrange(250, max(251, len(pulses) - 250 - many))
    by = pulses[at + many][0] - pulses[at][0]
    pulses[at:] = [[rise - by, fall - by] for rise, fall in pulses[at + many:]]
    return many


def millionths(rng):
    """By how much a clock of quartz is off, as a share."""
    return rng.choice((-1, 1)) * rng.uniform(0.000003, 0.0001)


def drift(pulses, length, rate):
    """The clock is slow by this share. Returns the new length."""
    for pulse in pulses:
        pulse[0], pulse[1] = round(pulse[0] * (1 + rate)), round(pulse[1] * (1 + rate))
    return round(length * (1 + rate))


def jitter(rng, pulses, interval, share):
    """Each rise strays by up to this share of the interval, and its fall with it."""
    for pulse in pulses:
        by = round(rng.uniform(-share, share) * interval)
        if pulse[0] + by > 0:
            pulse[0], pulse[1] = pulse[0] + by, pulse[1] + by
