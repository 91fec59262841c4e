"""Random dumps: a few pulses or some frames, written in the canonical form, freely, or wrongly."""
from reference import dump, timecode

NASTY = [
    b'$var wire 1 " d $end', b"$var wire 2 ! d $end", b"$var event 1 ! irig $end", b"$var", b"$timescale", b"$end",
    b"$enddefinitions", b"$comment", b"$dumpvars", b"$dumpoff", b"$other", b"wire", b"real", b"2", b"01", b"5us",
    b"10", b"fs", b"#", b"#0", b"#7", b"#1x", b"#1099511627776", b"#1099511627777", b"1", b"1!", b"0!", b"x!",
    b"z\x80", b"b1", b"b", b"bU", b"B01z", b"r0.5", b"s", b"!", b"?", b"\xff",
]
# Timescales, and how many of each make a microsecond.
UNITS = (("1us", 1), ("1 us", 1), ("100 ns", 10), ("1 ns", 1000), ("10ps", 100000), ("1 fs", 10**9))
# Values of fields that just fit, and that just do not.
BOUNDS = {
    "hundredths": (90, 100), "seconds": (60, 61, 70), "minutes": (59, 60), "hours": (23, 24), "days": (0, 1, 366, 367),
    "year": (99, 100), "sbs": (86400, 0), "control": (0, 2**18 - 1),
}


def track(random, kind, expression):
    """The length and the edges of a random track that suits a format."""
    interval = timecode.INTERVAL[kind]
    if random.random() < 0.5:
        elements = random.choice((told, told, arbitrary))(random, kind, expression)
        return of_pulses(random, framed(random, interval, elements), random.choice((0, 1, interval)))
    return of_pulses(random, few(random, interval), random.choice((0, 1, 5 * interval, 130 * interval, 250 * interval)))


def of_pulses(random, pulses, quiet):
    """A track of these pulses, cleaned of those that meet, with a quiet tail."""
    edges, last = [], -1
    for rise, fall in pulses:
        if last < rise < fall:
            edges += [rise, fall]
            last = fall
    return max(last, 0) + quiet, frozenset(edges)


def few(random, interval):
    """Up to twelve pulses, of widths and distances in twentieths of the interval and about them."""
    pulses, time = [], random.choice((0, 0, 1, interval))
    for _ in range(random.choice((0, 1, 2, 4, 8, 12))):
        twentieths = random.choice((1, 4, 7, 10, 13, 16, 16, 16, 19, 40))
        width = max(1, twentieths * interval // 20 + random.choice((0, 0, 0, -1, 1)))
        pulses.append((time, time + width))
        steps = (width + 1, interval, interval, interval, 11 * interval // 10, 9 * interval // 10 - 1, 3 * interval)
        time += random.choice(steps)
    return pulses


def told(random, kind, expression):
    """The elements of some frames that show a time; now and then one of them shows a wrong one."""
    start = (random.randint(1, 3652058), 1000 * random.randrange(8640))
    control = random.choice((0, 1, random.getrandbits(16)))
    elements = []
    for k in range(3):
        values = timecode.generated(kind, start, k, control)
        if random.random() < 0.4:
            name = random.choice(sorted(BOUNDS))
            values[name] = random.choice(BOUNDS[name])
        elements += timecode.encode(kind, expression, values)
    for place in random.sample(range(300), random.choice((0, 0, 1, 2))):
        elements[place] = random.choice(("zero", "one", "one", "position"))
    return elements


def arbitrary(random, kind, expression):
    """The elements of some frames, zeros and ones at random."""
    weight = random.choice((0.05, 0.3, 0.5))
    return [
        "position" if place % 100 in timecode.PLACES_OF_POSITIONS else "one" if random.random() < weight else "zero"
        for place in range(300)
    ]


def framed(random, interval, elements):
    """Pulses for these elements, from some place to another, most of them of their widths and in step."""
    pulses, time, damage = [], random.randrange(3) * interval, random.choice((0, 0, 0.004, 0.03))
    first = random.choice((0, 0, 99, 99, 50))
    for element in elements[first:first + random.choice((3, 101, 102, 201, 202, 300))]:
        width = timecode.nominal(interval, element)
        if random.random() < damage:
            width += random.choice((-1, 1, 3, 6)) * interval // 20
        if random.random() < damage:
            time += random.choice((-interval // 10, interval // 10, interval // 10 + 1, interval))
        pulses.append((time, time + width))
        time += interval
    return pulses


def written(random, length, edges):
    """A dump of a track: canonical, or freely written, or damaged."""
    choice = random.random()
    if choice < 0.4:
        return dump.text(length, edges)
    text = freely(random, length, edges)
    return text if choice < 0.85 else damaged(random, text)


def freely(random, length, edges):
    """A dump of a track in another unit, with other wires and all that is skipped."""
    scale, per_microsecond = random.choice(UNITS)
    tokens = ["$date", "today", "$end"] * random.randrange(2) + ["$timescale", *scale.split(), "$end"]
    tokens += "$scope module top $end $var wire 1 ! irig $end".split()
    tokens += '$var reg 8 " n [7:0] $end $var real 64 r level $end'.split() * random.randrange(2)
    tokens += "$upscope $end $enddefinitions $end".split()
    changes = [(edge, place % 2 == 0) for place, edge in enumerate(sorted(edges))]
    if length not in edges:
        changes.append((length, random.choice((False, True))))  # a rise at the end is no pulse
    for time, high in changes:
        tokens.append("#%d" % (time * per_microsecond + random.randrange(per_microsecond)))
        tokens += noise(random)
        if random.random() < 0.1:
            tokens.append("x!" if high else "1!")  # the last value of a microsecond counts
        tokens += value(random, high)
    return " ".join(tokens).replace(" #", "\n#").encode() + random.choice((b"", b"\n", b"\r\n\t"))


def value(random, high):
    if high:
        return random.choice((["1!"], ["1!"], ["b1", "!"], ["B0x1", "!"]))
    return random.choice((["0!"], ["0!"], ["x!"], ["Z!"], ["b0", "!"], ["bz", "!"]))


def noise(random):
    if random.random() > 0.05:
        return []
    return random.choice((
        ["$comment", "#9", "1!", "$end"], ["bU01", '"'], ["r1.5", "r"], ["s$end", "$end"],
        ["$dumpall"], ["$end"], ['1"'],
    ))


def damaged(random, text):
    """A dump with a token too many, too few or changed, or cut off."""
    if random.random() < 0.3:
        return text[:random.randrange(len(text) + 1)]
    tokens = text.split()
    for _ in range(random.choice((1, 1, 2, 4))):
        place = random.randrange(min(len(tokens), random.choice((30, 1000))))
        tokens[place:place + random.randrange(2)] = random.choice(([], [random.choice(NASTY)], [random.choice(NASTY)]))
    return random.choice((b" ", b"\n", b"\v\t")).join(tokens)
