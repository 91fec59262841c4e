"""Each thing that irig_mend has to see, leave or mend, on recordings of the generator of bench/shares.

It is written from docs/FORMATS.md alone and shares nothing with the tools or with the reference encoder, so the tools were not tuned to it.
It knows the truth: each recording is made twice, once without its damage.
"""
import os
import re
import subprocess
import sys
import tempfile
from unittest import mock

from built import TIME, TOP
from cases import case
from irig_tools import analysis, editor, mend
from rows import tools_parts, tools_rare
from rows.tools_parts import same

sys.path.insert(0, os.path.join(TOP, "bench", "shares"))

from recordings import PARITY, Draft, Recording  # noqa: E402
from sent import DAY, HOUR, MINUTE, SECOND, Run, control_elements, year_length  # noqa: E402
from tape import Clock, Wave, dump  # noqa: E402

EDGE = re.compile(r"^#(\d+)\s+([01])!", re.M)
COUNTS = (("undecided", "undecided"), ("step", "stays"))
FLUTTERS = (0.0042, 21.4, 0.3), (0.0048, 15.1, 2.0)  # by how much it is faster, the elements of a turn, the phase


def nothing(draft):
    pass


class Made:
    """A recording with damage, and the same one without it."""

    def __init__(self, seed, kind, expressions="", frames=0, before=nothing, after=nothing):
        """`before` changes what is sent and the clock, `after` damages it."""
        self.damaged, self.sound = [self._recorded(seed, kind, expressions, frames, before, each) for each in (after, nothing)]
        self.kind, self.expression, self.interval = kind, self.sound.expression, self.sound.interval
        self.near = 2 + 2 * self.sound.jitter  # microseconds, that a rise of the same pulse can be off

    @staticmethod
    def _recorded(seed, kind, expressions, frames, before, after):
        draft = Draft("rows", seed, kind)
        draft.expressions = expressions or draft.expressions
        if frames:
            draft.frames, draft.length = frames, frames * draft.format.frame
            draft.sent = draft.first + 1.1 * draft.length + 8 * draft.format.frame
        before(draft)
        draft.send()
        after(draft)
        draft.play()
        return Recording("rows", seed, draft)

    def listing(self):
        """What the editor would print of the damaged one."""
        return listed(self.damaged.text, self.kind, self.expression, self.damaged.length)

    def mended(self, *words, known=True):
        """What `irig_mend --apply` makes of it."""
        options = ["--format=" + self.kind, "--expression=%d" % self.expression] if known else []
        return Mended(self.damaged.text, [*options, *words])

    def unlike(self, found):
        """How many pulses of the recording without damage are not there, or have another class, and how many there are besides."""
        sound, own = pulses_of(self.sound.text), pulses_of(found.text)
        classes = {rise: name_of(fall - rise, self.interval) for rise, fall in sound}
        rises, missing = sorted(rise for rise, _ in own), 0
        by_rise = dict(own)
        for rise, name in classes.items():
            near = nearest(rises, rise)
            if abs(near - rise) > self.interval / 10 or name_of(by_rise[near] - near, self.interval) != name:
                missing += 1
        return missing, len(own) - len(sound)


class Mended:
    """The status, the lines and the dump of a run; the counts of the first line are those of the lines."""

    def __init__(self, text, options):
        with tempfile.TemporaryDirectory() as folder:
            path, out = os.path.join(folder, "track.vcd"), os.path.join(folder, "mended.vcd")
            with open(path, "w", encoding="ascii") as file:
                file.write(text)
            command = [os.path.join(TOP, "tools", "irig_mend"), *options, "--apply", out, path]
            ran = subprocess.run(command, capture_output=True, text=True, check=False)
            self.status, self.said = ran.returncode, ran.stderr
            self.lines = [line.partition(": ")[2] for line in ran.stdout.splitlines()]
            self.text = ""
            if os.path.exists(out):
                with open(out, encoding="ascii") as file:
                    self.text = file.read()

    def counts_hold(self):
        counted = [int(re.search(r"(\d+) %s" % word, self.lines[0])[1]) for word, _ in COUNTS]
        return counted == [sum(line.startswith(each + ": ") for line in self.lines) for _, each in COUNTS]

    def says(self, words):
        return [line for line in self.lines if words in line]


def edges_of(text):
    return [(int(time), level) for time, level in EDGE.findall(text) if int(time)]


def pulses_of(text):
    """The pulses that begin after 0 and end before the end."""
    edges = edges_of(text)
    rises = [time for time, level in edges if level == "1"]
    falls = [time for time, level in edges if level == "0"]
    falls = falls[1:] if falls and rises and falls[0] < rises[0] else falls
    return list(zip(rises, falls))


def listed(text, kind, expression, length):
    listing = tools_parts.listing_of([list(each) for each in pulses_of(text)], int(length), expression, kind)
    return listing


def name_of(width, interval):
    share = width / interval
    return "b" if share < 0.05 or share >= 0.95 else "0" if share < 0.35 else "1" if share < 0.65 else "P"


def nearest(times, time):
    return min(times, key=lambda each: abs(each - time)) if len(times) < 50 else _nearest(times, time)


def _nearest(times, time):
    low, high = 0, len(times) - 1
    while low < high:
        middle = (low + high) // 2
        low, high = (middle + 1, high) if times[middle] < time else (low, middle)
    return min(times[max(0, low - 1):low + 1], key=lambda each: abs(each - time))


def on(clock):
    """A clock for a draft, of its interval."""
    def change(draft):
        draft.clock = clock(draft)
    return change


def waving(share, elements, phase=0.3):
    return on(lambda draft: Clock(0.0, 0.0, [Wave(share, elements * draft.format.interval, phase)]))


def sweeping(draft):
    """From 5 % slow to 5 % fast."""
    slope = 0.1 / draft.length
    draft.clock = Clock(-0.05 - slope * draft.first, slope)


def still(draft):
    """Rises stray by 0.003 % of the interval: 0.3 microseconds in B."""
    draft.jitter = 0.00003 * draft.format.interval


def at(share, kind):
    """Damage of a kind at some share of the recording."""
    return lambda draft: draft.damage(draft.clock.place(draft.first) + share * draft.length, kind)


def element_of(draft, frame, element):
    """The number of a pulse that was sent, by its frame and its element."""
    return draft.wire.number(draft.clock.place((100 * frame + element + 0.3) * draft.format.interval))


def several(*changes):
    def change(draft):
        for each in changes:
            each(draft)
    return change


# 1: code of another format in a hole


def with_other(own, other, first, last):
    """The dump of a recording in which a stretch is that of another one, and what that stretch has."""
    begin, end = first * own.sound.length, last * own.sound.length
    outside = [each for each in pulses_of(own.sound.text) if each[1] < begin or each[0] > end]
    inside = [(rise + begin + 777, fall + begin + 777) for rise, fall in other if fall + begin + 777 < end - 777]
    return dump(sorted(outside + inside), own.sound.length), inside


def of_other_code():
    """What is of another format, or steady with another interval, stays as it was recorded and is named."""
    for own, expression, other, seconds in (
            ("A", "4", "B", 15), ("B", "2", "A", 15), ("B", "0", "E", 20), ("E", "1", "B", 120), ("G", "2", "A", 3),
            ("B", "6", "1PPS", 30)):
        frames = int(seconds * 1000000 / (100 * {"A": 1000, "B": 10000, "E": 100000, "G": 100}[own]))
        made = Made(17, own, expression, frames)
        code = pulses_of(Made(18, other, "2", 0).sound.text) if other != "1PPS" else [(SECOND * k, SECOND * k + 20000) for k in range(60)]
        text, inside = with_other(made, code, 0.35, 0.66)
        found = Mended(text, [] if (own, other) == ("A", "B") else ["--format=" + own, "--expression=" + expression])
        kept = set(edges_of(text)) <= set(edges_of(found.text))
        name = "%s in %s" % (other, own)
        yield same(name, (found.status, kept, len(found.says("is other code")), len(found.text.split("1!")) == len(text.split("1!"))),
                   (1, True, 1, True))
        yield same(name + ", the counts", found.counts_hold(), True)


def of_later_looks():
    """A repair of a later look is that of its own pulses, also if one before it, that changes how many pulses there are, is left out."""
    def late_into_the_next(draft):
        number = element_of(draft, 5, 49)
        (rise, _), = draft.wire.pulses[number]
        (_, fall), = draft.wire.pulses[number + 1]
        draft.wire.pulses[number:number + 2] = [[(rise + 0.42 * draft.format.interval, fall)], []]

    for number, early in enumerate(("glitches", "merged", "missing")):
        made = Made(500 + number, "B", "2", 12, still, several(late_into_the_next, at(0.15, early)))
        with tempfile.TemporaryDirectory() as folder:
            path = os.path.join(folder, "track.vcd")
            with open(path, "w", encoding="ascii") as file:
                file.write(made.damaged.text)
            opened = editor.Editor(["--format=B", "--expression=2", path])
            script = mend.propose(opened, lambda text: None)
            first = min((each for each in script if each.edits), key=lambda each: each.at)
            found = opened.ask([each.lines() for each in script if each is not first])
        late = [each for each in script if any(line.endswith(" force position") for line in each.edits)]
        begin = made.sound.length * 0.3
        sound = [pulse for pulse in pulses_of(made.sound.text) if pulse[0] > begin]
        own = [pulse for pulse in zip(found.rises, found.falls) if pulse[0] > begin and pulse[1] < made.sound.length]
        off = [max(abs(rise - mine), abs(fall - other)) for (rise, fall), (mine, other) in zip(sound, own)]
        yield same(early, (len(late), len(found.refused), len(own) - len(sound), max(off) <= 2 + 2 * made.near), (1, 0, 0, True))


# 2: damage that is not seen


def of_unseen():
    """One pulse of a short recording is lost: it is damage, or a run is left and a line says so."""
    unseen = []
    for seed in range(80):
        made = Made(seed, "ABEG"[seed % 4], frames=2 + seed % 3, before=still, after=at(0.25 + seed / 160, "missing"))
        found = analysis.examine(made.listing())
        if not tools_rare.wanted(found) and not tools_rare.said(found):
            unseen.append(seed)
    yield same("a pulse of a short recording", unseen, [])


# 3: sound pulses


def of_sound():
    """Nothing is damaged: no pulse is moved, on any clock."""
    for number, (kind, clock) in enumerate((
            ("B", waving(0.01, 200)), ("B", waving(0.03, 200)), ("A", waving(0.02, 60)), ("E", waving(0.022, 29)), ("G", waving(0.004, 17)),
            ("B", sweeping), ("A", sweeping), ("E", sweeping), ("G", several(waving(0.01, 700), still)), ("A", waving(0.0015, 4.3)))):
        made = Made(300 + number, kind, frames=14, before=clock)
        found = made.mended()
        same_edges = edges_of(found.text) == edges_of(made.damaged.text)
        yield same("undamaged %d" % number, (found.status, len(found.lines), same_edges), (0, 1, True))
    # two flutters at once: many pulses say the interval worse than few
    both = on(lambda draft: Clock(0.0, 0.0, [Wave(share, many * draft.format.interval, phase) for share, many, phase in FLUTTERS]))
    for number in range(4):
        made = Made(320 + number, "A", frames=40, before=both)
        found = made.mended()
        same_edges = edges_of(found.text) == edges_of(made.damaged.text)
        yield same("undamaged, two flutters, %d" % number, (found.status, len(found.lines), same_edges), (0, 1, True))


# 4: steps that are none, and long holes on a clock that wanders


def of_wandering():
    """On a clock that wanders there is no step where none was, and all that is damaged is mended; a long hole is left."""
    hurt = several(at(0.2, "missing"), at(0.34, "split"), at(0.5, "missing"), at(0.62, "missing"), at(0.8, "split"))
    for number, (kind, clock) in enumerate((
            ("B", waving(0.01, 200)), ("A", waving(0.01, 100)), ("G", waving(0.0015, 43)), ("B", sweeping), ("A", sweeping),
            ("G", sweeping))):
        made = Made(400 + number, kind, "2", 16, clock, hurt)
        found = made.mended()
        name = "five places, clock %d" % number
        yield same(name, (found.status, found.says("stays: "), made.unlike(found)), (0, [], (0, 0)))
        yield same(name + ", the counts", found.counts_hold(), True)
    for number, elements in enumerate((150, 230)):
        made = Made(420 + number, "B", "2", 16, waving(0.03, 200), lambda draft: draft.wire.clear(640, elements))
        found = made.mended()
        left = found.says("elements are lost or damaged from there to")
        yield same("a hole of %d" % elements, (found.status, len(left), all("milliseconds off" in line for line in left)), (1, 1, True))
        yield same("a hole of %d, what is filled" % elements, edges_of(found.text), edges_of(made.damaged.text))


# 5: a late rise that is less than the margin


def of_late_rises():
    """At the end of a dropout a rise is late by 3 % of the interval: damage, and mended to where it was."""
    def late(draft):
        draft.wire.clear(820, 14)
        (rise, fall), = draft.wire.pulses[834]
        draft.wire.pulses[834] = [(rise + 0.03 * draft.format.interval, fall)]

    for kind in "AB":
        made = Made(31, kind, "2", 14, still, late)
        found = made.mended()
        true, own = dict(pulses_of(made.sound.text)), sorted(dict(pulses_of(found.text)))
        off = max(abs(nearest(own, rise) - rise) for rise in true)
        yield same("a late rise in " + kind, (found.status, made.unlike(found), off <= 2 * made.near), (0, (0, 0), True))

    def late_alone(draft):
        (rise, fall), = draft.wire.pulses[834]
        draft.wire.pulses[834] = [(rise + 0.03 * draft.format.interval, fall)]

    made = Made(31, "B", "2", 14, still, late_alone)
    found = made.mended()
    yield same("a late rise in a frame that is fine",
               (found.status, len(found.says("would move in a frame that is fine")), edges_of(found.text) == edges_of(made.damaged.text)),
               (1, 1, True))


# 6: frames that say another time


def of_set():
    """The clock is set at the 16th frame and what follows is damaged: no frame gets the time that is over."""
    def setting(draft):
        moment, frame = 16 * draft.format.frame, draft.format.frame
        draft.first, draft.sent = 0.3 * frame, 60 * frame
        draft.time = draft.time % (300 * DAY)
        draft.runs = [Run(0, moment, 0, draft.time), Run(moment, draft.sent, moment, draft.time + 7 * HOUR + 3 * MINUTE)]

    def hurt(draft):
        for _ in range(40):
            draft.damage((16.1 + 14 * draft.random.random()) * draft.format.frame, draft.random.choice(("missing", "width", "split")))

    for seed in range(6):
        made = Made(seed, "B", "2", 32, several(still, setting), hurt)
        found = made.mended()
        own, before = dict(pulses_of(found.text)), dict(pulses_of(made.damaged.text))
        rises, wrong = sorted(own), {}
        for rise, fall in pulses_of(made.sound.text):
            near = nearest(rises, rise)
            is_new = before.get(near) != own[near]
            if is_new and abs(near - rise) < 1000 and name_of(own[near] - near, 10000) not in ("b", name_of(fall - rise, 10000)):
                frame = int((rise + 0.3e6 + 500) // 1e6)
                wrong[frame] = wrong.get(frame, 0) + 1
        hurt_now = [frame for frame, many in wrong.items() if many > 2]
        yield same("set, seed %d" % seed, (hurt_now, found.counts_hold(), len(before) > 0), ([], True, True))


# 7: what a recorder lost next to an end


def lost_at(share, shift, count):
    """A recorder loses intervals, at a share of the recording and some intervals more."""
    def change(draft):
        interval = draft.format.interval
        draft.event("lose", draft.clock.place(draft.first) + share * draft.length + shift * interval, count * interval)
    return change


def beginning(share, frames):
    """The recording begins at a share of a frame, has that many frames, and its times begin at noon."""
    def change(draft):
        draft.first, draft.length, draft.clock = share * draft.format.frame, frames * draft.format.frame, Clock(0.0)
        draft.sent, draft.time = draft.first + draft.length + 9 * draft.format.frame, 60 * DAY + 12 * HOUR
    return change


def set_in_frame_12(frames):
    """The sender's clock is set by some frames, after the date of frame 12."""
    def change(draft):
        begin, moment = 12 * draft.format.frame, round(12.6 * draft.format.frame)
        draft.runs = [Run(0, moment, 0, draft.time), Run(moment, draft.sent, begin, draft.time + begin + frames * draft.format.frame)]
    return change


def as_wide(frame, element, width):
    """An element is that part of an interval wide."""
    def change(draft):
        number = element_of(draft, frame, element)
        (rise, _), = draft.wire.pulses[number]
        draft.wire.pulses[number] = [(rise, rise + width * draft.format.interval)]
    return change


# name, format, where in a frame the recording begins, its frames, what is lost, and what is said; the one P of the first seven pulses is
# two elements early, of the last eight two elements late
LOST_AT_AN_END = (
    ("seven pulses before a loss", "G", 0.781, 20, lost_at(0, 7.7, 8), "fit another element"),
    ("eight pulses after a loss", "G", 0.781, 20.048, lost_at(1, -8.7, 8), "fit another element"),
    ("a frame is lost in the last one", "B", 0.781, 11.32, lost_at(0, 1122.4, 100), "1 element contradicts"),
    ("a frame is lost in the first one", "B", 0.005, 11.32, lost_at(0, 30.4, 100), "1 element contradicts"),
)
# frame, element, width and expression: position identifiers of the first frame; an hour of the last one in a pulse that is not as wide as
# zeros are; the same in one that is, if the seconds of the day are there; and a day
DAMAGED_AT_AN_END = ((0, 79, 0.2, "2"), (0, 99, 0.2, "2"), (12, 21, 0.28, "2"), (12, 21, 0.2, "3"), (12, 35, 0.5, "2"))


def of_lost_at_an_end():
    """What was recorded next to the loss stays, whatever the rest leads to; what is damaged without a loss is mended."""
    for name, kind, begin, frames, loss, said in LOST_AT_AN_END:
        made = Made(77, kind, "2", 0, several(still, beginning(begin, frames)), loss)
        found = made.mended()
        yield same(name, (found.status, len(found.says(said)), edges_of(found.text) == edges_of(made.damaged.text), found.counts_hold()),
                   (1, 1, True, True))
    for name, kind, by in (("back by a frame", "B", -1), ("on by an hour", "G", 360000)):
        made = Made(77, kind, "2", 0, several(still, beginning(0.781, 12.6), set_in_frame_12(by)))
        found = made.mended()
        yield same("the clock is set %s in the last whole frame" % name,
                   (found.status, len(found.says("1 element contradicts")), edges_of(found.text) == edges_of(made.damaged.text)),
                   (1, 1, True))
    for frame, element, width, expression in DAMAGED_AT_AN_END:
        made = Made(78, "B", expression, 0, several(still, beginning(0.781, 12.2)), as_wide(frame, element, width))
        found = made.mended()
        yield same("element %d of frame %d" % (element, frame), (found.status, made.unlike(found)), (0, (0, 0)))


# 8: rarer damage


def of_noise():
    """Noise in little time."""
    def noise(draft):
        count = draft.wire.clear(1043, 3)
        begin = draft.wire.rises[1043]
        edges = sorted(draft.random.sample(range(int(begin), int(begin + count * draft.format.interval)), 10000))
        draft.wire.pulses[1043] = list(zip(edges[::2], edges[1::2]))

    made = Made(71, "B", "2", 20, still, noise)
    found = made.mended()
    yield same("5,000 pulses of noise in 20 seconds", (found.status, made.unlike(found)), (0, (0, 0)))


def of_a_century():
    """The end of a century."""
    def last_of_1999(draft):
        draft.year, draft.time = 1999, year_length(1999) * DAY - 8 * draft.format.frame

    for kind, expression in (("B", "4"), ("A", "7"), ("E", "6"), ("G", "5")):
        made = Made(72, kind, expression, 16, several(still, last_of_1999))
        found = made.mended()
        yield same("from 1999 to 2000, " + kind, (found.status, edges_of(found.text) == edges_of(made.damaged.text)), (0, True))


def of_always_one():
    """A control function that is one in all frames, and in one of them a pulse that looks like a zero and more."""
    def always(draft):
        elements = control_elements(draft.format, 0)
        draft._controls = lambda timed: lambda time: {elements[4]}

    def as_a_zero(draft):
        number = element_of(draft, 30, 54)
        (rise, fall), = draft.wire.pulses[number]
        draft.wire.pulses[number] = [(rise, rise + 2000), (fall - 300, fall)]

    made = Made(73, "B", "0", 60, several(still, always), as_a_zero)
    found = made.mended()
    yield same("a control function that is one in all frames", (found.status, made.unlike(found)), (0, (0, 0)))


def of_a_new_begin():
    """A generator that is started again, with another time."""
    def begins_again(draft):
        moment = 9.37 * draft.format.frame
        draft.first, draft.time = 0.0, 100 * DAY + 3 * HOUR
        draft.runs = [Run(0, moment, 0, draft.time), Run(moment, draft.sent, moment, 20 * DAY)]

    made = Made(74, "B", "2", 20, several(still, begins_again))
    found = made.mended()
    said = " ".join(found.lines)
    yield same("a generator that begins again", ("the clock was set" in said, "elements are missing" in said), (True, False))


def of_rarer():
    """Noise in little time, the end of a century, a control function that is always one, a clock that was set."""
    for rows in (of_noise, of_a_century, of_always_one, of_a_new_begin):
        yield from rows()


# 9: no fine frame


def of_unread():
    """The threshold is wrong all over, or each frame is damaged: format and expression are found."""
    def wider(draft):
        for number, found in enumerate(draft.wire.pulses):
            draft.wire.pulses[number] = [(rise, fall + 0.17 * draft.format.interval) for rise, fall in found]

    def everywhere(draft):
        for number in range(7, len(draft.wire.pulses), 61):
            draft.wire.clear(number, 1)

    for kind, expression in (("B", "2"), ("A", "2"), ("G", "2")):
        for name, change in (("wider", wider), ("damaged everywhere", everywhere)):
            made = Made(81, kind, expression, 16, still, change)
            found = made.mended(known=False)
            yield same("%s, %s" % (kind, name), (found.status, made.unlike(found)), (0, (0, 0)))


# 10: control functions with a rule


def of_parity():
    """The parity is lost, or an element before it, or an element of a frame that reads well is wrong: it says what was sent."""
    def with_parity(draft):
        draft.parity = True
        draft.time = 60 * DAY + 12 * HOUR

    def changed(element, how):
        def change(draft):
            number = element_of(draft, 20, element)
            if how == "lost":
                draft.wire.clear(number, 1)
            else:
                (rise, fall), = draft.wire.pulses[number]
                long = fall - rise > 0.3 * draft.format.interval
                draft.wire.pulses[number] = [(rise, rise + (0.2 if long else 0.5) * draft.format.interval)]
        return change

    for name, element, how in (("the parity is lost", PARITY, "lost"), ("an element before it is lost", 63, "lost"),
                               ("another element is lost", 71, "lost")):
        for kind in "AB":
            made = Made(91, kind, "4", 40, several(still, with_parity), changed(element, how))
            found = made.mended()
            yield same("%s, %s" % (name, kind), (found.status, made.unlike(found)), (0, (0, 0)))
    bad = Made(93, "B", "4", 40, several(still, with_parity), changed(63, "turned"))
    found = bad.mended()
    yield same("a fine frame with another element is seen", (len(found.lines) > 1 or "1 place found" in found.lines[0]), True)


# 11: recordings that give no sample a time


def set_at_the_second_frame(draft):
    """The recording has one frame before the sender's clock was set, and one after that."""
    beginning(0.95, 2.1)(draft)
    moment = 2 * draft.format.frame
    draft.runs = [Run(0, moment, 0, draft.time), Run(moment, draft.sent, moment, draft.time + moment + 3 * HOUR)]


def a_hole_in_each_frame(draft):
    """The recording begins at a marker and ends after 200 elements."""
    draft.wire.clear(element_of(draft, 1, 39), 20)
    draft.wire.clear(element_of(draft, 2, 81), 19)


NO_FRAME, NO_SUPPORT = "no frame is sound", "no sound frame supports another one"
# name, format and expression, what is sent, the damage, and why no sample gets a time
TIMELESS = (
    ("hole", "E6", beginning(0.9993, 2), a_hole_in_each_frame, NO_FRAME),
    ("short", "E6", beginning(0.5, 1), nothing, NO_FRAME),
    ("set", "B2", set_at_the_second_frame, nothing, NO_SUPPORT),
    ("one", "B2", beginning(0.95, 1.2), nothing, ""),
    ("three", "B2", beginning(0.95, 3.2), lambda draft: draft.wire.clear(element_of(draft, 2, 33), 1), ""),
)


def times_of(folder, form, name, moments):
    """What irig_time gives these moments."""
    command = [TIME, "--format=" + form[0], "--expression=" + form[1], os.path.join(folder, name)]
    lines = "".join("%.3f\n" % moment for moment in moments)
    printed = subprocess.run(command, input=lines, capture_output=True, text=True, check=False).stdout
    return [line.partition("\t")[0] for line in printed.splitlines()]


def has_times(folder, form, length):
    """Whether irig_time gives one of 200 samples a time."""
    return any(time != "-" for time in times_of(folder, form, "mended.vcd", [length * number // 200 for number in range(200)]))


def run_on(folder, *words):
    """The status of irig_mend in a folder, and the lines that it prints."""
    command = [os.path.join(TOP, "tools", "irig_mend"), *words]
    done = subprocess.run(command, cwd=folder, capture_output=True, text=True, check=False)
    return done.returncode, done.stdout.splitlines()


def of_no_time():
    """If no frame is sound after a repair, or none that another one supports, nothing bears it out: a line says so, and a person has to
    look. It is so just if irig_time gives no sample a time."""
    with tempfile.TemporaryDirectory() as folder:
        os.mkdir(os.path.join(folder, "in"))
        for name, form, before, after, why in TIMELESS:
            made = Made(111, form[0], form[1], 0, several(still, before), after)
            path, options = "in/%s.vcd" % name, ["--format=" + form[0], "--expression=" + form[1]]
            with open(os.path.join(folder, path), "w", encoding="ascii") as file:
                file.write(made.damaged.text)
            status, lines = run_on(folder, *options, "--apply", "mended.vcd", "--page", "page.html", path)
            told = ["%s: %s after the repair: nothing bears it out, and no sample gets a time" % (path, why)] * bool(why)
            yield same(name, (status, [line for line in lines if " after the repair" in line]), (int(bool(why)), told))
            with open(os.path.join(folder, "page.html"), encoding="utf-8") as file:
                yield same(name + ", on the page", "after the repair: nothing bears it out" in file.read(), bool(why))
            yield same(name + ", by irig_time", has_times(folder, form, made.damaged.length), not why)
            status, lines = run_on(folder, *options, path)
            told = "# undecided: at 0: %s after this script; nothing bears it out, and no sample gets a time" % why
            is_damaged = after is not nothing
            yield same(name + ", its script", (status, told in lines), (int(is_damaged or bool(why)), bool(why)))
            yield same(name + ", explained", run_on(folder, *options, "--explain", path)[0], int(is_damaged or bool(why)))
        status, lines = run_on(folder, "--format=B", "--expression=2", "--apply-to", "out", "in")
        reasons = [line.partition(": ")[::2] for line in lines if " after the repair: " in line]
        yield same("a folder", (status, lines[-1].partition(";")[0]), (1, "5 recordings: 2 whole, 3 with damage left, 0 not repaired"))
        yield same("a folder, the reasons", [(name, why.partition(" after")[0]) for name, why in reasons],
                   [("hole.vcd", NO_FRAME), ("short.vcd", NO_FRAME), ("set.vcd", NO_SUPPORT)])


# 12: samples that a repair would leave without a time

# an irig_time that gives the moments next to a pulse no time, if the track has the pulse
TAKING = """#!%s
import re, subprocess, sys
asked = sys.stdin.buffer.read()
printed = subprocess.run([%r, *sys.argv[1:]], input=asked, stdout=subprocess.PIPE, check=False).stdout.decode()
with open(sys.argv[-1], encoding="ascii") as file:
    takes = re.search(r"#%d\\b", file.read())
for line in printed.splitlines():
    time, _, moment = line.partition("\\t")
    print("-" if takes and abs(float(moment) - %d) < %d else time, moment, sep="\\t")
"""


def taking(folder, rise, reach):
    """An irig_ed in a folder, with an irig_time next to it that gives no time near a pulse that rises then, if the track has it."""
    for name in ("irig_ed", "irig_guard"):
        os.symlink(os.path.join(os.path.dirname(TIME), "..", "..", name, "out", name), os.path.join(folder, name))
    with open(os.path.join(folder, "irig_time"), "w", encoding="ascii") as file:
        file.write(TAKING % (sys.executable, TIME, rise, rise, reach))
    os.chmod(os.path.join(folder, "irig_time"), 0o755)
    return mock.patch.dict(os.environ, IRIG_ED=os.path.join(folder, "irig_ed"))


def of_taken_times():
    """A repair is left out, with a remark, if it would take the time of a sample, and what else is damaged is repaired."""
    made = Made(111, "B", "2", 30, still, several(at(0.3, "split"), at(0.6, "missing")))
    rise, = {rise for rise, _ in pulses_of(made.sound.text)} - {rise for rise, _ in pulses_of(made.damaged.text)}
    with tempfile.TemporaryDirectory() as folder:
        with open(os.path.join(folder, "track.vcd"), "w", encoding="ascii") as file:
            file.write(made.damaged.text)
        with taking(folder, rise, 3 * made.interval):
            status, lines = run_on(folder, "--format=B", "--expression=2", "--apply", "mended.vcd", "track.vcd")
        with open(os.path.join(folder, "mended.vcd"), encoding="ascii") as file:
            unlike = set(pulses_of(made.sound.text)) ^ set(pulses_of(file.read()))
    said = any("next to it would have no time, or another one, so they are left out" in line for line in lines)
    yield same("a lost pulse, and not a split one", (status, {each for each, _ in unlike}, said), (1, {rise}, True))


def upside_down(text, length, begin, end):
    """The recording with its wire turned over between two moments."""
    edges = sorted({edge for pulse in pulses_of(text) for edge in pulse} ^ {begin, end})
    return dump(list(zip(edges[::2], edges[1::2])), length)


def of_turned_times():
    """A stretch that is upside down is turned over at just the moments at which it was, also if zeros are next to them, which are in step
    both ways; what else is damaged is repaired. Samples that had a time only while their wire was upside down do not count."""
    for number in (2, 6, 18, 22):
        made = Made(140 + number, "B", "2", 30, still, several(at(0.04, "split"), at(0.5, "missing"), at(0.9, "late")))
        begin = element_of_moment(made, 4, 40 + number) + 14 * made.interval // 25
        found = Mended(upside_down(made.damaged.text, made.damaged.length, begin, begin + 617 * made.interval),
                       ["--format=B", "--expression=2"])
        yield same("%d" % number, [line for line in found.lines if "would have no time" in line], [])
        yield same("%d, pulses that are not as sent" % number, made.unlike(found), (0, 0))


def element_of_moment(made, frame, element):
    """The moment of an element of a frame of a recording."""
    first = min(rise for rise, _ in pulses_of(made.sound.text))
    return first + (100 * frame + element) * made.interval


def cases():
    """Each by its name."""
    return [case("mend: sent: " + name, holds) for name, holds in (
        ("other code", of_other_code), ("damage is seen", of_unseen), ("sound pulses", of_sound), ("clocks that wander", of_wandering),
        ("late rises", of_late_rises), ("a clock that was set", of_set), ("a loss next to an end", of_lost_at_an_end),
        ("rarer damage", of_rarer), ("no frame is fine", of_unread), ("parity", of_parity), ("later looks", of_later_looks),
        ("no time", of_no_time), ("times that a repair takes", of_taken_times),
        ("times of what is upside down", of_turned_times))]
