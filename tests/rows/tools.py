"""Worked rows for irig_damage and irig_mend: exact lines, statuses, and hostile input."""
import os
import random
import subprocess
import tempfile
from itertools import product

from built import TOP
from cases import case
from irig_tools import check as check_of
from irig_tools import damage, editor, mend
from irig_tools.layout import Layout
from irig_tools.script import Repair
from random_input import damages
from reference import timecode

DAY = 738946  # 29 February 2024 is day 60, this is day 61
NOON = 12 * 360000
FRAME = "frame 2024-061T12:00:0"


def recording(frames=8, leap=False, begin=(DAY, NOON), expression=4):
    """Frames of format B, expression 4 or another one, from 12:00:00 on; or those around a leap second."""
    pulses = []
    for k in range(frames):
        start = (begin[0], begin[1] + 100 * k)
        if leap:  # 31 December 2016, from 23:59:56 on, second 60 is the fifth
            start = (
                736329 + (k > 4),
                (timecode.DAY - 400 + 100 * k) % timecode.DAY if k < 4 else 100 * max(0, k - 5),
            )
        values = timecode.generated("B", start, 0, 0)
        if leap and k == 4:
            values = timecode.generated("B", (736329, timecode.DAY - 100), 0, 0)
            values.update(seconds=60, sbs=86400)
        for name in timecode.encode("B", expression, values):
            rise = 10000 * len(pulses)
            pulses.append([rise, rise + timecode.nominal(10000, name)])
    return pulses


def moved(pulses, at, by):
    for pulse in pulses[at:]:
        pulse[0] += by
        pulse[1] += by


def again(pulses, first, many):
    """A stretch that is there twice."""
    moved(pulses, first + many, 10000 * many)
    pulses[first + many:first + many] = [
        [a + 10000 * many, b + 10000 * many] for a, b in pulses[first:first + many]
    ]


def trembling(pulses):
    rng = random.Random(1)
    for pulse in pulses[1:]:
        by = rng.randint(-200, 200)
        pulse[0], pulse[1] = pulse[0] + by, pulse[1] + by


def slow(pulses):
    pulses[:] = [[rise * 201 // 200, fall * 201 // 200] for rise, fall in pulses]


def slow_with_a_glitch(pulses):
    slow(pulses)
    glitch(pulses)


def hardly_slow(pulses):
    """A clock that is off by 50 in a million, and two holes: the rest is on its clock."""
    pulses[:] = [[rise * 20001 // 20000, fall * 20001 // 20000] for rise, fall in pulses]
    del pulses[615:635], pulses[155:355]


def glitch(pulses):
    rise, fall = pulses[301]
    pulses[301:302] = [[rise, rise + 900], [rise + 940, fall]]


def turned(pulses):
    pulses[:] = [[a[1], b[0]] for a, b in zip(pulses, pulses[1:])]


def upside_down_in(pulses, begin, end):
    """The level turns over from a time up to another."""
    edges = sorted({edge for pulse in pulses for edge in pulse} ^ {begin, end})
    pulses[:] = map(list, zip(edges[::2], edges[1::2]))


SLOW = (
    "0 the whole recording: the clock is 0.50 % slow: pulses come every 10050.0 microseconds, not every 10000"
)
GLITCH = "2 pulses where one has to be; a one follows from the frames around it"

# what is done to the recording, how long it then is, and each line of irig_damage
ROWS = (
    ("a sound recording", lambda pulses: None, 8000000, []),
    (
        "a glitch in a pulse",
        glitch,
        8000000,
        ["3010000 %s3, element 1, pulses 302 to 303: %s" % (FRAME, GLITCH)],
    ),
    (
        "two pulses run together",
        lambda pulses: pulses.__setitem__(slice(232, 234), [[2320000, 2332000]]),
        8000000,
        ["2320000 %s2, element 32 to 33, pulse 233: 2 pulses have run together" % FRAME],
    ),
    (
        "a pulse is missing",
        lambda pulses: pulses.pop(243),
        8000000,
        ["2430000 %s2, element 43: no pulse; a zero has to be there" % FRAME],
    ),
    (
        "a marker is a one",
        lambda pulses: pulses[300].__setitem__(1, 3005000),
        8000000,
        ["3000000 %s3, element 0, pulse 301: 5000 wide, a one; a position has to be there" % FRAME],
    ),
    (
        "a pulse is late",
        lambda pulses: pulses.__setitem__(243, [2431500, 2433500]),
        8000000,
        [
            "2430000 %s2, element 43, pulse 244: 2000 wide, a zero, and 1500 late; a zero has to be there"
            % FRAME
        ],
    ),
    (
        "a width that is no class",
        lambda pulses: pulses[243].__setitem__(1, 2439700),
        8000000,
        ["2430000 %s2, element 43, pulse 244: 9700 wide, which is no class; a zero has to be there" % FRAME],
    ),
    (
        "a stretch is lost",
        lambda pulses: pulses.__delitem__(slice(230, 415)),
        8000000,
        ["2300000 %s2, element 30 to %s4, element 14: 185 elements without a pulse" % (FRAME, FRAME)],
    ),
    (
        "the rest is late",
        lambda pulses: moved(pulses, 450, 3300),
        8003300,
        ["4503300 %s4, element 50: from pulse 451 at 4503300 on all comes 3300 late" % FRAME],
    ),
    (
        "no signal at the end",
        lambda pulses: None,
        8500000,
        ["7998000 remark: no pulse from there to the end at 8500000"],
    ),
    (
        "no signal at the beginning",
        lambda pulses: moved(pulses, 0, 500000),
        8500000,
        ["0 remark: no pulse before 500000"],
    ),
    ("a clock that is slow", slow, 8040000, [SLOW]),
    (
        "a clock that is slow, and a glitch",
        slow_with_a_glitch,
        8040000,
        [SLOW, "3025050 %s3, element 1, pulses 302 to 303: %s" % (FRAME, GLITCH)],
    ),
    (
        "holes, and a clock that is hardly slow",
        hardly_slow,
        8002000,
        [
            "1550077 %s1, element 55 to %s3, element 54: 200 elements without a pulse" % (FRAME, FRAME),
            "6150307 %s6, element 15 to 34: 20 elements without a pulse" % FRAME,
        ],
    ),
    (
        "upside down",
        turned,
        8000000,
        ["0 the falls come at one distance, the rises do not: the wire is upside down"],
    ),
)


def written(folder, pulses, length):
    path = os.path.join(folder, "track.vcd")
    with open(path, "w") as file:
        file.write(damages.dump(pulses, length))
    return path


def lines_of(pulses, length):
    with tempfile.TemporaryDirectory() as folder:
        path = written(folder, pulses, length)
        return [
            each.line() for each in damage.look(editor.Editor(["--expression", "4", path]), lambda text: None).damages
        ]


def row(name, change, length, wanted):
    pulses = recording()
    change(pulses)
    return same(name, lines_of(pulses, length), wanted)


def same(name, got, wanted):
    if got != wanted:
        print("FAILED %s\n wanted %s\n got    %s" % (name, wanted, got))
    return got == wanted


def starts(name, got, wanted):
    """Lines that begin in this way, and no other lines."""
    good = len(got) == len(wanted) and all(line.startswith(begin) for line, begin in zip(got, wanted))
    return good or same(name, got, wanted)


def mended(pulses, length, steady=False, move=False, expression=4):
    """The script that is proposed, and the pulses after it."""
    with tempfile.TemporaryDirectory() as folder:
        opened = editor.Editor(["--expression", str(expression), written(folder, pulses, length)])
        script = mend.propose(opened, lambda text: None, steady, move)
        after = opened.ask([repair.lines() for repair in script])
    return mend.script_text(script), [list(each) for each in zip(after.rises, after.falls)]


def gives_back(name, change, length):
    """Whether the script that is proposed gives back the recording, and is empty if nothing is damaged."""
    pulses = recording()
    change(pulses)
    script, after = mended(pulses, length, move=name == "the rest is late")
    good = same(name + ", mended", after, recording())
    return good and same(name + ", a script", bool(script), name != "a sound recording")


def nearly_in_time(pulses):
    """Noise instead of a one: it begins 200 microseconds late, so samples there would get a time that is early by as much."""
    pulses[301:302] = [[3010200, 3010900], [3011900, 3013000]]


def two_of_the_last(pulses):
    """The last frame has second 1 instead of 7."""
    for at in (702, 703):
        pulses[at][1] = pulses[at][0] + 2000


def chattering(pulses):
    """One pulse in nine rises twice, with 150 microseconds between."""
    for at in range(793, 2, -9):
        rise, fall = pulses[at]
        pulses[at:at + 1] = [[rise, rise + 60], [rise + 150, fall]]


def in_every_frame(pulses):
    """No frame shows its time whole; each field can be read in several frames."""
    for frame, element in enumerate((2, 12, 22, 33) * 2):
        rise = pulses[100 * frame + element][0]
        pulses[100 * frame + element][1] = rise + 9700


def without_second(first):
    """Frames from which one second is cut out, from this pulse on."""
    pulses = recording(12)
    del pulses[first:first + 100]
    moved(pulses, first, -1000000)
    return pulses


def left_alone(pulses):
    """Six zeros between two holes, 4300 late by either side."""
    for pulse in pulses[260:266]:
        pulse[0], pulse[1] = pulse[0] + 4300, pulse[1] + 4300
    del pulses[266:310], pulses[225:260]


def two_sided(name, change, length, wanted):
    """A step: what is said of it, and that no pulse is moved; --move gives back the recording."""
    pulses = recording(12)
    change(pulses)
    script, after = mended(pulses, length)
    yield starts(name, script.splitlines(), ["# stays: at %s; that is left: if the recorder slipped" % wanted])
    yield same(name + ", the pulses", after, pulses)
    yield same(name + ", --move", mended(pulses, length, move=True)[1], recording(12))


def in_a_hole(pulses):
    """1.6 seconds lost, and the rest early."""
    moved(pulses, 785, -600)
    del pulses[625:785]


def steps():
    """Steps of the times: on one wire nothing says whether the recorder slipped."""
    early = "from pulse 626 at 7849400 on all comes 600 early, and 160 elements before it are missing or damaged"
    yield from two_sided("a hole, and the rest is early", in_a_hole, 12000000, "7849400: " + early)
    late = "from pulse 846 at 8450400 on all comes 400 late"
    yield from two_sided(
        "a small step", lambda pulses: moved(pulses, 845, 400), 12000400, "8450400: " + late
    )
    near = recording(12)  # no whole frame is between the steps
    moved(near, 450, 3300)
    moved(near, 520, 2100)
    lines = [line.partition(": ")[2] for line in lines_of(near, 12005400)]
    yield starts("two steps that are near each other", lines, ["from pulse 451 at 4503300", "from pulse 521 at 5205400"])
    unread = recording(12)
    moved(unread, 450, 3300)
    del unread[21::100]
    lines = [line for line in lines_of(unread, 12003300) if "no frame can be read" in line]
    yield starts("no frame is read on either side", lines, ["0 no frame can be read with expression 4, and only position"])
    copied = "5570000: the 130 elements from 4270000 on are there twice: at 5570000 the times begin again"
    yield from two_sided("a copy", lambda pulses: again(pulses, 430, 130), 13300000, copied)


def missing_near_the_end(first, beyond, count):
    """That many pulses, with elements cut out near the end. Expression 6 uses few elements, so the frame that the cut makes of
    two is contradicted by its position identifiers, and by hardly anything else."""
    pulses = recording(8, expression=6)[:count]
    del pulses[first:beyond]
    moved(pulses, first, -10000 * (beyond - first))
    return pulses


def split(pulses, at):
    """The same with a gap in one pulse."""
    rise, fall = pulses[at]
    return [list(pulse) for pulse in (*pulses[:at], (rise, rise + 500), (rise + 540, fall), *pulses[at + 1:])]


def missing():
    """What is on the other side of a cut near an end has another time: the frame that the cut makes of two is left, and what is
    damaged next to it is repaired. With --move what is damaged in that frame is repaired, too."""
    rows = (("one marker comes after it", 460, 470, 515, 0, False),
            ("the last pulse is cut by the end", 460, 470, 520, 5000, False),
            ("no whole frame is next to it", 585, 599, 618, 0, True))
    for name, first, beyond, count, lost, is_repaired in rows:
        pulses = missing_near_the_end(first, beyond, count)
        pulses[-1][1] -= lost
        broken = split(pulses, 430)  # after it no frame is whole
        for there, move, wanted in ((pulses, False, pulses), (broken, False, pulses if is_repaired else broken), (broken, True, pulses)):
            script, after = mended(there, pulses[-1][1] + 2000 * (not lost), move=move, expression=6)
            changed = [at for at, (one, other) in enumerate(zip(after, wanted)) if one != other]
            yield same("%s, %d pulses%s" % (name, len(there), ", --move" * move),
                       ("# undecided: at" in script or "# stays: at" in script, changed), (True, []))
    yield from missing_near_the_beginning()


def missing_near_the_beginning():
    """The same soon after the first marker of a recording; what is damaged before the loss is repaired, also if other code follows and
    stays, so that the frame next to it never gets whole."""
    early = recording(8, expression=6)[130:]
    del early[72:82]
    moved(early, 72, -100000)
    moved(early, 0, -1300000)
    elsewhere = [[rise, rise + 2500] for rise in range(2051500, 2242000, 7300)]  # other code, which is left
    until_then = [list(pulse) for pulse in (*early[:205], *elsewhere, *early[225:])]
    wide = [list(pulse) for pulse in until_then]
    wide[15][1] += 7700  # a zero of the frame before the one that is cut
    for name, broken, wanted in (("near the beginning", split(early, 205), early),
                                 ("near the beginning, and other code follows", wide, until_then)):
        for move in (False, True):
            script, after = mended(broken, early[-1][1] + 2000, move=move, expression=6)
            yield same(name + ", --move" * move, ("# undecided: at" in script or "# stays: at" in script, after), (True, wanted))


def late_for_a_while(pulses, by=3300, back=3300):
    """From 4.5 to 8.45 seconds all is late, and then early by as much, or by more."""
    moved(pulses, 450, by)
    moved(pulses, 845, -back)


def together():
    """Steps that belong together: what comes after both can be right as it is, so all of them are moved, or none."""
    pulses = recording(12)
    late_for_a_while(pulses)
    script, after = mended(pulses, 12010000, move=True)
    lines = [line for line in script.splitlines() if line[0] != "#"]
    yield same("late for a while", after, recording(12))
    yield same("as one", lines, ["begin", "846,$ shift 3300", "451,$ shift -3300", "end"])
    pulses = recording(12)
    late_for_a_while(pulses, 1000, 5000)
    script, after = mended(pulses, 11994100, move=True)  # which has no room for 4000 more
    seen = "# undecided: at 4501000: from here on not every step can be moved"
    yield same("one that cannot be moved", after, pulses)
    yield starts("what is said", script.splitlines()[:1], [seen])


def sampled():
    """A recorder with 5,000 samples in a second, and a clock that is off by 100 in a million: repaired pulses know no samples. The
    second rise is then at a tenth of an interval, so that it does not say either how far they are apart."""
    for move, later in product((False, True), (0, 800)):
        pulses = [[int(-(-(time * 1.0001 + later) // 200) * 200) for time in pulse] for pulse in recording(12)]
        lost = pulses[570:630]
        del pulses[570:630]
        script, after = mended(pulses, 12003000, move=move)
        yield same("samples are no steps", ("shift" in script, len(after)), (False, 1200))
        off = max(abs(found[0] - true[0]) for found, true in zip(after[570:630], lost))
        yield same("what is filled in", (off <= 200, after[630:]), (True, pulses[570:]))


def judged(pulses, length, edits):
    """What a script makes worse."""
    layout = Layout("B", 4)
    with tempfile.TemporaryDirectory() as folder:
        opened = editor.Editor(["--expression", "4", written(folder, pulses, length)])
        repairs = [Repair(at, [], [edit], moves=[(at, by, 0) for by in moves]) for at, edit, *moves in edits]
        listings = opened.ask([]), opened.ask([repair.lines() for repair in repairs])
    harms = check_of.Check(layout, 10000, [], listings, check_of.Moved(repairs)).harms()
    return [(harm.at, harm.seen) for harm in harms]


def harms():
    """What irig_mend sees if a script makes a frame worse."""
    gap = recording(12)
    del gap[500:700]
    regen = "regen 5000000 2 2024-061T12:00:0"
    led = "a frame would get a time that the frames around it do not lead to"
    yield same("a script that is right", judged(gap, 12000000, [(5000000, regen + "5")]), [])
    yield same(
        "frames of another time",
        judged(gap, 12000000, [(5000000, regen + "4")]),
        [(4990000, led), (5990000, led)],
    )
    yield same(
        "a frame that was fine",
        judged(recording(12), 12000000, [(5020000, "503 force one")]),
        [(4990000, "a frame that is fine would change")],
    )
    late = recording(12)
    in_a_hole(late)
    apart = "the frames before and after it would not follow each other"
    move = "626,$ shift "
    yield same("a rest that is moved by a frame", judged(late, 12000000, [(7849400, move + "-999400", -999400)]), [(7849400, apart)])
    yield same("a rest that is moved right", judged(late, 12000000, [(7849400, move + "600", 600)]), [])


def of_a_leap_second():
    """A frame with second 60, which is no damage, and the same lost."""
    leap = recording(10, leap=True)
    yield same("a leap second is no damage", lines_of(leap, 10000000), [])
    del leap[400:500]
    yield same("a lost leap second", lines_of(leap, 10000000),
               ["4000000 frame 2016-366T23:59:60, element 0 to 99: 100 elements without a pulse"])


def of_stretches():
    """A stretch that is there twice, one that is cut out, and rises that tremble."""
    copied = recording(12)
    again(copied, 430, 130)  # three are alike before it
    yield starts("a stretch is there twice", lines_of(copied, 13300000), ["5570000 the 130 elements from 4270000 on are there twice"])
    cut = recording(12)
    del cut[430:560]
    moved(cut, 430, -1300000)
    yield starts("a stretch is cut out", [line.partition(" ")[2] for line in lines_of(cut, 10700000)],
                 ["130 elements are missing by the times of the frames, and the rest follows at once"])
    tremble = recording()
    trembling(tremble)
    yield starts("rises that tremble", lines_of(tremble, 8000000), ["0 the whole recording: rises tremble: half of all"])


def given_back():
    """Damage of which the script gives back the recording, and a frame that is put together of two."""
    yield gives_back("noise that rises nearly in time", nearly_in_time, 8000000)
    yield gives_back("two elements of the last frame, and its seconds of the day say the time", two_of_the_last, 8000000)
    yield gives_back("one rise in nine chatters", chattering, 8000000)
    yield gives_back("the time from parts of several frames", in_every_frame, 8000000)
    script, after = mended(without_second(502), 11000000, move=True)  # a one of 5 and a one of 6 would be 7 seconds
    yield same("a frame that is put together of two", after, without_second(600))
    yield same("what is said of it", "times are 1.00 seconds later" in script, True)


def of_a_run_that_is_left():
    """A run of pulses that fits no place: what is said of it, and that it stays."""
    unsure = recording()
    left_alone(unsure)
    seen = "pulses 226 to 231 may begin with element "
    yield starts("a run that is left", lines_of(unsure, 8000000), ["2604300 " + seen])
    script, after = mended(unsure, 8000000)
    yield starts("a run that is left, the script", script.splitlines(), ["# undecided: at 2604300: " + seen])
    yield same("a run that is left, the pulses", after, unsure)


def of_control_functions():
    """Control functions that one frame has alone, and one that changes and is lost."""
    lone = recording()
    lone[364][1] = 3645000  # a control function
    seen = "# undecided: at 3640000: %s3, element 64: control functions that no other frame has" % FRAME
    script, after = mended(lone, 8000000)
    yield starts("a control function of one frame", script.splitlines(), [seen])
    yield same("a control function of one frame, the pulses", after, lone)
    yield same("the same, --steady", mended(lone, 8000000, True)[1], recording())
    for number, many, wanted in ((7, 3, 0), (0, 3, 0), (7, 2, 1), (4, 3, 1)):
        set_anew = recording()
        for element in (64, 66, 71)[:many]:
            set_anew[100 * number + element][1] += 3000
        said = [line for line in mended(set_anew, 8000000)[0].splitlines() if "no other frame has" in line]
        yield same("%d control functions of frame %d alone are other ones" % (many, number), len(said), wanted)
    changing = recording(12)
    for frame in (4, 7, 8):
        changing[100 * frame + 74][1] += 3000
    del changing[674]
    first = mended(changing, 12000000)[0].splitlines()[:1]
    yield starts("a control function that changes", first, ["# %s6, element 74, at 6740000: no pulse; this " % FRAME])
    yield same("what is said of it", [line.partition(" is a ")[2] for line in first], ["guess: nothing says whether it was zero or one"])


def upside_down():
    """A wire that is upside down from a time on, or for a while: found, and mended unless a frame that is fine would change."""
    turns = "2503000 the falls come at one distance, the rises do not: the wire is upside down from 2503000 to "
    for name, end in (("upside down from some time on", 8000000), ("upside down for a while", 5503000)):
        over = recording()
        upside_down_in(over, 2503000, end)
        yield starts(name, lines_of(over, 8000000), [turns + str(end)])
        yield same(name + ", mended", mended(over, 8000000)[1], recording())
    few = recording(12, begin=(730120, 0))  # 1 January 2000, with few ones: the wire is upright for one frame alone
    for stretch in ((2003000, 5943000), (7023000, 11003000)):
        upside_down_in(few, *stretch)
    script, after = mended(few, 12000000)
    yield same("a frame that is fine is not turned over", ("a frame that is fine would change" in script, after), (True, few))


def of_another_time():
    """Frames, or the beginning of one, with a time that the others do not lead to."""
    alone = recording()
    other = timecode.encode("B", 4, timecode.generated("B", (DAY, NOON + 10000), 0, 0))
    for pulse, name in zip(alone[400:500], other):
        pulse[1] = pulse[0] + timecode.nominal(10000, name)
    seen = "4000000 a frame alone shows 2024-061T12:01:40, to which no other frame leads"
    yield same("a frame of another time", lines_of(alone, 8000000), [seen])
    yield same("a frame of another time, mended", mended(alone, 8000000)[1], alone)
    cut = recording(5)[:440]  # the recorder lost the fourth second, and after it there is no whole frame
    del cut[300:400]
    moved(cut, 300, -1000000)
    script, after = mended(cut, 3400000)
    yield same("the beginning of a frame of a second later", ("3 elements contradict" in script, after), (True, cut))


def of_large_numbers():
    """A recording that begins after 3000 seconds."""
    late = [[rise + 3000000000, fall + 3000000000] for rise, fall in recording()]
    del late[243]
    yield same("numbers are whole", lines_of(late, 3008000000),
               ["0 remark: no pulse before 3000000000", "3002430000 %s2, element 43: no pulse; a zero has to be there" % FRAME])


def larger_rows():
    """Rows that are not the eight frames with one change."""
    for rows in (of_a_leap_second, of_stretches, given_back, of_a_run_that_is_left, of_control_functions, upside_down, of_another_time,
                 of_large_numbers):
        yield from rows()


def turned_next_to_a_hole():
    """A stretch that is upside down, and a hole next to its begin or its end, or over one of them: each rise that was sent comes back, with
    its class."""
    def told(pulses):
        return [(rise, Layout("B", 4).class_of(fall - rise)) for rise, fall in pulses]

    for name, end, first, beyond in (
            ("a hole before it", 5503000, 200, 250), ("a hole after it", 5503000, 551, 600), ("a hole at its begin", 5503000, 251, 300),
            ("a hole at its end", 5503000, 500, 550), ("a hole over its begin", 5503000, 230, 275),
            ("a hole over its end", 5503000, 530, 575), ("a hole over its begin, and it has no end", 8000000, 230, 275)):
        for move in (False, True):
            pulses = recording()
            del pulses[first:beyond]
            upside_down_in(pulses, 2503000, end)
            yield same(name + ", --move" * move, told(mended(pulses, 8000000, move=move)[1]), told(recording()))


def explained():
    """What irig_mend --explain prints of a hole: the runs with their places and costs, the base, and what is wanted."""
    pulses = recording()
    del pulses[600:640], pulses[230:415]
    with tempfile.TemporaryDirectory() as folder:
        done = run(TOP, "irig_mend --explain --expression 4 " + written(folder, pulses, 8000000))
    lines = done[1].splitlines()
    yield same("the status", done[0], 1)
    yield starts("the runs", [line for line in lines if line.startswith("run")], [
        "run: pulses 1 to 230, places 0 to 229; step 0, 0 late; cost 0.0, and 0.0 in all; lead",
        "run: pulses 231 to 415, places 415 to 599; step 186, 0 late; cost 0.3, and 0.3 in all; lead",
        "run: pulses 416 to 575, places 640 to 799; step 41, 0 late; cost 0.3, and 0.6 in all; lead"])
    yield same("the span", [line for line in lines if line.startswith("frames")],
               ["frames 0 to 7: base %d, frame 0 at 2024-061T12:00:00" % (DAY * timecode.DAY + NOON)])
    yield starts("what is wanted", [line for line in lines if line.startswith("place")],
                 ["places 230 to 414, from 2300000 on: no pulse; wanted are 1000", "places 600 to 639, from 6000000 on"])


def run(top, command, **more):
    """Status, standard output and the first line of standard error of a shell command."""
    path = top + "/tools:" + os.environ["PATH"]
    done = subprocess.run(
        ["bash", "-c", "set -o pipefail; " + command],
        stdout=subprocess.PIPE,
        stderr=subprocess.PIPE,
        env=dict(os.environ, PATH=path, **more),
        text=True,
    )
    return done.returncode, done.stdout, done.stderr.partition("\n")[0]


def processes(top):
    """Statuses and complaints of the programs as a user starts them."""
    with tempfile.TemporaryDirectory() as folder:
        sound, lost = os.path.join(folder, "sound.vcd"), recording()
        os.rename(written(folder, lost, 8000000), sound)
        del lost[230:415]
        broken = written(folder, lost, 8000000)
        silent = os.path.join(folder, "silent.vcd")
        with open(silent, "w") as file:
            file.write(damages.dump([[rise + 31000, fall + 31000] for rise, fall in recording()], 8500000))
        for tool in ("irig_damage", "irig_mend"):
            yield same(
                tool + " on a sound track", run(top, "%s --expression 4 %s" % (tool, sound)), (0, "", "")
            )
            status, _, complaint = run(top, "%s --expression 4 %s" % (tool, silent))
            yield same(tool + " on a track with silence at its ends", (status, complaint), (0, ""))
            yield from on_damage(top, tool, broken)
            yield from refusals(top, tool, folder, sound)
            yield from helps(top, tool)


def on_damage(top, tool, broken):
    """A broken track: as a file, in a pipe, and if nobody reads what is printed."""
    status, said, complaint = run(top, "%s --expression 4 %s" % (tool, broken))
    yield same(tool + " on a broken track", (status, bool(said), complaint), (1, True, ""))
    for words in ("--expression=4 %s", "--expression 4 -- %s", "%s --expression 4", "- --expression 4 < %s"):
        yield same("%s %s" % (tool, words), run(top, "%s %s" % (tool, words % broken)), (1, said, ""))
    yield same(
        tool + " in a pipe",
        run(top, "cat %s | %s --expression 4 /dev/stdin" % (broken, tool)),
        (1, said, ""),
    )
    yield same(
        tool + " that nobody reads",
        run(top, "%s --expression 4 %s | true" % (tool, broken))[1:],
        ("", ""),
    )


OF_FOLDERS = "; --apply-to FOLDER writes the repaired recordings of one into another"


def refusals(top, tool, folder, sound):
    """What ends with status 2, and what is said of it."""
    junk, missing = os.path.join(folder, "junk"), os.path.join(folder, "missing.vcd")
    with open(junk, "wb") as file:
        file.write(b"\0\xff junk")
    for words, complaint in (
        (missing, "%s: %s: No such file or directory" % (tool, missing)),
        (folder, "%s: %s: is a folder%s" % (tool, folder, OF_FOLDERS if tool == "irig_mend" else "")),
        ("", "%s: no TRACK is given (%s --help says more)" % (tool, tool)),
        ("--expression 4", "%s: no TRACK is given (%s --help says more)" % (tool, tool)),
        ("--page= " + sound, "%s: --page needs a file: --page FILE (%s --help says more)" % (tool, tool)),
        ("--stedy " + sound, "%s: '--stedy' is no option (%s --help says more)" % (tool, tool)),
    ):
        yield same("%s %s" % (tool, words), run(top, "%s %s" % (tool, words)), (2, "", complaint))
    yield same(tool + " on junk", run(top, "%s %s" % (tool, junk))[0], 2)
    yield same(
        tool + " without an editor",
        run(top, "%s %s" % (tool, sound), IRIG_ED="/none"),
        (2, "", "%s: IRIG_ED names '/none', which is no program that can be run" % tool),
    )


def helps(top, tool):
    """The help, and if it cannot be printed."""
    status, said, _ = run(top, tool + " --help")
    yield same(tool + " --help", (status, said[: 7 + len(tool)]), (0, "usage: " + tool))
    full = run(top, tool + " --help > /dev/full")
    yield same(tool + " --help on a full device", full, (2, "", tool + ": standard output: No space left on device"))


def no_line_refused(top):
    """Tracks that are no time code, or are hardly any: the tools end, and no proposed line is refused."""
    for number in range(24):
        rng = random.Random("hostile %d" % number)
        kind = rng.choice("ABEG")
        interval = timecode.INTERVAL[kind]
        edges = sorted(rng.sample(range(400 * interval), 2 * rng.choice((1, 3, 30, 300))))
        pulses = [[rise, fall] for rise, fall in zip(edges[::2], edges[1::2])]
        if number % 3 == 0:  # in step, with widths at random
            pulses = [
                [k * interval, k * interval + rng.choice((20, 50, 80, 97)) * interval // 100]
                for k in range(300)
            ]
        if number % 3 == 1:  # nothing but position identifiers, or ones
            pulses = [
                [k * interval, k * interval + rng.choice((80, 50)) * interval // 100] for k in range(60)
            ]
        with tempfile.TemporaryDirectory() as folder:
            path = written(folder, pulses, 400 * interval)
            opened = editor.Editor(["--format", kind, path])
            damage.look(opened, lambda text: None).damages
            script = mend.propose(opened, lambda text: None)
            refused = opened.ask([repair.lines() for repair in script]).refused
        yield same("hostile track %d" % number, refused, set())


def cases(top):
    """Each row, and each group of rows, by its name."""
    found = [case("mend: row: " + each[0], row, *each) for each in ROWS]
    found += [case("mend: repaired: " + name, gives_back, name, change, length) for name, change, length, _ in ROWS[:9]]
    groups = (("larger rows", larger_rows), ("steps", steps), ("steps that belong together", together),
              ("elements are missing near an end", missing),
              ("samples of a recorder", sampled), ("harms", harms), ("upside down next to a hole", turned_next_to_a_hole),
              ("explained", explained))
    found += [case("mend: " + name, rows) for name, rows in groups]
    return found + [case("mend: processes", processes, top), case("mend: hostile tracks", no_line_refused, top)]
