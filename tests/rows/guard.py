"""Worked rows of irig_guard: recordings, proposed scripts, and what is printed.

A recording has a frame each second from TIMES on; that at 0 is none, since no position identifier is before it. The
marker of frame k is pulse 100 k + 1.
"""
import datetime
from typing import Callable, Dict, List, NamedTuple, Sequence, Tuple

from reference import timecode

Pulses = List[List[int]]
SECOND = 1000000
OPTIONS = {"B4": ["--expression", "4"], "B2": [], "B5": ["--expression", "5"], "B6": ["--expression", "6"]}
NOON = datetime.datetime(2024, 5, 17, 12, 34, 50)  # day 138


class Row(NamedTuple):
    """`wanted` are the lines that are printed. The status is 1 if some after the head are not those of the script."""

    name: str
    form: str
    pulses: Pulses
    script: Sequence[str]
    wanted: Sequence[str]
    moved: bool = False  # with --moved
    filled: int = 0  # frames with a control function that is not in the recording
    others: Sequence[Pulses] = ()  # with --with
    judged: bool = True  # whether there is a frame to go by; if not, the status is 1, and nothing is written


def values_of(form: str, when: datetime.datetime, control: int = 0, second: int = -1) -> Dict[str, int]:
    """What a frame shows; second 60 is given, since no date has it."""
    seconds = when.second if second < 0 else second
    return {
        "year": when.year % 100, "days": when.timetuple().tm_yday, "hours": when.hour, "minutes": when.minute,
        "seconds": seconds, "sbs": 3600 * when.hour + 60 * when.minute + seconds, "control": control,
    }


def frames(form: str, shown: Sequence[Dict[str, int]]) -> Pulses:
    """Frames that show this, one after the other."""
    pulses: Pulses = []
    for values in shown:
        for name in timecode.encode(form[0], int(form[1]), values):
            rise = 10000 * len(pulses)
            pulses.append([rise, rise + timecode.nominal(10000, name)])
    return pulses


def steady(form: str = "B4", many: int = 7, begin: datetime.datetime = NOON, control: int = 0) -> Pulses:
    times = [begin + datetime.timedelta(seconds=k) for k in range(many)]
    return frames(form, [values_of(form, when, control) for when in times])


def with_parity(many: int) -> Pulses:
    """Frames with other control functions in each; element 75 makes the ones up to it odd in number."""
    shown = [values_of("B4", NOON + datetime.timedelta(seconds=k), k * 7919 % 2 ** 14) for k in range(many)]
    for values in shown:
        values["control"] += (1 - timecode.encode("B", 4, values)[:75].count("one") % 2) << 14
    return frames("B4", shown)


def leap(form: str = "B4") -> Pulses:
    """The end of 2016: 23:59:56 to 23:59:60, then 00:00:00 to 00:00:02."""
    last, first = datetime.datetime(2016, 12, 31, 23, 59), datetime.datetime(2017, 1, 1)
    shown = [values_of(form, last, 0, second) for second in range(56, 61)]
    return frames(form, shown + [values_of(form, first, 0, second) for second in range(3)])


def without(pulses: Pulses, *numbers: int) -> Pulses:
    """Without the pulses of these numbers, from 1."""
    return [pulse for number, pulse in enumerate(pulses, 1) if number not in numbers]


def hole(pulses: Pulses, frame: int, many: int = 1) -> Pulses:
    """Without the pulses of whole frames, but for the last of them, which begins the next."""
    return without(pulses, *range(100 * frame + 1, 100 * (frame + many)))


def changed(pulses: Pulses, number: int, name: str) -> Pulses:
    """A pulse of another class."""
    found = [list(pulse) for pulse in pulses]
    found[number - 1][1] = found[number - 1][0] + timecode.nominal(10000, name)
    return found


def wide(pulses: Pulses, number: int, width: int) -> Pulses:
    """A pulse that is this wide."""
    return [[rise, rise + width] if place == number else [rise, fall] for place, (rise, fall) in enumerate(pulses, 1)]


def class_of(pulses: Pulses, number: int) -> str:
    rise, fall = pulses[number - 1]
    return "zero" if fall - rise < 3500 else "one"


def other_class(pulses: Pulses, number: int) -> Pulses:
    return changed(pulses, number, "one" if class_of(pulses, number) == "zero" else "zero")


def moved(pulses: Pulses, change: Callable[[int], int]) -> Pulses:
    return [[change(rise), change(fall)] for rise, fall in pulses]


def joined(one: Pulses, other: Pulses, frame: int) -> Pulses:
    """The first recording up to a frame, the second from there on."""
    return one[:100 * frame] + other[100 * frame:]


def dropped(reason: str, *lines: str) -> Tuple[str, ...]:
    """The lines of a repair that is not kept: the reason, and they as comments."""
    return ("# not kept: " + reason, *("# " + line for line in lines))


def unsafe(time: str, rise: int, what: str, *lines: str) -> Tuple[str, ...]:
    """The same of a repair that is not safe, by the frame that shows it."""
    return dropped("frame %s at %d%s%s" % (time, rise, "" if what.startswith(":") else " ", what), *lines)


def each_dropped(reason: str, *lines: str) -> Tuple[str, ...]:
    """The same of repairs of one line."""
    return tuple(printed for line in lines for printed in dropped(reason, line))


def length_of(pulses: Pulses) -> int:
    """A recording is a whole number of seconds long."""
    return -(-pulses[-1][1] // SECOND) * SECOND


SOUND = steady()
SET = joined(SOUND, steady(begin=NOON + datetime.timedelta(seconds=1)), 4)  # from frame 4 on a second later
AGO = NOON - datetime.timedelta(hours=1)
WITHOUT_ZERO = without(SOUND, 243)  # element 42 of frame 2
SET_FUNCTION = steady(control=4)  # element 62 is a one
ONE_FUNCTION = joined(joined(SOUND, SET_FUNCTION, 3), SOUND, 4)  # that of frame 3
OF_OTHER = [[at * 1001 // 1000 + 123456 for at in pulse] for pulse in ONE_FUNCTION]  # another recorder's clock
OF_SOUND = [[at * 1001 // 1000 + 123456 for at in pulse] for pulse in SOUND]
CHANGING = frames("B4", [values_of("B4", NOON + datetime.timedelta(seconds=k), 4 + (k % 2 << 17)) for k in range(7)])
CHANGING_AS_ZERO = changed(CHANGING, 363, "zero")  # element 62 of frame 3
FIRST_IS_50, LAST_IS_57 = changed(steady("B5"), 102, "zero"), changed(steady("B5"), 602, "one")  # and not 51, and not 56
ODD = with_parity(9)  # eight fine frames; in the others element 60 of frame 3 or of the last is of another class, or two of frame 3 are
ODD_BUT_3, ODD_BUT_LAST, ODD_BUT_TWO = other_class(ODD, 361), other_class(ODD, 861), other_class(other_class(ODD, 361), 362)
# element 62 is a one in all frames; by their time the one of 00:00:02 has four other ones, and that of 00:00:03 five
FEW_ONES = steady("B5", begin=datetime.datetime(2024, 1, 1), control=4)
AS_ZERO = without(SOUND, 343)  # and the control function of frame 3 was recorded as a zero
SET_FUNCTION_OF_3 = ["begin", "insert 3420000 3422000", "363 force one", "end"]
MEND_BY_PARITY, SPOIL_BY_PARITY = ["361 force " + class_of(ODD, 361)], ["362 force " + class_of(ODD_BUT_TWO, 362)]
MEND_LAST = ["861 force " + class_of(ODD, 861)]
MEND_TWO = ["begin", *MEND_BY_PARITY, "362 force " + class_of(ODD, 362), "end"]
LATE_FUNCTION = ["begin", "363 delete", "insert 3620000 3625000", "end"]
LATER = ["begin", "insert 3420000 3422000", "350,390 shift 600"]  # elements 49 to 89 of frame 3
MEND = "insert 2420000 2422000"
REGEN = "regen 3000000 1 2024-138T12:34:53"
THIRD, FOURTH = "2024-138T12:34:53", "2024-138T12:34:54"
NEW_YEAR = datetime.datetime(2023, 12, 31, 23, 59, 57)
LONG_YEAR = datetime.datetime(2024, 12, 31, 23, 59, 57)
LONG = "9" * 1001
SLOW = moved(SOUND, lambda at: at * 51 // 50)
SLOWER = moved(SOUND, lambda at: at * 21 // 20)
SLIPPED = hole(SOUND[:399] + moved(SOUND[399:], lambda at: at + 100000), 2, 2)  # ten intervals more in a hole
SLIP = ["regen 2066667 2 2024-138T12:34:52"]
HUNDREDTHS = [[rise // 10, fall // 10] for rise, fall in frames("A0", [
    dict(values_of("A0", NOON), hundredths=10 * k) for k in range(7)])]
TENS = [[10 * rise, 10 * fall] for rise, fall in frames("E1", [
    values_of("E1", NOON + datetime.timedelta(seconds=10 * k)) for k in range(7)])]
SHORT = [[rise // 100, fall // 100] for rise, fall in frames("G1", [dict(values_of("G1", NOON), hundredths=k) for k in range(7)])]
TURNED = [[one[1], other[0]] for one, other in zip(SOUND, SOUND[1:])]
EARLY = SOUND[:349] + moved(SOUND[349:], lambda at: at - 7300)  # from element 49 of frame 3 on
LATE = [*SOUND[:600], *moved(SOUND[600:], lambda at: at + 7300)]  # from frame 6 on
NO_REPAIR = "not a repair"
LOST, CHANGED, UNSUPPORTED = "would be lost", "would change", "would have a time that is not supported"
UNRECORDED = "would have control functions that are not supported"
MOVED, MISPLACED = ": its pulses would move", ": its pulses would rise where nothing supports it"
NOTHING_FINE = "# nothing to go by: no frame of the recording is fine"
UNJUDGED = "no frame would be fine to go by"
GONE = "the pulse at %d is in step, and would be gone"
NO_TIME, OTHER_TIME = "the moment %d would have no time", "the moment %d would have another time"
DOUBTED = "the moment %d would have a time, and a pulse next to it is doubted"
LAST_BROKEN = without(SOUND, 643)
TWO_WRONG = wide(wide(SOUND, 311, 8000), 321, 8000)  # elements 10 and 20 of frame 3, which say its time, are as wide as markers
MEND_TWO_WRONG = ["begin", "311 force zero", "321 force zero", "end"]
PARTED = without(SOUND, *range(321, 331), 343)  # frame 3 without elements 20 to 29, and broken without them, too
HUNDREDTHS_BROKEN, TENS_BROKEN, SHORT_BROKEN = without(HUNDREDTHS, 643), without(TENS, 643), without(SHORT, 643)

ALONE = without(SOUND, 343, *range(201, 300), *range(401, 500))  # frame 3, without element 42, between two holes
TENTH = ["begin", "insert 3400900 3405900", "insert 3410000 3412000", "insert 3419100 3421100", "end"]  # elements 40 to 42


LONE = without(steady(many=16), 843, *range(301, 800), *range(901, 1300))  # frame 8, so between frames 2 and 13
SLOW_LONE = moved(LONE, lambda at: at * 21 // 20)  # five intervals of a hundred
LONE_PULSE = "insert 8841000 8843100"
SLIPPED_LONE = SLOW_LONE[:400] + moved(SLOW_LONE[400:], lambda at: at + 105000)  # ten intervals more after it


def wander(at: int) -> int:
    """A time on a clock that is 5 % slow, and gets slower: each second takes 1.9 milliseconds more than the one before it."""
    return at * 21 // 20 + 19 * at * at // 20000000000


WANDERING = moved(without(SOUND, 343, *range(401, 500)), wander)  # frame 3, and none after it
WANDERING_PULSE = "insert %d %d" % (wander(3420000), wander(3422000))
SLIPPED_WANDERING = WANDERING[:399] + moved(WANDERING[399:], lambda at: at + 30000)  # three intervals more after it
TURNING = moved(hole(steady(many=9), 3, 3), wander)  # frames 3 to 5 are lost
LINE = wander(2000000), wander(6000000)  # when frames 2 and 6 begin


def on_line(at: int) -> int:
    """A time on the line between frames 2 and 6 of TURNING."""
    return LINE[0] + (at - 2000000) * (LINE[1] - LINE[0]) // 4000000


def other_way(at: int) -> int:
    """One on the curve that is as far from the line on the other side."""
    return 2 * on_line(at) - wander(at)


def lost_three(change: Callable[[int], int]) -> List[str]:
    """The three lost frames of TURNING, at these times."""
    return ["begin", *("insert %d %d" % (rise, fall) for rise, fall in moved(steady(many=9)[300:599], change)), "end"]


def fills(interval: int) -> List[str]:
    """Elements 20 to 29 of frame 3, so far from each other."""
    filled = [(3190000 + interval * place, fall - rise) for place, (rise, fall) in enumerate(SOUND[320:330], 1)]
    return ["begin", *("insert %d %d" % (rise, rise + width) for rise, width in filled), "end"]


def lone(micros: int) -> List[str]:
    """The lost pulse of frame 8 of SLOW_LONE, and the whole frame moved."""
    return ["begin", LONE_PULSE, "301,401 shift %d" % micros, "end"]


def moves(micros: int) -> List[str]:
    """Element 42 of frame 3 of ALONE, and the whole frame moved."""
    return ["begin", "insert 3420000 3422000", "201,301 shift %d" % micros, "end"]


def turned_at(pulses: Pulses, *times: int) -> Pulses:
    """With the level changed at these times."""
    edges = sorted({edge for pulse in pulses for edge in pulse} ^ set(times))
    return [[rise, fall] for rise, fall in zip(edges[::2], edges[1::2])]


def of_day(second: int, day: int) -> Dict[str, int]:
    return dict(values_of("B2", datetime.datetime(2023, 3, 2, 12, 0, second)), days=day)


# frame 2 has a glitch, and frame 3 shows day 69 among frames of day 61; and the lines that make frame 2 one of day 69
WRONG_DAY = turned_at(frames("B2", [of_day(k, 69 if k == 3 else 61) for k in range(8)]), 2455000, 2455040)
WRONG_FIRST = turned_at(frames("B2", [of_day(k, 69 if k == 2 else 61) for k in range(8)]), 1455000, 1455040)
AS_FIRST = ["begin", "invert 1455000 1455040", "134 force one", "end"]
AS_WRONG = ["begin", "invert 2455000 2455040", "234 force one", "end"]

ROWS = (
    # what is kept
    Row("an empty script", "B4", SOUND, [], []),
    Row("comments and blank lines", "B4", SOUND, ["# one", "", " \t", "  # two"], ["# one", "", " \t", "  # two"]),
    Row("a comment like one of the guard", "B4", SOUND, ["# not kept: refused: E2 NoPulse"], ["# not kept: refused: E2 NoPulse"]),
    Row("marks", "B4", SOUND, ["mark a 7", "unmark a"], ["mark a 7", "unmark a"]),
    Row("a lost pulse", "B4", WITHOUT_ZERO, [MEND], [MEND]),
    Row("a group", "B4", WITHOUT_ZERO, ["begin", "# why", MEND, "end"], ["begin", "# why", MEND, "end"]),
    Row("an empty group", "B4", SOUND, ["begin", "end"], ["begin", "end"]),
    Row("a lost frame", "B4", hole(SOUND, 3), [REGEN], [REGEN], filled=1),
    Row("its first repair alone makes nothing fine", "B4", without(SOUND, 243, 250),
        ["insert 2490000 2498000", MEND], ["insert 2490000 2498000", MEND]),
    Row("a new year in a hole", "B4", hole(steady(begin=NEW_YEAR), 3),
        ["regen 3000000 1 2024-001T00:00:00"], ["regen 3000000 1 2024-001T00:00:00"], filled=1),
    Row("a new year after 366 days", "B4", hole(steady(begin=LONG_YEAR), 3),
        ["regen 3000000 1 2025-001T00:00:00"], ["regen 3000000 1 2025-001T00:00:00"], filled=1),
    Row("a new year without the year", "B2", hole(steady("B2", begin=LONG_YEAR), 3),
        ["regen 3000000 1 2024-001T00:00:00"], ["regen 3000000 1 2024-001T00:00:00"]),
    Row("the frame before a new year", "B2", hole(steady("B2", begin=NEW_YEAR), 2),
        ["regen 2000000 1 2023-365T23:59:59"], ["regen 2000000 1 2023-365T23:59:59"]),
    Row("the last frame, by the two before it", "B4", hole(SOUND, 6),
        ["regen 6000000 1 2024-138T12:34:56"], ["regen 6000000 1 2024-138T12:34:56"], filled=1),
    Row("a clock that is 2 % slow", "B4", without(SLOW, 243),
        ["insert 2468400 2470440"], ["insert 2468400 2470440"]),
    Row("the last frame, by a clock that is 2 % slow", "B4", without(SLOW, 643),
        ["insert 6548400 6550440"], ["insert 6548400 6550440"]),
    Row("a clock that is 5 % slow", "B4", without(SLOWER, 343), ["insert 3591000 3593100"], ["insert 3591000 3593100"]),
    Row("a clock that is 5 % slow, and eleven frames from one fine frame to the next", "B4", SLOW_LONE, [LONE_PULSE], [LONE_PULSE]),
    Row("the same ten intervals later, and a nominal six seconds after the one before it", "B4", SLOW_LONE, [*lone(105000), *lone(-300000)],
        [*unsafe("138 12:34:58", 8505000, UNSUPPORTED, *lone(105000)), *unsafe("138 12:34:58", 8100000, UNSUPPORTED, *lone(-300000))]),
    Row("a clock that wanders, between what the frames before and after show", "B4", WANDERING, [WANDERING_PULSE], [WANDERING_PULSE]),
    Row("a slip of 3 intervals on a clock that wanders, after the frame", "B4", SLIPPED_WANDERING, [WANDERING_PULSE], [WANDERING_PULSE]),
    Row("three frames on the curve of a clock that wanders", "B4", TURNING, lost_three(wander), lost_three(wander), filled=3),
    # a step before the first of the three is no interval, so that one stays broken
    Row("three frames on the line between the frames next to them", "B4", TURNING, lost_three(on_line), lost_three(on_line), filled=2),
    Row("three frames on the other side of that line", "B4", TURNING, lost_three(other_way),
        unsafe("138 12:34:54", other_way(4000000), MISPLACED, *lost_three(other_way))),
    Row("the first frame, by a clock that is 5 % slow", "B4", without(SLOWER, 143), ["insert 1491000 1493100"], ["insert 1491000 1493100"]),
    Row("the first frame, by two frames after it with a lost one between them", "B4", without(SLOWER, 143, *range(301, 401)),
        ["insert 1491000 1493100"], unsafe("138 12:34:51", 1050000, UNSUPPORTED, "insert 1491000 1493100")),
    Row("the last frame, by a clock that is 5 % slow", "B4", without(SLOWER, 643), ["insert 6741000 6743100"], ["insert 6741000 6743100"]),
    Row("the last frame but one, by the two before it", "B4", without(SLOWER, 543), ["insert 5691000 5693100"], ["insert 5691000 5693100"]),
    Row("a slip of 10 intervals on such a clock", "B4", SLIPPED_LONE, [LONE_PULSE],
        unsafe("138 12:34:58", 8400000, UNSUPPORTED, LONE_PULSE)),
    Row("a slip of 10 intervals, like a clock that is 5 % slow", "B4", SLIPPED, SLIP, unsafe("138 12:34:53", 3066667, UNSUPPORTED, *SLIP)),
    Row("second 60 between others", "B4", without(leap(), 443), ["insert 4420000 4422000"], ["insert 4420000 4422000"]),
    Row("the first second after second 60", "B4", without(leap(), 543),
        ["insert 5420000 5422000"], ["insert 5420000 5422000"]),
    Row("a frame that reads another time", "B6", changed(steady("B6"), 312, "one"), ["312 force zero"], ["312 force zero"]),
    Row("a control function that both nearest frames have", "B4", without(SET_FUNCTION, 363),
        ["insert 3620000 3625000"], ["insert 3620000 3625000"], filled=1),
    Row("a control function that the two frames before the last have", "B4", without(SET_FUNCTION, 663),
        ["insert 6620000 6625000"], ["insert 6620000 6625000"], filled=1),
    Row("control functions that are recorded, and that the nearest frames do not have", "B4", without(ONE_FUNCTION, 343),
        ["insert 3420000 3422000"], ["insert 3420000 3422000"]),
    Row("a recorded control function, a tenth of an interval later", "B4", without(ONE_FUNCTION, 343),
        [*LATER, "363,375 shift 400", "end"], dropped(OTHER_TIME % 3619999, *LATER, "363,375 shift 400", "end")),
    Row("a recording that is upside down", "B4", TURNED,
        ["invert 0 7000000"], [NOTHING_FINE, "invert 0 7000000"]),
    Row("an empty script for it", "B4", TURNED, [], [NOTHING_FINE], judged=False),
    Row("a comment for it", "B4", TURNED, ["# one"], [NOTHING_FINE, "# one"], judged=False),
    Row("repairs of it that make no frame fine", "B4", TURNED, ["1 delete", "mark a 7"],
        [NOTHING_FINE, *each_dropped(UNJUDGED, "1 delete", "mark a 7")], judged=False),
    Row("repairs of it before one that makes all fine", "B4", TURNED, ["mark a 7", "invert 0 7000000", "mark a 7"],
        [NOTHING_FINE, *dropped(UNJUDGED, "mark a 7"), "invert 0 7000000", "mark a 7"]),
    # control functions alone of frames that were fine
    Row("a control function that both nearest frames do not have", "B4", changed(SOUND, 363, "one"),
        ["363 force zero"], ["363 force zero"], filled=1),
    Row("one that both nearest frames have", "B4", changed(SET_FUNCTION, 363, "zero"), ["363 force one"], ["363 force one"], filled=1),
    Row("two at once", "B4", changed(changed(SOUND, 363, "one"), 379, "one"),
        ["begin", "363 force zero", "379 force zero", "end"], ["begin", "363 force zero", "379 force zero", "end"], filled=1),
    Row("the nearest frames that are fine, next to one that is not", "B4", without(changed(SOUND, 363, "one"), 444),
        ["363 force zero"], ["363 force zero"], filled=1),
    Row("one of two alone", "B4", changed(changed(SOUND, 363, "one"), 379, "one"), ["363 force zero"],
        unsafe("138 12:34:53", 3000000, CHANGED, "363 force zero")),
    Row("one that the frame before it has, and the frame after it does not", "B4", joined(SET_FUNCTION, SOUND, 4), ["363 force zero"],
        unsafe("138 12:34:53", 3000000, CHANGED, "363 force zero")),
    Row("one that the frame before it has alone", "B4", joined(SET_FUNCTION, SOUND, 3), ["363 force one"],
        unsafe("138 12:34:53", 3000000, CHANGED, "363 force one")),
    Row("one of the last frame, where both nearest frames are before it", "B4", changed(SOUND, 663, "one"), ["663 force zero"],
        unsafe("138 12:34:56", 6000000, CHANGED, "663 force zero")),
    Row("one that both have, and another that they do not have", "B4", changed(SOUND, 363, "one"),
        ["begin", "363 force zero", "379 force one", "end"],
        unsafe("138 12:34:53", 3000000, CHANGED, "begin", "363 force zero", "379 force one", "end")),
    Row("one that both have, and another time", "B5", changed(steady("B5"), 363, "one"),
        ["begin", "363 force zero", "312 force one", "end"],
        unsafe("138 12:34:53", 3000000, CHANGED, "begin", "363 force zero", "312 force one", "end")),
    Row("one that both have, and straight binary seconds of another time", "B4", changed(SOUND, 363, "one"),
        ["begin", "363 force zero", "381 force zero", "end"],
        unsafe("138 12:34:53", 3000000, LOST, "begin", "363 force zero", "381 force zero", "end")),
    Row("one that both have, at another rise", "B4", changed(SOUND, 363, "one"), ["begin", "363 force zero", "301,400 shift 600", "end"],
        unsafe("138 12:34:53", 3000000, LOST, "begin", "363 force zero", "301,400 shift 600", "end")),
    Row("one that both have in the recording, whatever became of them", "B4", changed(changed(SOUND, 363, "one"), 563, "one"),
        ["463 force one", "363 force zero", "563 force zero"], ["463 force one", "363 force zero", "563 force zero"], filled=3),
    # frames that were fine
    Row("a pulse of a frame that is fine", "B4", SOUND, ["343 delete"],
        unsafe("138 12:34:53", 3000000, LOST, "343 delete")),
    Row("a rest that is moved", "B4", SOUND, ["601,$ shift 600"],
        unsafe("138 12:34:56", 6000000, LOST, "601,$ shift 600")),
    Row("another time", "B6", steady("B6"), ["302 force zero", "312 force one"],
        [*unsafe("138 12:34:53", 3000000, CHANGED, "302 force zero"), *unsafe("138 12:34:53", 3000000, CHANGED, "312 force one")]),
    Row("another time at the end, where one neighbour is", "B6", changed(steady("B6"), 612, "one"), ["612 force zero"],
        unsafe("138 12:36:56", 6000000, CHANGED, "612 force zero")),
    Row("a frame that an earlier repair mended", "B4", WITHOUT_ZERO, [MEND, "243 delete"],
        [MEND, *unsafe("138 12:34:52", 2000000, LOST, "243 delete")]),
    Row("a control function of a frame that was fine", "B4", SOUND, ["363 force one"],
        unsafe("138 12:34:53", 3000000, CHANGED, "363 force one")),
    # times
    Row("a time that is a second off", "B4", hole(SOUND, 3), ["regen 3000000 1 " + FOURTH],
        unsafe("138 12:34:54", 3000000, UNSUPPORTED, "regen 3000000 1 " + FOURTH)),
    Row("a time that only a broken frame leads to", "B4",
        joined(joined(hole(SOUND, 3, 2), without(steady(begin=AGO), 343), 3), hole(SOUND, 3, 2), 4)[:-100],
        ["regen 4000000 1 2024-138T11:34:54"],
        unsafe("138 11:34:54", 4000000, UNSUPPORTED, "regen 4000000 1 2024-138T11:34:54")),
    Row("a time that the frame after it contradicts", "B4", hole(SET, 3), [REGEN],
        unsafe("138 12:34:53", 3000000, UNSUPPORTED, REGEN)),
    Row("a time that the frame before it contradicts", "B4", hole(SET, 3), ["regen 3000000 1 " + FOURTH],
        unsafe("138 12:34:54", 3000000, UNSUPPORTED, "regen 3000000 1 " + FOURTH)),
    Row("second 60 at the end", "B4", without(leap()[:500], 443), ["insert 4420000 4422000"],
        unsafe("366 23:59:60", 4000000, UNSUPPORTED, "insert 4420000 4422000")),
    Row("half an interval beside its place", "B4", hole(SOUND, 3, 3), ["regen 3005001 2 " + THIRD, "regen 3005000 2 " + THIRD],
        [*unsafe("138 12:34:54", 4005001, UNSUPPORTED, "regen 3005001 2 " + THIRD),
         *unsafe("138 12:34:54", 4005000, MISPLACED, "regen 3005000 2 " + THIRD)]),
    Row("an interval beside its place, and recorded", "B4", ALONE, moves(10000),
        unsafe("138 12:34:53", 3010000, UNSUPPORTED, *moves(10000))),
    Row("the frame before a frame shows another day, and the next ones do not", "B2", WRONG_DAY, ["invert 2455000 2455040"],
        ["invert 2455000 2455040"]),
    Row("a frame shows the wrong day of the next one", "B2", WRONG_DAY, AS_WRONG,
        unsafe("069 12:00:02", 2000000, UNSUPPORTED, *AS_WRONG)),
    Row("the first fine frame shows another day, and the next one contradicts it", "B2", WRONG_FIRST,
        ["invert 1455000 1455040", *AS_FIRST],
        [*unsafe("061 12:00:01", 1000000, UNSUPPORTED, "invert 1455000 1455040"),
         *unsafe("069 12:00:01", 1000000, UNSUPPORTED, *AS_FIRST)]),
    # pulses
    Row("inner pulses of a frame that was fine", "B4", SOUND, ["302,398 shift 900", "342 shift -1"],
        [*unsafe("138 12:34:53", 3000000, MOVED, "302,398 shift 900"), *unsafe("138 12:34:53", 3000000, MOVED, "342 shift -1")]),
    Row("an inner pulse of a frame that an earlier repair made fine", "B4", WITHOUT_ZERO, [MEND, "242 shift 900"],
        [MEND, "242 shift 900"]),
    Row("a tenth of an interval beside its place", "B4", hole(SOUND, 3, 3), ["regen 3001001 2 " + THIRD, "regen 3001000 2 " + THIRD],
        [*unsafe("138 12:34:54", 4001001, MISPLACED, "regen 3001001 2 " + THIRD), *dropped(NO_TIME % 5989999, "regen 3001000 2 " + THIRD)]),
    Row("less than half an interval beside its place, and recorded", "B4", ALONE, moves(2000),
        unsafe("138 12:34:53", 3002000, MISPLACED, *moves(2000))),
    Row("pulses between recorded ones", "B4", without(SOUND, 341, 342, 343), TENTH, TENTH),
    Row("frames of nothing", "B4", [[0, 10], [9999990, 10000000]], ["regen 1000000 4 1987-200T03:04:05"],
        [NOTHING_FINE, *unsafe("200 03:04:06", 2000000, MISPLACED, "regen 1000000 4 1987-200T03:04:05")], judged=False),
    # pulses of frames that stay broken: the last frame has no element 42, so pulse 650 rises at 6500000
    Row("a pulse that is in step", "B4", LAST_BROKEN, ["650 delete"], dropped(GONE % 6500000, "650 delete")),
    Row("the first of several", "B4", LAST_BROKEN, ["660,670 delete"], dropped(GONE % 6600000, "660,670 delete")),
    Row("one that is joined with the one before it", "B4", LAST_BROKEN, ["650,651 join"], dropped(GONE % 6510000, "650,651 join")),
    # a hole of three intervals, between markers, is more than the law of time bridges
    Row("the one before a pulse that is lost, and the one after it", "B4", LAST_BROKEN, ["642 delete", "642 delete"],
        each_dropped(NO_TIME % 6380000, "642 delete", "642 delete")),
    Row("the last pulse", "B4", LAST_BROKEN, ["$ delete"], ["$ delete"]),
    Row("a hole in a frame that stays broken", "B4", PARTED, fills(10000), fills(10000)),
    # element 20 is in step there, and 900 microseconds early
    Row("the same, nine hundredths too tight", "B4", PARTED, fills(9100), dropped(OTHER_TIME % 3199100, *fills(9100))),
    # two pulses of a frame of the code deny, so its last one has no time: the recorder can have lost and repeated time there
    Row("two pulses of another class in a frame", "B4", TWO_WRONG, MEND_TWO_WRONG, dropped(DOUBTED % 3990000, *MEND_TWO_WRONG)),
    Row("each alone", "B4", TWO_WRONG, MEND_TWO_WRONG[1:3], each_dropped(DOUBTED % 3990000, *MEND_TWO_WRONG[1:3])),
    Row("the same, and frames may move", "B4", TWO_WRONG, MEND_TWO_WRONG, MEND_TWO_WRONG, moved=True),
    Row("the same, and one in another frame", "B4", wide(TWO_WRONG, 511, 8000), [*MEND_TWO_WRONG, "# five", "511 force zero"],
        [*dropped(DOUBTED % 3990000, *MEND_TWO_WRONG), "# five", "511 force zero"]),
    Row("one that rises a tenth of an interval later, and a microsecond more", "B4", LAST_BROKEN, ["650 shift 1000", "650 shift 1"],
        ["650 shift 1000", *dropped(GONE % 6500000, "650 shift 1")]),
    Row("one that rises a tenth of an interval earlier, and a microsecond more", "B4", LAST_BROKEN, ["650 shift -1000", "650 shift -1"],
        ["650 shift -1000", *dropped(GONE % 6500000, "650 shift -1")]),
    Row("one that goes, and another in its place", "B4", LAST_BROKEN, ["begin", "650 delete", "insert 6499500 6501000", "end"],
        ["begin", "650 delete", "insert 6499500 6501000", "end"]),
    Row("pulses in step, turned over", "B4", LAST_BROKEN, ["invert 6449000 6559000"], ["invert 6449000 6559000"]),
    Row("pulses that are not in step: eleven tenths of an interval, and a microsecond more", "B4",
        moved(LAST_BROKEN, lambda at: at + 1001 * (at >= 6500000)), ["649 delete", "649 delete"], ["649 delete", "649 delete"]),
    Row("pulses that are still in step: eleven tenths of an interval", "B4", moved(LAST_BROKEN, lambda at: at + 1000 * (at >= 6500000)),
        ["649 delete", "650 delete"], each_dropped(GONE % 6490000, "649 delete") + each_dropped(GONE % 6501000, "650 delete")),
    Row("pulses in step, if frames may move", "B4", LAST_BROKEN, ["650 delete"], ["650 delete"], moved=True),
    Row("a pulse in step of a broken frame between fine ones", "B4", WITHOUT_ZERO, ["260 delete"], dropped(GONE % 2600000, "260 delete")),
    Row("a pulse in step of format A", "A0", HUNDREDTHS_BROKEN, ["650 delete"], dropped(GONE % 650000, "650 delete")),
    Row("a pulse in step of format E", "E1", TENS_BROKEN, ["650 delete"], dropped(GONE % 65000000, "650 delete")),
    Row("a pulse in step of format G", "G1", SHORT_BROKEN, ["650 delete"], dropped(GONE % 65000, "650 delete")),
    # control functions
    Row("a control function that was lost, and that the nearest frames do not have", "B4", without(SOUND, 363),
        ["insert 3620000 3625000"], ["insert 3620000 3625000"], filled=1),
    Row("one that was recorded as a zero, and that only the frame before it has", "B4", without(joined(SET_FUNCTION, SOUND, 3), 343),
        SET_FUNCTION_OF_3, unsafe("138 12:34:53", 3000000, UNRECORDED, *SET_FUNCTION_OF_3)),
    Row("one of which a pulse of no class is left", "B4", turned_at(without(SOUND, 363), 3620000, 3620040),
        ["invert 3620040 3625000"], ["invert 3620040 3625000"], filled=1),
    Row("one of which a pulse with a class is left, half an interval later", "B4", turned_at(without(SOUND, 363), 3624900, 3626900),
        LATE_FUNCTION, unsafe("138 12:34:53", 3000000, UNRECORDED, *LATE_FUNCTION)),
    Row("a recorded control function, more than a tenth of an interval later", "B4", without(ONE_FUNCTION, 343),
        [*LATER, "363,375 shift 401", "end"], unsafe("138 12:34:53", 3000000, UNRECORDED, *LATER, "363,375 shift 401", "end")),
    Row("a recorded control function, as another class", "B4", without(ONE_FUNCTION, 343),
        ["begin", "insert 3420000 3422000", "363 force zero", "end"], ["begin", "insert 3420000 3422000", "363 force zero", "end"],
        filled=1),
    Row("the last of 18 control functions", "B4", without(SOUND, 343),
        ["begin", "insert 3420000 3422000", "379 force one", "end"],
        unsafe("138 12:34:53", 3000000, UNRECORDED, "begin", "insert 3420000 3422000", "379 force one", "end")),
    Row("a control function of a frame that reads another time", "B5", changed(steady("B5"), 312, "one"),
        ["begin", "312 force zero", "363 force one", "end", "312 force zero"],
        [*unsafe("138 12:34:53", 3000000, UNRECORDED, "begin", "312 force zero", "363 force one", "end"), "312 force zero"]),
    Row("a time that is not supported, before control functions that are not", "B4", without(hole(SOUND, 5), 343),
        ["begin", "insert 3420000 3422000", "363 force one", "regen 5000000 1 " + FOURTH, "end"],
        unsafe("138 12:34:54", 5000000, UNSUPPORTED, "begin", "insert 3420000 3422000", "363 force one",
               "regen 5000000 1 " + FOURTH, "end")),
    # control functions that another recording has
    Row("one that was recorded as a zero, and another recording has", "B4", AS_ZERO, SET_FUNCTION_OF_3, SET_FUNCTION_OF_3, filled=1,
        others=[OF_OTHER]),
    Row("that recording has the frame before it and after it alone", "B4", AS_ZERO, SET_FUNCTION_OF_3,
        unsafe("138 12:34:53", 3000000, UNRECORDED, *SET_FUNCTION_OF_3), others=[hole(OF_OTHER, 3)]),
    Row("that recording has the frame alone", "B4", AS_ZERO, SET_FUNCTION_OF_3,
        unsafe("138 12:34:53", 3000000, UNRECORDED, *SET_FUNCTION_OF_3), others=[OF_OTHER[290:410]]),
    Row("that recording has the frame and the next one", "B4", AS_ZERO, SET_FUNCTION_OF_3, SET_FUNCTION_OF_3, filled=1,
        others=[OF_OTHER[290:510]]),
    Row("that recording is of an hour before", "B4", AS_ZERO, SET_FUNCTION_OF_3,
        unsafe("138 12:34:53", 3000000, UNRECORDED, *SET_FUNCTION_OF_3), others=[steady(begin=AGO, control=4)]),
    Row("that recording is of the day before", "B4", AS_ZERO, SET_FUNCTION_OF_3,
        unsafe("138 12:34:53", 3000000, UNRECORDED, *SET_FUNCTION_OF_3),
        others=[steady(begin=NOON - datetime.timedelta(days=1), control=4)]),
    Row("that recording is of the year before", "B4", AS_ZERO, SET_FUNCTION_OF_3,
        unsafe("138 12:34:53", 3000000, UNRECORDED, *SET_FUNCTION_OF_3), others=[steady(begin=NOON.replace(year=2023, day=18), control=4)]),
    Row("that recording is of the second after", "B4", AS_ZERO, SET_FUNCTION_OF_3,
        unsafe("138 12:34:53", 3000000, UNRECORDED, *SET_FUNCTION_OF_3),
        others=[joined(SOUND, steady(control=4), 4)]),
    Row("that recording has another one, too, that is not so here", "B4", AS_ZERO,
        ["begin", "insert 3420000 3422000", "363 force one", "379 force one", "end"],
        unsafe("138 12:34:53", 3000000, UNRECORDED, "begin", "insert 3420000 3422000", "363 force one", "379 force one", "end"),
        others=[OF_OTHER]),
    Row("one of two recordings has it", "B4", AS_ZERO, SET_FUNCTION_OF_3,
        unsafe("138 12:34:53", 3000000, UNRECORDED, *SET_FUNCTION_OF_3), others=[OF_OTHER, OF_SOUND]),
    Row("two of three recordings have it", "B4", AS_ZERO, SET_FUNCTION_OF_3, SET_FUNCTION_OF_3, filled=1,
        others=[OF_OTHER, OF_SOUND, ONE_FUNCTION]),
    Row("one of three recordings has it", "B4", AS_ZERO, SET_FUNCTION_OF_3,
        unsafe("138 12:34:53", 3000000, UNRECORDED, *SET_FUNCTION_OF_3), others=[OF_SOUND, OF_OTHER, SOUND]),
    Row("a frame that was fine, and another recording has it otherwise", "B4", SOUND, ["363 force one"],
        unsafe("138 12:34:53", 3000000, CHANGED, "363 force one"), others=[OF_OTHER]),
    Row("a frame that was fine, and both next to it and another recording have it otherwise", "B4", CHANGING_AS_ZERO, ["363 force one"],
        ["363 force one"], filled=1, others=[CHANGING]),
    Row("the same, and no other recording", "B4", CHANGING_AS_ZERO, ["363 force one"],
        unsafe("138 12:34:53", 3000000, CHANGED, "363 force one")),
    Row("the same, and one of two other recordings has it as it was", "B4", CHANGING_AS_ZERO, ["363 force one"],
        unsafe("138 12:34:53", 3000000, CHANGED, "363 force one"), others=[CHANGING, CHANGING_AS_ZERO]),
    Row("the same, and the frame after it has it as it was", "B4", joined(CHANGING_AS_ZERO, changed(CHANGING, 463, "zero"), 4),
        ["363 force one"], unsafe("138 12:34:53", 3000000, CHANGED, "363 force one"), others=[CHANGING]),
    Row("the same, and another one that only the other recording has", "B4", CHANGING_AS_ZERO,
        ["begin", "363 force one", "371 force one", "end"],
        unsafe("138 12:34:53", 3000000, CHANGED, "begin", "363 force one", "371 force one", "end"),
        others=[changed(CHANGING, 371, "one")]),
    # a parity
    Row("a frame with a wrong parity, and another recording has a control function of it otherwise", "B4", ODD_BUT_3, MEND_BY_PARITY,
        MEND_BY_PARITY, filled=1, others=[ODD]),
    Row("the same of the last frame", "B4", ODD_BUT_LAST, MEND_LAST, MEND_LAST, filled=1, others=[ODD]),
    Row("the same, and no other recording", "B4", ODD_BUT_3, MEND_BY_PARITY, unsafe("138 12:34:53", 3000000, CHANGED, *MEND_BY_PARITY)),
    Row("the same, and the other recording has seven frames", "B4", ODD_BUT_3, MEND_BY_PARITY,
        unsafe("138 12:34:53", 3000000, CHANGED, *MEND_BY_PARITY), others=[ODD[100:]]),
    Row("the same, and one of its eight frames has another parity", "B4", ODD_BUT_3, MEND_BY_PARITY,
        unsafe("138 12:34:53", 3000000, CHANGED, *MEND_BY_PARITY), others=[ODD_BUT_LAST]),
    Row("the same, and it has what is here", "B4", ODD_BUT_3, MEND_BY_PARITY,
        unsafe("138 12:34:53", 3000000, CHANGED, *MEND_BY_PARITY), others=[[*ODD_BUT_3, *with_parity(13)[900:]]]),
    Row("a frame with a right parity, and another recording has two control functions of it otherwise", "B4", ODD_BUT_TWO, MEND_TWO,
        unsafe("138 12:34:53", 3000000, CHANGED, *MEND_TWO), others=[ODD]),
    Row("one of these, after which the parity is wrong", "B4", ODD_BUT_TWO, MEND_BY_PARITY,
        unsafe("138 12:34:53", 3000000, CHANGED, *MEND_BY_PARITY), others=[ODD]),
    Row("a frame with a right parity, and another recording has one otherwise, whose parity is wrong", "B4", ODD, SPOIL_BY_PARITY,
        unsafe("138 12:34:53", 3000000, CHANGED, *SPOIL_BY_PARITY), others=[[*other_class(ODD, 362), *with_parity(13)[900:]]]),
    # a width
    Row("a control function whose pulse is wider than the other zeros of its frame, and another recording has a one", "B4",
        wide(ONE_FUNCTION, 363, 2101), ["363 force one"], ["363 force one"], filled=1, others=[OF_OTHER]),
    Row("the same, narrower", "B4", wide(ONE_FUNCTION, 363, 1899), ["363 force one"], ["363 force one"], filled=1, others=[OF_OTHER]),
    Row("the same, by a hundredth of an interval", "B4", wide(ONE_FUNCTION, 363, 2100), ["363 force one"],
        unsafe("138 12:34:53", 3000000, CHANGED, "363 force one"), others=[OF_OTHER]),
    Row("the same, narrower by a hundredth of an interval", "B4", wide(ONE_FUNCTION, 363, 1900), ["363 force one"],
        unsafe("138 12:34:53", 3000000, CHANGED, "363 force one"), others=[OF_OTHER]),
    Row("the same, and no other recording", "B4", wide(ONE_FUNCTION, 363, 2101), ["363 force one"],
        unsafe("138 12:34:53", 3000000, CHANGED, "363 force one")),
    Row("the same, and two other recordings differ", "B4", wide(ONE_FUNCTION, 363, 2101), ["363 force one"],
        unsafe("138 12:34:53", 3000000, CHANGED, "363 force one"), others=[OF_OTHER, OF_SOUND]),
    Row("the same, and the pulse of the other recording is not as wide as its ones", "B4", wide(ONE_FUNCTION, 363, 2101),
        ["363 force one"], unsafe("138 12:34:53", 3000000, CHANGED, "363 force one"), others=[wide(OF_OTHER, 363, 5200)]),
    Row("the same, and a pulse of the other recording is not as wide as others in another frame", "B4", wide(ONE_FUNCTION, 363, 2101),
        ["363 force one"], ["363 force one"], filled=1, others=[wide(OF_OTHER, 463, 2200)]),
    Row("the same, and another zero of the frame is narrower by half a hundredth", "B4", wide(wide(ONE_FUNCTION, 363, 2200), 371, 1950),
        ["363 force one"], unsafe("138 12:34:53", 3000000, CHANGED, "363 force one"), others=[OF_OTHER]),
    Row("the same, wider than all by a hundredth and twice of what they differ", "B4", wide(wide(ONE_FUNCTION, 363, 2201), 371, 1950),
        ["363 force one"], ["363 force one"], filled=1, others=[OF_OTHER]),
    Row("a control function as wide as others, and the pulse of another one is not", "B4", wide(SOUND, 371, 2101), ["363 force one"],
        unsafe("138 12:34:53", 3000000, CHANGED, "363 force one"), others=[OF_OTHER]),
    Row("the same of the first frame", "B4", wide(steady(control=4), 163, 5101), ["163 force zero"], ["163 force zero"], filled=1,
        others=[joined(SOUND, steady(control=4), 2)]),
    Row("a frame with five other ones", "B5", wide(FEW_ONES, 363, 5101), ["363 force zero"], ["363 force zero"], filled=1,
        others=[changed(FEW_ONES, 363, "zero")]),
    Row("a frame with four other ones", "B5", wide(FEW_ONES, 263, 5101), ["263 force zero"],
        unsafe("001 00:00:02", 2000000, CHANGED, "263 force zero"), others=[changed(FEW_ONES, 263, "zero")]),
    Row("a zero and a one that are wide", "B4", wide(wide(ONE_FUNCTION, 363, 2300), 371, 5300),
        ["begin", "363 force one", "371 force zero", "end"], ["begin", "363 force one", "371 force zero", "end"], filled=1,
        others=[OF_OTHER]),
    Row("two wide zeros: each is as wide as the other one", "B4", wide(wide(ONE_FUNCTION, 363, 2300), 371, 2300),
        ["begin", "363 force one", "371 force one", "end"],
        unsafe("138 12:34:53", 3000000, CHANGED, "begin", "363 force one", "371 force one", "end"),
        others=[changed(OF_OTHER, 371, "one")]),
    Row("a wide zero, and one that is not", "B4", wide(ONE_FUNCTION, 363, 2300),
        ["begin", "363 force one", "371 force one", "end"],
        unsafe("138 12:34:53", 3000000, CHANGED, "begin", "363 force one", "371 force one", "end"),
        others=[changed(OF_OTHER, 371, "one")]),
    # a first or last frame that another recording knows
    Row("the first frame has another time, and another recording has the one before the next", "B5", FIRST_IS_50, ["102 force one"],
        ["102 force one"], others=[steady("B5")]),
    Row("the same, and no other recording", "B5", FIRST_IS_50, ["102 force one"],
        unsafe("138 12:34:50", 1000000, CHANGED, "102 force one")),
    Row("the same, and another recording has the time that it had", "B5", FIRST_IS_50, ["102 force one"],
        unsafe("138 12:34:50", 1000000, CHANGED, "102 force one"),
        others=[steady("B5", begin=NOON - datetime.timedelta(seconds=2))]),
    Row("the same, and another recording begins later", "B5", FIRST_IS_50, ["102 force one"],
        unsafe("138 12:34:50", 1000000, CHANGED, "102 force one"), others=[steady("B5")[190:]]),
    Row("the first frame and the one after the next contradict the next", "B5", changed(steady("B5"), 202, "one"),
        ["begin", "102 force zero", "103 force one", "end"],
        unsafe("138 12:34:51", 1000000, CHANGED, "begin", "102 force zero", "103 force one", "end"), others=[steady("B5")[190:]]),
    Row("the same, as a time to which the next two do not lead", "B5", FIRST_IS_50, ["103 force one"],
        unsafe("138 12:34:50", 1000000, CHANGED, "103 force one"), others=[steady("B5")]),
    Row("the last frame has another time, and another recording has the one after that before it", "B5", LAST_IS_57,
        ["602 force zero"], ["602 force zero"], others=[steady("B5")]),
    Row("the same, and another recording has the time that it had, too", "B5", LAST_IS_57, ["602 force zero"],
        unsafe("138 12:34:57", 6000000, CHANGED, "602 force zero"), others=[steady("B5", 9)]),
    Row("a time that the frames next to it contradict, and another recording has", "B4", hole(SOUND, 3),
        ["regen 3000000 1 " + FOURTH], unsafe("138 12:34:54", 3000000, UNSUPPORTED, "regen 3000000 1 " + FOURTH), others=[OF_SOUND]),
    Row("another recording without a frame", "B4", AS_ZERO, SET_FUNCTION_OF_3,
        unsafe("138 12:34:53", 3000000, UNRECORDED, *SET_FUNCTION_OF_3), others=[[[0, 2000]]]),
    Row("one that another recording has, of a frame that moves", "B4", AS_ZERO, [*SET_FUNCTION_OF_3, "301,$ shift 600"],
        [*SET_FUNCTION_OF_3, "301,$ shift 600"], True, others=[OF_OTHER]),
    # frames that move
    Row("a rest that is early", "B4", EARLY, ["350,$ shift 7300"],
        unsafe("138 12:34:54", 3992700, LOST, "350,$ shift 7300")),
    Row("a rest that is early, moved", "B4", EARLY, ["350,$ shift 7300"], ["350,$ shift 7300"], True),
    Row("a rest that is moved back again", "B4", SOUND, ["601,$ shift 600", "601,$ shift -600"],
        ["601,$ shift 600", "601,$ shift -600"], True),
    Row("a frame that no neighbour is as far from as it should, moved", "B4", LATE, ["601,$ shift 900"], ["601,$ shift 900"], True),
    Row("what is not moved, with --moved", "B4", WITHOUT_ZERO, [MEND, "343 delete"],
        [MEND, *unsafe("138 12:34:53", 3000000, LOST, "343 delete")], True),
    Row("a frame that an earlier repair mended, moved and lost", "B4", WITHOUT_ZERO, [MEND, "201,$ shift 600", "243 delete"],
        [MEND, "201,$ shift 600", *unsafe("138 12:34:52", 2000600, LOST, "243 delete")], True),
    Row("a time that the distances of the result support", "B4", hole(SOUND, 3, 2)[:-10],
        ["301,$ shift 2000", "regen 3001300 2 " + THIRD], ["301,$ shift 2000", "regen 3001300 2 " + THIRD], True),
    Row("pulses that only one neighbour of the result supports", "B4", hole(SOUND, 3, 2)[:-10],
        ["301,$ shift 30000", "regen 3030000 2 " + THIRD],
        ["301,$ shift 30000", *unsafe("138 12:34:54", 4030000, MISPLACED, "regen 3030000 2 " + THIRD)], True),
    Row("a frame that moves, and not all its pulses do", "B4", SOUND, ["begin", "601,$ shift 900", "642 shift -1", "end"],
        unsafe("138 12:34:56", 6000900, MOVED, "begin", "601,$ shift 900", "642 shift -1", "end"), True),
    Row("a time that only those of another result would support", "B4", hole(SOUND, 3, 2)[:-10], ["regen 3030000 2 " + THIRD],
        unsafe("138 12:34:54", 4030000, UNSUPPORTED, "regen 3030000 2 " + THIRD), True),
    Row("another time of a frame that moves", "B6", steady("B6"), ["begin", "302 force zero", "601,$ shift 600", "end"],
        unsafe("138 12:34:53", 3000000, CHANGED, "begin", "302 force zero", "601,$ shift 600", "end"), True),
    Row("a control function of the last frame, which moves", "B4", SOUND, ["begin", "663 force one", "601,$ shift 600", "end"],
        unsafe("138 12:34:56", 6000600, CHANGED, "begin", "663 force one", "601,$ shift 600", "end"), True),
    Row("a control function that both nearest frames do not have, which moves", "B4", changed(SOUND, 563, "one"),
        ["begin", "563 force zero", "501,$ shift 600", "end"], ["begin", "563 force zero", "501,$ shift 600", "end"], True),
    Row("a frame that an earlier repair mended, and the next one in its place", "B4", WITHOUT_ZERO,
        [MEND, "begin", "regen 2000000 1 " + THIRD, "343 delete", "end"],
        [MEND, *unsafe("138 12:34:53", 2000000, LOST, "begin", "regen 2000000 1 " + THIRD, "343 delete", "end")], True),
    # no fine frame
    Row("two frames alone", "B4", TURNED[:299], ["invert 0 3000000"],
        [NOTHING_FINE, *dropped("fine frames would not support each other", "invert 0 3000000")], judged=False),
    # the first fault in the order of the rises
    Row("two frames are lost", "B4", SOUND, ["begin", "543 delete", "343 delete", "end"],
        unsafe("138 12:34:53", 3000000, LOST, "begin", "543 delete", "343 delete", "end")),
    Row("a frame that is not supported, before one that is lost", "B4", hole(SOUND, 2),
        ["begin", "443 delete", "regen 2000000 1 " + FOURTH, "end"],
        unsafe("138 12:34:54", 2000000, UNSUPPORTED, "begin", "443 delete", "regen 2000000 1 " + FOURTH, "end")),
    Row("hundredths of a second", "A0", HUNDREDTHS, ["343 delete"], unsafe("138 12:34:50.30", 300000, LOST, "343 delete")),
    # lines that are no repair
    Row("junk", "B4", SOUND, ["hello", "\x00\x01", "+++", LONG, "#" * 1001],
        each_dropped(NO_REPAIR, "hello", "\x00\x01", "+++", LONG[:900], "#" * 900)),
    Row("lines that a repair may not have", "B4", SOUND, ["write", "save", "undo", "redo", ",list", "7", "frames"],
        each_dropped(NO_REPAIR, "write", "save", "undo", "redo", ",list", "7", "frames")),
    Row("more of them", "B4", SOUND, ["marks", "info", "quit", "format B 2", "end", "abort"],
        each_dropped(NO_REPAIR, "marks", "info", "quit", "format B 2", "end", "abort")),
    Row("a line after `quit`", "B4", WITHOUT_ZERO, ["quit", MEND], [*dropped(NO_REPAIR, "quit"), MEND]),
    Row("a refused line", "B4", SOUND, ["9999 delete"], dropped("refused: E2 NoPulse", "9999 delete")),
    Row("a group with a refused line", "B4", WITHOUT_ZERO, ["begin", MEND, "9999 delete", "end"],
        dropped("refused: E2 NoPulse", "begin", MEND, "9999 delete", "end")),
    Row("a group that is not safe", "B4", WITHOUT_ZERO, ["begin", MEND, "443 delete", "end"],
        unsafe("138 12:34:54", 4000000, LOST, "begin", MEND, "443 delete", "end")),
    Row("a group that is safe as a whole", "B4", SOUND, ["begin", "343 delete", "insert 3420000 3422000", "end"],
        ["begin", "343 delete", "insert 3420000 3422000", "end"]),
    Row("a group without an end", "B4", WITHOUT_ZERO, ["begin", MEND], dropped(NO_REPAIR, "begin", MEND)),
    Row("a group that is aborted", "B4", WITHOUT_ZERO, ["begin", MEND, "abort"],
        dropped(NO_REPAIR, "begin", MEND, "abort")),
    Row("a group in a group", "B4", WITHOUT_ZERO, ["begin", "begin", MEND, "end", "end"],
        [*dropped(NO_REPAIR, "begin", "begin", MEND, "end"), *dropped(NO_REPAIR, "end")]),
    Row("a group with a `write`", "B4", WITHOUT_ZERO, ["begin", MEND, "write", "end"],
        dropped(NO_REPAIR, "begin", MEND, "write", "end")),
    Row("what is dropped leaves nothing behind", "B4", WITHOUT_ZERO, ["343 delete", "mark a 2420000", "insert 'a 2422000"],
        [*unsafe("138 12:34:53", 3000000, LOST, "343 delete"), "mark a 2420000", "insert 'a 2422000"]),
)


class Paths(NamedTuple):
    """`--out` and TRACK in a folder with track.vcd and other.vcd, hard.vcd that is track.vcd, too, and the folder `inside`. link.vcd
    leads to track.vcd, chain.vcd to link.vcd, another.vcd to other.vcd, new.vcd to none yet, here to the folder, circle.vcd to itself."""

    name: str
    out: str
    track: str = "track.vcd"


LINKS = (("link.vcd", "track.vcd"), ("chain.vcd", "link.vcd"), ("another.vcd", "other.vcd"), ("new.vcd", "made.vcd"), ("here", "."),
         ("circle.vcd", "circle.vcd"))

# both lead to the track
ONE_FILE = (
    Paths("the same path", "track.vcd"),
    Paths("a dot before it", "./track.vcd"),
    Paths("a dot before the track", "track.vcd", "./track.vcd"),
    Paths("a path through another folder", "inside/../track.vcd"),
    Paths("two slashes", ".//track.vcd"),
    Paths("a symbolic link", "link.vcd"),
    Paths("the file of a symbolic link", "track.vcd", "link.vcd"),
    Paths("a link to a link", "chain.vcd"),
    Paths("two links", "chain.vcd", "link.vcd"),
    Paths("a link to the folder", "here/track.vcd"),
    Paths("the track through a link to the folder", "link.vcd", "here/here/track.vcd"),
    Paths("a hard link", "hard.vcd"),
    Paths("the file of a hard link", "track.vcd", "hard.vcd"),
    Paths("a hard link and a symbolic link", "chain.vcd", "hard.vcd"),
)

# the first leads to another file, or to none yet
TWO_FILES = (
    Paths("no file yet", "out.vcd"),
    Paths("another file", "other.vcd"),
    Paths("the same name in another folder", "inside/track.vcd"),
    Paths("a link to another file", "another.vcd"),
    Paths("a link to no file yet", "new.vcd"),
    Paths("another file, and a link to the track", "other.vcd", "link.vcd"),
)

# where the first leads is not found out
NOT_FOUND_OUT = (
    Paths("a link that leads to itself", "circle.vcd"),
    Paths("a name in a file", "track.vcd/out.vcd"),
    Paths("a name that is too long", 300 * "x"),
)
