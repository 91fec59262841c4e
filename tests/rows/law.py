"""Worked rows of the law of time: recordings whose frames are of the standard, what happened to them, and the time of some moments.

A recording begins with a position identifier. The marker of its first frame rises at 1,000,000 microseconds, or at ten times as many in
format E, so element e of frame k rises (100 k + e) intervals later, if nothing was lost before it.
"""
from fractions import Fraction
from typing import List, NamedTuple, Sequence, Tuple

from reference import timecode

Pulses = List[Tuple[int, int]]


class Row(NamedTuple):
    """`times` are moments, as a frame and an element of what was sent, with the microseconds by which they were recorded later, and the
    time that each has: the clock, or - for none."""

    name: str
    kind: str
    pulses: Pulses
    times: Sequence[Tuple[int, float, int, str]]
    day: str = "061"
    expression: int = 2
    bounds: Sequence[Tuple[int, float, Fraction]] = ()  # how far the line over a hole can be off at a moment, in intervals
    alone: bool = False  # whether each frame that reads well is believed


def begin_of(kind: str) -> int:
    return max(1_000_000, 100 * timecode.INTERVAL[kind])


def code(kind: str, *moments: str, interval: int = 0, expression: int = 2, control: int = 0, year: int = 0) -> Pulses:
    """Frames, one after the other: dddThh:mm:ss.ff of each."""
    interval = interval or timecode.INTERVAL[kind]
    names = ["position"]
    for text in moments:
        hours, minutes, seconds = text[4:].split(":")
        whole, _, parts = seconds.partition(".")
        names += timecode.encode(kind, expression, {
            "days": int(text[:3]), "hours": int(hours), "minutes": int(minutes), "seconds": int(whole), "control": control,
            "hundredths": int((parts + "00")[:2]), "year": year, "sbs": 3600 * int(hours) + 60 * int(minutes) + int(whole),
        })
    first = begin_of(kind) - interval
    return [(first + place * interval, first + place * interval + timecode.nominal(interval, name)) for place, name in enumerate(names)]


def seconds(*many: int) -> List[str]:
    """Frames of B in the minute 12:34; below zero three hours later."""
    return ["061T%02d:34:%02d" % (12 + 3 * (second < 0), abs(second)) for second in many]


def place(frame: int, element: int) -> int:
    return 1 + 100 * frame + element


def without(pulses: Pulses, *places: int) -> Pulses:
    return [pulse for number, pulse in enumerate(pulses) if number not in places]


def cut(pulses: Pulses, first: int, many: int, interval: int = 10000) -> Pulses:
    """The recorder lost some elements, and their time, from a place on."""
    return pulses[:first] + [(rise - many * interval, fall - many * interval) for rise, fall in pulses[first + many:]]


def later(pulses: Pulses, first: int, micros: int) -> Pulses:
    """The pulses from a place on are recorded later: the recorder waits."""
    return pulses[:first] + [(rise + micros, fall + micros) for rise, fall in pulses[first:]]


def wide(pulses: Pulses, width: int, *places: int) -> Pulses:
    """The pulses, some with another width."""
    return [(rise, rise + width) if number in places else (rise, fall) for number, (rise, fall) in enumerate(pulses)]


def slower(pulses: Pulses, first: int, part: int) -> Pulses:
    """From a place on the recorder's clock runs faster by one part of that many, so all takes longer."""
    begin = pulses[first][0]

    def at(moment: int) -> int:
        return moment + max(0, moment - begin) // part

    return [(at(rise), at(fall)) for rise, fall in pulses]


def wavy(pulses: Pulses, period: int, most: int) -> Pulses:
    """The pulses up to some microseconds later, in waves of some elements from the first marker on."""
    lates = [2 * most * min(number % period, -number % period) // period for number in range(-1, len(pulses) - 1)]
    return [(rise + late, fall + late) for (rise, fall), late in zip(pulses, lates)]


def stuck(text: str, weight: int) -> str:
    """The time that is sent if an element of the seconds is always zero."""
    return text[:-1] + str(int(text[-1]) & ~weight)


# the intervals of the code in one of the recorder's, at most: 99 last 990,000 microseconds, and each can be off by 20 ninety-ninths of one,
# the least for a frame of B, which shows nothing of it
FAST = Fraction(990_000, 990_000 - 20)

THREE, FIVE = code("B", *seconds(56, 57, 58)), code("B", *seconds(54, 55, 56, 57, 58))
LONG = code("B", *seconds(*range(30, 40)))
MIXED = code("B", *(stuck(text, 4) for text in seconds(*range(20, 44))))

ROWS = [
    Row("frames of A", "A", code("A", "061T12:34:56.7", "061T12:34:56.8"),
        [(0, -1.5, 0, "-"), (0, -0.5, 0, "12:34:56.699500"), (0, 50.5, 0, "12:34:56.750500"), (1, 98.5, 0, "12:34:56.898500"),
         (1, 99.5, 0, "-")]),
    Row("frames of B", "B", code("B", *seconds(56, 57)),
        [(0, 0, 0, "12:34:56.000000"), (0, 50.25, 0, "12:34:56.502500"), (1, 98.5, 0, "12:34:57.985000"), (1, 99.5, 0, "-")]),
    Row("frames of E", "E", code("E", "061T12:34:40", "061T12:34:50"),
        [(0, 0, 0, "12:34:40.000000"), (0, 50.25, 0, "12:34:45.025000"), (1, 98.5, 0, "12:34:59.850000"), (1, 99.5, 0, "-")]),
    Row("frames of G", "G", code("G", "061T12:34:56.78", "061T12:34:56.79"),
        [(0, 0, 0, "12:34:56.780000"), (0, 50.25, 0, "12:34:56.785025"), (1, 98.5, 0, "12:34:56.799850"), (1, 99.5, 0, "-")]),
    Row("a clock that is 3 % slow", "B", code("B", *seconds(56, 57), interval=9700),
        [(0, 50, -15000, "12:34:56.500000"), (1, 50, -45000, "12:34:57.500000")]),

    # a lost pulse: the two on each side of it have no name, and the line goes over them all
    Row("a lost pulse", "B", without(THREE, place(1, 30)), [(1, 27.5, 0, "12:34:57.275000"), (1, 30.5, 0, "12:34:57.305000")]),
    Row("a lost pulse of A", "A", without(code("A", "061T12:34:56.7", "061T12:34:56.8", "061T12:34:56.9"), place(1, 30)),
        [(1, 30.5, 0, "12:34:56.830500")]),
    Row("a lost pulse of E", "E", without(code("E", "061T12:34:30", "061T12:34:40", "061T12:34:50"), place(1, 30)),
        [(1, 30.5, 0, "12:34:43.050000")]),
    Row("a lost pulse of G", "G", without(code("G", "061T12:34:56.77", "061T12:34:56.78", "061T12:34:56.79"), place(1, 30)),
        [(1, 30.5, 0, "12:34:56.783050")]),
    Row("a hole of a frame and a half", "B", without(LONG, *range(place(4, 10), place(5, 60))), [(4, 90.5, 0, "12:34:34.905000")]),
    # between element 7 and element 12, 405 intervals; the clock strays by the least
    Row("a hole of four frames", "B", without(LONG, *range(place(3, 10), place(7, 10))), [(5, 0.5, 0, "12:34:35.005000")],
        bounds=[(5, 0.5, 405 * (FAST - 1)), (4, 0.5, 405 * (FAST - 1))]),
    # 100 microseconds in it: 105 elements in 1,050,100 microseconds, from element 7 to element 12
    Row("a hole in which the recorder waits", "B", later(without(LONG, *range(place(3, 10), place(4, 10))), place(3, 10), 100),
        [(3, 57, 0, "12:34:33.569952")],
        bounds=[(3, 57, Fraction(10501, 100) * FAST - 105), (3, 87, Fraction(10501, 100) * FAST - 105)]),
    # 100 microseconds in it: a line over 16 elements in 160,100 microseconds, and rises of the frames around it that are in time
    Row("a short hole in which the recorder waits", "B", later(without(LONG, *range(place(3, 10), place(3, 21))), place(3, 10), 100),
        [(3, 15.5, 0, "12:34:33.154946")], bounds=[(3, 15.5, Fraction(16 * 100, 160_100))]),
    # over 16 elements rises are 100 microseconds off the line, and steps differ by 50: as much more as that is in a hole
    Row("a hole on a clock with wow", "B", without(wavy(THREE, 8, 100), *range(place(1, 10), place(1, 21))),
        [(1, 15.5, 75, "12:34:57.155000")], bounds=[(1, 15.5, Fraction(100 - 50, 10_000))]),
    Row("a hole on a clock with more wow", "B", without(wavy(THREE, 8, 500), *range(place(1, 10), place(1, 21))),
        [(1, 6, 250, "12:34:57.060000"), (1, 15.5, 375, "-")]),
    Row("a hole in which the clock changes by 1 %", "B", without(slower(LONG, place(5, 0), 100), *range(place(3, 10), place(7, 10))),
        [(3, 6.5, 0, "12:34:33.065000"), (5, 0.5, 50, "-"), (7, 50.5, 25050, "12:34:37.505000")]),
    Row("a hole, and a clock that changes by 1 % near its end", "B",
        without(slower(LONG, place(5, 0), 100), *range(place(3, 10), place(5, 60))),
        [(2, 50.5, 0, "12:34:32.505000"), (5, 0.5, 50, "-"), (5, 80.5, 8050, "12:34:35.805000")]),
    Row("a hole on a clock that strays by half a percent", "B", without(wavy(THREE, 100, 2500), *range(place(1, 40), place(1, 60))),
        [(1, 30.5, 1525, "12:34:57.305000"), (1, 50.5, 2475, "-")]),
    Row("a clock that changes by 1 % in a frame with a lost pulse", "B", without(slower(LONG, place(3, 80), 100), place(3, 50)),
        [(3, 30.5, 0, "12:34:33.305000"), (3, 90.5, 1050, "12:34:33.905000")]),
    Row("control functions in a broken frame", "B",
        without(code("B", *seconds(56, 57, 58), expression=1, control=0b111000000000), place(1, 30)),
        [(1, 50.5, 0, "12:34:57.505000"), (1, 65.5, 0, "12:34:57.655000")], expression=1),
    Row("a hole over the end of an hour", "B",
        without(code("B", *("061T12:59:%d" % second for second in range(56, 60)), *("061T13:00:0%d" % second for second in range(4))),
                *range(place(3, 10), place(4, 60))),
        [(3, 70, 0, "12:59:59.700000"), (4, 30, 0, "13:00:00.300000")]),

    # An event. Two widths after a pulse that belie the second frame show that it is before the event, two before it that belie the first
    # one that it is after it. 12:34:57 and 17:05:19 last differ in the elements 20 and 22, 12:34:58 and 17:05:20 first in 4 and 6.
    Row("a clock that is set", "B", code("B", *seconds(56, 57), "061T17:05:20", "061T17:05:21"),
        [(1, 18.5, 0, "12:34:57.185000"), (1, 19.5, 0, "-"), (2, 6.5, 0, "-"), (2, 7.5, 0, "17:05:20.075000")]),
    # 24 and 21 differ in the elements 50 and 52: two of the first year deny the second
    Row("a clock whose year is set", "B",
        code("B", *seconds(56, 57), expression=6, year=24) + code("B", *seconds(*range(56, 60)), expression=6, year=21)[place(2, 0):],
        [(1, 48.5, 0, "12:34:57.485000"), (1, 49.5, 0, "-"), (2, 41.5, 0, "-"), (2, 42.5, 0, "12:34:58.425000")], expression=6),
    # Elements 45 to 47 are lost. By the second frame the last two that are at the place of others are the identifier 39 and element 37,
    # which is a one; by the first frame the first two after the loss are the identifier 49 and element 52, at the place of 49.
    Row("a stretch that is cut out", "B", cut(FIVE, place(2, 45), 3),
        [(2, 35.5, 0, "12:34:56.355000"), (2, 36.5, 0, "-"), (2, 52.5, -30000, "-"), (2, 53.5, -30000, "12:34:56.535000")]),
    Row("a stretch that is cut out, and a lost pulse before it", "B", without(cut(FIVE, place(2, 45), 3), place(2, 12)),
        [(2, 12.5, 0, "12:34:56.125000"), (2, 34.5, 0, "12:34:56.345000"), (2, 53.5, -30000, "12:34:56.535000")]),
    # The last pulse before the slip with two in step on each side is element 42, the first one after it element 50: these are on no grid.
    Row("a slip of 3.3 intervals", "B", later(cut(FIVE, place(2, 45), 3), place(2, 45), -3000),
        [(2, 39.5, 0, "12:34:56.395000"), (2, 40.5, 0, "-"), (2, 51.5, -33000, "-"), (2, 52.5, -33000, "12:34:56.525000")]),
    Row("three elements that are lost, and a wait of three intervals", "B", later(cut(FIVE, place(2, 20), 3), place(2, 67), 30000),
        [(1, 50.5, 0, "12:34:55.505000"), (2, 10.5, 0, "-"), (2, 50.5, -30000, "-"), (3, 50.5, 0, "12:34:57.505000")]),
    Row("two stretches that are cut out", "B", cut(cut(FIVE, place(2, 70), 3), place(2, 25), 4),
        [(0, 99.5, 0, "12:34:54.995000"), (1, 10.5, 0, "-"), (2, 10.5, 0, "-"), (2, 90.5, -70000, "-"), (3, 10.5, -70000, "-"),
         (3, 50.5, -70000, "12:34:57.505000")]),
    # the frame of 44 seconds ends with the elements of 47: 48 is not 45 in the elements 1 and 3, and 44 is not 47 in 1 and 2
    Row("whole frames that are cut out", "B", cut(code("B", *seconds(*range(40, 50))), place(4, 60), 300),
        [(3, 99.5, 0, "12:34:43.995000"), (4, 0.5, 0, "-"), (7, 70.5, -3000000, "-"), (8, 3.5, -3000000, "-"),
         (8, 4.5, -3000000, "12:34:48.045000")]),

    # Islands: the frames around them agree. An hour of 15 for 12 is three elements, and two deny that there was no event.
    Row("an island of one element", "B", code("B", *seconds(50, 51, 52), "061T13:34:53", "061T13:34:54", *seconds(55, 56, 57)),
        [(2, 50.5, 0, "12:34:52.505000"), (3, 50.5, 0, "12:34:53.505000"), (5, 50.5, 0, "12:34:55.505000")]),
    Row("an island of three elements", "B", code("B", *seconds(50, 51, 52, -53, -54, 55, 56, 57)),
        [(2, 50.5, 0, "12:34:52.505000"), (3, 50.5, 0, "-"), (4, 50.5, 0, "-"), (5, 50.5, 0, "12:34:55.505000")]),
    Row("an island of nine frames", "B", code("B", *seconds(*range(20, 30), *range(-30, -39, -1), *range(39, 50))),
        [(9, 50.5, 0, "12:34:29.505000"), (10, 50.5, 0, "-"), (18, 50.5, 0, "-"), (19, 50.5, 0, "12:34:39.505000")]),
    Row("two islands that are alike", "B", code("B", *seconds(*range(20, 30), -30, -31, 32, -33, -34, *range(35, 45))),
        [(9, 50.5, 0, "12:34:29.505000"), (10, 50.5, 0, "-"), (12, 50.5, 0, "12:34:32.505000"), (13, 50.5, 0, "-"),
         (15, 50.5, 0, "12:34:35.505000")]),
    Row("two frames at the end that are wrong alike", "B", code("B", *seconds(50, 51, 52, -53, -54)),
        [(1, 50.5, 0, "12:34:51.505000"), (4, 50.5, 0, "15:34:54.505000")]),
    Row("one frame that is wrong", "B", code("B", *seconds(50, 51, -52, 53, 54)), [(1, 50.5, 0, "12:34:51.505000"), (2, 50.5, 0, "-")]),
    Row("one frame that is wrong at the end", "B", code("B", *seconds(50, 51, -52)),
        [(0, 50.5, 0, "12:34:50.505000"), (1, 50.5, 0, "-"), (2, 50.5, 0, "-")]),
    Row("an element of the seconds that is always zero", "B", MIXED, [(frame, 50.5, 0, "-") for frame in range(24)]),
    Row("an only frame", "B", code("B", *seconds(50)), [(0, 50.5, 0, "12:34:50.505000")]),
    Row("two frames that do not agree", "B", code("B", *seconds(50, -51)), [(0, 50.5, 0, "-"), (1, 50.5, 0, "-")]),
    # 15 for 12 hours are the elements 20 to 22: the last two of the first frame deny 15, the first two of the second one 12
    Row("two frames that do not agree, and each is believed", "B", code("B", *seconds(50, -51)),
        [(0, 19.5, 0, "12:34:50.195000"), (0, 20.5, 0, "-"), (1, 21.5, 0, "-"), (1, 22.5, 0, "15:34:51.225000")], alone=True),

    Row("two frames alone, 494 periods from each other", "B", code("B", "061T12:00:00") + later(code("B", "061T12:08:14"), 0, 494_000_000),
        [(0, 50.5, 0, "12:00:00.505000"), (494, 50.5, 0, "12:08:14.505000")]),
    Row("two frames alone, 495 periods from each other", "B", code("B", "061T12:00:00") + later(code("B", "061T12:08:15"), 0, 495_000_000),
        [(0, 50.5, 0, "-"), (495, 50.5, 0, "-")]),

    # Ends: a hundred elements, if none denies. In the second 55 for 53 another element of the seconds is zero.
    Row("a part of a frame at each end", "B", FIVE[60:470], [(0, 70.5, 0, "12:34:54.705000"), (4, 50.5, 0, "12:34:58.505000")]),
    Row("a lost pulse at the end", "B", without(FIVE[:470], place(4, 30)), [(4, 25.5, 0, "12:34:58.255000"), (4, 40.5, 0, "-")]),
    Row("an end that denies", "B", cut(code("B", *seconds(50, 51, 52, 53, 54, 55))[:590], place(3, 60), 100),
        [(2, 99.5, 0, "12:34:52.995000"), (3, 0.5, 0, "-"), (3, 50.5, 0, "-"), (4, 70.5, -1000000, "-")]),
    Row("an end that the binary seconds deny", "B", cut(code("B", *seconds(50, 51, 52, 53, 54, 55), expression=3), place(4, 45), 100),
        [(2, 99.5, 0, "12:34:52.995000"), (3, 0.5, 0, "-"), (4, 30.5, 0, "-"), (5, 90.5, -1000000, "-")], expression=3),
    Row("an end that a single pulse denies, next to a hole", "B",
        without(cut(code("B", *seconds(50, 51, 52, 53, 54))[:490], place(2, 60), 100), place(3, 1), place(3, 2)), [(2, 50.5, 0, "-")]),

    Row("noise after the last frame", "B",
        wide(without(FIVE[:471], *range(place(4, 1), place(4, 30)), *range(place(4, 32), place(4, 60))), 8000, place(4, 1), place(4, 2)),
        [(3, 50.5, 0, "12:34:57.505000"), (3, 96.5, 0, "12:34:57.965000")]),
    Row("a pulse of no class at the end", "B", wide(FIVE[:470], 9600, place(4, 30)), [(3, 50.5, 0, "12:34:57.505000")]),
    Row("a pulse that the end of the recording cuts", "B", wide(FIVE[:place(4, 6) + 1], 2000, place(4, 6)),
        [(3, 50.5, 0, "12:34:57.505000"), (4, 4.5, 0, "12:34:58.045000")]),
    # the first frame has elements of 50 and of 51 seconds, and reads well; 52 is the first that is believed
    Row("a begin that is denied", "B", cut(code("B", *seconds(50, 51, 52, 53, 54)), place(0, 60), 100),
        [(0, 50.5, 0, "-"), (1, 90.5, -1000000, "-"), (2, 41.5, -1000000, "-"), (2, 42.5, -1000000, "12:34:52.425000")]),

    # Seconds 60, and the end of an hour
    Row("a last frame with which an hour ends", "B", code("B", *("061T12:59:%d" % second for second in (57, 58, 59)), "061T13:00:00")[:360],
        [(1, 99.5, 0, "12:59:58.995000"), (2, 0.5, 0, "-"), (2, 50.5, 0, "-"), (3, 10.5, 0, "-")]),
    Row("a first frame with which an hour begins", "B", code("B", "061T12:59:59", *("061T13:00:0%d" % second for second in range(3)))[50:],
        [(0, 90.5, 0, "-"), (1, 41.5, 0, "-"), (1, 42.5, 0, "13:00:00.425000"), (2, 0.5, 0, "13:00:01.005000")]),
    Row("a second 60", "B", code("B", "366T23:59:59", "366T23:59:60", "001T00:00:00", "001T00:00:01"),
        [(0, 50.5, 0, "23:59:59.505000"), (1, 50.5, 0, "23:59:60.505000")], "366"),
    Row("a broken frame within a second 60, with binary seconds", "A",
        without(code("A", *("366T23:59:60.%d" % tenth for tenth in (1, 2, 3)), expression=3), place(1, 30)),
        [(1, 10.5, 0, "23:59:60.210500"), (1, 30.5, 0, "23:59:60.230500"), (1, 50.5, 0, "23:59:60.250500")], "366", expression=3),
    Row("a broken frame before a second 60", "A", without(code("A", "366T23:59:59.8", "366T23:59:59.9", "366T23:59:60.0"), place(1, 30)),
        [(1, 30.5, 0, "23:59:59.930500"), (2, 10.5, 0, "23:59:60.010500")], "366"),
    Row("the last second of an hour, broken", "B", without(code("B", "061T12:59:57", "061T12:59:58", "061T12:59:59", "061T13:00:00",
                                                                "061T13:00:01"), place(2, 50)),
        [(2, 10.5, 0, "12:59:59.105000"), (2, 50.5, 0, "12:59:59.505000"), (2, 90.5, 0, "12:59:59.905000")]),
    Row("a second 60 that is broken", "B", without(code("B", "366T23:59:58", "366T23:59:59", "366T23:59:60", "001T00:00:00",
                                                        "001T00:00:01"), place(2, 50)),
        [(0, 50.5, 0, "23:59:58.505000"), (2, 10.5, 0, "-"), (2, 90.5, 0, "-")], "366"),
]
