"""Worked rows of the law of the guard: recordings, proposed scripts, and what is kept.

The recordings are made as those of the law of time are. The marker of frame 0 rises at 1,000,000 microseconds and is pulse 2.
"""
from typing import NamedTuple, Optional, Sequence, Tuple

from rows.law import LONG, Pulses, code, cut, later, place, seconds, wide, without


class Row(NamedTuple):
    """`wanted` are the lines that are printed, `guesses` the moments of the pulses whose class is a guess. `before` is what was kept
    before, if that is not the recording, `others` are other recordings."""

    name: str
    pulses: Pulses
    script: Sequence[str]
    wanted: Sequence[str]
    guesses: Sequence[int] = ()
    kind: str = "B"
    expression: int = 2
    before: Optional[Pulses] = None
    others: Sequence[Pulses] = ()
    may_move: bool = False


def at(frame: int, element: int) -> int:
    """When an element rises."""
    return 1_000_000 + 10_000 * (100 * frame + element)


def insert(frame: int, element: int, width: int = 2000, late: int = 0) -> str:
    return "insert %d %d" % (at(frame, element) + late, at(frame, element) + late + width)


def dropped(reason: str, *lines: str) -> Tuple[str, ...]:
    return ("# not kept: " + reason, *("# " + line for line in lines))


def number(frame: int, element: int) -> int:
    """Of a pulse, from 1."""
    return place(frame, element) + 1


def glitch(pulses: Pulses, frame: int, element: int) -> Pulses:
    """A pulse of 100 microseconds in the second half of an element."""
    rise = at(frame, element) + 9000
    return sorted([*pulses, (rise, rise + 100)])


def parted(pulses: Pulses, frame: int, element: int) -> Pulses:
    """A gap of 100 microseconds in a pulse."""
    rise, fall = pulses[place(frame, element)]
    return sorted([*without(pulses, place(frame, element)), (rise, rise + 900), (rise + 1000, fall)])


def turned(pulses: Pulses, begin: int, end: int) -> Pulses:
    """The wire is upside down from a moment up to another one."""
    edges = sorted({edge for pulse in pulses for edge in pulse} ^ {begin, end})
    return list(zip(edges[::2], edges[1::2]))


def longer(pulses: Pulses, micros: int) -> Pulses:
    """Each pulse lasts longer, as with another threshold."""
    return [(rise, fall + micros) for rise, fall in pulses]


ANOTHER, GONE = "the moment %d would have another time", "the pulse at %d is in step, and would be gone"
NO_ELEMENT, OTHER_CLASS = "the pulse at %d would be no element that is sure", "the pulse at %d would be of another class than is sure"

# Day 61 has ones in the elements 30, 36 and 37. So the element 30 of each frame is a one, and 40 a zero.
FIVE = code("B", *seconds(54, 55, 56, 57, 58))
LOST = without(FIVE, place(3, 30))
CONTROLS = code("B", *seconds(54, 55, 56, 57, 58), expression=1, control=0b100)  # element 52 is a one
SET = code("B", *seconds(54, 55, 56), "061T17:05:20", "061T17:05:21", "061T17:05:22")

MINUTE_61 = code("B", "061T23:59:57", "061T23:59:58", "061T23:59:59", "061T23:59:60", "062T00:00:00", "062T00:00:01", "062T00:00:02")
ONE_FRAME = wide(code("B", *seconds(54, 55, 56, 57, 58), expression=1), 5000, place(2, 52))  # element 52 is a one in frame 2 alone
TWO_LOST = without(FIVE, place(3, 30), place(3, 40))
NO_CONTROL, WRONG_CONTROL = without(CONTROLS, place(2, 52)), wide(CONTROLS, 2000, place(2, 52))
WAITED, DOWN = later(FIVE, place(2, 45), 30000), (at(2, 40) - 1000, at(2, 80) - 1000)

ROWS = [
    Row("a lost pulse", LOST, [insert(3, 30, 5000)], [insert(3, 30, 5000)]),
    Row("a lost pulse, as another class", LOST, [insert(3, 30, 2000)], dropped(OTHER_CLASS % at(3, 30), insert(3, 30, 2000))),
    Row("a lost pulse, a tenth late", LOST, [insert(3, 30, 5000, 1000)],
        dropped(NO_ELEMENT % (at(3, 30) + 1000), insert(3, 30, 5000, 1000))),
    # an element that is sure can be a twentieth off, but by the line over the hole it is later by 400 microseconds when the pulse rises
    Row("a lost pulse, a twenty-fifth late", LOST, [insert(3, 30, 5000, 400)],
        dropped(ANOTHER % (at(3, 30) + 399), insert(3, 30, 5000, 400))),
    Row("a pulse in step is deleted", FIVE, ["%d delete" % number(2, 50)], dropped(GONE % at(2, 50), "%d delete" % number(2, 50))),
    # just before it rises the element was over, and now it is not
    Row("a pulse of a frame that reads well is moved", FIVE, ["%d shift 400" % number(2, 50)],
        dropped(ANOTHER % (at(2, 50) - 1), "%d shift 400" % number(2, 50))),
    Row("a pulse of another class", wide(FIVE, 8000, place(3, 10)), ["%d force zero" % number(3, 10)], ["%d force zero" % number(3, 10)]),
    # the law of time gives that frame no time: what is there can have come from elsewhere
    Row("two pulses of another class in a frame", wide(FIVE, 8000, place(3, 10), place(3, 20)),
        ["%d force zero" % number(3, 10), "%d force zero" % number(3, 20)],
        [line for element in (10, 20) for line in dropped(NO_ELEMENT % at(3, element), "%d force zero" % number(3, element))]),
    Row("a glitch", glitch(FIVE, 2, 50), ["%d delete" % (number(2, 50) + 1)], ["%d delete" % (number(2, 50) + 1)]),
    Row("a gap in a pulse", parted(FIVE, 3, 30), ["%d join" % number(3, 30)], ["%d join" % number(3, 30)]),
    Row("a group with a wrong line", without(FIVE, place(3, 30), place(3, 40)),
        ["# why", "begin", insert(3, 40), insert(3, 30), "end"],
        ["# why", "begin", insert(3, 40), *dropped(OTHER_CLASS % at(3, 30), insert(3, 30)), "end"]),
    Row("a group that is all wrong", without(FIVE, place(3, 30), place(3, 31)), ["begin", insert(3, 31, 5000), insert(3, 30), "end"],
        [*dropped(OTHER_CLASS % at(3, 31), "begin", insert(3, 31, 5000)), *dropped(OTHER_CLASS % at(3, 30), insert(3, 30), "end")]),
    # three elements are cut out, and the next pulse rises when the first of them was due
    Row("all after a cut is moved", cut(FIVE, place(2, 45), 3), ["%d,$ shift 30000" % number(2, 45)],
        dropped(GONE % at(2, 45), "%d,$ shift 30000" % number(2, 45))),
    Row("a wait of three intervals is filled", later(FIVE, place(2, 45), 30000), [insert(2, 45)],
        dropped(NO_ELEMENT % at(2, 45), insert(2, 45))),
    Row("the code goes on after its end", FIVE, [insert(5, 0, 8000)], dropped(NO_ELEMENT % at(5, 0), insert(5, 0, 8000))),
    # an explanation that ends before says nothing of the time
    Row("the last pulse but one is lost", without(FIVE, place(4, 98)), [insert(4, 98)], [insert(4, 98)]),
    Row("the last pulse but two is lost, as another class", without(FIVE, place(4, 97)), [insert(4, 97, 8000)],
        dropped(OTHER_CLASS % at(4, 97), insert(4, 97, 8000))),
    Row("a frame is written with its time", without(LONG, *range(place(4, 10), place(4, 60))),
        ["regen %d 1 2024-061T12:34:34" % at(4, 0)], ["regen %d 1 2024-061T12:34:34" % at(4, 0)]),
    # 35 and 34 seconds differ in element 1
    Row("a frame is written with another time", without(LONG, *range(place(4, 10), place(4, 60))),
        ["regen %d 1 2024-061T12:34:35" % at(4, 0)], dropped(OTHER_CLASS % at(4, 1), "regen %d 1 2024-061T12:34:35" % at(4, 0))),
    # the element 24 says nothing of the time, but no frame has the ones of the day without the element 30
    Row("no frame reads well", without(FIVE, *(place(frame, 24) for frame in range(5))),
        [insert(frame, 24) for frame in range(5)], [insert(frame, 24) for frame in range(5)]),
    Row("no frame reads well, and none shows the day", without(FIVE, *(place(frame, 30) for frame in range(5))),
        [insert(2, 30, 5000)], dropped(NO_ELEMENT % at(2, 30), insert(2, 30, 5000))),
    Row("a lost pulse after a clock is set", without(SET, place(3, 30)), [insert(3, 30, 5000)], [insert(3, 30, 5000)]),

    Row("a lost control function, as the frames around have it", without(CONTROLS, place(2, 52)), [insert(2, 52, 5000)],
        [insert(2, 52, 5000)], expression=1),
    Row("a lost control function, as no frame has it", without(CONTROLS, place(2, 52)), [insert(2, 52)], [insert(2, 52)], [at(2, 52)],
        expression=1),
    Row("a recorded control function", CONTROLS, ["%d force zero" % number(2, 52)],
        dropped(OTHER_CLASS % at(2, 52), "%d force zero" % number(2, 52)), expression=1),

    Row("no repair", FIVE, ["list", "begin", insert(3, 30, 5000)],
        [*dropped("not a repair", "list"), *dropped("not a repair", "begin", insert(3, 30, 5000))]),
    Row("a line that the editor refuses", FIVE, ["9999 delete"], dropped("refused: E2 NoPulse", "9999 delete")),

    Row("a session goes on", TWO_LOST, [insert(3, 30, 5000)], [insert(3, 30, 5000)], before=LOST),
    # what was written before is no recording: the row of a recorded control function has the same script
    Row("what was written wrong is written right", NO_CONTROL, ["%d force one" % number(2, 52)], ["%d force one" % number(2, 52)],
        before=WRONG_CONTROL, expression=1),
    Row("what was recorded wrong is not", WRONG_CONTROL, ["%d force one" % number(2, 52)],
        dropped(OTHER_CLASS % at(2, 52), "%d force one" % number(2, 52)), expression=1),
    Row("what was kept before is deleted", LOST, ["%d delete" % number(3, 30)], ["%d delete" % number(3, 30)], before=FIVE),

    Row("a lost control function, as another recording has it", without(ONE_FRAME, place(2, 52)), [insert(2, 52, 5000)],
        [insert(2, 52, 5000)], expression=1, others=[later(ONE_FRAME, 0, 123456)]),
    Row("a lost control function, as another recording has it not", without(ONE_FRAME, place(2, 52)), [insert(2, 52)],
        dropped(OTHER_CLASS % at(2, 52), insert(2, 52)), expression=1, others=[later(ONE_FRAME, 0, 123456)]),
    Row("a control function that two recordings have otherwise", wide(ONE_FRAME, 2000, place(2, 52)), ["%d force one" % number(2, 52)],
        ["%d force one" % number(2, 52)], expression=1, others=[ONE_FRAME, later(ONE_FRAME, 0, 123456)]),
    Row("one that one other recording has otherwise", wide(ONE_FRAME, 2000, place(2, 52)), ["%d force one" % number(2, 52)],
        dropped(OTHER_CLASS % at(2, 52), "%d force one" % number(2, 52)), expression=1, others=[ONE_FRAME]),
    Row("another recording of another hour says nothing", without(ONE_FRAME, place(2, 52)), [insert(2, 52, 5000)], [insert(2, 52, 5000)],
        [at(2, 52)], expression=1, others=[wide(code("B", *seconds(-54, -55, -56, -57, -58), expression=1), 5000, place(2, 52))]),

    Row("a lost pulse of a second 60", without(MINUTE_61, place(3, 30)), [insert(3, 30, 5000)], [insert(3, 30, 5000)]),
    Row("a recording ends in a second 60", without(MINUTE_61, place(3, 30))[:400], [insert(3, 30, 5000)], [insert(3, 30, 5000)]),
    Row("a frame of a second 60 is written as the next one", without(MINUTE_61, *range(place(3, 10), place(3, 60))),
        ["regen %d 1 2024-062T00:00:00" % at(3, 0)], dropped(OTHER_CLASS % at(3, 7), "regen %d 1 2024-062T00:00:00" % at(3, 0))),

    Row("a code that waited is moved", WAITED, ["%d,$ shift -30000" % number(2, 45)], ["%d,$ shift -30000" % number(2, 45)], may_move=True),
    Row("nobody said that it may be moved", WAITED, ["%d,$ shift -30000" % number(2, 45)],
        dropped(GONE % at(5, 0), "%d,$ shift -30000" % number(2, 45))),
    Row("it is moved, and a pulse is deleted", WAITED, ["%d,$ shift -30000" % number(2, 45), "%d delete" % number(3, 50)],
        ["%d,$ shift -30000" % number(2, 45), *dropped(GONE % at(3, 50), "%d delete" % number(3, 50))], may_move=True),
    Row("it is moved, and a lost pulse is written as another class", without(WAITED, place(3, 30)),
        ["%d,$ shift -30000" % number(2, 45), insert(3, 30)],
        ["%d,$ shift -30000" % number(2, 45), *dropped(OTHER_CLASS % at(3, 30), insert(3, 30))], may_move=True),

    Row("a wire is upside down", turned(FIVE, *DOWN), ["invert %d %d" % DOWN], ["invert %d %d" % DOWN]),
    # where the wire is turned over again there is a pulse that nobody sent
    Row("half of what is upside down is turned over", turned(FIVE, *DOWN), ["invert %d %d" % (DOWN[0], at(2, 60) - 1000)],
        dropped(NO_ELEMENT % (at(2, 60) - 1000), "invert %d %d" % (DOWN[0], at(2, 60) - 1000))),
    Row("what is upright is turned over", FIVE, ["invert %d %d" % DOWN], dropped(NO_ELEMENT % DOWN[0], "invert %d %d" % DOWN)),

    Row("a threshold that is wrong", longer(FIVE, 1800), ["%d force one" % number(3, 30)], ["%d force one" % number(3, 30)]),
    Row("a threshold that is wrong, another class", longer(FIVE, 1800), ["%d force zero" % number(3, 30)],
        dropped(OTHER_CLASS % at(3, 30), "%d force zero" % number(3, 30))),
]
