"""Recordings made by hand for the tests of the page and the picture."""
import dataclasses

from irig_tools.sheet import DAMAGED, LOST, SOUND, Changes, Place, Pulse, Sheet, Stretch

INTERVAL = 10000                        # microseconds from element to element: format B
WHOLE_DAY = 86400                       # frames of format B
HOUR, NOON = 3600000000, 43200000000    # microseconds of the day
HOSTILE = "</script><img src=x onerror=\"document.title='spoilt'\"><!--&amp;\u2028\x01\udcff'`@DATA@"
WIDTHS = {"zero": 2000, "one": 5000, "position": 8000}
TITLES = ("A pulse is missing", "A pulse is in two", "A width of no class")
counts = {"passed": 0, "failed": 0}


def check(name: str, wanted: object, got: object) -> None:
    """Counts a check, and says what differs."""
    counts["passed" if wanted == got else "failed"] += 1
    if wanted != got:
        print("FAILED %s\n wanted: %s\n got:    %s" % (name, str(wanted)[:300], str(got)[:300]))


def pulse(element: int) -> Pulse:
    """A sound pulse at an element, counted from 0."""
    name = "position" if element % 10 == 9 or element % 100 == 0 else "one" if element % 3 == 0 else "zero"
    return element * INTERVAL, element * INTERVAL + WIDTHS[name], name


def place(number: int, element: int) -> Place:
    """A place of damage at an element: a missing pulse, one in two, or one that is left to the user."""
    near = tuple(pulse(other) for other in range(max(0, element - 5), element + 6))
    rise, fall, name = pulse(element)
    kind = number % 3
    parts: tuple[Pulse, ...] = ()
    if kind == 1:
        parts = ((rise, rise + 900, "bad"), (rise + 940, fall, "bad"))
    if kind == 2:
        parts = ((rise, fall + 600, "bad"),)
    at = near.index(pulse(element))
    before = near[:at] + parts + near[at + 1:]
    frame = "frame %d" % (element // 100)
    if kind == 2:
        lines: tuple[str, ...] = ("# place %d: choose a class" % number,)
        reason = "One or zero: nothing decides."
        return Place(rise, fall + 600, TITLES[kind], reason, before, None, lines, frame, True)
    lines = "# place %d: it has to be %s" % (number, name), "insert %d %d" % (rise, fall)
    return Place(rise, fall, TITLES[kind], "Its neighbours need %s." % name, before, near, lines, frame)


def recording(frames: int, count: int, name: str = "track.vcd") -> Sheet:
    """A recording with that many places, each in a frame of its own. Every fifth of these frames is lost."""
    step = frames // max(1, count)
    places = tuple(place(number, number * step * 100 + 50) for number in range(count))
    script = ("# repairs",) + tuple(line for one in reversed(places) for line in one.lines)
    stretches = []
    for frame in range(frames):
        number, rest = divmod(frame, step)
        state = SOUND if rest or number >= count else LOST if number % 5 == 4 else DAMAGED
        stretches.append(Stretch(frame * 100 * INTERVAL, (frame + 1) * 100 * INTERVAL, state))
    length = frames * 100 * INTERVAL
    # frame 0 begins at 12:00:00
    known = tuple(value for time in (*range(0, length, HOUR), length) for value in (time, (NOON + time) % (2 * NOON)))
    summary = "%s: %d places found" % (name, count)
    return Sheet(name, length, INTERVAL, "B 4", tuple(stretches), places, script, ("No drift.",), None, summary,
                 "by irig_mend 2026.11.28-1234567 on 2026-11-28 at 06:20", "top.irig", "061T12:00:00 to 061T12:59:59", (known,))


def repaired() -> Sheet:
    """A recording of 60 frames with six places, two of them repaired, and what irig_diff prints of it: a missing pulse, one
    whose halves are joined, one that is late by its width and so has an edge that stays, and a stretch without a place."""
    lines = ["# frame 1 at 0: broken 50 step, then 061 12:00:00 fine", "invert 500000 502000",
             "# frame 11 at 10000000: broken 50 step, then 061 12:00:10 fine", "invert 10500900 10500940",
             "# no frame, then frame 32 at 30100000: 061 12:00:30 fine", "invert 30190000 30194000", "invert 59999000 59999990",
             "# frames: 57 fine before, 60 fine after, 1 made, 0 lost, 2 changed"]
    command = "irig_diff --frames --format=B --expression=4 'a <b>.vcd' new.vcd"
    changes = Changes(command, lines, [0, 0, 2, 1], [], 4, 7030)
    return dataclasses.replace(recording(60, 6), changes=changes)


def eighteen() -> Sheet:
    """A recording of an hour with 18 places and the same changes, and texts that are as long as those of irig_mend."""
    sheet, changed = recording(3600, 18), repaired().changes
    reason = "frame 2024-061T12:00:03, element 1, pulses 302 to 303: 2 pulses where one has to be; a one follows from the frames around it"
    places = tuple(dataclasses.replace(place, reason=reason, frame="frame 2024-061T12:00:03, element 1") for place in sheet.places)
    return dataclasses.replace(sheet, places=places, changes=changed)


def hostile() -> Sheet:
    """A recording all of whose texts try to get out of the page."""
    spoilt = dataclasses.replace(place(0, 50), title=HOSTILE, reason=HOSTILE, frame=HOSTILE, lines=(HOSTILE,))
    sheet = recording(3, 1, HOSTILE)
    return dataclasses.replace(sheet, places=(spoilt,), script=(HOSTILE,), notes=(HOSTILE,))
