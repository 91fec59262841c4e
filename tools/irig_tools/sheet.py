"""What a picture or a page shows of a recording: its stretches, the places of damage, and the script.

All times are in microseconds from the start of the recording, as in the editor.
"""
from bisect import bisect_left, bisect_right
from collections.abc import Iterable, Sequence
from dataclasses import dataclass, field
from typing import Optional

from .texts import seconds

SOUND, DAMAGED, LOST = "sound", "damaged", "lost"
STATES = (SOUND, DAMAGED, LOST)         # from the least to the worst
LETTERS = {"zero": "0", "one": "1", "position": "P", "bad": "?"}    # a class as a picture shows it

Pulse = tuple[int, int, str]            # rise, fall, class: zero, one, position or bad
Wave = tuple[Pulse, ...]                # in the order of time


@dataclass(frozen=True)
class Stretch:
    """Some time of a recording in which all frames are in the same state."""

    start: int
    end: int                            # not of the stretch
    state: str                          # one of STATES


@dataclass(frozen=True)
class Place:
    """One place of damage, and the repair that is proposed for it."""

    at: int                             # where the damage begins
    end: int                            # where it ends; at least `at`
    title: str                          # what it is, in a few words
    reason: str                         # what was seen, and why this repair follows
    before: Wave                        # the pulses as they are, those a few intervals around the damage, too
    after: Optional[Wave] = None        # the same stretch after the repair; None if there is none
    lines: tuple[str, ...] = ()         # the part of the script for this place, comments included
    frame: str = ""                     # the frame it is in, as the user reads it
    is_left: bool = False               # it is damaged after the repair, too


@dataclass
class Changes:
    """All stretches in which a recording and the repaired one differ."""

    command: str = ""                   # that prints the lines again
    lines: list[str] = field(default_factory=list)      # of irig_diff, up to the last stretch that is listed
    levels: list[int] = field(default_factory=list)     # of each listed stretch: the level with which it begins as it is,
    # 0 or 1, and twice the edges in it; both recordings have these
    # where the others are: from, to, and how many are now high and how many now low
    rest: list[tuple[int, int, int, int]] = field(default_factory=list)
    stretches: int = 0
    time: int = 0                       # of all stretches together


@dataclass(frozen=True)
class Sheet:
    """A whole recording, as a picture or a page shows it."""

    name: str                           # of the file; any text
    length: int
    interval: int                       # from one element to the next
    format: str                         # as the editor names it: `B 4`
    stretches: tuple[Stretch, ...]      # in the order of time, from the first frame to the last
    places: tuple[Place, ...]           # in the order of time
    script: tuple[str, ...] = ()        # the whole script, line by line; empty if none is proposed
    notes: tuple[str, ...] = ()         # what holds for the whole recording: a clock that drifts, jitter
    changes: Optional[Changes] = None   # by the repair, if one was made
    summary: str = ""                   # what the tool prints of it, in a line
    made: str = ""                      # by which tool, and when
    wire: str = ""                      # its name in the file
    span: str = ""                      # the times of the first and the last frame
    clock: tuple[tuple[int, ...], ...] = ()     # the time of day, in stretches: a time, the microsecond of the day then, and so on


def merged(stretches: Iterable[Stretch]) -> tuple[Stretch, ...]:
    """The same stretches, with neighbours of the same state made one."""
    found: list[Stretch] = []
    for stretch in stretches:
        last = found[-1] if found else None
        if last and (last.end, last.state) == (stretch.start, stretch.state):
            found[-1] = Stretch(last.start, stretch.end, last.state)
        else:
            found.append(stretch)
    return tuple(found)


def cut(rises: Sequence[int], falls: Sequence[int], letters: Sequence[str], start: int, end: int) -> Wave:
    """The pulses of a recording from a time to a time. Each class is a letter: 0, 1, P, any other is bad."""
    names = {letter: name for name, letter in LETTERS.items()}
    pulses = range(bisect_left(falls, start), bisect_right(rises, end))
    return tuple((rises[pulse], falls[pulse], names.get(letters[pulse], "bad")) for pulse in pulses)


def facts_of(sheet: Sheet) -> str:
    """The format, length and interval of a recording, in one line; also its wire and its times, if known."""
    named = ["wire " + sheet.wire] * bool(sheet.wire) + ["format " + sheet.format] + [sheet.span] * bool(sheet.span)
    return "%s, %s, interval %s µs" % (", ".join(named), seconds(sheet.length), format(sheet.interval, ","))


def time_in(sheet: Sheet, state: str) -> int:
    """For how many microseconds a recording is in a state."""
    return sum(stretch.end - stretch.start for stretch in sheet.stretches if stretch.state == state)


def window(sheet: Sheet, place: Place) -> tuple[int, int]:
    """The start and end of what shows a place: the damage, and up to four intervals on both sides."""
    start, end = max(0, place.at - 4 * sheet.interval), min(sheet.length, place.end + 4 * sheet.interval)
    pulses = place.before + (place.after or ())
    if pulses:
        start = min(place.at, max(start, min(rise for rise, _, _ in pulses) - sheet.interval // 2))
        end = max(place.end, min(end, max(fall for _, fall, _ in pulses) + sheet.interval // 2))
    return start, max(end, start + 1)
