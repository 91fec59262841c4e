"""The editor as a machine of whole states. Pulses count from 1; times are in microseconds.

Each edit is a function of a state and its arguments. It returns the next state or raises the first refusal that holds,
the lower number first. What is said of a pulse holds only if there is one, so E2 may be tested before E1.
"""
from typing import NamedTuple

from reference import changes, dump, timecode

MOST_FRAMES = 10000
NAMES = {
    "E1": "OutOfRange", "E2": "NoPulse", "E3": "Touching", "E4": "NotInside", "E5": "TooMany", "E6": "BadExpression",
    "E7": "BadTime", "E8": "BadControl", "E9": "NothingToUndo", "E10": "NothingToRedo",
    "E12": "GroupOpen", "E13": "NoGroup", "E14": "GroupFloor",
    "S1": "BadLine", "S2": "LineTooLong", "S3": "WriteFailed",
}


class Refused(Exception):
    """A refusal, which leaves everything as it was."""

    def __init__(self, number):
        super().__init__("%s %s" % (number, NAMES[number]))


def need(holds, number):
    if not holds:
        raise Refused(number)


class State(NamedTuple):
    """Everything that an undo restores."""

    length: int
    edges: frozenset
    kind: str
    expression: int
    marks: dict  # from a letter to a time; an unset mark has no entry
    cursor: int

    def pulses(self):
        """The rises and falls of the pulses: the edges in rising order, two by two."""
        times = sorted(self.edges)
        return list(zip(times[::2], times[1::2]))

    def interval(self):
        return timecode.INTERVAL[self.kind]

    def is_high(self, time):
        return sum(edge <= time for edge in self.edges) % 2 == 1

    def has_pulses(self, i, j):
        return 1 <= i <= j <= len(self.pulses())

    def rising_by(self, time):
        """How many pulses rise at or before a time."""
        return sum(rise <= time for rise, _ in self.pulses())

    def with_edges(self, edges):
        edges = frozenset(edges)
        need(len(edges) <= dump.MOST_EDGES, "E5")
        return self._replace(edges=edges)


def at(cursor, state):
    """The same state with another cursor."""
    return state._replace(cursor=cursor)


def insert(state, a, b):
    need(a < b <= state.length, "E1")
    need(not state.is_high(a) and not any(a <= edge <= b for edge in state.edges), "E3")
    after = state.with_edges(state.edges | {a, b})
    return at(after.rising_by(a), after)


def delete(state, i, j):
    need(state.has_pulses(i, j), "E2")
    gone = {edge for pulse in state.pulses()[i - 1:j] for edge in pulse}
    after = state.with_edges(state.edges - gone)
    return at(min(i, len(after.pulses())), after)


def split(state, i, a, b):
    need(a < b <= state.length, "E1")
    need(state.has_pulses(i, i), "E2")
    rise, fall = state.pulses()[i - 1]
    need(rise < a and b < fall, "E4")
    return at(i + 1, state.with_edges(state.edges | {a, b}))


def join(state, i, j):
    need(i < j and state.has_pulses(i, j), "E2")
    first, last = state.pulses()[i - 1][1], state.pulses()[j - 1][0]
    return at(i, state.with_edges({edge for edge in state.edges if not first <= edge <= last}))


def shift(state, i, j, distance):
    need(state.has_pulses(i, j), "E2")
    pulses = state.pulses()
    rise, fall = pulses[i - 1][0], pulses[j - 1][1]
    need(0 <= rise + distance and fall + distance <= state.length, "E1")
    need(i == 1 or rise + distance > pulses[i - 2][1], "E3")
    need(j == len(pulses) or fall + distance < pulses[j][0], "E3")

    def moved(time):
        return time + distance if rise <= time <= fall else time

    after = state.with_edges(moved(edge) for edge in state.edges)
    return at(j, after._replace(marks={letter: moved(time) for letter, time in state.marks.items()}))


def invert(state, a, b):
    need(a < b <= state.length, "E1")
    after = state.with_edges(state.edges ^ {a, b})
    return at(after.rising_by(b), after)


def force(state, i, element):
    need(state.has_pulses(i, i), "E2")
    pulses = state.pulses()
    rise, fall = pulses[i - 1]
    new_fall = rise + timecode.nominal(state.interval(), element)
    need(new_fall <= state.length, "E1")
    need(i == len(pulses) or new_fall < pulses[i][0], "E3")
    return at(i, state.with_edges(state.edges - {fall} | {new_fall}))


def regen(state, start, frames, moment, control):
    need(1 <= frames <= MOST_FRAMES, "E1")
    interval = state.interval()
    end = start + 100 * frames * interval
    need(end <= state.length, "E1")
    need(not any(rise < start <= fall for rise, fall in state.pulses()), "E3")
    gone = {edge for pulse in state.pulses() if start <= pulse[0] < end for edge in pulse}
    need(len(state.edges - gone) + 200 * frames <= dump.MOST_EDGES, "E5")
    need(timecode.starts(state.kind, moment[1]), "E7")
    digits = timecode.layout(state.kind, state.expression).get("control", [[]])
    need(control < 2 ** len(digits[0]), "E8")
    after = state.with_edges(state.edges - gone | frame_edges(state, start, frames, moment, control))
    return at(after.rising_by(end - interval), after)


def frame_edges(state, start, frames, moment, control):
    """The edges of that many frames of nominal pulses from a start on."""
    edges, interval = set(), state.interval()
    for k in range(frames):
        values = timecode.generated(state.kind, moment, k, control)
        for e, element in enumerate(timecode.encode(state.kind, state.expression, values)):
            rise = start + (100 * k + e) * interval
            edges |= {rise, rise + timecode.nominal(interval, element)}
    return edges


def set_format(state, kind, expression):
    need(expression in timecode.EXPRESSIONS[kind], "E6")
    return state._replace(kind=kind, expression=expression)


def mark(state, letter, time):
    need(time <= state.length, "E1")
    return state._replace(marks={**state.marks, letter: time})


def unmark(state, letter):
    return state._replace(marks={other: time for other, time in state.marks.items() if other != letter})


class Machine:
    """All former states, the present one, the states that were undone, the next to be redone last, and the floor.

    The floor is None if no group is open; else the number of former states at its `begin`, and the state then. `made`
    has for each former state what the step after it did, and `unmade` for each later state what the step to it did:
    a journal is saved from that, and nothing else here looks at it.
    """

    def __init__(self, length, edges, kind, expression):
        self.past, self.future, self.floor = [], [], None
        self.made, self.unmade = [], []
        self.present = State(length, edges, kind, expression, {}, len(edges) // 2)

    def edit(self, change, *arguments):
        after = change(self.present, *arguments)
        self.past.append(self.present)
        self.made.append(changes.made_by(change.__name__, self.present, arguments, after))
        self.present, self.future, self.unmade = after, [], []

    def undo(self):
        need(self.past, "E9")
        need(self.floor is None or len(self.past) > self.floor[0], "E14")
        self.future.append(self.present)
        self.present = self.past.pop()
        self.unmade.append(self.made.pop())

    def redo(self):
        need(self.future, "E10")
        self.past.append(self.present)
        self.present = self.future.pop()
        self.made.append(self.unmade.pop())

    def begin(self):
        need(self.floor is None, "E12")
        self.floor = len(self.past), self.present

    def end(self):
        """Of the states since the `begin` only the oldest stays: one undo leads back to it."""
        need(self.floor is not None, "E13")
        height = self.floor[0]
        self.past, self.floor = self.past[:height + 1], None
        if len(self.made) > height + 1:
            self.made[height:] = [changes.together(self.made[height:])]

    def abort(self):
        """Past and present are those of the `begin`."""
        need(self.floor is not None, "E13")
        height, self.present = self.floor
        self.past, self.future, self.floor = self.past[:height], [], None
        self.made, self.unmade = self.made[:height], []

    def go(self, i):
        need(self.present.has_pulses(i, i), "E2")
        self.present = at(i, self.present)
