"""Changes as a journal keeps them: docs/FORMATS.md, "The saved journal". Pulses count from 1, times are in microseconds."""
from typing import NamedTuple

from reference import dump, timecode


class CannotBeMade(Exception):
    """A change that cannot be made on a state."""


class Splice(NamedTuple):
    """That many pulses from `at` on go, and these come instead."""

    at: int
    count: int
    put: tuple  # of a rise and a fall each

    def lines(self):
        first = "splice %d %d %d" % (self.at, self.count, len(self.put))
        return [first, *("%d %d" % pulse for pulse in self.put)]

    def inverse(self, state):
        taken = state.pulses()[self.at - 1:self.at - 1 + self.count]
        return Splice(self.at, len(self.put), tuple(taken))

    def after(self, state):
        pulses, before = state.pulses(), self.at - 1
        need(before >= 0 and before + self.count <= len(pulses))
        return with_pulses(state, pulses[:before] + list(self.put) + pulses[before + self.count:])


class Toggle(NamedTuple):
    """The level turns between two times."""

    a: int
    b: int

    def lines(self):
        return ["toggle %d %d" % self]

    def inverse(self, state):
        return self

    def after(self, state):
        need(self.a < self.b <= state.length)
        return with_edges(state, state.edges ^ {self.a, self.b})


class Shift(NamedTuple):
    """Pulses move by a distance, and with them the marks of these letters."""

    first: int
    last: int
    distance: int
    letters: str

    def lines(self):
        return ["shift %d %d %d %s" % (*self[:3], self.letters or "-")]

    def inverse(self, state):
        return self._replace(distance=-self.distance)

    def after(self, state):
        pulses, before = state.pulses(), self.first - 1
        need(0 <= before < self.last <= len(pulses))
        moved = [(rise + self.distance, fall + self.distance) for rise, fall in pulses[before:self.last]]
        after = with_pulses(state, pulses[:before] + moved + pulses[self.last:])
        need(all(letter in state.marks for letter in self.letters))
        marks = {letter: time + self.distance * (letter in self.letters) for letter, time in state.marks.items()}
        need(all(0 <= time <= state.length for time in marks.values()))
        return after._replace(marks=marks)


class SetFormat(NamedTuple):
    kind: str
    expression: int

    def lines(self):
        return ["setformat %s %d" % self]

    def inverse(self, state):
        return SetFormat(state.kind, state.expression)

    def after(self, state):
        need(self.expression in timecode.EXPRESSIONS[self.kind])
        return state._replace(kind=self.kind, expression=self.expression)


class SetMark(NamedTuple):
    letter: str
    time: int  # or None, if the mark is cleared

    def lines(self):
        return ["setmark %s %s" % (self.letter, "-" if self.time is None else self.time)]

    def inverse(self, state):
        return SetMark(self.letter, state.marks.get(self.letter))

    def after(self, state):
        others = {letter: time for letter, time in state.marks.items() if letter != self.letter}
        need(self.time is None or self.time <= state.length)
        return state._replace(marks=others if self.time is None else {**others, self.letter: self.time})


class Group(NamedTuple):
    """Several changes, one after the other."""

    singles: tuple

    def lines(self):
        return ["group %d" % len(self.singles), *(line for single in self.singles for line in single.lines())]

    def inverse(self, state):
        turned = []
        for single in self.singles:
            turned.insert(0, single.inverse(state))
            state = single.after(state)
        return Group(tuple(turned))

    def after(self, state):
        for single in self.singles:
            state = single.after(state)
        return state


class Made(NamedTuple):
    """What a step did: the change that redoes it, and the one that undoes it."""

    on: tuple
    back: tuple


def need(holds):
    if not holds:
        raise CannotBeMade


def with_edges(state, edges):
    need(len(edges) <= dump.MOST_EDGES)
    return state._replace(edges=frozenset(edges))


def with_pulses(state, pulses):
    """The state with these pulses. They have to lie in the track, one after the other, and none may touch the next."""
    edges = [edge for pulse in pulses for edge in pulse]
    need(all(first < second for first, second in zip(edges, edges[1:])))
    need(not edges or 0 <= edges[0] and edges[-1] <= state.length)
    return with_edges(state, edges)


def made_by(word, before, arguments, after):
    """What the edit of a word did."""
    on = change_of(word, before, arguments, after)
    return Made(on, on.inverse(before))


def splice_of(word, state, values):
    """The splice that an edit is: it takes out the pulses that the edit removes and inserts those that it brings."""
    pulses = state.pulses()
    if word == "insert":
        return Splice(state.rising_by(values[0]) + 1, 0, (values,))
    if word == "delete":
        return Splice(values[0], values[1] - values[0] + 1, ())
    if word == "split":
        i, a, b = values
        return Splice(i, 1, ((pulses[i - 1][0], a), (b, pulses[i - 1][1])))
    if word == "join":
        i, j = values
        return Splice(i, j - i + 1, ((pulses[i - 1][0], pulses[j - 1][1]),))
    i, element = values
    rise = pulses[i - 1][0]
    return Splice(i, 1, ((rise, rise + timecode.nominal(state.interval(), element)),))


def regenerated(state, values, after):
    """The splice of regen: it takes out what begins in the frames, and inserts what begins there after it."""
    pulses, start, end = state.pulses(), values[0], values[0] + 100 * values[1] * state.interval()
    gone, come = ([pulse for pulse in found if start <= pulse[0] < end] for found in (pulses, after.pulses()))
    return Splice(sum(rise < start for rise, _ in pulses) + 1, len(gone), tuple(come))


def change_of(word, state, values, after):
    """The change that an edit is."""
    if word in ("insert", "delete", "split", "join", "force"):
        return splice_of(word, state, values)
    if word == "regen":
        return regenerated(state, values, after)
    if word == "shift":
        pulses = state.pulses()
        i, j, distance = values
        rise, fall = pulses[i - 1][0], pulses[j - 1][1]
        return Shift(i, j, distance, "".join(sorted(x for x, time in state.marks.items() if rise <= time <= fall)))
    if word == "invert":
        return Toggle(*values)
    if word == "set_format":
        return SetFormat(*values)
    return SetMark(values[0], values[1] if word == "mark" else None)


def together(made):
    """Several edits as one: the singles that redo them, and those that undo them, the newest first."""
    return Made(grouped([one.on for one in made]), grouped([one.back for one in reversed(made)]))


def grouped(changes):
    return Group(tuple(single for change in changes for single in getattr(change, "singles", (change,))))
