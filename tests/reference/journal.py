"""A journal as text, as docs/FORMATS.md has it under "The saved journal", and the machine that a dump with it describes."""
import re

from reference import changes, dump, machine, timecode

FIRST = "irig-journal-1"
LETTERS = "abcdefghijklmnopqrstuvwxyz"
BOUND = 2**64  # of every number


def text(saved):
    """What `save` writes of a machine: its dump, and after it the journal in a comment."""
    state = saved.present
    lines = [FIRST, "format %s %d" % (state.kind, state.expression), "cursor %d" % state.cursor]
    lines += ["mark %s %d" % mark for mark in sorted(state.marks.items())]
    past = [(former, made.back) for former, made in zip(saved.past, saved.made)]
    future = [(later, made.on) for later, made in zip(saved.future, saved.unmade)]
    for word, steps in (("past", past), ("future", future[::-1])):
        lines.append("%s %d" % (word, len(steps)))
        lines += [line for to, change in steps for line in ["at %d" % to.cursor, *change.lines()]]
    journal = "".join(line + "\n" for line in ["$comment", *lines, "$end"])
    return dump.text(state.length, state.edges) + journal.encode()


def opened(source, wire, kind, expression):
    """The machine that a dump describes, in this format if it has no journal; or a Fault."""
    length, edges, journal = dump.read_parts(source, wire)
    found = machine.Machine(length, edges, kind, expression)
    if journal is not None:
        restore(found, Reader(journal).saved())
    return found


class Saved:
    """A journal as it was read: each step with the number of its line `at`, its cursor and its change."""

    def __init__(self, kind, expression, cursor, marks, past, future):
        self.kind, self.expression, self.cursor, self.marks = kind, expression, cursor, marks
        self.past, self.future = past, future


class Reader:
    """The lines of a journal, read one by one. The line that is not of the form is at fault."""

    def __init__(self, journal):
        *self.lines, self.behind = journal.split(b"\n")
        self.number = 1  # of the next line

    def fault(self):
        return dump.Fault(13, line=self.number)

    def line(self, form, *values):
        """What the next line has for the values of a form, each judged by a function that returns None for no value."""
        found = None
        if self.number <= len(self.lines):
            found = re.fullmatch(form.replace("*", "([^ ]+)").encode(), self.lines[self.number - 1], re.DOTALL)
        meant = [value(word.decode("latin-1")) for value, word in zip(values, found.groups())] if found else [None]
        if None in meant:
            raise self.fault()
        self.number += 1
        return meant

    def has(self, form):
        """Whether the next line begins so."""
        return self.number <= len(self.lines) and re.match(form.encode(), self.lines[self.number - 1]) is not None

    def saved(self):
        self.line(FIRST)
        kind, expression = self.line("format * *", letter_of("ABEG"), digit)
        cursor, = self.line("cursor *", number)
        marks, letters = [], LETTERS
        while letters and self.has("mark [%s] " % letters):
            at = self.number
            letter, time = self.line("mark * *", letter_of(letters), number)
            marks.append((at, letter, time))
            letters = letters[letters.index(letter) + 1:]
        past, future = self.steps("past *"), self.steps("future *")
        if self.number <= len(self.lines) or self.behind:
            raise self.fault()
        return Saved(kind, expression, cursor, marks, past, future)

    def steps(self, form):
        count, = self.line(form, number)
        steps = []
        while len(steps) < count:
            at = self.number
            cursor, = self.line("at *", number)
            steps.append((at, cursor, self.change()))
        return steps

    def change(self):
        if not self.has("group "):
            return self.single()
        count, = self.line("group *", number)
        singles = []
        while len(singles) < count:
            singles.append(self.single())
        return changes.Group(tuple(singles))

    def single(self):
        if self.has("splice "):
            return self.splice()
        if self.has("toggle "):
            return changes.Toggle(*self.line("toggle * *", number, number))
        if self.has("shift "):
            return changes.Shift(*self.line("shift * * * *", number, number, distance, letters_of))
        if self.has("setformat "):
            return changes.SetFormat(*self.line("setformat * *", letter_of("ABEG"), digit))
        letter, time = self.line("setmark * *", letter_of(LETTERS), time_or_none)
        return changes.SetMark(letter, None if time == "-" else time)

    def splice(self):
        at, count, many = self.line("splice * * *", number, number, number)
        put = []
        while len(put) < many:
            put.append(tuple(self.line("* *", number, number)))
        return changes.Splice(at, count, tuple(put))


def number(word):
    return int(word) if re.fullmatch("0|[1-9][0-9]*", word) and int(word) < BOUND else None


def distance(word):
    found = re.fullmatch("0|-?[1-9][0-9]*", word)
    return int(word) if found and -BOUND // 2 <= int(word) < BOUND // 2 else None


def digit(word):
    return int(word) if re.fullmatch("[0-7]", word) else None


def letter_of(letters):
    return lambda word: word if len(word) == 1 and word in letters else None


def letters_of(word):
    """Letters in rising order, or none of them as -."""
    if word == "-":
        return ""
    rising = all(first < second for first, second in zip(word, word[1:]))
    return word if rising and all(letter in LETTERS for letter in word) else None


def time_or_none(word):
    return word if word == "-" else number(word)


def restore(found, saved):
    """Gives a machine the present of a journal, and the states that its steps lead to."""
    need(saved.expression in timecode.EXPRESSIONS[saved.kind], 2)
    need(saved.cursor <= len(found.present.pulses()), 3)
    for at, _, time in saved.marks:
        need(time <= found.present.length, at)
    found.present = found.present._replace(
        kind=saved.kind, expression=saved.expression, cursor=saved.cursor,
        marks={letter: time for _, letter, time in saved.marks})
    back = followed(found.present, reversed(saved.past))
    found.past, found.made = [state for state, _, _ in back], [changes.Made(turned, change) for _, change, turned in back]
    on = followed(found.present, saved.future)
    found.future, found.unmade = [state for state, _, _ in on], [changes.Made(change, turned) for _, change, turned in on]


def followed(state, steps):
    """The states that steps lead to, the last first, each with the change that leads there and the one that leads back."""
    found = []
    for at, cursor, change in steps:
        try:
            turned, state = change.inverse(state), change.after(state)
        except changes.CannotBeMade:
            raise dump.Fault(13, line=at) from None
        need(cursor <= len(state.pulses()), at)
        state = machine.at(cursor, state)
        found.insert(0, (state, change, turned))
    return found


def need(holds, line):
    if not holds:
        raise dump.Fault(13, line=line)
