"""Random lines of a script, most of them such that a machine just accepts or just refuses them."""
from random_input import spelling
from random_input.places import LETTERS, Places
from reference import timecode
from reference.machine import MOST_FRAMES

WEIGHTS = {
    "go": 6, "list": 6, "delete": 3, "shift": 9, "join": 5, "split": 6, "force": 6, "insert": 8, "invert": 8,
    "regen": 10, "format": 4, "mark": 7, "unmark": 2, "undo": 9, "redo": 7, "frames": 6, "marks": 3, "info": 7,
    "begin": 7, "end": 5, "abort": 4, "write": 2, "save": 2, "quit": 0.3,
}
BARE = ("undo", "redo", "frames", "marks", "info", "begin", "end", "abort", "write", "save", "quit")


class Lines(Places):
    """Makes lines for the present state of a machine. Each word that has arguments or addresses has a method."""

    def some(self):
        """The next line, or a run of steps that are undone and redone, as bytes without newlines."""
        choice = self.random.random()
        if choice < 0.03 and "undo" in self.words and "redo" in self.words:
            count = self.random.randint(1, 1 + len(self.machine.past))
            return [b"undo"] * count + [b"redo"] * count
        if choice < 0.06:
            return [self.random.choice((b"", b" \t\r", b"# undo", b"\t#1", b"\r"))]
        line = self.well_formed().encode()
        return [spelling.spoiled(self.random, line) if choice < 0.16 else spelling.spaced(self.random, line)]

    def word(self):
        """A word by its weight; hardly ever one that has nothing to work on."""
        chosen = self.random.choices(self.words, [WEIGHTS[word] for word in self.words])[0]
        state = self.machine.present
        ready = {
            "undo": self.machine.past, "redo": self.machine.future, "join": len(state.pulses()) > 1,
            "regen": state.length >= 100 * state.interval(),
            "begin": self.machine.floor is None, "end": self.machine.floor, "abort": self.machine.floor,
        }
        return chosen if ready.get(chosen, True) or self.random.random() < 0.1 else self.word()

    def well_formed(self):
        word = self.word()
        if word in BARE:
            return word
        return getattr(self, word)()

    def go(self):
        return self.address(self.pulse())

    def list(self):
        return self.range() + "list"

    def delete(self):
        return self.range() + "delete"

    def join(self):
        return self.range() + "join"

    def shift(self):
        """By a distance up to that to a neighbour or an end of the track, or one more."""
        state, random = self.machine.present, self.random
        pulses = state.pulses()
        if not pulses or random.random() < 0.1:
            return self.range() + "shift " + random.choice(("0", "-0", "+1", "-1", "1000"))
        first = random.randint(1, len(pulses))
        last = random.randint(first, min(first + 3, len(pulses)))
        low = pulses[first - 2][1] + 1 if first > 1 else 0
        high = pulses[last][0] - 1 if last < len(pulses) else state.length
        back, on = low - pulses[first - 1][0], high - pulses[last - 1][1]
        distance = random.choice((back, on, random.randint(back, on), random.randint(back, on), back - 1, on + 1))
        text = self.address(first) + ("" if first == last and random.random() < 0.5 else "," + self.address(last))
        return text + " shift " + random.choice(("%d", "%d", "%+d", "%+04d")) % distance

    def split(self):
        pulses = self.machine.present.pulses()
        if not pulses or self.random.random() < 0.1:
            return self.one() + "split" + self.two([self.time(), self.time()])
        number = self.random.randint(1, len(pulses))
        rise, fall = pulses[number - 1]
        return self.address(number) + " split" + self.between(rise + 1, fall - 1)

    def force(self):
        """Of any pulse, or of one that would then just meet the next one or the end of the track."""
        element = self.random.choice(("zero", "one", "position"))
        state = self.machine.present
        width = timecode.nominal(state.interval(), element)
        bounds = [rise for rise, _ in state.pulses()[1:]] + [state.length]
        near = [i for i, (rise, _) in enumerate(state.pulses(), 1) if abs(rise + width - bounds[i - 1]) < 2]
        place = self.address(self.random.choice(near)) + " " if near and self.random.random() < 0.3 else self.one()
        return place + "force " + element

    def insert(self):
        """Mostly into a gap between two pulses."""
        state = self.machine.present
        bounds = [-1] + sorted(state.edges) + [state.length + 1]
        place = self.random.randrange(0, len(bounds), 2)
        if self.random.random() < 0.15:
            return "insert" + self.two([self.time(), self.time()])
        return "insert" + self.between(bounds[place] + 1, bounds[place + 1] - 1)

    def invert(self):
        return "invert" + self.two([self.time(), self.time()])

    def regen(self):
        """Up to three frames, mostly such that they lie in the track."""
        state, random = self.machine.present, self.random
        period = 100 * state.interval()
        frames = random.randint(1, max(1, min(3, state.length // period)))
        latest = max(0, state.length - frames * period)
        start = random.choice((0, latest, random.randint(0, latest), random.randint(0, latest), self.time()))
        if random.random() < 0.1:
            frames, start = random.choice(((0, 0), (MOST_FRAMES, 0), (MOST_FRAMES + 1, 0), (frames, latest + 1)))
        return "regen %s %d %s%s" % (self.as_time(start), frames, self.moment(), self.control())

    def moment(self):
        """A moment, mostly one at which a frame may begin, often just before the end of a day or a year."""
        random, kind = self.random, self.machine.present.kind
        year = random.choice((2024, 2023, 2000, 1900, random.randint(1, 9998), random.choice((0, 1, 9998, 9999))))
        day = random.choice((
            "-%03d" % random.choice((1, 59, 60, 365, 365, 366)), "-%03d" % random.randint(0, 367),
            "-%02d-%02d" % (random.randint(1, 12), random.randint(1, 31)), "-02-29", "-12-31",
        ))
        second = random.choice((59, 58, 50, 0, random.randrange(60)))
        second -= second % 10 if kind == "E" and random.random() < 0.7 else 0
        hour, minute = random.choice((23, 0, random.randrange(24))), random.choice((59, random.randrange(60)))
        clock = "T%02d:%02d:%02d" % (hour, minute, second)
        fraction = {"A": ".%d0" % random.randrange(10), "G": ".%02d" % random.randrange(100)}.get(kind, ".00")
        if random.random() < 0.2:
            fraction = ".%02d" % random.randrange(100)
        return "%04d" % year + day + clock + random.choice((fraction, fraction, ""))

    def control(self):
        """A control word of about as many binary digits as there are."""
        layout = timecode.layout(self.machine.present.kind, self.machine.present.expression)
        bound = 2 ** len(layout.get("control", [[]])[0])
        value = self.random.choice((0, 1, bound - 1, bound, self.random.randrange(bound)))
        return self.random.choice(("", "", " %x" % value, " %X" % value, " %012x" % value))

    def format(self):
        return "format %s %d" % (self.random.choice("ABEG"), self.random.randrange(8))

    def mark(self):
        return "mark %s %s" % (self.random.choice(LETTERS), self.as_time(self.time()))

    def unmark(self):
        return "unmark " + self.random.choice(LETTERS)
