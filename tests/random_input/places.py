"""Random addresses and times, most of them near to where something changes."""

LETTERS = "abcxyz"


class Places:
    """Addresses and times for the present state of a machine. `words` are the words that a script is made of."""

    def __init__(self, random, machine, words):
        self.random, self.machine, self.words = random, machine, words

    def pulse(self):
        """The number of a pulse, now and then of none."""
        count = len(self.machine.present.pulses())
        if count and self.random.random() < 0.93:
            return self.random.randint(1, count)
        return self.random.choice((0, count + 1, 99999))

    def address(self, pulse):
        """A pulse in one of the forms of an address."""
        base, counted = self.base(pulse)
        if base == "" and counted == 0:
            return str(pulse)
        offset = pulse - counted
        if abs(offset) == 1 and self.random.random() < 0.5:
            return base + "+-"[offset < 0]
        return base + "%+d" % offset if offset or not base or self.random.random() < 0.1 else base

    def base(self, pulse):
        """What an address counts from, as it is written and as a number. Nothing is a plain number, or the cursor."""
        state = self.machine.present
        letter = self.random.choice(sorted(state.marks) * 4 + [self.random.choice(LETTERS)])
        return self.random.choice((
            ("", 0), ("", 0), ("0", 0), (".", state.cursor), ("", state.cursor), ("$", len(state.pulses())),
            (str(pulse), pulse), ("'" + letter, state.rising_by(state.marks.get(letter, -1))),
        ))

    def range(self):
        """A range with its space, or nothing."""
        choice = self.random.random()
        if choice < 0.05:
            return self.random.choice((", ", ","))
        if choice < 0.2:
            return ""
        first = self.pulse()
        last = first + self.random.choice((0, 1, 1, 2, 5, -1))
        if self.random.random() < 0.8:
            last = min(max(first, last), len(self.machine.present.pulses()))
        text = self.address(first) if choice < 0.5 else self.address(first) + "," + self.address(last)
        return text + self.random.choice((" ", " ", ""))

    def one(self):
        """An address with its space, or nothing."""
        return self.random.choice(("", self.address(self.pulse()) + " ", self.address(self.pulse()) + " "))

    def time(self):
        """A time near to an edge, a mark or an end of the track."""
        state, random = self.machine.present, self.random
        far = 10**18 - 1 if random.random() < 0.1 else state.length
        times = [0, state.length, random.randint(0, state.length), far]
        times += random.choices(sorted(state.edges) or [0], k=6) + list(state.marks.values())
        return max(0, random.choice(times) + random.choice((0, 0, 0, 0, 0, 1, -1, 2)))

    def as_time(self, time):
        """A time as a number or as a mark that is set there; now and then a mark that is not set."""
        if "mark" in self.words:
            letters = [letter for letter, marked in self.machine.present.marks.items() if marked == time]
            if letters and self.random.random() < 0.6:
                return "'" + self.random.choice(letters)
            if self.random.random() < 0.03:
                return "'" + self.random.choice(LETTERS)
        return str(time).zfill(self.random.choice((1, 1, 1, 18)))

    def two(self, times):
        """Two times, mostly in rising order."""
        first, second = sorted(times) if self.random.random() < 0.95 else times
        return " %s %s" % (self.as_time(first), self.as_time(second))

    def between(self, low, high):
        """Two times in rising order, mostly from the lower bound to the upper."""
        if self.random.random() < 0.25:
            return self.two([max(0, low), max(0, high)])
        times = [self.random.randint(low, max(low, high)) + self.random.choice((0, 0, -1, 1)) for _ in range(2)]
        return self.two([max(0, time) for time in times])
