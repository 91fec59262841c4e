"""The cheapest explanation of the rises of a recording, with the costs of damage: the clock, the table of costs, the price of a step, the
recursion over all steps, and what is sure. In integers only, and slow.

A cost is in sixteenths of a nat: sixteen times minus the logarithm of how likely the damage is. A moment is in microseconds, an interval
and whatever is compared with it in 256ths of a microsecond. Divisions round down.
"""
from __future__ import annotations

from bisect import bisect_left
from itertools import product
from typing import Dict, Iterator, List, NamedTuple, Optional, Sequence, Tuple

PART = 256  # parts of a microsecond
SKIP = 128  # a rise that is no element: a pulse at a random moment with a random width
EXTRA, MORE = 32, 8  # a glitch or a gap in an element: the first, and each of the others
TURNED = 96  # an interval of the wire at the other level
OFF_LINE = 80  # a rise that is late or early, at most
TREMBLE = 48  # the same after a step in time or a jump: a rise can be anywhere there, but a jump is not cheaper than a little late
MISSING = 72  # elements without a rise: that much, and 6/5 of the logarithm of how many
NOTHING = 112  # an element that looks like nothing
NO_FALL = 96  # a pulse that does not end in its element
WIDTH, WIDTH_MORE, WIDTH_MOST = 48, 128, 96  # another width: at once, for each interval, and at most
ONE = 10  # bits are mostly zero
STEP = 192  # the time steps, the element number goes on
JUMP = 256  # the element number jumps
SURE = 176  # what all explanations say that cost less than this more is sure: more than a jump that one element contradicts
CANNOT = 1 << 24
WINDOW = 64  # rises
HALF = 15  # distances before a rise, and after it, of which the clock is the middle

UNUSED, BIT, POSITION = range(3)
NEXT, STEPS, JUMPS = "next", "step", "jump"
LOGARITHMS = (0, 0, 11, 18, 22, 26, 29, 31, 33, 35, 37, 38, 40, 41, 42, 43)  # of 1 (the second one) to 15

Pulse = Tuple[int, int]


class Claim(NamedTuple):
    """A rise is that of an element of its frame; `kind` is that of the step to it from the claim before."""

    rise: int
    element: int
    kind: str


def logarithm(number: int) -> int:
    """Sixteen times the natural logarithm of a number from 1 on: larger numbers are halved until the table has them."""
    halvings = max(0, number.bit_length() - 4)
    return LOGARITHMS[number >> halvings] + 11 * halvings


def missing(count: int) -> int:
    """What that many elements next to each other cost that have no rise."""
    return MISSING + 6 * logarithm(count) // 5 if count else 0


def middle(numbers: Sequence[int]) -> int:
    return sorted(numbers)[len(numbers) // 2]


class Clock:
    """The interval at each rise. It is a function of the recording alone."""

    def __init__(self, rises: Sequence[int], nominal: int) -> None:
        self.nominal = PART * nominal
        self.folded = [each for each in map(self._folded, rises, rises[1:]) if each]  # a distance, and its number of intervals
        self.after = self._counted(rises)
        middles = [self._middle(place) for place in range(len(self.folded))]
        usual = middle([abs(far // count - at) for (far, count), at in zip(self.folded, middles)]) if middles else 0
        self.spread = max(3 * usual // 2, self.nominal // 250, PART)
        self.intervals = [self._interval(place) for place in self.after]

    def _folded(self, rise: int, later: int) -> Optional[Tuple[int, int]]:
        """A distance of one to three intervals, give or take an eighth, and how many."""
        far = PART * (later - rise)
        count = (2 * far + self.nominal) // (2 * self.nominal)
        return (far, count) if 1 <= count <= 3 and 8 * abs(far - count * self.nominal) <= count * self.nominal else None

    def _counted(self, rises: Sequence[int]) -> List[int]:
        """For each rise how many distances before it count."""
        found = [0]
        for rise, later in zip(rises, rises[1:]):
            found.append(found[-1] + (self._folded(rise, later) is not None))
        return found

    def _near(self, place: int) -> List[Tuple[int, int]]:
        """The distances nearest to a place in the list of all that count."""
        first = max(0, min(place - HALF, len(self.folded) - 2 * HALF - 1))
        return self.folded[first:first + 2 * HALF + 1]

    def _middle(self, place: int) -> int:
        return middle([far // count for far, count in self._near(place)]) if self.folded else self.nominal

    def _interval(self, place: int) -> int:
        """The mean of the distances that are hardly off their middle: that alone is a whole number of microseconds."""
        at = self._middle(place)
        kept = [(far, count) for far, count in self._near(place) if abs(far // count - at) <= 3 * self.spread]
        return sum(far for far, _ in kept) // sum(count for _, count in kept) if kept else at

    def spread_of(self, count: int) -> int:
        """The square of the spread of that many elements, four times."""
        return self.spread * self.spread * (4 + count * count)


class Prices:
    """What steps cost in a recording of some pulses; `roles` has what each element of a frame can be."""

    def __init__(self, pulses: Sequence[Pulse], nominal: int, roles: Sequence[int]) -> None:
        self.rises = [rise for rise, _ in pulses]
        self.falls = [fall for _, fall in pulses]
        self.roles = tuple(roles)
        self.elements = len(self.roles)
        self.clock = Clock(self.rises, nominal)
        self.intervals = self.clock.intervals
        widths = [self._off_width(PART * (fall - rise), self.clock.nominal) for rise, fall in pulses]
        ends = [self.wire_end(rise) for rise in range(len(self.rises))]
        self.wires = [bisect_left(self.rises, end, rise + 1) for rise, end in enumerate(ends)]  # the first rise after each element's wire
        smallest = min(self.intervals, default=0)  # of fewer elements three spreads of one more are less than half an interval
        self.narrow = next(count for count in range(1, 1 << 20) if 36 * self.clock.spread_of(count + 1) >= smallest * smallest)
        self.largest = max(self.intervals, default=1)
        usual = min(middle(widths), self.clock.nominal) if widths else 0
        self.width_spread = max(3 * usual // 2, self.clock.nominal // 64)

    @staticmethod
    def _off_width(width: int, interval: int) -> int:
        """How far a width is from that of a class."""
        return min(abs(width - tenths * interval // 10) for tenths in (2, 5, 8))

    def look(self, rise: int, end: int) -> Tuple[int, int, int]:
        """What the wire from a rise up to a moment costs as a zero, a one and a position identifier."""
        interval = self.intervals[rise]
        after = bisect_left(self.rises, end, rise + 1)
        high = sum(min(self.falls[each], end) - self.rises[each] for each in range(rise, after))
        inner = after - rise - 1
        extra = EXTRA + MORE * (inner - 1) if inner else 0
        found = [NOTHING] * 3
        low, seen = 0, 0
        for each in range(rise, after):
            fall = self.falls[each]
            if fall > end:
                return self._three([NO_FALL] * 3 if each == rise else found)
            low += self.rises[each] - self.falls[each - 1] if each > rise else 0
            seen += fall - self.rises[each]
            other = extra + TURNED * PART * (low + high - seen) // interval
            for number, tenths in enumerate((2, 5, 8)):
                cost = other + self._width(abs(PART * (fall - self.rises[rise]) - tenths * interval // 10), interval)
                found[number] = min(found[number], cost)
        return self._three(found)

    @staticmethod
    def _three(found: List[int]) -> Tuple[int, int, int]:
        return found[0], found[1], found[2]

    def _width(self, off: int, interval: int) -> int:
        """What a width costs that is so far from that of the class."""
        if off > interval:
            return WIDTH_MOST
        return min(8 * off * off // (self.width_spread * self.width_spread), WIDTH + WIDTH_MORE * off // interval, WIDTH_MOST)

    def as_roles(self, look: Tuple[int, int, int]) -> Tuple[int, int, int]:
        """The same as an element that is unused, carries a bit, or is a position identifier."""
        zero, one, position = look
        return zero, min(zero, one + ONE), position

    def wire_end(self, rise: int) -> int:
        """Where the wire of an element ends if the next claim is not about the element after it."""
        return self.rises[rise] + 15 * self.intervals[rise] // (16 * PART)

    def wire(self, rise: int, later: int, count: int) -> Tuple[int, int, int]:
        """What the wire between two rises costs as an element of each role, and the elements without a rise that follow it. If it is that
        of one element it goes up to the later rise; else a fall can be late, and the rises after that are passed over."""
        if count == 1:
            return self.as_roles(self.look(rise, self.rises[later]))
        own = self.as_roles(self.look(rise, self.wire_end(rise)))
        more = min(missing(count - 1) + SKIP * self.passed(rise, later), NOTHING * max(1, count - 1))
        return own[0] + more, own[1] + more, own[2] + more

    def least(self, rise: int, later: int) -> Tuple[int, int, int]:
        """What any step costs at least: the wire as the clock counts it, and a little for a late rise."""
        gone = self.gone(rise, later)
        late = min(self.late(rise, later, gone), TREMBLE)
        wire = self.wire(rise, later, gone)
        return wire[0] + late, wire[1] + late, wire[2] + late

    def passed(self, rise: int, later: int) -> int:
        """How many rises lie between an element's wire and a later rise."""
        return max(0, later - self.wires[rise])

    def interval(self, rise: int, later: int) -> int:
        return (self.intervals[rise] + self.intervals[later]) // 2

    def gone(self, rise: int, later: int) -> int:
        """How many elements the clock says lie between two rises, at least one."""
        interval = self.interval(rise, later)
        return max(1, (2 * PART * (self.rises[later] - self.rises[rise]) + interval) // (2 * interval))

    def deviation(self, rise: int, later: int, count: int) -> int:
        return abs(PART * (self.rises[later] - self.rises[rise]) - count * self.interval(rise, later))

    def late(self, rise: int, later: int, count: int) -> int:
        """What the second rise costs by how far it is off that many elements after the first one."""
        far = self.deviation(rise, later, count)
        return 32 * far * far // self.clock.spread_of(count)

    def off(self, rise: int, later: int, count: int) -> int:
        """The same, at most; CANNOT if it is off by too much for that many elements."""
        far, interval, late = self.deviation(rise, later, count), self.interval(rise, later), self.late(rise, later, count)
        if far > 4 * interval or 20 * far > 9 * interval and late > 72:
            return CANNOT
        return min(late, OFF_LINE)

    def fewest(self, rise: int, later: int) -> int:
        """No step goes over fewer elements than that, except one in time."""
        gone = self.gone(rise, later)
        return gone if gone < self.narrow else max(1, gone - 5)

    def counts(self, rise: int, later: int) -> Dict[int, int]:
        """How many elements a step can go over that goes on: for each number modulo a frame the one that is least off."""
        gone = self.gone(rise, later)
        if gone < self.narrow:
            return {} if self.off(rise, later, gone) == CANNOT else {gone % self.elements: gone}
        near = sorted(range(max(1, gone - 5), gone + 6), key=lambda count: (self.deviation(rise, later, count), count))
        found: Dict[int, int] = {}
        for count in near:
            if self.off(rise, later, count) != CANNOT:
                found.setdefault(count % self.elements, count)
        return found

    def on(self, rise: int, later: int, count: int) -> Tuple[int, int, int]:
        """What a step over that many elements costs from an element of each role."""
        off, wire, least = self.off(rise, later, count), self.wire(rise, later, count), self.least(rise, later)
        return max(wire[0] + off, least[0]), max(wire[1] + off, least[1]), max(wire[2] + off, least[2])

    def price(self, rise: int, element: int, later: int, other: int, kind: str) -> int:
        """What a step costs from a rise and its element to a later one."""
        role = self.roles[element]
        if kind == JUMPS:
            return self.least(rise, later)[role] + JUMP
        ahead = (other - element) % self.elements
        if kind == STEPS:
            on = ahead in (1 % self.elements, self.gone(rise, later) % self.elements)
            return self.least(rise, later)[role] + STEP if on else CANNOT
        count = self.counts(rise, later).get(ahead)
        return CANNOT if count is None else self.on(rise, later, count)[role]


def in_order(costs: Sequence[int]) -> List[int]:
    return sorted(range(len(costs)), key=costs.__getitem__)


Way = Tuple[str, int, Tuple[int, int, int]]  # a kind, how many elements (0: any), and what it costs from an element of each role


def ways(prices: Prices, rise: int, later: int) -> List[Way]:
    """All steps from a rise to a later one, as `price` has them."""
    least = prices.least(rise, later)
    found = [dearer(JUMPS, 0, least, JUMP)]
    found += [dearer(STEPS, count, least, STEP) for count in sorted({1, prices.gone(rise, later)})]
    return found + [(NEXT, count, prices.on(rise, later, count)) for count in prices.counts(rise, later).values()]


def dearer(kind: str, count: int, look: Tuple[int, int, int], more: int) -> Way:
    return kind, count, (look[0] + more, look[1] + more, look[2] + more)


def cost(prices: Prices, claims: Sequence[Claim]) -> int:
    """What an explanation costs."""
    count = len(prices.rises)
    if not claims:
        return SKIP * count
    total = SKIP * claims[0].rise + SKIP * (count - claims[-1].rise - 1)
    return total + sum(prices.price(a.rise, a.element, b.rise, b.element, b.kind) for a, b in zip(claims, claims[1:]))


class Tables:
    """For each rise and element what comes before costs at least, and what comes after. `cheap_before` and `cheap_after` have the elements
    of each rise in the order of that. No element costs more than a jump to it, so a way is not looked at if it costs that much."""

    def __init__(self, prices: Prices) -> None:
        self.prices = prices
        self.count = len(prices.rises)
        self.known: Dict[Tuple[int, int], List[Way]] = {}
        self.before: List[List[int]] = []
        self.cheap_before: List[List[int]] = []
        self.lowest_before: List[int] = []
        self.lowest_after = [0] * self.count
        for later in range(self.count):
            self.before.append(self._before(later))
            self.cheap_before.append(in_order(self.before[later]))
            self.lowest_before.append(min(self.before[later]))
        self.after: List[List[int]] = [[] for _ in range(self.count)]
        self.cheap_after: List[List[int]] = [[] for _ in range(self.count)]
        for rise in reversed(range(self.count)):
            self.after[rise] = self._after(rise)
            self.cheap_after[rise] = in_order(self.after[rise])
            self.lowest_after[rise] = min(self.after[rise])
        ends = [each + SKIP * (self.count - rise - 1) for rise, each in enumerate(self.lowest_before)]
        self.cost = min([SKIP * self.count, *ends])

    def ways(self, rise: int, later: int) -> List[Way]:
        if (rise, later) not in self.known:
            self.known[rise, later] = ways(self.prices, rise, later)
        return self.known[rise, later]

    def least(self, rise: int, later: int) -> int:
        """What any step costs at least, without the look of the element. Of one element it is nothing."""
        passed, fewest = self.prices.passed(rise, later), self.prices.fewest(rise, later)
        return min(SKIP * passed, NOTHING * (fewest - 1)) if fewest > 1 else 0

    def far(self, rise: int, later: int) -> int:
        """What any step costs at least over the same rises, or over more."""
        passed, far = self.prices.passed(rise, later), PART * (self.prices.rises[later] - self.prices.rises[rise])
        fewest = far // self.prices.largest - (1 if self.prices.narrow > 12 else 6)
        return min(SKIP * passed, NOTHING * min(8, fewest - 1)) if fewest > 1 else 0

    def _before(self, later: int) -> List[int]:
        roles, size = self.prices.roles, self.prices.elements
        first = max(0, later - WINDOW)
        floor = min(self.lowest_before[first:later], default=0)
        found: Dict[int, int] = {}
        most = SKIP * later
        for rise in range(later - 1, first - 1, -1):
            spent, order = self.before[rise], self.cheap_before[rise]
            if floor + self.far(rise, later) >= most:
                break
            if spent[order[0]] >= most or spent[order[0]] + self.least(rise, later) >= most:
                continue
            for _, count, price in self.ways(rise, later):
                low = min(price)
                for element in order:
                    if spent[element] + low >= most:
                        break
                    total = spent[element] + price[roles[element]]
                    if not count:
                        most = min(most, total)
                    else:
                        other = (element + count) % size
                        found[other] = min(found.get(other, total), total)
        return [min(most, found.get(other, most)) for other in range(size)]

    def _after(self, rise: int) -> List[int]:
        roles, size = self.prices.roles, self.prices.elements
        found: Dict[int, int] = {}
        jumps = [SKIP * (self.count - rise - 1)] * 3
        last = min(self.count, rise + WINDOW + 1)
        floor = min(self.lowest_after[rise + 1:last], default=0)
        for later in range(rise + 1, last):
            rest, order, most = self.after[later], self.cheap_after[later], max(jumps)
            if floor + self.far(rise, later) >= most:
                break
            if rest[order[0]] >= most or rest[order[0]] + self.least(rise, later) >= most:
                continue
            for _, count, price in self.ways(rise, later):
                if not count:
                    jumps = [min(known, more + rest[order[0]]) for known, more in zip(jumps, price)]
                    most = max(jumps)
                    continue
                low = min(price)
                for other in order:
                    if rest[other] + low >= most:
                        break
                    element = (other - count) % size
                    total = rest[other] + price[roles[element]]
                    found[element] = min(found.get(element, total), total)
        return [min(jumps[role], found.get(element, jumps[role])) for element, role in enumerate(roles)]

    def explain(self) -> List[Claim]:
        """The cheapest explanation; one of them, if there are several."""
        found: List[Claim] = []
        for rise in reversed(range(self.count)):
            if self.lowest_before[rise] + SKIP * (self.count - rise - 1) == self.cost:
                element = self.cheap_before[rise][0]
                break
        else:
            return []
        while True:
            way = self._back(rise, element)
            found.append(Claim(rise, element, way[2] if way else NEXT))
            if not way:
                return found[::-1]
            rise, element = way[:2]

    def _back(self, later: int, other: int) -> Optional[Tuple[int, int, str]]:
        """The claim before, and the kind of the step from it."""
        total, size = self.before[later][other], self.prices.elements
        for rise in range(later - 1, max(0, later - WINDOW) - 1, -1):
            if self.lowest_before[rise] > total:
                continue
            for kind, count, price in sorted(self.ways(rise, later), key=lambda each: (NEXT, STEPS, JUMPS).index(each[0])):
                for element in [(other - count) % size] if count else range(size):
                    if self.before[rise][element] + price[self.prices.roles[element]] == total:
                        return rise, element, kind
        return None


def ahead(prices: Prices, one: Claim, other: Claim) -> int:
    """How many elements a step goes over that is no jump."""
    turned = (other.element - one.element) % prices.elements
    if other.kind == NEXT:
        return prices.counts(one.rise, other.rise)[turned]
    gone = prices.gone(one.rise, other.rise)
    return gone if gone % prices.elements == turned else 1


class Given:
    """What an explanation gives each rise, in 256ths of an element, and whether it goes on over each interval between rises."""

    def __init__(self, prices: Prices, claims: Sequence[Claim]) -> None:
        self.size = PART * prices.elements
        self.elements: List[Optional[int]] = [None] * len(prices.rises)
        self.goes_on = [False] * len(prices.rises)
        for one, other in zip(claims, claims[1:]):
            self.elements[one.rise] = PART * one.element
            self.elements[other.rise] = PART * other.element
            if other.kind != JUMPS:
                self._over(prices, one, other)

    def _over(self, prices: Prices, one: Claim, other: Claim) -> None:
        count = ahead(prices, one, other)
        begin, end = prices.rises[one.rise], prices.rises[other.rise]
        for rise in range(one.rise, other.rise):
            self.goes_on[rise] = True
            on = PART * count * (prices.rises[rise] - begin) // (end - begin)
            self.elements[rise] = (PART * one.element + on) % self.size

    def near(self, rise: int, element: int) -> bool:
        """Whether an element is at most three fifths of one from that of a rise."""
        given = self.elements[rise]
        if given is None:
            return False
        far = abs(PART * element - given)
        return 5 * min(far, self.size - far) <= 3 * PART

    def over(self, rise: int, later: int) -> bool:
        return all(self.goes_on[rise:later])


def margins(tables: Tables, given: Given, most: int = 2 * SURE, ends: bool = True) -> List[int]:
    """For each interval after a rise how much dearer the cheapest explanation is that has something else there, up to a bound; also one
    that ends before or begins after, if that is asked."""
    count = tables.count
    found = [most] * count
    before, after = most, most
    for rise in range(count) if ends else ():  # those that end before
        before = min(before, tables.lowest_before[rise] + SKIP * (count - rise - 1) - tables.cost)
        found[rise] = min(found[rise], before)
    for rise in reversed(range(count)) if ends else ():  # those that begin after
        found[rise] = min(found[rise], after)
        after = min(after, tables.lowest_after[rise] + SKIP * rise - tables.cost)
    for rise in range(count):
        last = min(count, rise + WINDOW + 1)
        floor = tables.lowest_before[rise] + min(tables.lowest_after[rise + 1:last], default=0)
        for later in range(rise + 1, last):
            if floor + tables.far(rise, later) >= tables.cost + most:
                break
            enough = tables.cost + max(found[rise:later])
            least = tables.lowest_before[rise] + tables.lowest_after[later]
            if least >= enough or least + tables.least(rise, later) >= enough:
                continue
            margin = elsewhere(tables, given, rise, later, enough) - tables.cost
            for each in range(rise, later):
                found[each] = min(found[each], margin)
    return found


def elsewhere(tables: Tables, given: Given, rise: int, later: int, enough: int) -> int:
    """What the cheapest explanation costs with a step between two rises that does not agree with what is given, if less than enough."""
    spent, rest, roles, size = tables.before[rise], tables.after[later], tables.prices.roles, tables.prices.elements
    cheapest, over = rest[tables.cheap_after[later][0]], given.over(rise, later)
    for _, count, price in tables.ways(rise, later):
        low = min(price) + cheapest
        for element in tables.cheap_before[rise]:
            if spent[element] + low >= enough:
                break
            same = over and given.near(rise, element)
            others = [(element + count) % size] if count else tables.cheap_after[later]
            other = next((each for each in others if not (same and given.near(later, each))), None)
            if other is not None:
                enough = min(enough, spent[element] + price[roles[element]] + rest[other])
    return enough


def every(prices: Prices, claims: Tuple[Claim, ...] = ()) -> Iterator[Tuple[Claim, ...]]:
    """All explanations that begin with some claims, each further step of the cheapest kind: of a few rises, in frames of a few elements."""
    yield claims
    first = claims[-1].rise + 1 if claims else 0
    for rise, element in product(range(first, len(prices.rises)), range(prices.elements)):
        kind = min((NEXT, STEPS, JUMPS), key=lambda each: prices.price(*claims[-1][:2], rise, element, each)) if claims else NEXT
        yield from every(prices, (*claims, Claim(rise, element, kind)))
