"""A clock that wanders has another interval from place to place: wow, flutter, a tape that gets faster.

How far it is off over a hole is measured where there is none: each sound stretch of the recording is looked at as if some of its
pulses were missing, and what follows from both sides is compared with where the pulses are.
"""
from __future__ import annotations

from statistics import median
from typing import Callable, Dict, Iterator, List, NamedTuple, Optional, Sequence, Tuple

from . import limits

Near = Callable[[int], float]  # the interval near a pulse, if the run has too few
Ends = Tuple[int, int]  # the first and the last pulse of a run
Hole = Tuple[Ends, int, int]  # a run, and the pulses on both sides of a hole that is tried in it


class Reach(NamedTuple):
    """Which pulses at an end of a run say where it should rise, and which the interval there."""

    near: int
    far: int
    local: bool = True  # the interval of these pulses, and not that of the recording
    bent: bool = False  # it changes within them

    def end(self, rises: Sequence[int], at: int, way: int, count: int, interval: float) -> Tuple[float, float]:
        """When the pulse at an end should rise, and the interval there; `count` pulses of the run go on that way."""
        many = min(count, self.far)
        time = [way * (rises[at + way * k] - rises[at]) for k in range(many)]
        near = (min(many, self.near) - 1) // 2 * 2 + 1
        if not self.local or many < limits.LEAST_LOCAL:
            slope, bend = interval, 0.0
        elif self.bent:
            here, there = _slope(time[:many // 2]), _slope(time[many // 2:])
            bend = (there - here) / (many - many // 2)
            slope = here - bend * (many // 2 - 1) / 2
        else:
            slope, bend = _slope(time), 0.0
        begin = median([time[k] - k * slope - bend * k * k / 2 for k in range(near)])
        if not self.local and many > 1:
            slope = (time[-1] - begin) / (many - 1)
        return rises[at] + way * begin, slope


def _slope(time: Sequence[int]) -> float:
    """The interval of some pulses; a few of them can stray."""
    half = len(time) // 2
    return median([(later - earlier) / half for earlier, later in zip(time, time[half:])])


AS_STEADY = Reach(limits.NEAR, limits.FAR, local=False)
ALL_REACHES = tuple(Reach(near, far, bent=bent) for near, far in limits.REACHES for bent in (False, True))


class Sides:
    """Both sides of a hole: when the pulse next to it should rise, and the interval there. Each is worked out once."""

    def __init__(self, rises: Sequence[int], near: Near) -> None:
        self.rises, self.near = rises, near
        self._known: Dict[Tuple[int, int, int, Reach], Tuple[float, float]] = {}

    def of(self, at: int, way: int, count: int, reach: Reach) -> Tuple[float, float]:
        key = at, way, min(count, reach.far), reach
        if key not in self._known:
            self._known[key] = reach.end(self.rises, at, way, count, self.near(at))
        return self._known[key]

    def late_by(self, run: Ends, left: int, right: int, reach: Reach, hop: Reach) -> float:
        """By how much what begins with a pulse of a run is late, as if nothing were known from another pulse up to it: one reach
        says where the ends are, and the other the interval between them."""
        before, after = left - run[0] + 1, run[1] - right + 1
        end, begin = self.of(left, -1, before, reach)[0], self.of(right, 1, after, reach)[0]
        first, last = self.of(left, -1, before, hop)[1], self.of(right, 1, after, hop)[1]
        return begin - end - (right - left) * (first + last) / 2

    def change_by(self, run: Ends, left: int, right: int, reach: Reach) -> float:
        """By how much the interval is another one after these two pulses than before them, without its sign."""
        first = self.of(left, -1, left - run[0] + 1, reach)[1]
        return abs(self.of(right, 1, run[1] - right + 1, reach)[1] - first)

    def inside_by(self, run: Ends, left: int, right: int, reach: Reach, even: bool = False) -> float:
        """How far pulses between these two are off from the curve through both ends, or from where they are if they come evenly, at
        three places."""
        end, first = self.of(left, -1, left - run[0] + 1, reach)
        begin, last = self.of(right, 1, run[1] - right + 1, reach)
        many, most = right - left, 0.0
        if even:
            first = last = (begin - end) / many
        for part in (1, 2, 3):
            at = left + many * part // 4
            near = range(max(left + 1, at - limits.HALF_SIDE), min(right - 1, at + limits.HALF_SIDE) + 1)
            off = [self.rises[each] - on_curve((each - left) / many, many, (end, begin), (first, last)) for each in near]
            most = max(most, abs(median(off)) if off else 0.0)
        return most


def on_curve(at: float, many: int, ends: Tuple[float, float], intervals: Tuple[float, float]) -> float:
    """When a pulse should rise at a share of a hole of that many elements, if its interval is that of the runs at both ends: a curve
    of third degree."""
    whole = ends[1] - ends[0]
    first, last = many * intervals[0] - whole, whole - many * intervals[1]
    return ends[0] + at * whole + at * (1 - at) * (first * (1 - at) + last * at)


class Sample:
    """Places all over the recording at which a hole is tried where there is none."""

    def __init__(self, rises: Sequence[int], runs: Sequence[Ends], near: Near) -> None:
        self.sides, self.runs = Sides(rises, near), runs
        self._holes: Dict[int, List[Hole]] = {}

    def holes(self, steps: int) -> List[Hole]:
        """Holes of that many elements."""
        if steps not in self._holes:
            self._holes[steps] = list(self._find_holes(steps))
        return self._holes[steps]

    def _find_holes(self, steps: int) -> Iterator[Hole]:
        beside = limits.BESIDE
        room = [(run, run[1] - run[0] - steps * 5 // 4 - 2 * beside + 1) for run in self.runs]
        room = [(run, many) for run, many in room if many > 0]
        room = room[::len(room) // limits.PLACES_TRIED + 1]
        total = sum(many for _, many in room)
        for run, many in room:
            places = min(many, max(1, round(limits.PLACES_TRIED * many / total)))
            for number in range(places):
                left = run[0] + beside + number * many // places
                yield run, left, left + steps + steps * (number % limits.LENGTHS) // limits.LENGTHS // 4

    def lates(self, steps: int, reach: Reach, hop: Reach, short: bool = False) -> List[float]:
        """By how much what follows after that many elements is off, without its sign, from the least to the most; if `short`,
        there are few pulses before each hole."""
        holes = self.holes(steps)
        if short:
            holes = [((left - limits.SIDE + 1, run[1]), left, right) for run, left, right in holes]
        return sorted(abs(self.sides.late_by(run, left, right, reach, hop)) for run, left, right in holes)

    def insides(self, steps: int, reach: Reach, even: bool = False) -> List[float]:
        """How far off pulses in holes of just that many elements are, from the least to the most."""
        return sorted(self.sides.inside_by(run, left, left + steps, reach, even) for run, left, _ in self.holes(steps))

    def changes(self, steps: int, reach: Reach) -> List[float]:
        """By how much the interval changes over such holes, from the least to the most."""
        return sorted(self.sides.change_by(run, left, left + steps, reach) for run, left, _ in self.holes(steps))

    def best_reach(self, by_chance: float, wanders: bool) -> Reach:
        """The reach that says best where the ends are; that of a steady clock if no other is clearly better, unless it `wanders`
        for sure. It is the best, too, if it is off by no more than `by_chance`."""
        steady = {steps: self.lates(steps, AS_STEADY, AS_STEADY) for steps in limits.HOLES_TRIED}
        usual = {steps: median(found) for steps, found in steady.items() if len(found) >= limits.FEWEST_TRIED}
        if not usual or not wanders and all(each <= by_chance for each in usual.values()):
            return AS_STEADY

        def late(reach: Reach) -> float:
            return sum(min(1.0, *(median(self.lates(steps, reach, hop)) / (each + limits.ROUNDED) for hop in (reach, AS_STEADY)))
                       for steps, each in usual.items())

        def inner(reach: Reach) -> float:
            return sum(median(self.insides(steps, reach)) / (each + limits.ROUNDED) for steps, each in usual.items())

        scores = {reach: late(reach) for reach in ALL_REACHES}
        if not wanders and min(scores.values()) >= limits.CLEARLY_BETTER * len(usual):
            return AS_STEADY
        return min(scores, key=lambda reach: scores[reach] + inner(reach))


class Wander:
    """By how much a rest can be late after a hole, though it is on the same clock; which pulses say the interval within it; and how
    far off pulses are that are put into it."""

    def __init__(self, sample: Sample, reach: Reach) -> None:
        self.reach = reach
        self.hops: Dict[int, Reach] = {}
        self.known: Dict[bool, Dict[int, float]] = {False: {}, True: {}}
        self.spread: Dict[bool, float] = {}
        self.bent: Dict[int, float] = {}  # how far off pulses in holes of that many elements are by the curve
        self.inner: Dict[int, float] = {}  # and by the curve or evenly, whichever is nearer
        self.even: Dict[int, bool] = {}  # whether that is evenly
        self.changed: Dict[int, float] = {}  # by how much the interval changes over them
        self._measure_rests(sample)
        self._measure_holes(sample)

    def _measure_rests(self, sample: Sample) -> None:
        """How late what follows a hole can be, and which pulses say so best, for holes of each length."""
        reach = self.reach
        for short, table in self.known.items():
            most = 0.0
            for steps in limits.HOLES_MEASURED:
                hops = [self.hops[steps]] if steps in self.hops else [] if short else [reach, AS_STEADY, *ALL_REACHES]
                tried = [(_nine_of_ten(found), hop) for hop in hops for found in [sample.lates(steps, reach, hop, short)] if found]
                if not tried or len(sample.lates(steps, reach, reach, short)) < limits.FEWEST_TRIED:
                    break
                off, self.hops[steps] = min(tried)
                if steps == 1:
                    self.spread[short] = max(median(sample.lates(steps, reach, self.hops[1], short)), off / limits.NINE_OF_TEN)
                most = max(most, limits.ABOVE_NINE_OF_TEN * off)
                table[steps] = most

    def _measure_holes(self, sample: Sample) -> None:
        """How far off pulses are that are put into holes of each length."""
        reach, most, curved, change = self.reach, 0.0, 0.0, 0.0
        for steps in self.known[False]:
            bent, even = (_nine_of_ten(sample.insides(steps, reach, each)) for each in (False, True))
            self.even[steps] = even < bent
            most = self.inner[steps] = max(most, limits.ABOVE_NINE_OF_TEN * min(bent, even))
            curved = self.bent[steps] = max(curved, limits.ABOVE_NINE_OF_TEN * bent)
            change = self.changed[steps] = max(change, limits.ABOVE_NINE_OF_TEN * _nine_of_ten(sample.changes(steps, reach)))

    def hop(self, steps: float) -> Reach:
        """Which pulses say the interval in a hole of that many elements."""
        return self.hops[max((each for each in self.hops if each <= steps), default=1)] if self.hops else self.reach

    def is_even(self, steps: float, change: float) -> bool:
        """Whether pulses in a hole of that many elements are put in evenly, and not by the curve: if they were nearer then where a hole
        was tried, and the interval changes no more over this one."""
        near = max((each for each in self.even if each <= steps), default=0)
        return self.even.get(near, False) and change <= _between(self.changed, steps, 1)

    def over(self, steps: float, short: bool = False) -> float:
        """In microseconds, over that many elements; if `short`, one of both sides has few pulses."""
        return _between(self.known[short], steps, 1)

    def inside(self, steps: float, change: float) -> float:
        """In microseconds, how far off a pulse in a hole of that many elements can be; in a longer one than was tried it is more by
        the square, as the interval changes meanwhile. If it changes over this hole by more than it does elsewhere, it can do so at once."""
        if change > _between(self.changed, steps, 1):
            return max(limits.CHANGED_AT_ONCE * steps * change, _between(self.bent, steps, 2))
        return _between(self.inner, steps, 2)


def _between(table: Dict[int, float], steps: float, power: int) -> float:
    """What a table has for that many elements; beyond its end it grows with a power of them."""
    before, low = 0, 0.0
    for each, off in table.items():
        if steps <= each:
            return off if not before else low + (off - low) * (steps - before) / (each - before)
        before, low = each, off
    return low * (steps / before) ** power if before else 0.0


def _nine_of_ten(found: Sequence[float]) -> float:
    """What nine of ten are within."""
    return found[len(found) * 9 // 10]


def curve(apart: Sequence[int], least: float, most: float) -> List[float]:
    """The interval near each distance: of each block of distances what half of those in step are above, and between them what lies
    between. Over a hole as long as a block the interval can have changed, so each side of it has blocks of its own. Nothing if no block
    says an interval."""
    ends = [at + 1 for at, each in enumerate(apart) if each > limits.BLOCK * most]
    parts = [_curve_of(apart[begin:end], least, most) for begin, end in zip([0, *ends], [*ends, len(apart)])]
    said = [each for part in parts for each in part if each]
    found: List[float] = []
    for part in parts:  # one without a block of its own has what was said last before it
        found += [each or (found or said)[-1 if found else 0] for each in part] if said else []
    return found


def _curve_of(apart: Sequence[int], least: float, most: float) -> List[float]:
    """The same of a stretch without such a hole; zeros if no block says an interval."""
    size = limits.BLOCK
    blocks: List[Optional[float]] = []
    for at in range(0, len(apart), size):
        part = [each for each in apart[at:at + size] if least <= each <= most]
        blocks.append(median(part) if 2 * len(part) >= size else None)
    known = [(at, each) for at, each in enumerate(blocks) if each is not None]
    if not known:
        return [0.0] * len(apart)
    smooth = [(at, median([each for _, each in known[max(0, number - 1):number + 2]])) for number, (at, _) in enumerate(known)]
    if len(smooth) > 2:  # the first and the last have one neighbour
        smooth[0], smooth[-1] = known[0], known[-1]
    centre = [(at * size + (min(size, len(apart) - at * size) - 1) / 2, each) for at, each in smooth]
    found: List[float] = [centre[0][1]] * (int(centre[0][0]) + 1)
    for (low, left), (high, right) in zip(centre, centre[1:]):
        rate = (right - left) / (high - low)
        found += [left + (at - low) * rate for at in range(len(found), int(high) + 1)]
    return found + [centre[-1][1]] * (len(apart) - len(found))


def is_curved(apart: Sequence[int], least: float, most: float, noise: float) -> bool:
    """Whether distances are much nearer to those next to them than to the usual one, in some parts of the recording."""
    if not noise:
        return False
    size, parts = limits.CURVE_SEEN, limits.PARTS_SEEN
    off: List[float] = []
    for begin in range(0, max(1, len(apart) - size), max(size, len(apart) // parts)):
        part = apart[begin:begin + size]
        off += [abs(each - near) for each, near in zip(part, curve(part, least, most)) if least <= each <= most]
    return bool(off) and median(off) < limits.CURVED * noise
