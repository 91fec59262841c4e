"""Runs get their places: linked from the first to the last, so that position identifiers are where they have to be."""
from __future__ import annotations

from dataclasses import replace
from functools import lru_cache
from math import inf
from typing import Callable, Dict, Iterator, List, NamedTuple, Optional, Sequence, Tuple

from . import limits
from .grouping import grouped
from .interval import Clock, Run
from .phases import Marks, Usual, tells_phase
from .units import ELEMENTS, PlaceNumber, plus

# what a phase costs, the phase of the run before, the elements between, how late it comes
Choice = Tuple[int, Optional[int], int, float]


def tenths(faults: float) -> int:
    """A cost in tenths of a fault: whole numbers, so that costs which are equal add up to the same in any order."""
    return round(10 * faults)


def parts(clock: Clock) -> List[List[Run]]:
    """The sure runs, parted at holes too long to fill. At the ends shorter ones count that are on the same clock."""
    sure = [at for at, run in enumerate(clock.runs) if run.count >= limits.SURE_RUN]
    if not sure:
        return []
    runs = [run for run in clock.runs[sure[0]:sure[-1] + 1] if run.count >= limits.SURE_RUN]
    for run in clock.runs[sure[-1] + 1:]:
        if run.count > 1 and clock.on_one_clock(runs[-1], run):
            runs.append(run)
    for run in reversed(clock.runs[: sure[0]]):
        if run.count > 1 and clock.on_one_clock(run, runs[0]):
            runs.insert(0, run)
    found = grouped(runs, lambda before, run: run.begin - before.end > limits.LONGEST_HOLE * clock.interval)
    return [_trim(clock, each) for each in found]


def _trim(clock: Clock, runs: List[Run]) -> List[Run]:
    """Leaves runs at either end alone that are glued to their neighbour and too short to show their phase."""
    while len(runs) > 1 and runs[-1].glued and not tells_phase(clock.text(runs[-1])):
        runs = _without_last(runs)
    while len(runs) > 1 and runs[1].glued and not tells_phase(clock.text(runs[0])):
        runs = _without_first(runs)
        runs[0] = replace(runs[0], glued=False)
    return runs


def _without_last(runs: Sequence[Run]) -> List[Run]:
    """Leaves the pulses of the last run alone."""
    return [*runs[:-2], replace(runs[-2], ends=runs[-2].ends + ">")]


def _without_first(runs: Sequence[Run]) -> List[Run]:
    """Leaves the pulses of the first run alone."""
    return [replace(runs[1], ends=runs[1].ends + "<"), *runs[2:]]


def _hop(clock: Clock, distance: float, interval: float, step: int, fewest: int) -> Tuple[int, float, float]:
    """Elements to go on by (`step` modulo 100), how late what follows then is, and what it costs to believe that."""
    # of all whole frames those from which the run is the least late or early
    steps = step + ELEMENTS * max(0, round((distance / interval - step) / ELEMENTS))
    late = distance - steps * interval
    if abs(late) <= clock.slack(steps, fewest):
        on_time = abs(late) <= clock.least_late(steps, fewest)
        return steps, late, 0 if steps == 1 else limits.HOLE if on_time else limits.BARELY
    if late < 0:
        return steps, late, limits.EARLY
    return steps, late, limits.LATE + limits.LATE_HOLE * (steps > 1)


def _jump(distance: float, interval: float, step: int) -> Tuple[int, float, float]:
    """As `_hop`, for a run that is glued to the one before: as if more than a frame were missing between them."""
    straight = round(distance / interval)
    steps = straight + ELEMENTS + (step - straight) % ELEMENTS
    same = steps == straight + ELEMENTS
    return steps, distance - steps * interval, limits.JUMP_TO_SAME if same else limits.JUMP


class Linked(NamedTuple):
    """Runs with their places, and what it costs to believe them."""

    cost: float
    runs: List[Run]


class _Way(NamedTuple):
    """What is looked at to go on to a run: which steps from the run before, and which phases of its own."""

    price: Callable[[int], int]  # what a phase costs
    distance: float
    interval: float
    steps: Sequence[int]
    own: Sequence[int]


class _Linker:
    """The cheapest way through all runs, with the fewest faults, late rests and holes."""

    def __init__(self, clock: Clock, runs: Sequence[Run], usual: Usual) -> None:
        self.clock, self.runs, self.usual = clock, runs, usual
        marks, price = self._marks(runs[0])
        first = marks.best(limits.WITHIN, ELEMENTS if runs[0].count < limits.TELLING else limits.MOST_PHASES)
        self.table: List[Dict[int, Choice]] = [{phase: (price(phase), None, 0, 0) for phase in first}]
        self.ways: List[_Way] = []
        for before, run in zip(runs, runs[1:]):
            self.ways.append(self._way(before, run))
            self.table.append(self._choices())

    def _marks(self, run: Run) -> Tuple[Marks, Callable[[int], int]]:
        """The position identifiers of a run, and what each phase costs."""
        text = self.clock.text(run)
        marks = Marks(text)
        unlike = self.usual.unlike(text) if run.count < ELEMENTS else lambda phase: 0
        return marks, lru_cache(None)(lambda phase: tenths(marks.faults(phase)) + tenths(limits.UNUSUAL) * unlike(phase))

    def _onward(self, at: int, old: int) -> Iterator[Tuple[int, int, float, int]]:
        """From a phase of run `at` to the next run: each phase, the step, how late it is, and its price."""
        before, run, way = self.runs[at], self.runs[at + 1], self.ways[at]
        last = old + before.count - 1
        for phase in {(last + step) % ELEMENTS for step in way.steps}.union(way.own):
            step = (phase - last) % ELEMENTS
            step, late, cost = (
                _jump(way.distance, way.interval, step)
                if run.glued
                else _hop(self.clock, way.distance, way.interval, step, min(before.count, run.count))
            )
            yield phase, step, late, tenths(cost) + way.price(phase)

    def _choices(self) -> Dict[int, Choice]:
        """The phases of the next run."""
        choices: Dict[int, Choice] = {}
        for old, told in self.table[-1].items():
            for phase, step, late, cost in self._onward(len(self.table) - 1, old):
                if phase not in choices or told[0] + cost < choices[phase][0]:
                    choices[phase] = told[0] + cost, old, step, late
        most = tenths(limits.UNLIKELY) + min(choice[0] for choice in choices.values())
        return {phase: choice for phase, choice in choices.items() if choice[0] <= most}

    def _way(self, before: Run, run: Run) -> _Way:
        """The steps from run to run that are worth a look, and the phases that the run itself has."""
        marks, price = self._marks(run)
        distance, interval = run.begin - before.end, self.clock.interval_between(before, run)
        straight = round(distance / interval)
        if not run.glued and abs(distance - straight * interval) <= self.clock.least_late(straight, min(before.count, run.count)):
            if self._follows(marks, before.count - 1 + straight):
                return _Way(price, distance, interval, [straight], ())
        steps = {1, *range(max(1, straight - limits.MOST_LATE), straight + 1)}.union({0} if straight == 0 else ())
        within = limits.WITHIN if run.count >= limits.TELLING else 0
        own = marks.best(within, limits.MOST_PHASES) if within or marks.many else ()
        return _Way(price, distance, interval, sorted(steps), own)

    def _follows(self, marks: Marks, onward: int) -> bool:
        """Whether a run goes on from the cheapest phase so far, that many elements on, beyond doubt."""
        costs = sorted((told[0], old) for old, told in self.table[-1].items())
        faults = marks.faults((costs[0][1] + onward) % ELEMENTS)
        if not faults:
            alone = len(costs) == 1 or costs[1][0] > costs[0][0] + tenths(limits.UNLIKELY)
            return marks.count >= limits.LONG_RUN or alone
        most = 1 + min(marks.count // ELEMENTS, marks.faults(marks.best(0, 1)[0]))
        return marks.count >= limits.LONG_RUN and faults <= most

    def follow(self) -> Linked:
        """The cheapest way, from its end to its beginning: each run has its phase as its place."""
        phase: Optional[int] = min(self.table[-1], key=lambda each: self.table[-1][each][0])
        cost = self.table[-1][phase or 0][0]
        rest: Dict[int, float] = dict.fromkeys(self.table[-1], 0)
        runs: List[Run] = []
        for at in range(len(self.runs) - 1, -1, -1):
            choices, own = self.table[at], phase or 0
            if at < len(self.ways):
                rest = {old: self._least_rest(at, old, rest) for old in choices}
            others = {other: choices[other][0] + rest[other] for other in choices if other != own}
            so_far, phase, step, late = choices[own]
            lead = min(others.values(), default=cost + tenths(limits.UNLIKELY)) - cost
            near = tuple(other for other, each in sorted(others.items()) if each < cost + tenths(limits.LEAST_LEAD))
            fewest = min(each.count for each in self.runs[max(0, at - 1):at + 1])
            runs.append(replace(self.runs[at], fewest=fewest, place=PlaceNumber(own), step=step, late=late, cost=so_far / 10,
                                lead=lead / 10, others=near))
        return Linked(cost / 10, runs[::-1])

    def _least_rest(self, at: int, old: int, rest: Dict[int, float]) -> float:
        """What the cheapest way from a phase of run `at` to the last run costs; `rest` is that of the next run."""
        costs = [each + rest[phase] for phase, _, _, each in self._onward(at, old) if phase in rest]
        return min(costs, default=inf)


def _without_stray(clock: Clock, runs: List[Run]) -> List[Run]:
    """Drops a run at an end whose phase nothing says, if it is not on the clock of the others."""
    if len(runs) > 1 and _is_off(clock, runs[1]) and "P" not in clock.text(runs[0]):
        return _without_first(runs)
    if len(runs) > 1 and _is_off(clock, runs[-1]) and "P" not in clock.text(runs[-1]):
        return _without_last(runs)
    return runs


def _is_off(clock: Clock, run: Run) -> bool:
    """Whether a run is late or early after the one before it."""
    return abs(run.late) > clock.least_late(run.step, run.fewest)


def _follow(clock: Clock, runs: List[Run], unused: Sequence[int]) -> Linked:
    """The cheapest way; if it leads by little, again with the classes that most frames have."""
    found = _Linker(clock, runs, Usual(unused)).follow()
    if all(run.lead >= limits.LEAD and not _is_off(clock, run) for run in found.runs):
        return found
    leading = ((clock.text(run), run.place) for run in found.runs if run.lead >= limits.LEAD)
    return _Linker(clock, runs, Usual(unused, leading)).follow()


def sure_parts(runs: Sequence[Run]) -> List[List[Run]]:
    """The runs whose phase is sure, parted at those that are left alone."""
    found: List[List[Run]] = [[]]
    is_left = False  # whether the run before is
    for run in runs:
        if run.lead >= limits.LEAST_LEAD:
            found[-1].append(replace(run, glued=False, ends=run.ends + "[") if is_left else run)
        elif found[-1]:
            found[-1][-1] = replace(found[-1][-1], ends=found[-1][-1].ends + "]")
            found.append([])
        is_left = run.lead < limits.LEAST_LEAD
    return [part for part in found if part]


def link(clock: Clock, runs: List[Run], unused: Sequence[int]) -> Linked:
    """The runs with their places, and what it costs to believe them."""
    way = _follow(clock, runs, unused)
    on_time = [at > 0 and not _is_off(clock, run) for at, run in enumerate(way.runs)]
    parted = [part for run, begins in zip(way.runs, on_time) for part in clock.parted_near(run, begins)]
    if len(parted) > len(runs):
        way = _follow(clock, _trim(clock, parted), unused)
    kept = _without_stray(clock, way.runs)
    while len(kept) < len(way.runs):
        way = _follow(clock, kept, unused)
        kept = _without_stray(clock, way.runs)
    found = way.runs[:1]
    for run in way.runs[1:]:
        run = _glued(clock, run)
        found.append(replace(run, place=plus(found[-1].last_place, run.step)))
    return Linked(way.cost, found)


def _glued(clock: Clock, run: Run) -> Run:
    """A run that is glued if elements are missing for which there is no time, and only then."""
    whole = ELEMENTS * clock.interval
    early = max(limits.NO_TIME * clock.interval, clock.slack(run.step, run.fewest))
    if run.late < -early and not run.glued and tells_phase(clock.text(run)):
        return replace(run, glued=True, step=run.step + ELEMENTS, late=run.late - whole)
    if run.glued and abs(run.late + whole) <= clock.slack(run.step):  # the phase is the same after all
        return replace(run, glued=False, step=run.step - ELEMENTS, late=run.late + whole)
    return run
