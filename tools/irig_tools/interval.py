"""The real interval of a recording: how far apart its elements are, how much rises stray, and the runs of pulses in step."""
from __future__ import annotations

import statistics
from dataclasses import dataclass, replace
from itertools import compress, count, islice, repeat
from operator import sub
from typing import Callable, Iterator, List, Optional, Sequence, Tuple

from . import limits
from .editor import Listing
from .phases import Turn, turn_near, turns
from .sampling import are_often_off, spacing_of_samples
from .units import ELEMENTS, Microseconds, PlaceNumber, PulseIndex, plus
from .wander import AS_STEADY, Sample, Sides, Wander, curve, is_curved


@dataclass(frozen=True)
class Run:
    """Pulses that follow each other in step. `interval` finds them, `slots` gives them their places."""

    first: PulseIndex
    last: PulseIndex
    begin: float = 0  # when the first should rise, by those near it
    end: float = 0  # when the last should rise
    begin_interval: Optional[float] = None  # of the pulses near the first, if there are enough
    end_interval: Optional[float] = None
    place: PlaceNumber = PlaceNumber(0)  # of the first pulse
    step: int = 0  # elements from the last pulse of the run before to the first
    late: float = 0  # how much it came late
    glued: bool = False  # it follows the run before at once, but with another element
    gone: Optional[int] = None  # how many elements are missing before a glued run, if the times say so
    fewest: int = limits.BESIDE  # pulses of it, or of the run before if that has fewer
    cost: float = 0  # of the cheapest way up to it, in faults
    lead: float = 0  # how much dearer it is to give it another phase
    others: Tuple[int, ...] = ()  # the elements that it may as well begin with
    ends: str = ""  # `<` or `>` if nothing says the phase of the pulses before or after it; `[` or `]` if those are left alone

    @property
    def count(self) -> int:
        return self.last - self.first + 1

    @property
    def last_place(self) -> PlaceNumber:
        return plus(self.place, self.last - self.first)


def change_between(left: Optional[Run], right: Optional[Run]) -> float:
    """By how much the interval is another one after a hole than before it, without its sign; 0 if a run has too few pulses for its own."""
    before, after = left and left.end_interval, right and right.begin_interval
    return abs(after - before) if before and after else 0


def run_of(first: PulseIndex, beyond: PulseIndex, glued: bool = False) -> Run:
    """The pulses from one up to another."""
    return Run(first, plus(beyond, -1), glued=glued)


def _parts(run: Run, parted_at: Sequence[Turn]) -> List[Run]:
    """The parts of a run between its turns."""
    parts: List[Run] = []
    first = run.first
    for low, high in parted_at:
        if run.first + low > first and high < run.count:
            parts.append(run_of(first, plus(run.first, low), glued=bool(parts)))
            first = plus(run.first, high)
    return parts + [run_of(first, plus(run.last, 1), glued=bool(parts))]


def distances(times: Sequence[Microseconds]) -> List[int]:
    return list(map(sub, islice(times, 1, None), times))


def are_odd(values: Sequence[int], is_odd: Callable[[int], bool]) -> Iterator[bool]:
    """Whether that is true of each value; those that are the same are looked at once."""
    odd = set(filter(is_odd, set(values)))
    return map(odd.__contains__, values) if odd else repeat(False, len(values))


def places_of(values: Sequence[int], is_odd: Callable[[int], bool]) -> Iterator[int]:
    """Where the values are for which that is true."""
    return compress(count(), are_odd(values, is_odd))


def breaks(apart: Sequence[int], interval: float, margin: float) -> List[PulseIndex]:
    """The pulses that do not follow the one before by an interval, and in the end the one after the last."""
    low, high = interval - margin, interval + margin
    return [PulseIndex(each + 1) for each in (*places_of(apart, lambda each: not low <= each <= high), len(apart))]


def breaks_near(apart: Sequence[int], near: Sequence[float], margin: float) -> List[PulseIndex]:
    """The same if each distance has an interval of its own."""
    odd = [PulseIndex(at) for at, (each, own) in enumerate(zip(apart, near), 1) if not -margin <= each - own <= margin]
    return [*odd, PulseIndex(len(apart) + 1)]


def share_in_step(times: Sequence[Microseconds], interval: int) -> float:
    """In which share of the time neighbours are one interval apart: 0 to 1. A hole counts as one interval, since nothing in it is of
    another code; noise counts for as long as it is, however many pulses it has."""
    sampled, (least, most) = _sampled(times), ((1 - limits.IN_STEP) * interval, (1 + limits.IN_STEP) * interval)
    near = len([each for each in sampled if least <= each <= most]) * interval
    return near / max(1, near + sum([min(each, interval) for each in sampled if not least <= each <= most]))


def _sampled(times: Sequence[Microseconds]) -> List[int]:
    """The distances that are looked at, if they are very many."""
    every = max(0, len(times) - 1) // limits.MOST_SAMPLED + 1
    return list(map(sub, times[1::every], times[::every]))


def _in_step(times: Sequence[Microseconds], interval: int) -> List[int]:
    """Those of them that are about one interval."""
    least, most = (1 - limits.IN_STEP) * interval, (1 + limits.IN_STEP) * interval
    return [each for each in _sampled(times) if least <= each <= most]


class Clock:
    """The interval as it was recorded, how far rises stray from it, and the runs."""

    def __init__(self, listing: Listing, nominal: int, grid: float = 0) -> None:
        """`grid` is how far apart samples are, if it is known."""
        self.listing, self.nominal = listing, nominal
        self.rises, self.classes = listing.rises, listing.classes
        apart = listing.apart
        between = self._find_interval(apart)
        self._find_margins(between, grid)
        self.runs = self._find_runs(between, apart)
        within = [run for run in self.runs if run.count >= limits.SURE_RUN]
        # the first and the last pulse of a run can be where the level chatters
        self._measure([(run.count - 3, self.rises[run.last - 1] - self.rises[run.first + 1]) for run in within])
        self.runs = list(map(self.fit, self.runs))
        # again, as now no pulse that strays at an end of a run counts
        self._measure([(run.count - 1, run.end - run.begin) for run in self.runs if run.count >= limits.SURE_RUN])
        self.runs = list(map(self.fit, self.runs))
        self.doubt = self._find_doubt()
        # a rise that is farther off than this is damage, though its pulse is in step; which these are, and when they should be
        self.least_stray = max(limits.STRAY_SEEN * self.spread, limits.SAMPLES_OFF * max(limits.ROUNDED, self.grid), self._least_seen())
        self.strays = {pulse: due for run in self.runs for pulse, due in self._strays_of(run)}
        self.in_stray = sorted(self.strays)

    def _find_interval(self, apart: Sequence[int]) -> List[int]:
        """The interval and the noise, and whether it changes; the distances in step, as if the interval were the same all over."""
        between = _in_step(self.rises, self.nominal)
        self.interval: float = statistics.median_low(between) if between else self.nominal
        self.noise: float = statistics.median([abs(each - self.interval) for each in between]) if between else 0
        self.curve = self._find_curve(apart)  # the interval at each distance, if it changes so much that this shows at once
        return [round(self.interval + off) for off in self._off(apart, self.curve)] if self.curve else between

    def _find_margins(self, between: Sequence[int], grid: float) -> None:
        """How far apart samples are, what counts as in step, and how far one pulse may be off."""
        # what is left of a distance is no number of samples, however little it is
        noise = limits.MOST_MARGIN * self.nominal if self.curve else self.noise
        self.grid = grid or spacing_of_samples(self.listing, between, self.nominal, self.interval, noise)
        rough = self.grid if are_often_off(between, self.interval, self.grid) else 0
        self.margin = self._within(limits.LEAST_MARGIN, limits.MARGIN_BY_NOISE, limits.MOST_MARGIN, rough)
        self.stray = self._within(limits.LEAST_STRAY, limits.STRAY_BY_NOISE, limits.MOST_STRAY, rough)

    def _find_runs(self, between: Sequence[int], apart: Sequence[int]) -> List[Run]:
        """The runs, each without a step and with one phase; and how the clock wanders."""
        ends = breaks_near(apart, self.curve, self.margin) if self.curve else breaks(apart, self.interval, self.margin)
        found = [run_of(first, beyond) for first, beyond in zip([PulseIndex(0), *ends], ends)]
        self.wander: Optional[Wander] = None
        self.least_step = self._find_least_step(between, apart)
        # a step does not make a clock wander
        steady = found if self.curve else [part for run in found for part in self._stepped(run, apart)]
        self._find_wander(steady)
        if self.curve or self.wander:
            self.least_step = self._find_least_step(between, apart)
            steady = [part for run in found for part in self._stepped(run, apart)]
        return [part for run in steady for part in self._parted(run)]

    def _find_curve(self, apart: Sequence[int]) -> List[float]:
        """The interval near each distance, and by it the noise; nothing if the interval changes less than rises stray."""
        least, most = (1 - limits.IN_STEP) * self.nominal, (1 + limits.IN_STEP) * self.nominal
        if not is_curved(apart, least, most, self.noise):
            return []
        found = curve(apart, least, most)
        self.noise = statistics.median([abs(off) for off in self._off(apart, found)])
        return found

    def _off(self, apart: Sequence[int], near: Sequence[float]) -> List[float]:
        """By how much distances in step are off from the interval near each."""
        least, most = (1 - limits.IN_STEP) * self.nominal, (1 + limits.IN_STEP) * self.nominal
        return [each - own for each, own in zip(apart, near) if least <= each <= most]

    def _find_wander(self, runs: Sequence[Run]) -> None:
        """How the ends of runs say where what follows should rise, and how far that is off."""
        stretches = [(run.first, run.last) for run in runs if run.count > 2 * limits.BESIDE]
        many, usual = sum(last - first for first, last in stretches), self.interval
        if many:  # half of the distances alone do not say it: each is rounded
            self.interval = sum(self.rises[last] - self.rises[first] for first, last in stretches) / many
        sample = Sample(self.rises, stretches, self.near)
        by_chance = max(limits.ROUNDED + max(limits.ROUNDED, self.grid), limits.BY_TREMBLING * self.noise)
        self.reach = sample.best_reach(by_chance, bool(self.curve))
        self.wander = None if self.reach == AS_STEADY else Wander(sample, self.reach)
        if not self.wander and not self.curve:
            self.interval = usual

    def over(self, steps: float, fewest: int = limits.BESIDE) -> float:
        """How far a rest may be late after that many elements though it is on this clock, not counting what rises stray. The shorter
        one of both runs has `fewest` pulses."""
        return self.wander.over(steps, fewest < limits.BESIDE) if self.wander else self.doubt * steps

    def inside(self, steps: float, left: Optional[Run] = None, right: Optional[Run] = None) -> float:
        """How far a pulse in a hole of that many elements can be off, not counting what rises stray; of a clock that wanders alone. The
        interval can be another one after the hole than before it, as the runs on both sides of it have it."""
        return self.wander.inside(steps, change_between(left, right)) if self.wander else 0

    @property
    def most_off(self) -> float:
        """By which share of it the interval is another one in places."""
        if not self.wander:
            return 0
        local = [each for run in self.runs for each in (run.begin_interval, run.end_interval) if each]
        return max((abs(each / self.interval - 1) for each in [*local, *self.curve]), default=0)

    def _within(self, least: float, by_noise: float, most: float, grid: float) -> float:
        """That many times the noise, or what is less than two samples, between two shares of the interval, in microseconds."""
        return min(most * self.nominal, max(least * self.nominal, by_noise * self.noise, limits.BY_GRID * grid))

    def _measure(self, long: Sequence[Tuple[int, float]]) -> None:
        """The interval by stretches of runs, each with its intervals and its length in microseconds. It is the nominal one if
        nothing shows another."""
        if long:
            many = sum(steps for steps, _ in long)
            self.interval = sum(length for _, length in long) / many
            ends = max(limits.LEAST_STEP, limits.SPREADS * self.noise, self.grid)  # how far both may be off, together
            shown = sum(steps for steps, length in long if abs(length - steps * self.nominal) > ends)
            if self._is_near(self.interval) and shown <= limits.OTHER_CLOCK * many:
                self.interval = self.nominal
        self.exact = self.interval == self.nominal and self.noise == 0 and not self.wander

    def _find_doubt(self) -> float:
        """By how much the interval within a hole may differ from the one next to it."""
        if self.exact:
            return 0
        if self.wander:
            return self.wander.over(limits.LOCAL) / limits.LOCAL
        local = self._local_intervals(limits.FAR)
        if len(local) < limits.STRETCHES:
            local = self._local_intervals(limits.LOCAL)
        if len(local) < limits.STRETCHES:
            is_quartz = self.noise <= limits.ROUNDED and self._is_near(self.interval)
            return (limits.QUARTZ_DOUBT if is_quartz else limits.UNKNOWN_DOUBT) * self.nominal
        low, _, high = statistics.quantiles(local, n=4)
        return max(limits.LEAST_STEP / limits.FAR, limits.EIGHT_OF_TEN * (high - low))

    def _local_intervals(self, long: int) -> List[float]:
        """The interval of each stretch of that many pulses within a run."""
        return [(self.rises[at + long] - self.rises[at]) / long
                for run in self.runs for at in range(run.first, run.last - long + 1, long)]

    def _is_near(self, interval: float) -> bool:
        """Whether an interval is the nominal one up to what clocks of quartz are off."""
        return abs(interval - self.nominal) < limits.SAME_CLOCK * self.nominal

    def _find_least_step(self, between: Sequence[int], apart: Sequence[int]) -> float:
        """A step within a run shows from this many microseconds on, as the distances of the recording are spread."""
        if self.curve:
            off = sorted(each for each in (abs(each - near) for each, near in zip(apart, self.curve)) if each <= self.margin)
        else:
            off = sorted(abs(each - self.interval) for each in between)
        spread = max(self.noise, off[len(off) * 9 // 10] / limits.NINE_OF_TEN) if off else 0
        self.spread: float = max(spread, self.wander.spread.get(False, 0) if self.wander else 0)
        return max(self._least_seen(), limits.SPREADS * self.spread, limits.BY_GRID * self.grid)

    def _least_seen(self) -> float:
        """The least step that a clock shows; what is inserted where it wanders can be off by a little."""
        return limits.WANDER_STEP * self.nominal if self.wander else limits.LEAST_STEP

    def _least_step_beside(self, fewest: int) -> float:
        """The same with that many pulses on one side."""
        if not self.wander or fewest >= limits.BESIDE:
            return self.least_step
        return max(self.least_step, self.margin, limits.SPREADS * self.wander.spread.get(True, 0))

    def _after_odd(self, run: Run, apart: Sequence[int]) -> List[PulseIndex]:
        """The pulses of a run after distances that may be those of a step."""
        interval, least, own = self.interval, self.least_step, apart[run.first:run.last]
        if self.curve:
            near = self.curve[run.first:run.last]
            return [PulseIndex(at) for at, (each, usual) in enumerate(zip(own, near), run.first + 1) if not -least < each - usual < least]
        return [plus(run.first, at + 1) for at in places_of(own, lambda each: not -least < each - interval < least)]

    def _stepped(self, run: Run, apart: Sequence[int]) -> List[Run]:
        """The run, or its parts if all that follow a pulse come late or early by a step too small to end a run."""
        found: List[Run] = []
        first = run.first
        for after in self._after_odd(run, apart):
            if min(after - first, run.last - after + 1) >= limits.SIDE:
                fewest = min(after - first, run.last - after + 1)
                if abs(self._step_at(first, after, run.last)) >= self._least_step_beside(fewest):
                    found.append(run_of(first, after))
                    first = after
        return found + [run_of(first, plus(run.last, 1))]

    def _parted(self, run: Run) -> List[Run]:
        """The run, or the parts of it that have one phase each."""
        return [run] if run.count < limits.LONG_RUN else _parts(run, turns(self.text(run)))

    def parted_near(self, run: Run, begins: bool) -> List[Run]:
        """The same for a run without a whole frame. Its phase follows from the run before it if that `begins` it, or else from
        the one after it."""
        if run.count < limits.LONG_RUN or run.lead < limits.LEAST_LEAD or run.glued or run.ends:
            return [run]
        found = _parts(run, turn_near(self.text(run), run.place % ELEMENTS, begins))
        return list(map(self.fit, found)) if len(found) > 1 else [run]

    def text(self, run: Run) -> str:
        """The classes of its pulses."""
        return self.classes[run.first:run.last + 1]

    def _step_at(self, first: PulseIndex, after: PulseIndex, last: PulseIndex) -> float:
        """By how much the pulses from `after` on come late, by those near it on both sides."""
        if self.wander:
            return Sides(self.rises, self.near).late_by((first, last), after - 1, after, self.reach, self.wander.hop(1))
        rises, many = self.rises, min(after - first, last - after + 1, limits.NEAR)
        low, high = max(first, after - limits.FAR), min(last, after + limits.FAR - 1)
        interval = (rises[after - 1] - rises[low] + rises[high] - rises[after]) / (high - low - 1)
        before = statistics.median([rises[after - 1 - k] + k * interval for k in range(many)])
        beyond = statistics.median([rises[after + k] - k * interval for k in range(many)])
        return beyond - before - interval

    def fit(self, run: Run) -> Run:
        """The run with when its ends should rise, and the interval there."""
        if self.wander:
            return self._fit_local(run)
        rises, near = self.rises, (min(run.count, limits.NEAR) - 1) // 2 * 2 + 1
        begin = statistics.median_low([rises[run.first + k] - k * self.interval for k in range(near)])
        end = statistics.median_low([rises[run.last - k] + k * self.interval for k in range(near)])
        found = replace(run, begin=begin, end=end)
        if run.count <= limits.LOCAL or self.exact:
            return found
        far = min(run.count - 1, limits.FAR)
        first, last = (rises[run.first + far] - begin) / far, (end - rises[run.last - far]) / far
        return replace(found, begin_interval=first, end_interval=last)

    def _fit_local(self, run: Run) -> Run:
        """The same by the pulses of the run alone, if they are not too few."""
        begin, begins = self.reach.end(self.rises, run.first, 1, run.count, self.near(run.first))
        end, ends = self.reach.end(self.rises, run.last, -1, run.count, self.near(run.last))
        if run.count < limits.LEAST_LOCAL and not self.curve:
            return replace(run, begin=begin, end=end)
        return replace(run, begin=begin, end=end, begin_interval=begins, end_interval=ends)

    def _strays_of(self, run: Run) -> Iterator[Tuple[PulseIndex, Microseconds]]:
        """The pulses of a run whose rise is off, by those on both sides of each, and when it should be. One that is cut by the begin
        of the recording is not."""
        rises, least, side = self.rises, self.least_stray, limits.SIDE // 2 + 1
        if run.count < (limits.LEAST_LOCAL if self.wander else 2 * side + 1):
            return
        for first, way, clocks in self._ends_of(run):
            for far in range(side):
                rise = rises[first + way * far]
                off = min((rise - begin - way * far * interval for begin, interval in clocks), key=abs)
                if abs(off) > least and rise > 0:
                    yield plus(first, way * far), Microseconds(round(rise - off))
        low, beyond = run.first + side, run.last - side + 1
        apart = set(self.listing.apart[low - 1:beyond])
        if not apart or max(apart) - min(apart) <= least:  # no two are more different
            return
        bends = list(map(sub, self.listing.apart[low:beyond], self.listing.apart[low - 1:beyond - 1]))
        for at in map(low.__add__, places_of(bends, lambda each: not -least <= each <= least)):
            due = statistics.median([(rises[at - far] + rises[at + far]) / 2 for far in range(1, side + 1)])
            if abs(rises[at] - due) > least:
                yield PulseIndex(at), Microseconds(round(due))

    def _ends_of(self, run: Run) -> Iterator[Tuple[PulseIndex, int, List[Tuple[float, float]]]]:
        """Its first and its last pulse, the way into the run, and when each should rise, with the interval there. A clock that wanders says
        that in two ways: by the pulses that are best over holes of all lengths, and by those that are best over one element."""
        for at, way, due, interval in ((run.first, 1, run.begin, run.begin_interval), (run.last, -1, run.end, run.end_interval)):
            near = [self.wander.hop(1).end(self.rises, at, way, run.count, self.near(at))] if self.wander else []
            yield at, way, [(due, interval or self.near(at)), *near]

    def near(self, pulse: int) -> float:
        """The interval after a pulse, as far as all distances near it say it."""
        return self.curve[max(0, min(pulse, len(self.curve) - 1))] if self.curve else self.interval

    def interval_between(self, left: Optional[Run], right: Optional[Run]) -> float:
        """The interval near these two runs."""
        if self.wander and left and right:
            hop = self.wander.hop((right.begin - left.end) / self.interval)
            before = hop.end(self.rises, left.last, -1, left.count, self.near(left.last))[1]
            return (before + hop.end(self.rises, right.first, 1, right.count, self.near(right.first))[1]) / 2
        known = [each for each in (left and left.end_interval, right and right.begin_interval) if each]
        found = sum(known) / len(known) if known else self.interval
        if self.wander:
            return found
        return self.nominal if self.interval == self.nominal and self._is_near(found) else found

    def slack(self, steps: float, fewest: int = limits.BESIDE) -> float:
        """How far two runs on one clock may be off after that many steps."""
        return min(self._most_slack(), self.margin + self.over(steps, fewest))

    def _most_slack(self) -> float:
        """How far they may be off at most: where a clock wanders more than an element may pass, or none, where one is lost."""
        return (limits.MOST_WANDER if self.wander else limits.MOST_SLACK) * self.nominal

    def on_one_clock(self, left: Run, right: Run) -> bool:
        """Whether two runs, not far apart, are a whole number of intervals apart."""
        distance, interval = right.begin - left.end, self.interval_between(left, right)
        steps = round(distance / interval)
        off = abs(distance - steps * interval)
        return 0 < steps <= limits.NEAR_RUNS and off <= self.slack(steps, min(left.count, right.count))

    def stray_over(self, steps: float) -> float:
        """How far one rise may be off in a hole of that many elements."""
        if not self.wander:
            return self.stray
        return max(self.stray, min(limits.LOCAL_STRAY * self.nominal, self.stray + self.wander.over(steps)))

    def stray_at_end(self, fewest: int, stray: float) -> float:
        """How far the rise at an end of a run may be off, if that of a single pulse there may be off by `stray`: as far as in the run,
        and as what its pulses say of its end can be off itself. The runs there have at least that many pulses."""
        return max(stray, self.least_stray, stray + self.over(1, fewest))

    def least_late(self, steps: int, fewest: int = limits.BESIDE) -> float:
        """A rest that is less late than this is left as it is."""
        if self.wander and fewest < limits.BESIDE:  # few pulses do not show more than whether they are in step
            return self.slack(steps, fewest)
        spread = max(self._least_seen(), limits.SPREADS * self.noise) + self.over(steps, fewest)
        least = 1 if self.exact else min(self._most_slack(), spread)
        return max(least, limits.BY_GRID * self.grid)
