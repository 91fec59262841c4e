"""Time code on a carrier: its phase gives the time, the amplitude of each cycle the level.

The pulses begin and end where the carrier crosses zero upward. Its phase is followed through all changes of the speed, over
many cycles at a time, so it says where each cycle begins far better than one crossing does. The amplitude is then measured
over each such cycle.

If plus and minus are swapped, the pulses begin and end where the carrier crosses zero downward. At first
the cycles are read in both ways. In the right way the amplitude steps between two cycles; in the other way
it does so in the middle of one.
"""
from __future__ import annotations

import math
from typing import Iterator, List, Optional, Sequence, Tuple

from .cycles import Cycles, Edge
from .editor import Problem
from .layout import INTERVAL
from .quadrature import Sines, Window
from .samples import Samples
from .tracking import NEAR_CYCLES, Piece, Tracker

CARRIERS = {"A": (10000,), "B": (1000,), "E": (100, 1000)}
CYCLES = 500  # in a stretch that is read at once
HALF = 10  # cycles of a carrier of 1,000 Hz in half a window; of another one the root of that
BACK = 4  # windows: what comes so long before a stretch is looked at again, with what is judged together
FEWEST_SAMPLES = 4  # samples in a cycle
MOST_SAMPLES = 1 << 20  # samples in a stretch: some hundreds of megabytes
SOON_STEPS, LATE_STEPS = 50, 1000  # steps of the amplitude: the way can be chosen, and has to be
FEW = 20  # steps; fewer in a whole recording do not show the way
SHARP = 0.75  # of the steps, in the right way
GAP = 10  # elements without a carrier that are named
USUAL = 48  # samples in a cycle: enough
FEW_SAMPLES = "%d samples a second are too few for a carrier of %d Hz: it needs at least %d"
MANY_SAMPLES = "%d samples a second are too many for a carrier of %d Hz; 'sox FILE -r %d NEW.wav' makes fewer of a WAV file"


class Carrier:
    """Turns samples into edges, a stretch at a time. `gaps` are the stretches without a carrier, in samples.

    If `swapped` is None, the signal shows whether plus and minus are."""

    def __init__(self, samples: Samples, hertz: int, kind: str = "B", swapped: Optional[bool] = None) -> None:
        self.samples, self.hertz = samples, hertz
        self.cycle = samples.rate / hertz  # in samples
        if self.cycle < FEWEST_SAMPLES:
            raise Problem(FEW_SAMPLES % (samples.rate, hertz, FEWEST_SAMPLES * hertz))
        self.size = round(CYCLES * self.cycle)
        if self.size > MOST_SAMPLES:
            raise Problem(MANY_SAMPLES % (samples.rate, hertz, USUAL * hertz))
        half = max(3, round(HALF * math.sqrt(hertz / 1000)))
        self.tracker = Tracker(samples.rate, hertz, half)
        self.back = BACK * 2 * half + 2 * NEAR_CYCLES
        self.table = Sines(samples.rate, hertz, self.size + math.ceil((self.back + 2) * self.cycle))
        self.length = 0
        self.element = min((10, 100), key=lambda cycles: abs(math.log(hertz * INTERVAL[kind] / 1e6 / cycles)))
        self.ways = [Cycles(half, self.element, way) for way in (False, True) if swapped in (None, way)]
        self.found: List[List[Edge]] = [[] for _ in self.ways]  # until one way is chosen
        self.asked = swapped is None
        self.chosen = False  # by the signal
        self.gaps: List[Tuple[int, int]] = []
        self.heard = 0.0  # up to where there was a carrier

    def edges(self) -> Iterator[Edge]:
        done = 0  # nominal cycles
        for window, final in self._windows():
            end = self.length * self.hertz // self.samples.rate
            for piece in self.tracker.feed(window.blocks(done, end), final):
                self._note(piece)
                yield from self._read(piece, window)
            done = end
        self._add_gap(self.length)
        yield from self._choose(0, 0)

    def _windows(self) -> Iterator[Tuple[Window, bool]]:
        """The stretches, each with the end of the one before, and whether it is the last."""
        kept: Sequence[float] = []
        waiting: Optional[Sequence[float]] = None
        for values in self.samples.chunks(self.size):
            if waiting is not None:
                yield self._window(kept, waiting), False
                kept = [*kept, *waiting][-round(self.back * self.cycle):]
            waiting = values
        if waiting is not None:
            yield self._window(kept, waiting), True

    def _window(self, kept: Sequence[float], values: Sequence[float]) -> Window:
        self.length += len(values)
        whole = [*kept, *values]
        return Window(self.length - len(whole), whole, self.table)

    def _note(self, piece: Piece) -> None:
        """Notes where there is a carrier."""
        if piece.opens:
            self._add_gap(piece.knots[0].time)
        self.heard = piece.knots[-1].time

    def _add_gap(self, end: float) -> None:
        if end - self.heard >= GAP * self.element * self.cycle:
            self.gaps.append((max(0, round(self.heard)), round(end)))

    def _read(self, piece: Piece, window: Window) -> Iterator[Edge]:
        """The edges in a piece; none until one way is chosen, and then those of all pieces so far."""
        if len(self.ways) == 1:
            yield from self.ways[0].edges(piece, window, self.length)
            return
        for way, found in zip(self.ways, self.found):
            new = list(way.edges(piece, window, self.length))
            way.count(new, window, self.cycle)
            found += new
        yield from self._choose(SOON_STEPS, LATE_STEPS)

    def _choose(self, soon: int, late: int) -> Iterator[Edge]:
        """Chooses the way in which most steps are sharp, or after many steps the first."""
        steps = max(way.steps for way in self.ways)
        sharp = [way for way in self.ways if way.steps >= FEW and way.sharp >= SHARP * way.steps]
        if len(self.ways) == 1 or steps < (soon if sharp else late):
            return
        self.chosen = bool(sharp)
        right = sharp[0] if sharp else self.ways[0]
        yield from self.found[self.ways.index(right)]
        self.ways, self.found = [right], []
