"""Parts of a picture: texts, a time axis, a strip of stretches, a waveform."""
from bisect import bisect_right
from collections.abc import Iterator, Sequence
from dataclasses import dataclass

from .sheet import LETTERS, STATES, Stretch, Wave
from .texts import escaped

LEFT, RIGHT = 20, 1000                  # in pixels
GROUND, INK, FAINT, WAVE, GRID, TINT = "#ffffff", "#24292f", "#57606a", "#0b5394", "#e3e7eb", "#ffe3b3"
COLOURS = {"sound": "#9cc3e6", "damaged": "#e69f00", "lost": "#b3261e"}
BAND, OUT = 24, 7       # height of a strip; how far damaged frames rise above it, lost ones below
NARROW, WIDE = 9, 40    # pixels that an interval takes at least if classes, and if widths, are written
UNITS = ((1000000, "seconds"), (1000, "milliseconds"), (1, "microseconds"))     # of an axis


@dataclass(frozen=True)
class Scale:
    """The time that a picture shows from its left end to its right end."""

    start: int
    end: int

    def x(self, time: int) -> float:
        """Where a time is, in pixels from the left; what is outside is at the end."""
        inside = min(max(time, self.start), self.end)
        return LEFT + (RIGHT - LEFT) * (inside - self.start) / (self.end - self.start)

    def room(self, time: int) -> float:
        """How many pixels that much time takes."""
        return (RIGHT - LEFT) * time / (self.end - self.start)


def text(x: float, y: float, size: int, words: str, anchor: str = "middle", more: str = "") -> str:
    """A line of text."""
    return '<text x="%.1f" y="%d" font-size="%d" text-anchor="%s"%s>%s</text>' % (
        x, y, size, anchor, more, escaped(words))


def rect(x: float, y: int, width: float, height: int, fill: str) -> str:
    """A bar."""
    return '<rect x="%.4g" y="%d" width="%.4g" height="%d" fill="%s"/>' % (x, y, width, height, fill)


def step_of(span: int, most: int) -> int:
    """The distance of two marks of an axis: 1, 2 or 5 and zeros, and at most that many marks."""
    step = 1
    while span > step * most:
        step = step * 5 // 2 if str(step)[0] == "2" else step * 2
    return step


def axis(scale: Scale, top: int, bottom: int) -> Iterator[str]:
    """The marks of time with their unit, and a line from top to bottom at each."""
    span = scale.end - scale.start
    step = step_of(span, 9)
    size, unit = next(entry for entry in UNITS if span >= 2 * entry[0] or entry[0] == 1)
    places = max(0, len(str(size)) - len(str(step)))
    for time in range(-(-scale.start // step) * step, scale.end + 1, step):
        x = scale.x(time)
        yield '<path d="M%.1f %dV%d" stroke="%s"/>' % (x, top, bottom + 4, GRID)
        yield text(x, bottom + 18, 12, "%.*f" % (places, time / size), "start" if x < LEFT + 30 else
                   "end" if x > RIGHT - 30 else "middle")
    yield text((LEFT + RIGHT) / 2, bottom + 34, 12, "time in " + unit, more=' fill="%s"' % FAINT)


def columns(stretches: Sequence[Stretch], scale: Scale) -> Iterator[tuple[int, int, str]]:
    """The stretches by whole pixels: first, last and worst state of each run of pixels of the same state."""
    worst = [-1] * (RIGHT - LEFT)
    for stretch in stretches:
        first = min(int(scale.x(stretch.start)) - LEFT, len(worst) - 1)
        last = max(first + 1, int(scale.x(stretch.end)) - LEFT)
        rank = STATES.index(stretch.state)
        worst[first:last] = [max(rank, before) for before in worst[first:last]]
    ends = [x for x in range(1, len(worst)) if worst[x] != worst[x - 1]] + [len(worst)]
    for first, last in zip([0] + ends, ends):
        if worst[first] >= 0:
            yield LEFT + first, LEFT + last, STATES[worst[first]]


def strip(stretches: Sequence[Stretch], scale: Scale, top: int) -> Iterator[str]:
    """A band of stretches. Damaged ones rise above it, lost ones reach below: no colour is needed."""
    yield '<rect x="%d" y="%d" width="%d" height="%d" fill="none" stroke="%s"/>' % (
        LEFT, top, RIGHT - LEFT, BAND, FAINT)
    for first, last, state in columns(stretches, scale):
        yield bar(first, top, last - first, state)


def bar(x: int, top: int, width: int, state: str) -> str:
    """One stretch of a band."""
    return rect(x, top - OUT * (state == "damaged"), width, BAND + OUT * (state != "sound"), COLOURS[state])


def edges(wave: Wave) -> list[int]:
    """The times at which the level turns over; it is low at first."""
    return [time for rise, fall, _ in wave for time in (rise, fall)]


def differences(before: Wave, after: Wave, scale: Scale) -> list[tuple[int, int]]:
    """The stretches in which the levels of two waves differ; those that are close to each other are one."""
    sides = edges(before), edges(after)
    times = sorted({scale.start, scale.end} | {time for side in sides for time in side
                                               if scale.start < time < scale.end})
    found: list[tuple[int, int]] = []
    for first, second in zip(times, times[1:]):
        if (bisect_right(sides[0], first) - bisect_right(sides[1], first)) % 2:
            close = bool(found) and first - found[-1][1] <= (scale.end - scale.start) // 100
            found[-1:] = [(found[-1][0], second)] if close else found[-1:] + [(first, second)]
    return found


def wave_path(wave: Wave, scale: Scale, floor: int, high: int) -> str:
    """The line of a waveform whose low level is at the floor, with at most four edges on a pixel."""
    turns = edges(wave)
    level = bisect_right(turns, scale.start) % 2
    drawn: list[float] = []
    for time in turns[bisect_right(turns, scale.start):bisect_right(turns, scale.end - 1)]:
        x = scale.x(time)
        if len(drawn) >= 4 and int(drawn[-4]) == int(x):
            drawn.pop()                 # and the one that is not drawn: the level after both is as before
        else:
            drawn.append(x)
    path = ["M%d %d" % (LEFT, floor - high * level)]
    path += ["H%.1fV%d" % (x, floor - high * ((level + count) % 2)) for count, x in enumerate(drawn, 1)]
    return '<path d="%sH%d" fill="none" stroke="%s" stroke-width="1.4"/>' % ("".join(path), RIGHT, WAVE)


def wave_labels(wave: Wave, scale: Scale, interval: int, floor: int, high: int) -> Iterator[str]:
    """The class of each pulse above it and its width in microseconds below it, as far as there is room."""
    last_class, last_width = float(LEFT - 20), float(LEFT - 60)
    for rise, fall, name in wave:
        middle = (scale.x(rise) + scale.x(fall)) / 2
        if fall <= scale.start or rise >= scale.end:
            continue
        if scale.room(interval) >= NARROW and middle - last_class >= NARROW:
            strong = ' font-weight="bold" fill="%s"' % COLOURS["lost"] if name == "bad" else ""
            yield text(middle, floor - high - 5, 12, LETTERS[name], more=strong)
            last_class = middle
        whole = scale.start < rise and fall < scale.end
        if whole and scale.room(interval) >= WIDE and middle - last_width >= WIDE:
            yield text(middle, floor + 14, 11, str(fall - rise), more=' fill="%s"' % FAINT)
            last_width = middle
