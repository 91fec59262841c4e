"""Draws a recording as a picture (SVG): the whole as a strip, and below it places of damage as waveforms."""
import textwrap
from collections.abc import Iterator

from .sheet import STATES, Place, Sheet, facts_of, time_in, window
from .svg import (BAND, FAINT, GRID, GROUND, INK, LEFT, OUT, RIGHT, TINT, WIDE, Scale, axis, bar, differences,
                  rect, strip, text, wave_labels, wave_path)
from .texts import counted, escaped, plain, seconds

MOST_DRAWN = 12                         # places that are drawn
LINE = 17                               # height of a line of text
HIGH, ROW = 30, 84                      # height of a pulse, and of a waveform with its labels
AXIS = 46                               # height of the numbers of an axis
COLUMNS = 150                           # letters on a line of text

Block = tuple[int, list[str]]           # a height, and what is drawn there from 0 on


def picture(sheet: Sheet, most: int = MOST_DRAWN) -> str:
    """The picture of a recording, with its first places of damage."""
    parts: list[str] = []
    y = 0
    for height, drawn in blocks(sheet, most):
        parts += ['<g transform="translate(0 %d)">' % y, *drawn, "</g>"]
        y += height
    head = ['<svg xmlns="http://www.w3.org/2000/svg" role="img" viewBox="0 0 %d %d"' % (LEFT + RIGHT, y),
            ' font-family="sans-serif" fill="%s">' % INK,
            "<title>%s</title>" % escaped(title(sheet)),
            rect(0, 0, LEFT + RIGHT, y, GROUND)]
    return "\n".join(head + parts + ["</svg>", ""])


def title(sheet: Sheet) -> str:
    """What the picture shows, in words, for readers who cannot see it."""
    states = ", ".join("%s %s" % (state, seconds(time_in(sheet, state))) for state in STATES)
    return "%s, %s: %s; %s of damage" % (
        sheet.name, seconds(sheet.length), states, counted(len(sheet.places), "place"))


def blocks(sheet: Sheet, most: int) -> Iterator[Block]:
    """The parts of the picture from above to below."""
    yield 26, [text(LEFT, 20, 16, shortened(sheet.name), "start", ' font-weight="bold"')]
    yield from lines_of(["%s, %s of damage" % (facts_of(sheet), counted(len(sheet.places), "place")), *sheet.notes])
    yield overview(sheet, min(most, len(sheet.places)))
    yield legend_block(sheet)
    for number, place in enumerate(sheet.places[:most], 1):
        yield from place_blocks(sheet, number, place)
    if len(sheet.places) > most:
        yield from lines_of(["%s more not drawn here" % counted(len(sheet.places) - most, "place")])
    yield 10, []


def shortened(words: str, most: int = 100) -> str:
    """Words with at most that many letters, on one line."""
    words = " ".join(plain(words).split())
    return words if len(words) <= most else words[:most // 2] + " … " + words[3 - most // 2:]


def lines_of(texts: list[str]) -> Iterator[Block]:
    """Texts, each on as many lines as it needs."""
    for words in texts:
        for line in textwrap.wrap(plain(words), COLUMNS):
            yield LINE, [text(LEFT, 13, 12, line, "start")]


def overview(sheet: Sheet, count: int) -> Block:
    """The whole recording as a strip, with the numbers of the places that are drawn below."""
    scale = Scale(0, max(1, sheet.length))
    top = 24 + OUT
    drawn = list(axis(scale, top, top + BAND + OUT)) + list(strip(sheet.stretches, scale, top))
    last = LEFT - 20.0
    for number, place in enumerate(sheet.places[:count], 1):
        x = scale.x(place.at)
        drawn.append('<path d="M%.1f %dv-6" stroke="%s"/>' % (x, top - OUT - 2, INK))
        if x - last >= 16:
            drawn.append(text(x, top - OUT - 11, 11, str(number)))
            last = x
    return top + BAND + OUT + AXIS, drawn


def legend_block(sheet: Sheet) -> Block:
    """What the bars of the strip mean, with the time that is of each kind."""
    drawn = []
    for column, state in enumerate(STATES):
        words = "%s: %s" % (state, seconds(time_in(sheet, state)))
        x = LEFT + 190 * column
        drawn += [bar(x, 10, 14, state), text(x + 22, 27, 12, words, "start")]
    return 50, drawn


def place_blocks(sheet: Sheet, number: int, place: Place) -> Iterator[Block]:
    """A place: what it is, why it is repaired so, and its waveforms."""
    rule = '<path d="M%d 4H%d" stroke="%s"/>' % (LEFT, RIGHT, GRID)
    words = shortened("%d. %s" % (number, place.title), 70)
    times = "from %s to %s" % (seconds(place.at), seconds(place.end))
    yield 30, [rule, text(LEFT, 25, 14, words, "start", ' font-weight="bold"'),
               text(RIGHT, 25, 12, times, "end")]
    yield from lines_of([place.reason] if place.frame in place.reason else [place.frame, place.reason])
    yield waveforms(sheet, place)


def waveforms(sheet: Sheet, place: Place) -> Block:
    """The waveform of a place, and that after the repair."""
    scale = Scale(*window(sheet, place))
    widths = ", widths in µs" if scale.room(sheet.interval) >= WIDE else ""
    rows = [("as it is" + widths, place.before)]
    if place.after is not None:
        rows.append(("after the repair", place.after))
    bottom = 8 + ROW * len(rows)
    drawn = []
    for first, second in tinted(place, scale):
        x, width = scale.x(first), scale.x(second) - scale.x(first)
        drawn.append(rect(x - max(0, 3 - width) / 2, 8, max(3, width), bottom - 8, TINT))
    drawn += axis(scale, 8, bottom)
    for row, (name, wave) in enumerate(rows):
        floor = 8 + ROW * (row + 1) - 22
        drawn.append(wave_path(wave, scale, floor, HIGH))
        drawn += wave_labels(wave, scale, sheet.interval, floor, HIGH)
        drawn.append(text(LEFT, floor - HIGH - 19, 11, name, "start", ' fill="%s"' % FAINT))
    return bottom + AXIS, drawn


def tinted(place: Place, scale: Scale) -> list[tuple[int, int]]:
    """What a reader has to look at: what a repair changes, or the damage if there is none."""
    if place.after is None:
        return [(place.at, place.end)]
    return differences(place.before, place.after, scale)
