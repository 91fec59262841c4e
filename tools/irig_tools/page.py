"""Writes a recording as one HTML page: a strip that zooms, the places of damage, and the script of repairs.

The page needs no network and no library. Its skeleton, its style and its code are the files next to this one.
"""
import base64
import hashlib
import json
import re
from collections.abc import Iterator, Mapping, Sequence
from pathlib import Path

from .sheet import STATES, Changes, Place, Sheet, Wave, facts_of, merged, time_in, window
from .texts import counted, escaped, plain, seconds
from .units import ELEMENTS

FILES = Path(__file__).resolve().parent
CODE = ("page_time.js", "page_strip.js", "page_wave.js", "page_place.js", "page_changes.js", "page.js")
MOST_LISTED = 2000                      # places that a page holds
PULSES = 30000                          # pulses that a page holds, about
CAPS = (400, 200, 100, 60, 40)          # and how many of one waveform: the first that keeps to that
DIGITS = "0123456789abcdefghijklmnopqrstuvwxyz"


def page(sheet: Sheet, most: int = MOST_LISTED) -> str:
    """The page of a recording, with its first places of damage."""
    code = "".join(file_text(name) for name in CODE)
    style = file_text("page.css")
    policy = "default-src 'none'; script-src 'sha256-%s'; style-src 'sha256-%s'"
    parts = {
        "POLICY": policy % (digest(code), digest(style)),
        "TITLE": escaped(sheet.name),
        "RESULT": escaped(sheet.summary or "%s: %s of damage" % (sheet.name, counted(len(sheet.places), "place"))),
        "MADE": escaped(sheet.made),
        "FACTS": escaped(facts_of(sheet)),
        "NOTES": "".join("<p>%s</p>" % escaped(note) for note in sheet.notes),
        "LISTED": "".join(listed_places(sheet, most)),
        "TITLED": counted(len(sheet.places), "place") if sheet.places else "No place of damage",
        "LEGEND": "".join(legend_items(sheet)),
        "CHANGES": changed(sheet.changes) if sheet.changes else "",
        "STYLE": style,
        "CODE": code,
        "DATA": data(sheet, most),
    }
    return filled("page.html", parts)


def filled(name: str, parts: Mapping[str, str]) -> str:
    """A skeleton with its parts."""
    return re.sub("@([A-Z]+)@", lambda found: parts[found[1]], file_text(name))


def file_text(name: str) -> str:
    """What a file next to this one holds."""
    return (FILES / name).read_text(encoding="utf-8")


def digest(code: str) -> str:
    """What a browser compares before it runs code: nothing else on the page is ever run."""
    return base64.b64encode(hashlib.sha256(code.encode()).digest()).decode()


def listed_places(sheet: Sheet, most: int) -> Iterator[str]:
    """The places as a browser without JavaScript shows them."""
    for place in sheet.places[:most]:
        state = "left to you" if place.is_left else "repaired" if sheet.changes else "repair proposed" if sheet.script else ""
        words = [seconds(place.at) + (", " + place.frame) * bool(place.frame), place.title, state]
        yield "<li>%s</li>" % escaped(": ".join(word for word in words if word))


def legend_items(sheet: Sheet) -> Iterator[str]:
    """What the bars of the strip mean, with the time that is of each kind; those of a repair are as they were before it."""
    when = "before, " if sheet.changes else ""
    for state in STATES:
        yield '<li><span class="key %s"></span>%s%s: %s</li>' % (state, when, state, escaped(seconds(time_in(sheet, state))))
    if sheet.changes:
        yield '<li><span class="key changed"></span>changed: %s; up is now high, down is now low</li>' % (
            escaped(counted(sheet.changes.stretches, "stretch", "stretches")))


def changed(changes: Changes) -> str:
    """The part of the page that says what was changed."""
    differ = "The recording and the repaired one differ in %s, %s in all. At every other microsecond they are the same." % (
        counted(changes.stretches, "stretch", "stretches"), counted(changes.time, "microsecond"))
    more = changes.stretches - len(changes.levels)
    parts = {
        "FACTS": differ if changes.stretches else "Nothing was changed: the levels are the same at every microsecond.",
        "COMMAND": escaped(changes.command),
        "MORE": "%s more %s not in this list, but in the strip. The command prints them." % (
            format(more, ","), "is" if more == 1 else "are") if more else "",
    }
    return filled("page_changes.html", parts)


def data(sheet: Sheet, most: int) -> str:
    """All that the code shows, as JSON that can be part of a page."""
    places = sheet.places[:most]
    pulses = cap([len(wave) for place in places for wave in (place.before, place.after or ())])
    starts = parts_of(sheet.script, places)
    found: dict[str, object] = {
        "length": max(1, sheet.length),
        "interval": sheet.interval,
        "frame": ELEMENTS * sheet.interval,
        "strip": strip_words(sheet),
        "places": [place_data(sheet, place, start, pulses) for place, start in zip(places, starts)],
        "more": len(sheet.places) - len(places),
        "left": sum(place.is_left for place in sheet.places),
        "script": [plain(line) for line in sheet.script],
        "clock": sheet.clock,
    }
    if sheet.changes:
        kept = sheet.changes
        found["changes"] = {"command": plain(kept.command), "count": kept.stretches,
                            "lines": [plain(line) for line in kept.lines], "levels": kept.levels, "rest": rest_words(kept)}
    words = json.dumps(found, ensure_ascii=False, separators=(",", ":"))
    return words.replace("<", "\\u003c").replace("\u2028", "\\u2028").replace("\u2029", "\\u2029")


def cap(lengths: Sequence[int]) -> int:
    """How many pulses of a waveform a page holds, if it has waveforms of these lengths."""
    fits = (most for most in CAPS if sum(min(length, most) for length in lengths) <= PULSES)
    return next(fits, CAPS[-1])


def place_data(sheet: Sheet, place: Place, start: int, pulses: int) -> dict[str, object]:
    """What the code shows of a place; its lines by their number in the script, if they are there."""
    found: dict[str, object] = {
        "at": place.at, "end": place.end, "window": window(sheet, place),
        "title": plain(place.title), "reason": plain(place.reason), "frame": plain(place.frame),
        "before": wave_words(place.before, pulses),
    }
    if place.after is not None:
        found["after"] = wave_words(place.after, pulses)
    if place.is_left:
        found["left"] = True
    if start >= 0:
        found["part"] = [start, len(place.lines)]
    elif place.lines:
        found["lines"] = [plain(line) for line in place.lines]
    return found


def parts_of(script: Sequence[str], places: Sequence[Place]) -> list[int]:
    """Where the lines of each place begin in the script, from 0; -1 if they are not there."""
    numbers: dict[str, list[int]] = {}
    for number, line in enumerate(script):
        numbers.setdefault(line, []).append(number)
    return [part_of(script, place.lines, numbers) for place in places]


def part_of(script: Sequence[str], lines: Sequence[str], numbers: dict[str, list[int]]) -> int:
    """Where some lines begin in the script. Their rarest line is looked for first."""
    if not lines:
        return -1
    rarest = min(range(len(lines)), key=lambda index: len(numbers.get(lines[index], ())))
    for number in numbers.get(lines[rarest], ()):
        start = number - rarest
        if start >= 0 and tuple(script[start:start + len(lines)]) == tuple(lines):
            numbers[lines[rarest]].remove(number)
            numbers[lines[rarest]].append(number)       # the next place with the same lines has the next ones
            return start
    return -1


def digits(number: int) -> str:
    """A number, at least 0, to the base 36."""
    words = DIGITS[number % 36]
    while number >= 36:
        number //= 36
        words = DIGITS[number % 36] + words
    return words


def strip_words(sheet: Sheet) -> str:
    """Each stretch as a letter and its length; - is a gap."""
    words, last = [], 0
    for stretch in merged(sheet.stretches):
        if stretch.start > last:
            words.append("-" + digits(stretch.start - last))
        words.append(stretch.state[0].upper() + digits(stretch.end - stretch.start))
        last = stretch.end
    return "".join(words)


def rest_words(changes: Changes) -> str:
    """The stretches that are not listed: the time since the one before, + if it is now high, - if it is now low, and its length;
    for several together a star, and after dots how many are now high and how many now low."""
    words, last = [], 0
    for start, end, highs, lows in changes.rest:
        sign = "*" if highs + lows > 1 else "+" if highs else "-"
        counts = ".%s.%s" % (digits(highs), digits(lows)) if sign == "*" else ""
        words.append(digits(start - last) + sign + digits(end - start) + counts)
        last = end
    return " ".join(words)


def wave_words(wave: Wave, most: int) -> str:
    """The pulses, each as the time since the fall before it, the letter of its class, and its width.

    If there are too many, those in the middle are left out, and a star and their number are there instead.
    """
    skipped = range(most * 3 // 4, len(wave) - most // 4) if len(wave) > most else range(0)
    words, last = [], 0
    for number, (rise, fall, name) in enumerate(wave):
        if number in skipped:
            if number == skipped[0]:
                words.append("*" + digits(len(skipped)))
            continue
        words.append("%s%s%s" % (digits(rise - last), name[0].upper(), digits(fall - rise)))
        last = fall
    return " ".join(words)
