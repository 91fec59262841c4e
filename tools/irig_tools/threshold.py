"""A threshold that makes every pulse longer, or every pulse shorter."""
from __future__ import annotations

import re
from collections import Counter
from dataclasses import replace
from typing import Dict, List, Mapping, Tuple

from . import limits
from .edit import Edit, of_pulse, repair_of
from .editor import Listing
from .kinds import DamageKind
from .layout import NAMES, READABLE, SHARE, Layout
from .script import Repair
from .units import Microseconds, PulseIndex, plus


TEN_ON = re.compile("P(?=[^P]{9}P)")


def ten_apart(classes: str) -> int:
    """How many position identifiers have the next one ten pulses on."""
    return len(TEN_ON.findall(classes))


def _peaks(shift: int) -> List[Tuple[str, int]]:
    """(Class, width) in hundredths of an interval, if every pulse is that much longer; none gets as long as the interval."""
    return [(name, min(limits.WIDEST_PEAK, round(100 * share) + shift)) for name, share in SHARE.items()]


def _find_shift(widths: Mapping[int, int]) -> int:
    """By how many hundredths of an interval all are longer, by how often each width is found."""

    def near(shift: int) -> int:
        return sum(
            many * max(0, limits.PEAK - min(abs(width - peak) for _, peak in _peaks(shift)))
            for width, many in widths.items()
        )

    return max(limits.THRESHOLD_SHIFTS, key=near)


def _classes_by(shift: int) -> Dict[int, str]:
    return {
        width: name
        for name, peak in _peaks(shift)
        for width in range(max(1, peak - limits.AT_PEAK), min(99, peak + limits.AT_PEAK) + 1)
    }


def levelled(listing: Listing, layout: Layout) -> Listing:
    """The listing with each pulse as it is forced, if the threshold of the whole recording is wrong."""
    falls, classes, names = list(listing.falls), list(listing.classes), {word: name for name, word in NAMES.items()}
    for repair in level(listing, layout):
        for edit in repair.edits:
            number, _, word = edit.split()
            pulse = int(number) - 1
            classes[pulse] = names[word]
            falls[pulse] = plus(listing.rises[pulse], round(SHARE[classes[pulse]] * layout.interval))
    return replace(listing, falls=falls, classes="".join(classes))


def level(listing: Listing, layout: Layout) -> List[Repair]:
    """Gives each pulse the class that its width has among all others, if the classes as they are make few frames."""
    if listing.classes.count("b") < limits.SOME_BAD * len(listing.classes):
        return []
    interval = layout.interval
    widths = [min(100, 100 * (fall - rise) // interval) for rise, fall in zip(listing.rises, listing.falls)]
    shift = _find_shift(Counter(widths))
    class_of = _classes_by(shift)
    classes = "".join([class_of.get(width, "b") for width in widths])
    gained = _gained(listing.classes, classes)
    if abs(shift) < limits.LEAST_SHIFT or not gained or classes.count("b") > limits.MOST_BAD * len(classes):
        return []
    way, cause = ("longer", "low") if shift > 0 else ("shorter", "high")
    why = (
        "every pulse is %d %s than its nominal width, as if the threshold was too %s: with widths moved by "
        "that %s; each pulse gets its own class" % (abs(shift) * interval // 100, way, cause, gained)
    )
    edits, again = _forced(listing, layout, classes), "pulses that are %s, as above" % way
    groups = [edits[at:at + limits.MOST_EDITS] for at in range(0, len(edits), limits.MOST_EDITS)]
    return [repair_of(DamageKind.THRESHOLD, Microseconds(0), [again if number else why], group) for number, group in enumerate(groups)]


def _gained(before: str, after: str) -> str:
    """What other classes of the pulses lead to, if they fit far better than those that they have."""
    read = [len(READABLE.findall(classes)) for classes in (before, after)]
    if any(read):
        return "%d frames can be read, without %d" % (read[1], read[0]) if read[1] > 2 * read[0] else ""
    apart = [ten_apart(classes) for classes in (before, after)]
    if apart[1] <= 2 * apart[0] or apart[1] < limits.TEN_APART * after.count("P"):
        return ""
    return "%d position identifiers are ten apart, without %d" % (apart[1], apart[0])


def _forced(listing: Listing, layout: Layout, classes: str) -> List[Edit]:
    """The edits for all pulses that have a class and room for it."""
    beyond = [*listing.rises[1:], listing.length + 1]
    return [
        of_pulse("force", PulseIndex(pulse), NAMES[name])
        for pulse, (name, rise, end) in enumerate(zip(classes, listing.rises, beyond))
        if name != "b" and rise + SHARE[name] * layout.interval < end
    ]
