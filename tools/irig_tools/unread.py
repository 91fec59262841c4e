"""What is on a wire if no frame of it is fine: the threshold is wrong, or each frame is damaged. The position identifiers say where
the frames are, and all of them together which time they have; so the expression is the one under which most of them fit."""
from __future__ import annotations

from collections import Counter
from dataclasses import replace
from typing import Iterator, NamedTuple, Tuple

from . import limits
from .analysis import examine
from .editor import Listing
from .frames import Times
from .layout import Layout
from .threshold import levelled, ten_apart


class Led(NamedTuple):
    """Frames that fit the time to which all lead together, the elements that are against it, and the years."""

    frames: int
    against: int
    years: Counter[str]


def led(listing: Listing, kind: str, expression: int) -> Led:
    """What the first pulses of a listing lead to under an expression."""
    many, layout = limits.MOST_UNREAD, Layout(kind, expression)
    beyond = listing.rises[many:many + 1]
    some = replace(listing, kind=kind, expression=expression, rises=listing.rises[:many], falls=listing.falls[:many],
                   classes=listing.classes[:many], length=beyond[0] if beyond else listing.length)
    some = levelled(some, layout)
    if ten_apart(some.classes) <= limits.SOME_TEN_APART * some.classes.count("P"):  # which would take long, and lead to nothing
        return Led(0, 0, Counter())
    found = [each for part in examine(some).parts for each in _frames_that_fit(part.times)]
    return Led(len(found), sum(against for against, _ in found), Counter(year for _, year in found if layout.with_year))


def _frames_that_fit(times: Times) -> Iterator[Tuple[int, str]]:
    """Of each frame that fits, how many elements are against its time, and its year: at least half of the elements of its time are
    there, hardly one is another, and none is used that the expression has not."""
    for number, base in times.bases.items():
        if base is not None and not any(times.texts[number][element] == "1" for element in times.layout.unused):
            agree, against = times.counted(number, base)
            if 2 * agree >= len(times.layout.carried) and against <= limits.MOST_CONTRARY:
                yield against, "%02d" % times.calendar.fields(times.calendar.moment(number, base)).get("year", 0)
