"""Whether a recording gives a sample a time: `irig_time` has to believe a frame of it, so another one has to bear it out, or it is the only
one that is fine."""
from __future__ import annotations

import re
from bisect import bisect_left
from typing import Iterator, List, NamedTuple

from . import limits
from .editor import Listing
from .interval import breaks
from .layout import Fields, Layout, layout_of
from .moments import CENTURY, DAY, SECOND, Calendar
from .units import ELEMENTS, Hundredths, Microseconds, PulseIndex

MARKED = re.compile("P(?=P[01]{8}P(?:[01]{9}P){9})")
FRAMES_NEAR = 2  # before a frame and after it, that can bear it out
LONGEST_APART = 495  # frame periods, over which a clock that is off by a thousandth hides their number
NO_SOUND_FRAME = "no frame is sound"
NO_SUPPORTED_FRAME = "no sound frame supports another one"
NOTHING_BEARS = "nothing bears it out, and no sample gets a time"


class FineFrame(NamedTuple):
    """A frame that is fine: its marker, its classes and what it shows."""

    marker: PulseIndex
    text: str
    told: Fields


class Shows(NamedTuple):
    """When a frame begins, and the time that it shows."""

    at: Microseconds
    moment: Hundredths
    is_leap: bool  # it is in second 60


def fine_frames(listing: Listing, layout: Layout) -> Iterator[FineFrame]:
    """The frames of a listing that are fine, in the order of time."""
    broken_at = breaks(listing.apart, layout.interval, limits.IN_STEP * layout.interval)
    for match in MARKED.finditer(listing.classes):
        marker = PulseIndex(match.start() + 1)
        text, broken = listing.classes[marker:marker + ELEMENTS], bisect_left(broken_at, marker)
        told = layout.shown(text)
        if told and broken_at[broken] >= marker + ELEMENTS:
            yield FineFrame(marker, text, told)


def is_fine_at(listing: Listing, layout: Layout, marker: PulseIndex) -> bool:
    """Whether the frame with this marker is fine."""
    text, apart = listing.classes[marker:marker + ELEMENTS], listing.apart[max(0, marker - 1):marker + ELEMENTS - 1]
    if not marker or not MARKED.match(listing.classes, marker - 1) or not layout.shown(text):
        return False
    return breaks(apart, layout.interval, limits.IN_STEP * layout.interval) == [ELEMENTS + 1]


def without_time(listing: Listing) -> str:
    """Why no sample gets a time by a recording; an empty text if one can."""
    layout = layout_of(listing.kind, listing.expression, False)
    calendar, seen = Calendar(layout), []  # type: Calendar, List[Shows]
    for frame in fine_frames(listing, layout):
        shows = Shows(listing.rises[frame.marker], calendar.moment_of(frame.told), frame.told["seconds"] == 60)
        if any(_support(layout, before, shows) for before in seen[-FRAMES_NEAR:]):
            return ""
        seen.append(shows)
    return "" if len(seen) == 1 else NO_SUPPORTED_FRAME if seen else NO_SOUND_FRAME


def _support(layout: Layout, one: Shows, other: Shows) -> bool:
    """Whether the times of two frames are a whole number of frame periods apart, and they begin that far apart, to half a period."""
    periods = (other.at - one.at) / (ELEMENTS * layout.interval)
    years = (0, CENTURY) if layout.with_year else (0, 365 * DAY, 366 * DAY)
    apart = [other.moment - one.moment + year + SECOND * (one.is_leap and not other.is_leap) for year in years]
    return periods <= LONGEST_APART and any(each % layout.period == 0 and abs(periods - each / layout.period) < 0.5 for each in apart)
