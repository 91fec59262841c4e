"""Which stretches of a repaired recording give no sample a time, by irig_time: for how long, and why."""
from __future__ import annotations

from itertools import chain
from typing import Iterator, List, NamedTuple, Sequence, Tuple

from .editor import Listing
from .layout import INTERVAL
from .taken_times import times_of
from .texts import counted, seconds

MOST_NAMED_OF_THEM = 20
TIMED = "irig_time gives %s of %s their time of day, %.2f %%"
WITHOUT_TIME = "without a time: %s"
SHOWS_TIMES = "--page shows by it which samples have a time"


class Untimed(NamedTuple):
    """A stretch, from a microsecond to another, and the word of irig_time for it."""

    begin: int
    end: int
    why: str


def said_of_times(code: Sequence[str], path: str, listing: Listing) -> List[str]:
    """What a page says of the repaired track at a path, which has this listing."""
    pieces = [piece for piece in _pieces(listing) if piece[0] < piece[1]]
    if not pieces:
        return []
    words = times_of(["--why", *code], path, [(begin + end) // 2 for begin, end in pieces], SHOWS_TIMES)
    found = _stretches_without(pieces, words)
    lost = sum(each.end - each.begin for each in found)
    said = [TIMED % (seconds(listing.length - lost), seconds(listing.length), 100 * (1 - lost / listing.length))]
    named = ["%s to %s (%s)" % (seconds(each.begin), seconds(each.end), each.why) for each in found[:MOST_NAMED_OF_THEM]]
    more = [counted(len(found) - len(named), "stretch", "stretches") + " more"] * (len(found) > len(named))
    return said + [WITHOUT_TIME % ", ".join(named + more)] * bool(found)


def _pieces(listing: Listing) -> Iterator[Tuple[int, int]]:
    """Each interval after a pulse, and what is between that and the next pulse: in a piece all moments have a time, or none has."""
    interval, last = INTERVAL[listing.kind], 0
    for rise, after in zip(listing.rises, chain(listing.rises[1:], [listing.length])):
        if last < rise:
            yield last, rise
        last = after if 2 * (after - rise) < 3 * interval else rise + interval
        yield rise, last
    yield last, listing.length


def _stretches_without(pieces: Sequence[Tuple[int, int]], words: Sequence[str]) -> List[Untimed]:
    """The stretches without a time; those that meet and have one reason are one."""
    found: List[Untimed] = []
    for (begin, end), word in zip(pieces, words):
        if word[:1].isdigit():
            continue
        if found and found[-1].end == begin and found[-1].why == word:
            found[-1] = found[-1]._replace(end=end)
        else:
            found.append(Untimed(begin, end, word))
    return found
