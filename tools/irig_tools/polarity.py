"""In which stretches a wire is upside down: there the falls follow each other in step, and elsewhere the rises do."""
from __future__ import annotations

from itertools import compress, count, groupby
from operator import ne
from statistics import median
from typing import List, Sequence, Tuple

from . import limits
from .editor import Listing
from .grouping import grouped
from .interval import are_odd, distances, places_of
from .units import Microseconds

WIDTHS = 2, 5, 8  # of the classes, in tenths of an interval


def _out_of_step(apart: Sequence[int], interval: int) -> bytes:
    """For each distance 1 if it is not about an interval, and else 0."""
    return bytes(are_odd(apart, lambda each: _is_out(each, interval)))


def _is_out(apart: int, interval: int) -> bool:
    return abs(apart - interval) > limits.IN_STEP * interval


def _is_upright(listing: Listing, interval: int) -> bool:
    """Whether few pulses show for sure that the wire is upright. Pulses of which only the rise is out of step are few; or there is no
    stretch in which they are TURNED_OVER more than those of which only the fall is, and in all of it they are fewer. Of the falls only
    those near them are looked at."""
    odd = list(places_of(listing.apart, lambda each: _is_out(each, interval)))
    down = [at for at in odd if not _is_out(listing.falls[at + 1] - listing.falls[at], interval)]
    if len(down) <= limits.TURNED_OVER:
        return True
    rises, more, in_all = set(odd), 0, 0
    for at, beyond in zip(down, [*down[1:], len(listing.apart)]):
        more, in_all, between = more + 1, in_all + 1, at + 1
        if more >= limits.TURNED_OVER:
            return False
        while more >= 0 and between < beyond:
            if between not in rises and _is_out(listing.falls[between + 1] - listing.falls[between], interval):
                more, in_all = more - 1, in_all - 1
            between += 1
        more = max(0, more)
    return in_all < 0


def _are_down(votes: Sequence[int]) -> List[bool]:
    """Whether the wire is upside down at each of some votes, by the cheapest way from the first to the last: votes against
    it are what they count, and to turn over costs, too. They are above 0 if the wire is upright."""
    costs = [0, 0]  # up to a vote if the wire is upright there, or upside down
    turned: List[List[bool]] = []  # of each vote, for both: whether the wire was turned over before it
    for vote in votes:
        turned.append([costs[1 - way] + limits.TURNED_OVER < costs[way] for way in (0, 1)])
        costs = [min(costs[way], costs[1 - way] + limits.TURNED_OVER) + max(0, against) for way, against in ((0, -vote), (1, vote))]
    way, found = int(costs[1] <= costs[0]), []
    for turns in reversed(turned):
        found.append(bool(way))
        way ^= turns[way]
    return found[::-1]


def upside_down(listing: Listing, interval: int) -> List[Tuple[Microseconds, Microseconds]]:
    """The stretches in which a wire is upside down."""
    if _is_upright(listing, interval):
        return []
    falls, rises = _out_of_step(distances(listing.falls), interval), _out_of_step(listing.apart, interval)
    # of each pulse but the first: it is upright if only the fall is out of step, and upside down if only the rise is
    votes = list(compress(count(), map(ne, falls, rises)))
    alike = [list(group) for _, group in groupby(votes, rises.__getitem__)]
    down = _are_down([-len(group) if rises[group[0]] else len(group) for group in alike])
    stretches = grouped([number for number, each in enumerate(down) if each], lambda before, after: after - before > 1)
    edges = [edge for pulse in zip(listing.rises, listing.falls) for edge in pulse]
    clock, found = median([interval, *(each for each in listing.apart if not _is_out(each, interval))]), []
    for each in stretches:
        begin, end = Microseconds(0), listing.length
        if each[0]:  # from a rise of the upright pulses up to one that is a fall there
            begin = _turned_at(edges, 2 * alike[each[0] - 1][-1] + 2, 2 * alike[each[0]][0] + 2, clock)
        if each[-1] + 1 < len(alike):  # from a fall that is a rise up to one that is a fall
            end = _turned_at(edges, 2 * alike[each[-1]][-1] + 1, 2 * alike[each[-1] + 1][0] + 3, clock)
        found.append((begin, end))
    return found


def _turned_at(edges: List[Microseconds], first: int, last: int, interval: float) -> Microseconds:
    """At which of these edges a wire is turned over: where most pulses have the width of a class then, and rise a whole number of intervals
    after one of the first edges, which rise when the wire is upright. If there are very many it is near the first."""
    more = 2 * limits.NEXT_TO_A_TURN
    first -= more * (first >= more)
    near = edges[first:min(last + more * (last + more < len(edges)), first + limits.MOST_EDGES_TRIED) + 1]
    without = [near[:at] + near[at + 1:] for at in range(1, len(near) - 1)]
    found = [max(_pulses_of_classes(due, each, interval) for due in near[:more:2]) for each in without]
    return near[1 + found.index(max(found))]


def _pulses_of_classes(due: Microseconds, edges: Sequence[Microseconds], interval: float) -> Tuple[int, float]:
    """How many pulses with these edges have the width of a class, and rise when they are due, to a tenth of an interval; and by how much
    their widths are off in all, below 0."""
    rises = [(rise - due + interval / 2) % interval - interval / 2 for rise in edges[::2]]
    widths = [min(abs(fall - rise - width * interval / 10) for width in WIDTHS) for rise, fall in zip(edges[::2], edges[1::2])]
    good = [width for rise, width in zip(rises, widths) if max(abs(rise), width) <= limits.IN_STEP * interval]
    return len(good), -sum(good)
