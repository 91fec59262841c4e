"""How a recording is read before anything is known of it: where a script moves its pulses, in which stretches the wire is upside down, and
by how much the threshold makes each pulse longer. The last two are functions of the recording alone, as its clock is.
"""
from typing import List, NamedTuple, Sequence

from reference import timecode
from reference.explanation import JUMP, OFF_LINE, Pulse

MOST_LONGER = 19  # hundredths of an interval: then a position identifier is as long as the interval, or a zero is none
FAR = 5  # hundredths of an interval: a width that is further off its class says nothing of the threshold


class Move(NamedTuple):
    """The pulses from a moment up to another one were recorded that many microseconds later than the code has them."""

    begin: int
    end: int
    by: int


class Carried(NamedTuple):
    """A recorded pulse where it is after some moves, by how much it was moved, and its place in the recording."""

    rise: int
    fall: int
    by: int
    place: int


def carried(pulses: Sequence[Pulse], moves: Sequence[Move]) -> List[Carried]:
    """The pulses of a recording after some moves, one after the other, in the order of their rises."""
    found = [Carried(rise, fall, 0, place) for place, (rise, fall) in enumerate(pulses)]
    for begin, end, by in moves:
        found = [Carried(rise + by, fall + by, old + by, place) if begin <= rise and fall <= end else Carried(rise, fall, old, place)
                 for rise, fall, old, place in found]
    return sorted(found)


def read(pulses: Sequence[Pulse], interval: int) -> List[Pulse]:
    """The pulses of a recording as they were sent."""
    return levelled(upright(apart(pulses), interval), interval)


def apart(pulses: Sequence[Pulse]) -> List[Pulse]:
    """Without those that rise before the one before them is over, as a move can make them."""
    found: List[Pulse] = []
    for rise, fall in pulses:
        if not found or found[-1][1] < rise:
            found.append((rise, fall))
    return found


def upright(pulses: Sequence[Pulse], interval: int) -> List[Pulse]:
    """The pulses of the wire if it is turned over where it is upside down: there the falls are in step, and the rises are not. It is the
    cheapest way to turn it: to turn costs what a jump does, and a step that is none what a rise off the line does at most."""
    edges = [edge for pulse in pulses for edge in pulse]
    costs, turned = (0, JUMP), []
    for number, edge in enumerate(edges):
        turned.append((costs[1] + JUMP < costs[0], costs[0] + JUMP < costs[1]))
        costs = min(costs[0], costs[1] + JUMP), min(costs[1], costs[0] + JUMP)
        if number > 1 and not timecode.in_step(interval, edge - edges[number - 2]):
            costs = (costs[0], costs[1] + OFF_LINE) if number % 2 else (costs[0] + OFF_LINE, costs[1])
    way, ways = int(costs[1] < costs[0]), []  # of each edge 1 if the wire is upside down
    for turns in reversed(turned):
        ways.append(way)
        way ^= turns[way]
    ways.reverse()
    return [(edges[at], edges[at + 1]) for at in range(len(edges) - 1) if ways[at] == ways[at + 1] == at % 2]


def levelled(pulses: Sequence[Pulse], interval: int) -> List[Pulse]:
    """The pulses as long as they would be with the right threshold."""
    more = longer([100 * (fall - rise) // interval for rise, fall in pulses]) * interval // 100
    return [(rise, max(rise + 1, fall - more)) for rise, fall in pulses]


def longer(widths: Sequence[int]) -> int:
    """By how many hundredths of an interval all widths are longer than those of the classes: by which they are nearest to these."""
    many = [widths.count(width) for width in range(101)]

    def off(more: int) -> int:
        return sum(count * min(FAR, *(abs(width - more - name) for name in (20, 50, 80))) for width, count in enumerate(many))

    return min(range(-MOST_LONGER, MOST_LONGER + 1), key=lambda more: (off(more), abs(more)))
