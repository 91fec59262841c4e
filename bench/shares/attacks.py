"""Kinds of recordings that are made to attack a definition of what a time is: two events near each other, blocks out of order, elements
that are stuck, clocks that are set and set back, fast wow in holes. Each has what is done before anything is sent, and what after it.
"""
from __future__ import annotations

import math
from typing import TYPE_CHECKING, Callable, Dict, Tuple

from sent import HOUR, MINUTE, SECOND, Calendar, Run, Sender, digits, has_binary_seconds
from tape import Clock, Wave

if TYPE_CHECKING:
    from recordings import Draft

LONGEST = 60  # intervals of a block


def block(draft: Draft) -> float:
    """Some intervals of the recorder's clock: a block of a buffer or of a picture, or any number."""
    return draft.random.choice((7, 10, 10, 20, 100, draft.random.randint(1, LONGEST))) * interval(draft)


def loss(draft: Draft) -> float:
    """Tens of intervals, whole frames, or 0.2 to 40 intervals."""
    return draft.random.choice((10, 20, 100, 200, 300, draft.random.uniform(0.2, 40))) * interval(draft)


def interval(draft: Draft) -> float:
    return draft.format.interval * (1 + draft.clock.fast)


def inner_place(draft: Draft) -> float:
    """A place that is not near an end; in half of the cases an element ends there."""
    place = draft.clock.place(draft.first) + draft.random.uniform(0.1, 0.9) * draft.length
    if draft.random.random() < 0.5:
        place = round(place / interval(draft)) * interval(draft) - draft.random.random() * 0.1 * interval(draft)
    return place


def nothing(draft: Draft) -> None:
    pass


def longer(draft: Draft) -> None:
    """Enough is sent for what is lost."""
    draft.sent += draft.length + 40 * draft.format.frame


def swapped(draft: Draft) -> None:
    """Two blocks are in wrong order."""
    place, long = inner_place(draft), block(draft)
    draft.cut((place, place + long), (place + 2 * long, place), (place + long, place + 2 * long))


def replaced(draft: Draft) -> None:
    """Instead of a block there is the one before it."""
    place, long = inner_place(draft), block(draft)
    draft.cut((place, place - long), (place, place + long))


def returned(draft: Draft) -> None:
    """Tens of intervals are lost, and within the next frame as many are there twice."""
    place, lost = inner_place(draft), 10 * draft.random.randint(1, 4) * interval(draft)
    other = place + lost + draft.random.random() * draft.format.frame
    draft.cut((place, place + lost), (other, other - lost))


def repeated(draft: Draft) -> None:
    """Blocks of the same length, or a part of it, are lost every two to eight frames."""
    long, place, cuts = block(draft), draft.clock.place(draft.first), []
    for _ in range(draft.frames // 2):
        place += draft.random.uniform(2, 8) * draft.format.frame
        cuts.append((place, place + long * draft.random.choice((1, 1, 2, draft.random.random()))))
        place = cuts[-1][1]
    draft.cut(*cuts)


def near(draft: Draft) -> None:
    """Two losses within one and a half frames, and in half of the cases up to four places of damage."""
    place, lost = inner_place(draft), loss(draft)
    other = place + lost + draft.random.uniform(0.02, 1.5) * draft.format.frame
    draft.cut((place, place + lost), (other, other + loss(draft)))
    if draft.random.random() < 0.5:
        draft.some_damage(1, 4, place)


def sparse(draft: Draft) -> None:
    """Only every third to twentieth frame is whole, and something is lost or there twice."""
    every = draft.random.choice((3, 5, 10, 20))
    for number in range(draft.frames):
        if number % every:
            moment = draft.first + (number + draft.random.random()) * draft.format.frame
            draft.damage(draft.clock.place(moment), draft.random.choice(("missing", "split", "merged", "width")))
    draft.event(draft.random.choice(("lose", "lose", "twice")), inner_place(draft), loss(draft))


def stops(draft: Draft) -> None:
    """The recorder stops, and in half of the cases loses as much within one and a half frames."""
    place, long = inner_place(draft), loss(draft)
    draft.event("wait", place, long)
    if draft.random.random() < 0.5:
        draft.event("lose", place + draft.random.uniform(0, 1.5) * draft.format.frame, long)


def set_by(draft: Draft, moment: float, most: int = 0) -> None:
    """The sender's clock is set at a moment, by whole frames or more, and set back after at most some frames, if that is asked."""
    frame = draft.format.frame
    by = draft.random.choice((1, -1)) * draft.random.choice((frame, 2 * frame, 5 * frame, SECOND, MINUTE, HOUR)) // frame * frame or frame
    first = math.floor(moment / frame) * frame if most else math.floor(moment)
    time = max(0, draft.time + first + by)
    origin = first - time % frame
    wrong = Run(first, draft.sent, origin, time - time % frame)
    draft.runs = [Run(0, first, 0, draft.time), wrong]
    if most:
        last = first + draft.random.randint(1, most) * frame
        draft.runs[1:] = [wrong._replace(end=last), Run(last, draft.sent, last, draft.time + last)]
    draft.places += [draft.clock.place(each.begin) for each in draft.runs[1:]]
    draft.says.append("set by %d at %s" % (by, ", then back at ".join(str(each.begin) for each in draft.runs[1:])))


def set_back(draft: Draft) -> None:
    """The clock is set, and set back after one to fifteen frames."""
    set_by(draft, draft.first + draft.random.uniform(0.1, 0.8) * draft.length, 15)


def set_near_end(draft: Draft) -> None:
    """The clock is set within the first or the last two frames."""
    far = draft.random.uniform(0.02, 2) * draft.format.frame
    set_by(draft, draft.first + (far if draft.random.random() < 0.5 else draft.length - far))


def set_unheard(draft: Draft) -> None:
    """The clock is set anywhere."""
    set_by(draft, draft.first + draft.random.uniform(0.1, 0.8) * draft.length)


def hole_there(draft: Draft) -> None:
    """A hole from up to two frames before that moment up to three frames after it, and up to two places of damage."""
    place, frame = draft.places[0], draft.format.frame
    draft.silence(place - draft.random.uniform(0, 2) * frame, place + draft.random.uniform(0, 3) * frame)
    draft.some_damage(0, 2, place)


def damage_there(draft: Draft) -> None:
    draft.some_damage(0, 2, draft.places[0])


def stuck(draft: Draft) -> None:
    """An element of the time is stuck, for 4 to 200 frames."""
    draft.expressions = "".join(each for each in draft.expressions if not has_binary_seconds(draft.format, int(each)))
    elements = [each for _, _, some in digits(draft.format, 1) for each in some]
    element, value = draft.random.choice(elements[:12]), draft.random.choice((0, 1))
    first, many = draft.random.randrange(draft.frames), draft.random.choice((4, 10, 25, 200))
    sender = Sender(draft.format, 1, Calendar(draft.year), lambda _: set())
    for number in range(first, min(first + many, draft.frames + 8)):
        time = draft.time + number * draft.format.frame
        if sender.classes(time)[element] != value:
            draft.flips[time] = {element}
    draft.says.append("element %d is stuck at %d for %d frames from %d on" % (element, value, many, first))


def fast_wow(draft: Draft) -> None:
    """The clock goes 0.05 to 0.5 % faster and slower, in waves of 6 to 200 intervals."""
    period = between(draft, 6, 200) * draft.format.interval
    draft.clock = Clock(draft.clock.fast, 0.0, [Wave(between(draft, 0.0005, 0.005), period, draft.random.uniform(0, 2 * math.pi))])


def between(draft: Draft, least: float, most: float) -> float:
    """Any number, as often below the geometric mean of the two as above it."""
    return math.exp(draft.random.uniform(math.log(least), math.log(most)))


def six_holes(draft: Draft) -> None:
    """Holes of 2 to 60 elements, one in each sixth; in seven of ten the recorder loses or stops for up to 0.03 intervals."""
    for number in range(6):
        place = draft.clock.place(draft.first) + (number + draft.random.uniform(0.1, 0.7)) / 6 * draft.length
        long = between(draft, 2, 60) * draft.format.interval
        draft.silence(place, place + long)
        if draft.random.random() < 0.7:
            amount = draft.random.uniform(0, 0.03) * draft.format.interval
            draft.event(draft.random.choice(("lose", "wait")), place + draft.random.random() * long, amount)


KINDS: Dict[str, Tuple[Callable[[Draft], None], Callable[[Draft], None]]] = {
    "swapped": (longer, swapped), "replaced": (longer, replaced), "returned": (longer, returned), "repeated": (longer, repeated),
    "near": (longer, near), "sparse": (longer, sparse), "stops": (longer, stops), "back": (set_back, nothing),
    "setend": (set_near_end, damage_there), "unheard": (set_unheard, hole_there), "stuck": (stuck, nothing),
    "fastwow": (fast_wow, six_holes)}
