"""Repairs of a frame as one, for irig_guard: a frame with two damages can read another time after one repair alone."""
from __future__ import annotations

from typing import Iterable, List, Sequence, Set

from .concern import of_all
from .grouping import grouped
from .guard_words import Reason
from .layout import INTERVAL
from .script import Repair
from .units import ELEMENTS

FROM_END_TO_END = -1  # instead of where a frame begins: no frame was fine, so it is all of the recording


def frames_at_fault(reasons: Iterable[Reason]) -> Set[int]:
    """Where the frames begin because of which irig_guard drops repairs."""
    found = {reason.begin for reason in reasons if reason.begin is not None}
    return found | {FROM_END_TO_END for reason in reasons if reason.is_of_all}


def joined(script: Sequence[Repair], frames: Set[int], kind: str) -> List[Repair]:
    """The repairs from the end to the beginning; those of each of these frames are one."""
    interval = INTERVAL[kind]

    def begins(later: Repair, each: Repair) -> bool:
        ends = ((begin - interval, begin + ELEMENTS * interval) for begin in frames)
        return FROM_END_TO_END not in frames and not any(low <= each.at and later.at < high for low, high in ends)

    return [one_of(group) for group in grouped(script, begins)]


def one_of(repairs: Sequence[Repair]) -> Repair:
    """One repair of several."""
    if len(repairs) == 1:
        return repairs[0]
    comments = [comment for each in repairs for comment in each.comments]
    edits = [edit for each in repairs for edit in each.edits]
    moves = [move for each in repairs for move in each.moves]
    begin, end = min(each.at for each in repairs), max(max(each.at, each.until) for each in repairs)
    guesses = [guess for each in repairs for guess in each.guesses]
    return Repair(begin, comments, edits, until=end, moves=moves, kind=repairs[0].kind, guesses=guesses,
                  concern=of_all([each.concern for each in reversed(repairs)]), off=max(each.off for each in repairs),
                  ahead=min(repairs, key=lambda each: each.at).ahead)
