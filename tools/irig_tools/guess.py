"""Control functions that are filled in though nothing decides them: a line for those of one hole that have the same to go by."""
from __future__ import annotations

import re
from typing import Dict, Iterable, List, NamedTuple, Sequence, Tuple

from .units import Microseconds

OF_ONE = "%s, element %d, at %d: this %s is a guess: %s"
OF_SEVERAL = "%s, %s, from %d to %d: %d are guesses: %s"
OF_A_RECORDING = re.compile(r" at [0-9]+\.[0-9]{6} s\b")  # where another recording has it
IT = re.compile(r"\bit\b")


class Guess(NamedTuple):
    """One of them."""

    at: Microseconds  # when it rises
    hole: Microseconds  # where that begins
    frame: str  # as its user knows it
    element: int
    name: str  # of the class that it got
    why: str  # what there is to go by


def guess_lines(guesses: Iterable[Guess]) -> List[str]:
    """In the order of time; where other recordings have it is no difference."""
    groups: Dict[Tuple[Microseconds, str], List[Guess]] = {}
    for each in sorted(guesses):
        groups.setdefault((each.hole, OF_A_RECORDING.sub("", each.why)), []).append(each)
    return [_line_of_guesses(found) for found in groups.values()]


def _line_of_guesses(found: Sequence[Guess]) -> str:
    first, last = found[0], found[-1]
    if len(found) == 1:
        return OF_ONE % (first.frame, first.element, first.at, first.name, first.why)
    frames = first.frame if first.frame == last.frame else "%s to %s" % (first.frame, last.frame)
    elements = sorted({each.element for each in found})
    why = IT.sub("each", first.why, 1) + " and later" * bool(OF_A_RECORDING.search(first.why))
    return OF_SEVERAL % (frames, _elements_text(elements), first.at, last.at, len(found), why)


def _elements_text(elements: Sequence[int]) -> str:
    """Some elements, in order; those that follow each other by the first and the last."""
    runs: List[List[int]] = []
    for element in elements:
        if runs and element == runs[-1][-1] + 1:
            runs[-1].append(element)
        else:
            runs.append([element])
    texts = [", ".join(map(str, run)) if len(run) < 3 else "%d to %d" % (run[0], run[-1]) for run in runs]
    return "element%s %s" % ("s" * (len(elements) > 1), ", ".join(texts))
