"""The times of frames: those that can be read carry theirs over to the others."""
from __future__ import annotations

from bisect import bisect_left
from collections import Counter
from operator import itemgetter
from typing import Dict, List, Mapping, Optional, Sequence, Tuple

from . import limits
from .grouping import grouped
from .interval import Run
from .layout import READABLE, Fields
from .parity import rule_of
from .spans import Bases, Span, fit
from .splices import spliced
from .steadiness import Steadiness
from .track import Track
from .units import ELEMENTS, Base, FrameNumber, Hundredths, frame_of, plus
from .votes import Votes


class Times(Votes):
    """For each frame the moment that most frames near it lead to."""

    def __init__(self, track: Track, elsewhere: Sequence[Fields] = ()) -> None:
        super().__init__(track, elsewhere)
        self._having: Dict[int, List[FrameNumber]] = {}  # element -> frames in which it is sound
        bases = self._find_bases()
        self.spans = self._find_spans(bases)
        self.spliced = spliced(self, self.spans)
        self.bases = {**bases, **self.spliced}
        # frames that show the time to which all lead; if none does, those that show any
        self.agreeing = [number for number, base in self.own.items() if self.bases[number] == base] or list(self.own)
        self._find_sound()

    def _find_sound(self) -> None:
        """Which frames are sound, and which elements are kept as they are."""
        unused = itemgetter(*self.layout.unused)
        stray = {number for number in self.own if "1" in unused(self.texts[number])}
        self.doubtful = len(stray) > limits.STRAY_ONES + len(self.read) * limits.STRAY_SHARE // 1  # the expression
        self.kept = set(self.layout.control) | set(self.layout.unused if self.doubtful else ())
        self.rule = rule_of(self.layout.control, list(self.texts.values()))
        self._steadiness = Steadiness(sorted(self.kept), list(self.texts.values()))
        self.sound = {
            number
            for number, base in self.own.items()
            if self.bases[number] == base
            and (self.doubtful or number not in stray)
            and READABLE.fullmatch(self.texts[number])
        }

    def _find_bases(self) -> Bases:
        """The base of each frame: if two neighbours agree, theirs; between such frames the one that fits best."""
        own = list(self.own.values())
        near = zip(self.own.items(), [None, *own], [*own[1:], None])
        return self._filled({number: base for (number, base), *around in near if base in around})

    def _filled(self, known: Mapping[FrameNumber, Base]) -> Bases:
        """The base of every frame; those of some are known."""
        bases: Bases = {**known}
        apart = {
            frame_of(zone.right.place)
            for zone in self.track.zones
            if zone.glued and zone.right and not 0 < (zone.right.gone or 0) <= limits.LONGEST_CUT
        }
        gap: List[FrameNumber] = []
        left: Optional[Base] = None
        for number in self.texts:
            if number in apart or number in known:  # no time continues over a frame of `apart`
                bases.update(fit(self, gap, left, None if number in apart else known[number]))
                gap, left = [], known.get(number)
            if number not in known:
                gap.append(number)
        bases.update(fit(self, gap, left, None))
        return bases

    def _find_spans(self, bases: Bases) -> List[Span]:
        spans = [Span(number, number, base) for number in self.texts for base in [bases[number]] if base is not None]
        alike = grouped(spans, lambda before, span: before.base != span.base)
        return [Span(group[0].first, group[-1].last, group[0].base) for group in alike]

    def turns_at(self, number: FrameNumber) -> bool:
        """Whether the frames on both sides of this one lead to different times."""
        before, after = (self.bases.get(plus(number, by)) for by in (-1, 1))
        return None not in (before, after) and before != after

    def _agreed(self, numbers: Sequence[FrameNumber]) -> Optional[Base]:
        """The base that most of three frames show, or the only one there is."""
        often = Counter(self.own[number] for number in numbers).most_common(1)
        return often[0][0] if often and (often[0][1] > 1 or len(numbers) == 1) else None

    def _read_within(self, runs: Sequence[Run]) -> List[FrameNumber]:
        """The frames that could be read from the first to the last of these runs."""
        first, last = -(-runs[0].place // ELEMENTS), (runs[-1].last_place + 1) // ELEMENTS
        return [number for number in self.own if first <= number < last]

    def frames_between(self, left: Sequence[Run], right: Sequence[Run]) -> Optional[int]:
        """By how many frames the times of these runs are farther apart than their places; None if they do not say."""
        before, after = self._agreed(self._read_within(left)[-3:]), self._agreed(self._read_within(right)[:3])
        if before is None or after is None:
            return None
        return self.calendar.apart(before, after) // self.layout.period

    def moment(self, number: FrameNumber) -> Optional[Hundredths]:
        """The moment of a frame, or None if the frames near it do not agree."""
        base = self.bases.get(number)
        return None if base is None else self.calendar.moment(number, base)

    def expected(self, number: FrameNumber) -> str:
        """The 100 classes that follow for a frame; `.` if nothing follows."""
        moment = self.moment(number)
        told = dict.fromkeys(self.layout.fields, 0) if moment is None else self.calendar.fields(moment)
        text = self.layout.encode(told)
        for element in (*self.kept, *(self.layout.carried if moment is None else ())):
            text[element] = "."
        return "".join(text)

    def _nearest(self, number: FrameNumber, element: int) -> Tuple[List[FrameNumber], List[FrameNumber]]:
        """Two frames before this one, and two after it, whose element is sound."""
        if element not in self._having:
            self._having[element] = [each for each, text in self.texts.items() if text[element] in "01"]
        having = self._having[element]
        at = bisect_left(having, number)
        return having[max(0, at - 2):at], having[at + (having[at:at + 1] == [number]):][:2]

    def around(self, number: FrameNumber, element: int) -> Optional[str]:
        """What an element has in the two nearest frames on both sides that show it, if all four agree; else None."""
        before, after = self._nearest(number, element)
        near = {self.texts[each][element] for each in (*before, *after)}
        return None if len(before) < 2 or len(after) < 2 or len(near) > 1 else near.pop()

    def neighbours(self, number: FrameNumber, element: int) -> Optional[str]:
        """What an element has that no field decides: what the frames next to this one have, if they agree and the element is
        steady; else None."""
        near, (before, after) = self.around(number, element), self._nearest(number, element)
        return near if near and self._steadiness.holds(element, number - before[-1], after[0] - number) else None

    def are_beside(self, number: FrameNumber, element: int, told: str) -> bool:
        """Whether the frames next to this one have a class there that another recording has, too, and this one not: what a steady
        element would have, as far as both say it."""
        before, after = self._nearest(number, element)
        return self.around(number, element) == told and self._steadiness.holds_beside(element, number - before[-1], after[0] - number)

    def never_changed(self, element: int) -> bool:
        """Whether an element that no field decides is the same in all frames that show it, and these are enough."""
        return self._steadiness.never_changed(element)

    def is_confirmed(self, number: FrameNumber, element: int) -> bool:
        """Whether the control functions have a rule, and by it this element of a frame is as it was sent."""
        text, rule = self.texts[number], self.rule
        return rule is not None and element <= rule.element and rule.shows(text) and rule.holds(text)

    def is_beside(self, number: FrameNumber, element: int, told: str) -> bool:
        """Whether the nearest frame on both sides has a class there."""
        before, after = self._nearest(number, element)
        return bool(before and after) and self.texts[before[-1]][element] == self.texts[after[0]][element] == told

    def likely(self, number: FrameNumber, element: int) -> Optional[str]:
        """What most of the nearest frames have there; None if as many differ."""
        near = Counter(self.texts[each][element] for part in self._nearest(number, element) for each in part)
        often = near.most_common(2)
        return None if not often or (len(often) > 1 and often[0][1] == often[1][1]) else often[0][0]

    def usual(self) -> Dict[int, str]:
        """The classes of control functions that all frames have but one in ten."""
        found = {}
        for element in self.layout.control:
            often = Counter(text[element] for text in self.texts.values() if text[element] in "01")
            for told, many in often.most_common(1):
                if many >= limits.MOSTLY * sum(often.values()) - 1:
                    found[element] = told
        return found

    def name(self, number: FrameNumber) -> str:
        shown = self.shown(number)
        return "frame " + shown if shown else "a frame of unknown time"

    def shown(self, number: FrameNumber) -> str:
        """The time that it has to show; an empty text if nothing says it."""
        moment = self.moment(number)
        return "" if moment is None else self.calendar.name(moment)
