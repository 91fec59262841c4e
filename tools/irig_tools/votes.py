"""What the frames of a track say: the time of each that can be read, and what single elements say for or against a time."""
from __future__ import annotations

from collections import Counter
from typing import Dict, List, Sequence, Tuple

from .layout import Fields
from .leap import with_leap
from .moments import DAY, Calendar
from .track import Track
from .units import Base, FrameNumber


class Votes:
    """The frames with their letters. A base is the time of frame 0 if the clock had run all along."""

    def __init__(self, track: Track, elsewhere: Sequence[Fields] = ()) -> None:
        """`elsewhere` are the times of other recordings that show second 60."""
        self.track, self.layout = track, track.layout
        self.texts = {number: track.frame(number) for number in track.frames()}
        decoded = [(number, self.layout.decode(text)) for number, text in self.texts.items()]
        self.read: List[Tuple[FrameNumber, Fields]] = [(number, told) for number, told in decoded if told]
        self.calendar = with_leap(self._with_year_length(), self.read, elsewhere)
        self.own = {number: self.calendar.base(number, told) for number, told in self.read}

    def _with_year_length(self) -> Calendar:
        """Without a year the frames themselves show the day after 365."""
        short, long = Calendar(self.layout), Calendar(self.layout, 366)
        if self.layout.with_year or not self.read:
            return short
        begun = [short.moment_of(told) - number * self.layout.period for number, told in self.read]
        if DAY <= min(begun) and max(begun) < DAY + short.circle and not any(told["days"] == 366 for _, told in self.read):
            return short  # no year ends, so the bases are the same in both
        agree = [max(Counter(each.base(*frame) for frame in self.read).values()) for each in (short, long)]
        return long if agree[1] > agree[0] or any(told["days"] == 366 for _, told in self.read) else short

    def votes(self, number: FrameNumber, base: Base) -> Dict[int, int]:
        """For each element of a frame that can be read, 1 if it speaks for a base, and -1 if against it."""
        text, fields = self.texts[number], self.calendar.fields(self.calendar.moment(number, base))
        wanted = self.layout.encode(fields)
        read = [element for element in self.layout.carried if text[element] in "01"]
        return {element: 1 if text[element] == wanted[element] else -1 for element in read}

    def counted(self, number: FrameNumber, base: Base) -> Tuple[int, int]:
        """How many elements of a frame speak for a base, and how many against it."""
        votes = list(self.votes(number, base).values())
        return votes.count(1), votes.count(-1)

    def is_borne(self, numbers: Sequence[FrameNumber], base: Base) -> bool:
        """Whether at least one element of these frames speaks for a base, and each that speaks against it is outvoted."""
        votes: Counter[int] = Counter()
        for number in numbers:
            votes.update(self.votes(number, base))
        return min(votes.values(), default=0) > 0
