"""A part of a dump that has nothing but times and changes of wires of one bit: it is read at once."""
from __future__ import annotations

import json
from operator import le, lt
from typing import Callable, List, NamedTuple, Optional, Sequence, cast

TIME_MARK = 35  # what a time begins with: #
DIGITS_OF_A_TIME = 60  # of a time
FIRST_LETTERS = frozenset(b"01xXzZhHlLuUwW-")  # that a change of one bit begins with


class WireRun(NamedTuple):
    """The changes of a wire in a part of a dump: each is later than the one before, and 0 and 1 alternate."""

    marks: Sequence[bytes]  # their times, as words
    is_high: bool  # whether the first change is to 1
    first: int  # the first time of the part that is not 0, or 0
    last: int  # the last time of the part

    def letter(self, number: int) -> str:
        """The letter of a change, from 0."""
        return "1" if self.is_high ^ bool(number % 2) else "0"

    def times(self) -> List[int]:
        text = b"".join(self.marks)[1:]
        try:
            return cast(List[int], json.loads(b"[%s]" % text.replace(b"#", b",")))  # a third less than one by one
        except ValueError:  # with zeros before them
            return list(map(int, text.split(b"#")))


class RunReader:
    """Reads parts of a dump for one wire."""

    def __init__(self, code: bytes) -> None:
        self.code = code
        self.low, self.high = b"0" + code, b"1" + code

    def read(self, part: bytes, now: int) -> Optional[WireRun]:
        """What a part of whole words has after a time, or nothing if it has to be read word by word."""
        words = part.split()
        marks, values = words[::2], words[1::2]
        if len(marks) == len(values) and are_times(marks, lt):
            is_high = self._begins_high(values)
            if is_high is not None:
                return _made_run(marks, is_high, marks, now)
        return self._among(words, now)

    def _begins_high(self, values: Sequence[bytes]) -> Optional[bool]:
        """Whether the first of changes that alternate is to 1; nothing if they do not alternate."""
        evens, odds = set(values[::2]), set(values[1::2])
        for is_high, pair in ((True, (self.high, self.low)), (False, (self.low, self.high))):
            if evens <= {pair[0]} and odds <= {pair[1]}:
                return is_high
        return None

    def _among(self, words: List[bytes], now: int) -> Optional[WireRun]:
        """The same among changes of other wires."""
        own = {self.low, self.high}
        every = [word for word in words if word[0] == TIME_MARK]
        others = {word for word in words if word[0] != TIME_MARK} - own
        if not words or words[0][0] != TIME_MARK or not are_times(every, le) or any(
                word[0] not in FIRST_LETTERS or word[1:] == self.code for word in others):
            return None
        marks, values, mark = [], [], b""
        for word in words:
            if word[0] == TIME_MARK:
                mark = word
            elif word in own:
                marks.append(mark)
                values.append(word)
        is_high = self._begins_high(values)
        return None if is_high is None or not all(map(lt, marks, marks[1:])) else _made_run(marks, is_high, every, now)


def _made_run(marks: Sequence[bytes], is_high: bool, every: Sequence[bytes], now: int) -> Optional[WireRun]:
    """The run of these changes, among these times, if none is before `now`."""
    first = next((time for time in (int(mark[1:]) for mark in every) if time), 0)
    return WireRun(marks, is_high, first, int(every[-1][1:])) if int(every[0][1:]) >= now else None


def are_times(marks: Sequence[bytes], order: Callable[[bytes, bytes], bool]) -> bool:
    """Whether these words are times of as many digits each, in this order."""
    if not marks or not marks[0][0] == marks[-1][0] == TIME_MARK or not 1 < len(marks[0]) <= DIGITS_OF_A_TIME + 1:
        return False
    text = b"".join(marks)
    digits = text.replace(b"#", b"")
    return (len(digits) + len(marks) == len(text) == len(marks) * len(marks[0]) and digits.isdigit()
            and set(map(len, marks)) == {len(marks[0])} and all(map(order, marks, marks[1:])))
