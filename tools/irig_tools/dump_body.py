"""The changes of a dump: which of the wanted signals changes when."""
from __future__ import annotations

from collections import Counter
from dataclasses import dataclass, field
from typing import Callable, Dict, Iterator, List, Optional, Tuple

from .dump_header import BODY, HEADS, Header, shown
from .dump_run import RunReader, WireRun
from .dump_source import Source

Change = Tuple[int, int, str]  # a time in the dump's unit, a signal, a letter of 0 1 x z
PLAIN = {"0": "0", "1": "1", "x": "x", "X": "x", "z": "z", "Z": "z"}
STRONG = {"h": "1", "H": "1", "l": "0", "L": "0", "u": "x", "U": "x", "w": "x", "W": "x", "-": "x"}
PORTS = {"D": "0", "d": "0", "L": "0", "l": "0", "0": "0", "U": "1", "u": "1", "H": "1", "h": "1", "1": "1",
         "T": "z", "F": "z", "Z": "z"}
SCALAR_LETTERS = {**PLAIN, **STRONG}
SCALAR = frozenset(map(ord, SCALAR_LETTERS))
MOST_KEPT = 1 << 13  # words whose meaning is kept
PAIRS = frozenset(b"bBrRsS")
SKIPPED = BODY | {b"$end"}


@dataclass
class Wanted:
    """The signals that are looked for: by code, each with its place from the right of a vector."""

    signals: Dict[bytes, List[Tuple[int, int]]] = field(default_factory=dict)
    scalars: Dict[bytes, List[Tuple[int, str]]] = field(default_factory=dict)  # what words mean that came up

    def add(self, signal: int, code: bytes, place: int) -> None:
        self.signals.setdefault(code, []).append((signal, place))

    def alone(self) -> Optional[bytes]:
        """The code of the signal, if one is looked for and it is a wire of one bit, or the last bit of a vector."""
        pairs = [(code, place) for code, found in self.signals.items() for _, place in found]
        return pairs[0][0] if len(pairs) == 1 and pairs[0][1] == 0 else None

    def drop(self, signal: int, code: bytes) -> None:
        """This signal is not looked for any more."""
        self.signals[code] = [pair for pair in self.signals[code] if pair[0] != signal]
        if not self.signals[code]:
            del self.signals[code]
        for letter in SCALAR_LETTERS:
            self.scalars.pop(letter.encode() + code, None)

    def meaning(self, word: bytes) -> List[Tuple[int, str]]:
        """The changes that a word for wires of one bit means."""
        value = SCALAR_LETTERS[chr(word[0])]
        found = [(signal, value) for signal, place in self.signals.get(word[1:], ()) if place == 0]
        if len(self.scalars) < MOST_KEPT:
            self.scalars[word] = found
        return found


class Body:
    """The changes of one dump, up to its end, the next header or a time below the last."""

    def __init__(self, source: Source, wanted: Wanted, take_run: Optional[Callable[[WireRun], bool]] = None) -> None:
        """`take_run` can take the changes of whole parts, if one wire of one bit is wanted; they are not among `changes` then."""
        self.source, self.wanted = source, wanted
        alone = wanted.alone() if take_run else None
        self.runs, self.take_run = RunReader(alone) if alone else None, take_run
        self.now = 0  # the last time
        self.begun = 0  # the first time that is not 0
        self.more = ""  # "header" or "backward" if something follows, "cut" if the file ends within a time or a value, "back" after
        # a time below the last
        self.last_code: Optional[bytes] = None  # of the last change, if the file ends with it, without white space
        self.end_words = 1  # words of a time or a value that the file ends within, or of a last time that goes back
        self.counts: Counter[str] = Counter()
        self.strange: Optional[str] = None  # the first word that means no change, and the last time before it
        self.strange_at = 0

    def changes(self) -> Iterator[Change]:
        """The wanted changes; `now` is the last time that was read."""
        scalars, word, at_once = self.wanted.scalars, b"$", self._at_once if self.runs else None
        self.source.at_once = at_once
        for word in self.source.words():
            found = scalars.get(word)
            if found is None:
                if word[0] not in SCALAR:
                    if word[0] == 35:
                        self._time(word)
                    else:
                        self.source.at_once = None  # the words that belong to this one are read one by one
                        yield from self._other(word)
                        self.source.at_once = at_once
                    if self.more:
                        break
                    continue
                found = self.wanted.meaning(word)
            if found:
                self.counts["letters"] += word[0] not in b"01xXzZ"
                for signal, value in found:
                    yield self.now, signal, value
        self.source.at_once = None
        if not self.more and self.source.ends_within_word and word[0] in SCALAR:
            self.last_code = word[1:]

    def _at_once(self, part: bytes) -> bool:
        """Whether a part was read at once, and its changes were taken."""
        run = self.runs.read(part, self.now) if self.runs else None
        if run is None or self.take_run is None:
            return False
        self.begun = self.begun or run.first
        is_taken = self.take_run(run)
        self.now = run.last if is_taken else self.now
        return is_taken

    def ends_within(self, header: Header) -> str:
        """What the file ends within: `time`, `value`, or nothing; `back` if its last time goes back. A code that no wire has is a part
        of one."""
        if self.more == "back":
            return self.more
        if self.more == "cut":
            return "time" if self.last_code is None else "value"
        codes = {wire.code for wire in header.wires} if self.last_code is not None else set()
        return "value" if self.last_code is not None and self.last_code not in codes else ""

    def _other(self, word: bytes) -> Iterator[Change]:
        first = word[0]
        if first in PAIRS:
            code = next(self.source, b"")
            if self.source.ends_within_word:
                self.last_code, self.more, self.end_words = code, "" if code else "cut", 1 + bool(code)
            if first in b"bB" and code in self.wanted.signals:
                yield from self._vector(word.decode("latin-1"), self.wanted.signals[code])
        elif first == 112:
            yield from self._port(word)
        elif first == 36:
            self._word(word)
        else:
            self._strange(word)

    def _time(self, word: bytes) -> None:
        digits = word[1:]
        if not digits and self.source.ends_within_word:
            self.more = "cut"
            return
        if not digits.isdigit() or len(digits) > 60:
            self._strange(word)
            return
        time = int(digits)
        if time < self.now:
            self._goes_back(word)
            return
        self.now = time
        self.begun = self.begun or time

    def _goes_back(self, word: bytes) -> None:
        """A time is before the last one: a part of a time, the last word of a recorder that was stopped badly, or another dump."""
        if self.source.ends_within_word:
            self.more = "cut"
            return
        self.source.at_once = None  # what follows is not of this dump
        following = next(self.source, None)
        self.more = "back" if following is None else "backward"
        if following is not None:
            self.source.give_back(following)
            self.source.give_back(word)

    def _vector(self, word: str, signals: List[Tuple[int, int]]) -> Iterator[Change]:
        for signal, place in signals:
            at = len(word) - 1 - place
            letter = word[at] if at > 0 else "0" if word[1:2] in ("0", "1", "") else word[1]
            if letter not in PLAIN:
                self.counts["letters"] += 1
            yield self.now, signal, PLAIN.get(letter, STRONG.get(letter, "x"))

    def _port(self, word: bytes) -> Iterator[Change]:
        """A change of an extended dump: states, two strengths, a code."""
        code = [next(self.source, b"") for _ in range(3)][2]
        states = word.decode("latin-1")
        for signal, place in self.wanted.signals.get(code, ()):
            at = len(states) - 1 - place
            self.counts["ports"] += 1
            yield self.now, signal, PORTS.get(states[at] if at > 0 else "0", "x")

    def _word(self, word: bytes) -> None:
        if word == b"$comment":
            self._comment()
        elif word in HEADS:
            self.source.give_back(word)
            self.more = "header"
        elif word not in SKIPPED:
            self._strange(word)

    def _comment(self) -> None:
        first = word = next(self.source, b"")
        while word and word != b"$end":
            word = next(self.source, b"")
        if first == b"irig-journal-1":
            self.counts["journals"] += 1
        if not word:
            self.counts["unclosed"] += 1

    def _strange(self, word: bytes) -> None:
        self.counts["strange"] += 1
        if self.strange is None:
            self.strange, self.strange_at = shown(word[:40]), self.now
