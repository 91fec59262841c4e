"""A dump that is read as words and copied byte for byte."""
from __future__ import annotations

import re
from itertools import chain
from typing import IO, Iterator, List, Optional

from .dump_source import LONGEST_WORD, TOO_MANY_BYTES, Source, end_of_words
from .editor import Problem

TOKEN = re.compile(rb"\S+\s*")
MOST_TAKEN = 1 << 12  # words that are copied at once
MOST_LOOKED_AT = 80  # bytes, for a time


def _end_before_a_time(data: bytes) -> int:
    """How many bytes come before the last time but one, so that a whole word follows; 0 if there is none."""
    return data.rfind(b"\n#", 0, max(0, data.rfind(b"\n#"))) + 1


class Copied(Source):
    """`taken` has the bytes of each word that was read and is not copied yet, with the white space after it.

    While `free`, they are copied as they come; else whoever reads the words changes `taken` and copies it."""

    def __init__(self, path: str, out: IO[bytes]) -> None:
        super().__init__(path)
        self.out = out
        self.taken: List[bytes] = []
        self.free = True
        self.rest = b""  # what was read and is no word yet

    def copy(self, many: int) -> None:
        """Copies that many words."""
        self.out.write(b"".join(self.taken[:many]))
        del self.taken[:many]

    def next_time(self) -> Optional[int]:
        """The time that comes after the part that is read at once, if one does."""
        words = self.rest[:MOST_LOOKED_AT].split(None, 1)
        return int(words[0][1:]) if len(words) == 2 and words[0][:1] == b"#" and words[0][1:].isdigit() else None

    def give_back(self, word: bytes) -> None:
        self._words = chain(self._again(self.taken.pop(), word), self._words)

    def _again(self, raw: bytes, word: bytes) -> Iterator[bytes]:
        self.taken.append(raw)
        yield word

    def _parts(self) -> Iterator[List[bytes]]:
        """The words with the white space after them, part by part."""
        for block in self._with_space():
            data = self.rest + block
            if not self.rest:
                self.out.write(data[:len(data) - len(data.lstrip())])
                data = data.lstrip()
            end = _end_before_a_time(data) or end_of_words(data)
            part, self.rest = data[:end], data[end:]
            if len(self.rest) > LONGEST_WORD:
                raise Problem(TOO_MANY_BYTES % (self.path, "a word with the white space after it", LONGEST_WORD))
            if self.at_once is None or not self.at_once(part):
                yield TOKEN.findall(part)
        found = TOKEN.findall(self.rest)
        yield found[:-1]
        self.ends_within_word = not self.rest[-1:].isspace()
        yield found[-1:]

    def _all_words(self) -> Iterator[bytes]:
        taken = self.taken
        for found in self._parts():
            for raw in found:
                taken.append(raw)
                yield raw.rstrip()
                if self.free and len(taken) > MOST_TAKEN:
                    self.copy(len(taken) - 1)
