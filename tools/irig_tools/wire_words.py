"""The words of a dump that are the changes of one wire, or of the vector that it is a bit of."""
from __future__ import annotations

from typing import List, NamedTuple, Sequence

from . import limits
from .dump_choice import Signal
from .dump_header import Header
from .editor import Problem


class Own(NamedTuple):
    """A change as the dump has it: the places of its words, its time, the letter of the wire, and the bits of its
    vector."""

    first: int
    beyond: int
    time: int
    letter: str
    bits: str


class Scalars:
    """The changes of a wire of one bit."""

    is_alone = True

    def __init__(self, code: bytes) -> None:
        self.code = code

    def bits(self, word: str) -> str:
        """What is kept of the value of a vector."""
        return ""

    def value(self, letter: str, bits: str) -> bytes:
        """The words of a new change."""
        return letter.encode("ascii") + self.code

    def replaced(self, raws: Sequence[bytes], letter: str) -> List[bytes]:
        """The words of a change, each with its white space, with another letter."""
        end = raws[-1][len(raws[-1].rstrip()):]
        return [self.value(letter, "") + end] + [b""] * (len(raws) - 1)

    def without(self, raws: Sequence[bytes], letter: str) -> List[bytes]:
        """The words of a change that is not there, as the wire has this letter all the time."""
        return [b""] * len(raws)


class Vectors(Scalars):
    """The changes of a vector, of which the wire is one bit; those of its other bits stay."""

    is_alone = False

    def __init__(self, code: bytes, size: int, place: int) -> None:
        super().__init__(code)
        self.size, self.place = size, place

    def bits(self, word: str) -> str:
        digits = word[1:] or "0"
        left = digits[0] if digits[0] in "xXzZ" else "0"
        return digits.rjust(self.size, left)

    def value(self, letter: str, bits: str) -> bytes:
        return ("b%s " % self._with(letter, bits)).encode("latin-1") + self.code

    def replaced(self, raws: Sequence[bytes], letter: str) -> List[bytes]:
        word = raws[0].rstrip()
        bits = self._with(letter, self.bits(word.decode("latin-1")))
        return [word[:1] + bits.encode("latin-1") + raws[0][len(word):], *raws[1:]]

    def without(self, raws: Sequence[bytes], letter: str) -> List[bytes]:
        return self.replaced(raws, letter)

    def _with(self, letter: str, bits: str) -> str:
        bits = bits or "x" * self.size
        at = len(bits) - 1 - self.place
        return bits[:at] + letter + bits[at + 1:]


def words_of(header: Header, signal: Signal) -> Scalars:
    """How the changes of a signal are written; of a vector all bits are."""
    wide = [wire.size for wire in header.wires if wire.code == signal.code and not wire.single]
    if wide and max(wide) > limits.MOST_BITS_WRITTEN:
        raise Problem("%s: no track is put back into a vector of more than %s bits" % (signal.path, format(limits.MOST_BITS_WRITTEN, ",")))
    return Vectors(signal.code, max(wide), signal.place) if wide else Scalars(signal.code)
