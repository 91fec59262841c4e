"""Samples of a recorder, from a sound file, raw numbers, or numbers in lines, a stretch at a time."""
from __future__ import annotations

import io
import math
import re
import sys
from array import array
from typing import IO, Iterator, List, Optional, Sequence, Tuple, cast

from . import texts
from .aside import Aside
from .digits import NUMBER
from .editor import Problem
from .ending import EMPTY_FILE, Usage
from .progress import metered
from .sound import SoundReader

MICROSECONDS = 1000000
LONGEST_NUMBER = 1000  # bytes of a line with a number
LARGEST = 1e30  # of a number
AFTER = 11  # bytes after the samples that are looked at: nothing, or the name of a chunk, after what fills them up
AFTER_SAMPLES = re.compile(rb"\0{0,7}([ -~]{4}|\Z)")
LITTLE = {"u8": ("B", 1), "s8": ("b", 1), "s16": ("h", 2), "s24": ("i", 3), "s32": ("i", 4), "f32": ("f", 4),
          "f64": ("d", 8)}
BIG = {kind + "be": form for kind, form in LITTLE.items() if form[1] > 1}
RAW = {**LITTLE, **BIG}  # the letter of an array, and bytes


def numbers_of(data: bytes, kind: str) -> Sequence[float]:
    """The numbers that bytes are; the data holds whole ones."""
    letters, size = RAW[kind]
    order = "big" if kind in BIG else "little"
    if size == 3:
        wide, first = bytearray(len(data) // 3 * 4), 0 if order == "big" else 1
        for place in range(3):
            wide[place + first::4] = data[place::3]
        data = bytes(wide)
    values = array(letters)
    values.frombytes(data)
    if sys.byteorder != order:
        values.byteswap()
    return values


def stream_of(path: str) -> IO[bytes]:
    """What is read; a problem if nothing is there."""
    stream = cast(io.BufferedReader, sys.stdin.buffer if path == "-" else open(path, "rb"))
    if not stream.peek(1):
        raise Problem("%s: %s" % (path, EMPTY_FILE))
    return metered(stream, path)


class Samples:
    """One channel, and its rate in hertz; plus and minus are swapped if it is `negative`."""

    start = begun = 0.0  # when the first sample is, and when it is in the dump, in microseconds
    aside: Optional[Aside] = None  # what gets the other channels, or the other columns

    def __init__(self, path: str, channel: int, raw: str, rate: int, negative: bool = False, aside: Optional[Aside] = None) -> None:
        self.path, self.channel, self.kind, self.rate, self.negative = path, channel, raw, rate, negative
        self.channels = 1
        self.left: Optional[int] = None  # bytes of samples, if they are known
        self.notes: List[str] = []
        self.stream = stream_of(path)
        if not raw:
            self._sound()
        if self.rate < 1:
            raise Usage("--raw needs --rate, in samples a second")
        if aside:
            self.aside = aside
            aside.begin(path, ["channel %d" % number for number in range(1, self.channels + 1) if number != channel])

    def _sound(self) -> None:
        form = SoundReader(self.stream, self.path).form()
        self.kind, self.channels, self.rate, self.left = form.kind, form.channels, form.rate, form.size
        if self.channel > self.channels:
            text = "%s: has %d channel%s, and no channel %d"
            raise Problem(text % (self.path, self.channels, "s" * (self.channels > 1), self.channel))
        if self.channels > 1:
            self.notes.append("channel %d of %d was read (--channel N reads another)" % (self.channel, self.channels))

    def at(self, place: float) -> float:
        """When a sample is in the dump, or what is between two, in microseconds."""
        return self.begun + place * MICROSECONDS / self.rate

    def chunks(self, length: int) -> Iterator[Sequence[float]]:
        """Stretches of this many samples; the last may be shorter."""
        for values in self._stretches(length):
            yield [-value for value in values] if self.negative else values

    def _stretches(self, length: int) -> Iterator[Sequence[float]]:
        return self._in_lines(length) if self.kind == "text" else self._in_bytes(length)

    def _in_bytes(self, length: int) -> Iterator[Sequence[float]]:
        step = RAW[self.kind][1] * self.channels
        for data in self._whole(length * step, step):
            every = numbers_of(data, self.kind)
            values = every[self.channel - 1 if self.channels > 1 else 0::self.channels]
            if self.kind.startswith("f") and not _is_sound(values):
                raise Problem("%s: a sample is no number from -1e30 to 1e30; if it is raw, is --raw KIND right?" % self.path)
            if self.aside:
                self.aside.take_channels(every, self.channels, self.channel, self.rate)
            yield values

    def _read(self, size: int) -> bytes:
        """The next bytes of samples, and not what follows them in a file."""
        if self.left is None:
            return self.stream.read(size)
        data = self.stream.read(min(size, self.left))
        self.left -= len(data)
        return data

    def _whole(self, size: int, step: int) -> Iterator[bytes]:
        """What is read, up to its end, in whole samples of all channels, of that many bytes."""
        data = self._read(size)
        while data:
            over = len(data) % step
            if over:
                text = "the last sample is cut off: %d of its %d bytes are there, and were left out"
                self.notes.append(text % (over, step))
            if over < len(data):
                yield data[:len(data) - over]
            data = self._read(size)
        if self.left == 0 and not AFTER_SAMPLES.match(self.stream.read(AFTER)):
            self.notes.append("the file has more after the samples that its head counts; 'sox --ignore-length FILE -t wav - | "
                              "irig_demodulate -' reads all")
        if self.left:
            self.notes.append("the file is cut off: it has %s of samples less than it says" % texts.counted(self.left, "byte"))

    def _in_lines(self, length: int) -> Iterator[Sequence[float]]:
        values: List[float] = []
        for number, line in enumerate(iter(lambda: self.stream.readline(LONGEST_NUMBER), b""), 1):
            values.append(self._number(line, number))
            if len(values) == length:
                yield values
                values = []
        if values:
            yield values

    def _number(self, line: bytes, number: int) -> float:
        word = line.strip().decode("latin-1")
        value = float(word) if NUMBER.fullmatch(word) and len(line) < LONGEST_NUMBER else math.nan
        if not -LARGEST <= value <= LARGEST:  # nor is it nan
            raise Problem("%s: line %d is no number from -1e30 to 1e30" % (self.path, number))
        return value


def _is_sound(values: Sequence[float]) -> bool:
    """Whether all are finite and not too large; a sum with nan or an infinity in it is not finite."""
    return math.isfinite(sum(values)) and -LARGEST <= min(values) and max(values) <= LARGEST


def ranks(values: Sequence[float]) -> Tuple[float, float]:
    """The low and the high level of a stretch: a tenth of all is below the one, a tenth above the other."""
    ranked = sorted(values)
    return ranked[len(ranked) // 10], ranked[len(ranked) * 9 // 10]
