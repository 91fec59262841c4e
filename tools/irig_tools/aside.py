"""What was recorded next to the code: the other channels of a sound file, or the other columns of a table, as lines. Each line has
the time of the recorder in microseconds, as in the dump, and then the values; a tab parts them, as irig_time reads them."""
from __future__ import annotations

from typing import IO, List, Sequence

from .editor import Problem
from .escapes import in_line

NANOSECONDS = 10 ** 9  # in a second
PER_MICROSECOND = 1000


class Aside:
    """Writes the lines as the samples are read."""

    def __init__(self, out: IO[bytes]) -> None:
        self.out = out
        self.count = 0  # of lines
        self.names: List[str] = []  # of the values, in their order

    def begin(self, path: str, names: Sequence[str]) -> None:
        """Says which values the lines have."""
        if not names:
            raise Problem("%s: has nothing next to the code; --samples writes other channels or columns" % path)
        self.names = list(names)

    def take_channels(self, values: Sequence[float], channels: int, code: int, rate: int) -> None:
        """Some samples of all channels, those of a moment one after the other; `code` is the channel of the code, from 1."""
        others = [values[channel::channels] for channel in range(channels) if channel != code - 1]
        rows = zip(*others) if len(others) > 1 else ((each,) for each in others[0])
        texts = ("\t".join(map(str, row)) for row in rows)
        many = len(others[0])
        moments = range(self.count, self.count + many)
        if 1000000 % rate == 0:
            apart = 1000000 // rate
            lines = ["%d\t%s\n" % (moment * apart, text) for moment, text in zip(moments, texts)]
        else:
            lines = ["%s\t%s\n" % (at_nanosecond((2 * moment * NANOSECONDS + rate) // (2 * rate)), text)
                     for moment, text in zip(moments, texts)]
        self._write(lines)

    def take_row(self, seconds: float, fields: Sequence[str]) -> None:
        """A row of a table, at a time of the dump. A tab within a field would part it."""
        if not "".join(fields).isprintable():
            fields = list(map(in_line, fields))
        self._write(["%s\t%s\n" % (at_nanosecond(round(seconds * NANOSECONDS)), "\t".join(fields))])

    def _write(self, lines: Sequence[str]) -> None:
        self.count += len(lines)
        self.out.write("".join(lines).encode())


def at_nanosecond(time: int) -> str:
    """A time in nanoseconds as microseconds, without zeros at the end."""
    whole, rest = divmod(time, PER_MICROSECOND)
    return "%d.%s" % (whole, ("%03d" % rest).rstrip("0")) if rest else str(whole)
