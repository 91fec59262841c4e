"""A line of progress on a terminal, for reading that takes more than two seconds."""
from __future__ import annotations

import os
import stat
import sys
from time import monotonic
from typing import IO, List, Union, cast

LATER, AGAIN = 2.0, 0.25  # seconds: after these the line is shown, and shown again
MEGABYTE = 1000000
SHOWN: List[bool] = []  # one item, while a line is shown


class ReadSoFar:
    """How much of a file or of standard input is read."""

    def __init__(self, path: Union[str, int]) -> None:
        self.asked = sys.stderr is not None and sys.stderr.isatty()
        self.begun = self.next = monotonic() if self.asked else 0.0
        self.next += LATER
        self.done, self.whole = 0, _size(0 if path == "-" else path) if self.asked else 0

    def add(self, count: int) -> None:
        """That many bytes more; none at the end."""
        if not self.asked:
            return
        self.done += count
        if not count:
            clear()
        elif monotonic() >= self.next:
            self.next = monotonic() + AGAIN
            show(self.text())

    def text(self) -> str:
        if self.whole < self.done:
            return "%.1f MB read" % (self.done / MEGABYTE)
        return "%.1f of %.1f MB read, %d %%" % (self.done / MEGABYTE, self.whole / MEGABYTE, 100 * self.done // self.whole)


class Counted:
    """A stream that says how far it is."""

    def __init__(self, stream: IO[bytes], path: str) -> None:
        self.stream, self.reading = stream, ReadSoFar(path)

    def read(self, size: int = -1) -> bytes:
        data = self.stream.read(size)
        self.reading.add(len(data))
        return data

    def readline(self, size: int = -1) -> bytes:
        data = self.stream.readline(size)
        self.reading.add(len(data))
        return data


def metered(stream: IO[bytes], path: str) -> IO[bytes]:
    """The stream itself if there is no terminal to show anything on."""
    found = Counted(stream, path)
    return cast(IO[bytes], found) if found.reading.asked else stream


def show(text: str) -> None:
    SHOWN[:] = [True]
    print("\r%-70s" % text, end="\r", file=sys.stderr, flush=True)


def clear() -> None:
    """Takes the line away, if there is one."""
    if SHOWN:
        SHOWN.clear()
        print("\r\033[K", end="", file=sys.stderr, flush=True)


def _size(path: Union[str, int]) -> int:
    """The bytes of a file; 0 of anything else."""
    try:
        found = os.stat(path)
    except (OSError, ValueError):
        return 0
    return found.st_size if stat.S_ISREG(found.st_mode) else 0
