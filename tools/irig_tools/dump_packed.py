"""What bzip2 or xz packed, in one stream or in several. Python's own readers leave out in silence what follows and is no stream."""
from __future__ import annotations

import bz2
import io
import lzma
from typing import IO, Callable, Union

XZ_PADDING = b"\0"  # can follow each stream of xz


class NoStream(Exception):
    """The bytes are no stream of this packer."""


class Unpacked:
    """The bytes of all streams of a file, one after the other."""

    def __init__(self, file: IO[bytes], begin: Callable[[], Union[bz2.BZ2Decompressor, lzma.LZMADecompressor]], padding: bytes) -> None:
        self.file, self.begin, self.padding = file, begin, padding
        self.stream = begin()

    def read(self, size: int) -> bytes:
        """Some bytes, at most that many; none at the end."""
        data = b""
        while not data:
            packed = b""
            if self.stream.eof:
                packed = self._next()
                if not packed:
                    break
                self.stream = self.begin()
            elif self.stream.needs_input:
                packed = self._more()
                if not packed:
                    raise EOFError("it ends within a stream")
            try:
                data = self.stream.decompress(packed, size)
            except (OSError, lzma.LZMAError) as error:
                raise NoStream(error) from error
        return data

    def _next(self) -> bytes:
        """How the next stream begins; nothing at the end."""
        packed = self.stream.unused_data or self._more()
        while packed and not packed.strip(self.padding):
            packed = self._more()
        return packed.lstrip(self.padding)

    def _more(self) -> bytes:
        return self.file.read(io.DEFAULT_BUFFER_SIZE)


def of_bzip2(file: IO[bytes]) -> Unpacked:
    """What bzip2 or pbzip2 packed."""
    return Unpacked(file, bz2.BZ2Decompressor, b"")


def of_xz(file: IO[bytes]) -> Unpacked:
    """What xz packed."""
    return Unpacked(file, lambda: lzma.LZMADecompressor(lzma.FORMAT_XZ), XZ_PADDING)
