"""The words of a dump, from a file or a pipe of any size, packed or not."""
from __future__ import annotations

import codecs
import gzip
import io
import re
import sys
import zlib
from itertools import chain
from typing import IO, Callable, Iterator, List, Optional, Tuple, cast

from . import dump_packed, limits, sigrok
from .editor import Problem
from .progress import metered
from .temporary import temporary_copy

DUMP_BLOCK = 1 << 17  # bytes that are read at once
ZIP = b"PK\x03\x04"  # how a file of sigrok begins
LONGEST_WORD = 1 << 24  # bytes of a word
HEAD_BYTES = 9  # bytes that say what a file is
SPACE = re.compile(rb"\s")
TOO_MANY_BYTES = "%s: is no dump: %s has more than %d bytes"
NO_DUMPS = (
    (b"\x00\x00\x00\x00\x00\x00\x00\x01\x49", "an FST file; 'fst2vcd FILE' makes a dump of it"),
    (b"\x13\x80", "an LXT2 file; 'lxt2vcd FILE' makes a dump of it"),
    (b"VZ", "a VZT file; 'vzt2vcd FILE' makes a dump of it"),
    (b"\x28\xb5\x2f\xfd", "packed by zstd; 'zstd -dc FILE' unpacks it"),
    (b"RIFF", "a WAV file; 'irig_demodulate FILE' makes a dump of it"),
    (b"RF64", "a WAV file; 'irig_demodulate FILE' makes a dump of it"),
    (b"fLaC", "a FLAC file; 'flac -dc FILE | irig_demodulate -' makes a dump of it"),
    (b"\x25\xeb", "a recording of IRIG 106 Chapter 10, whose time packets can be enough; export its time code channel as WAV, for "
     "irig_demodulate"),
)
PACKED: Tuple[Tuple[bytes, str, Callable[[IO[bytes]], object]], ...] = (
    (b"\x1f\x8b", "gzip", lambda stream: gzip.GzipFile(fileobj=stream)),
    (b"BZh", "bzip2", dump_packed.of_bzip2),
    (b"\xfd7zXZ", "xz", dump_packed.of_xz),
)


class _Joined(io.RawIOBase):
    """The bytes that were looked at, and then the rest of the stream."""

    def __init__(self, head: bytes, stream: IO[bytes]) -> None:
        self.head, self.stream = head, stream
        self.given = 0  # bytes

    def readable(self) -> bool:
        return True

    def readinto(self, room: object) -> int:
        view = memoryview(room).cast("B")  # type: ignore[arg-type]
        data = self.head or self.stream.read(len(view))
        part, self.head = data[:len(view)], data[len(view):]
        view[:len(part)] = part
        self.given += len(part)
        return len(part)


class _Unpacked(_Joined):
    """What a packed file has, unless that is far more than of any recording."""

    def __init__(self, stream: IO[bytes], packed: _Joined, path: str) -> None:
        super().__init__(b"", stream)
        self.packed, self.path = packed, path

    def readinto(self, room: object) -> int:
        count = super().readinto(room)
        if self.given > max(limits.SURELY_UNPACKED, limits.MOST_UNPACKED * self.packed.given):
            raise Problem("%s: has more than %d bytes for each packed one, which is the limit" % (self.path, limits.MOST_UNPACKED))
        return count


def _buffered(joined: _Joined) -> IO[bytes]:
    return cast(IO[bytes], io.BufferedReader(joined, DUMP_BLOCK))


def end_of_words(data: bytes) -> int:
    """How many bytes of a part of a dump have whole words for sure: those before its last time, or else before its last word."""
    times = data.rfind(b"\n#") + 1
    words = data.rstrip()
    return times or len(words) - len(words.rsplit(None, 1)[-1] if words else b"")


class Source:
    """A dump as words. `notes` says what was done to its bytes."""

    def __init__(self, path: str) -> None:
        self.path = path
        self.notes: List[str] = []
        self.ends_within_word = False  # the last word was read, and no white space follows it
        self.at_once: Optional[Callable[[bytes], bool]] = None  # takes a part of whole words, if it is one that it can read
        self._words: Iterator[bytes] = self._all_words()

    def __iter__(self) -> Iterator[bytes]:
        return self

    def __next__(self) -> bytes:
        return next(self._words)

    def give_back(self, word: bytes) -> None:
        """The word is the next one again."""
        self._words = chain([word], self._words)

    def words(self) -> Iterator[bytes]:
        """All that follows, quicker than this object itself; it ends to be true when a word is given back."""
        return self._words

    def _with_space(self) -> Iterator[bytes]:
        """The bytes of the dump. Blocks within a long word come together, so that it is not copied for each of them."""
        pieces: List[bytes] = []
        for block in self.unpacked():
            pieces.append(block)
            if SPACE.search(block):
                yield b"".join(pieces)
                pieces = []
            elif len(pieces) > LONGEST_WORD // DUMP_BLOCK and sum(map(len, pieces)) > LONGEST_WORD:
                raise Problem(TOO_MANY_BYTES % (self.path, "a word", LONGEST_WORD))
        yield b"".join(pieces)

    def _all_words(self) -> Iterator[bytes]:
        rest = b""
        for block in self._with_space():
            data = rest + (block[-1:] if block.isspace() else block)
            end = end_of_words(data)
            part, rest = data[:end], data[end:]
            if self.at_once is None or not self.at_once(part):
                yield from part.split()
        words = rest.split()
        if words and not rest[-1:].isspace():
            yield from words[:-1]
            self.ends_within_word = True
            del words[:-1]
        yield from words

    def unpacked(self) -> Iterator[bytes]:
        """The bytes of the dump, block by block."""
        try:
            yield from self._blocks()
        except (EOFError, zlib.error, dump_packed.NoStream, gzip.BadGzipFile) as error:
            raise Problem("%s: cannot be unpacked: %s" % (self.path, error)) from error

    def _blocks(self) -> Iterator[bytes]:
        opened = cast(IO[bytes], sys.stdin.buffer) if self.path == "-" else open(self.path, "rb")
        with opened as plain:
            stream = metered(plain, self.path)
            head = stream.read(HEAD_BYTES)
            packed = _Joined(head, stream)
            joined = _buffered(packed)
            for magic, what in NO_DUMPS:
                if head.startswith(magic):
                    raise Problem("%s: is no dump but %s" % (self.path, what))
            for magic, name, unpack in PACKED:
                if head.startswith(magic):
                    self.notes.append("the file is packed by %s and was unpacked" % name)
                    joined = _buffered(_Unpacked(cast(IO[bytes], unpack(joined)), packed, self.path))
            yield from self._of_sigrok(joined) if head.startswith(ZIP) else self._plain(joined)

    def _of_sigrok(self, stream: IO[bytes]) -> Iterator[bytes]:
        """A file of sigrok, of which a copy is made: its list of files is at its end."""
        self.notes.append("the channels of a file of sigrok were made wires")
        with temporary_copy(stream) as copy:
            yield from sigrok.dump_of(copy, self.path)

    def _plain(self, stream: IO[bytes]) -> Iterator[bytes]:
        block = stream.read(DUMP_BLOCK)
        marks = (codecs.BOM_UTF16_LE, "utf-16-le"), (codecs.BOM_UTF16_BE, "utf-16-be"), (codecs.BOM_UTF8, "")
        decode = None
        for mark, code in marks:
            if block.startswith(mark):
                block = block[len(mark):]
                self.notes.append("UTF-16 was made bytes" if code else "the byte order mark was left out")
                decode = codecs.getincrementaldecoder(code)("replace") if code else None
                break
        while block:
            yield decode.decode(block).encode() or b" " if decode else block
            block = stream.read(DUMP_BLOCK)
