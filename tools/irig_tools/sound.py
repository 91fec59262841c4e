"""Sound files: WAV in RIFF, RIFX or RF64, and W64, with integers or floats.

They are read as a stream. A size of 0, or one that is more than there is, as a recorder leaves it that crashed, means
all up to the end of the file.
"""
from __future__ import annotations

import struct
from dataclasses import dataclass
from typing import IO, Iterator, Optional, Tuple

from .editor import Problem
from .texts import counted

PCM, FLOAT, EXTENSIBLE = 1, 3, 0xfffe  # forms of samples
SAMPLE_KINDS = {(PCM, 1): "u8", (PCM, 2): "s16", (PCM, 3): "s24", (PCM, 4): "s32", (FLOAT, 4): "f32", (FLOAT, 8): "f64"}
W64_RIFF = b"riff\x2e\x91\xcf\x11\xa5\xd6\x28\xdb\x04\xc1\x00\x00"
LONGEST_CHUNK = 1 << 20  # bytes of the chunk that describes the samples
EMPTY = "says that it has %s and %s in a second; --raw reads the samples without the head"
UNKNOWN = 0xffffffff, 0xffffffffffffffff  # sizes that say nothing
SOX = "'sox FILE -t wav - | irig_demodulate -' reads it"
NO_SOUNDS = (
    (b"fLaC", "a FLAC file; 'flac -dc FILE | irig_demodulate -' reads it"),
    (b"OggS", "an Ogg file; " + SOX), (b"FORM", "an AIFF file; " + SOX), (b"caff", "a CAF file; " + SOX),
    (b".snd", "an AU file; " + SOX), (b"ID3", "an MP3 file; " + SOX),
    (b"\x25\xeb", "a recording of IRIG 106 Chapter 10, whose time packets can be enough; export its time code channel as WAV"),
    (b"$", "a value change dump; 'irig_what FILE' finds time code in it"),
)


@dataclass(frozen=True)
class Form:
    """How the samples are written: their kind, as in `samples`, channels, samples in a second, and bytes, if those are
    known."""

    kind: str
    channels: int
    rate: int
    size: Optional[int] = None


class SoundReader:
    """Reads the head of a sound file, up to its first sample."""

    def __init__(self, stream: IO[bytes], path: str) -> None:
        self.stream, self.path = stream, path
        self.order, self.wide = "<", False  # of bytes; whether sizes have 64 bits
        self.long_size: Optional[int] = None  # of the samples, in RF64

    def form(self) -> Form:
        self._head()
        described: Optional[Form] = None
        for name, size in self._chunks():
            if name == b"data" and described:
                size = self.long_size if self.long_size is not None and size in UNKNOWN else size
                known = size if size and size not in UNKNOWN else None
                return Form(described.kind, described.channels, described.rate, known)
            body = self._body(size)
            if name == b"fmt ":
                described = self._described(body)
            elif name == b"ds64" and len(body) >= 16:
                self.long_size = struct.unpack_from("<Q", body, 8)[0] or None
        raise self._problem("has no samples: its chunk of data is missing")

    def _problem(self, text: str) -> Problem:
        return Problem("%s: %s" % (self.path, text))

    def _head(self) -> None:
        head = self.stream.read(12)
        if head[:4] in (b"RIFF", b"RF64", b"RIFX") and head[8:] == b"WAVE":
            self.order = ">" if head[:4] == b"RIFX" else "<"
            return
        if head == W64_RIFF[:12] and (head + self.stream.read(28))[:16] == W64_RIFF:
            self.wide = True
            return
        for magic, what in NO_SOUNDS:
            if head.startswith(magic):
                raise self._problem("is no WAV file but %s" % what)
        raise self._problem("is no WAV file; --raw reads samples without a head, --table a table")

    def _chunks(self) -> Iterator[Tuple[bytes, int]]:
        """The name and the size of each chunk; who takes one reads its body."""
        while True:
            head = self.stream.read(24 if self.wide else 8)
            if len(head) < (24 if self.wide else 8):
                return
            size = struct.unpack_from("<Q", head, 16)[0] - 24 if self.wide else struct.unpack_from(self.order + "I", head, 4)[0]
            yield head[:4], max(0, size)

    def _body(self, size: int) -> bytes:
        """The body of a chunk that is no sample, up to a length, with what fills it up."""
        fill = -size % (8 if self.wide else 2)
        body = self.stream.read(min(size, LONGEST_CHUNK))
        left = size + fill - len(body)
        while left > 0:
            passed = len(self.stream.read(min(left, LONGEST_CHUNK)))
            left = left - passed if passed else 0
        return body

    def _described(self, body: bytes) -> Form:
        if len(body) < 16:
            raise self._problem("does not say how its samples are written; --raw reads them without the head")
        tag, channels, rate, _, step, bits = struct.unpack_from(self.order + "HHIIHH", body)
        if tag == EXTENSIBLE and len(body) >= 26:
            tag = struct.unpack_from(self.order + "H", body, 24)[0]
        size = step // channels if channels and step % channels == 0 and step else (bits + 7) // 8
        kind = SAMPLE_KINDS.get((tag, size))
        if not channels or not rate:
            raise self._problem(EMPTY % (counted(channels, "channel"), counted(rate, "sample")))
        if kind is None:
            raise self._problem("has samples of %d bits in the form %d; %s" % (bits, tag, SOX))
        return Form(kind + "be" if self.order == ">" and size > 1 else kind, channels, rate)
