"""A part of a large dump that is read instead of all of it, to see what is on which wire."""
from __future__ import annotations

import os
from contextlib import contextmanager
from typing import Iterator

from .dump_source import PACKED, ZIP, Source
from .editor import Problem
from .temporary import named_if_no_room, temporary_track

SAMPLE = 1 << 23  # bytes
PLACES = (0, 1 << 26, 1 << 27, 1 << 28, 1 << 29, 1 << 30)  # bytes before a sample
LARGE, LARGE_PACKED = 1 << 26, 1 << 21  # bytes of a file that can be longer than a track
END = b"$enddefinitions"


def can_be_long(path: str) -> bool:
    """Whether a file can have more pulses than a track holds."""
    with open(path, "rb") as file:
        head = file.read(8)
    is_packed = head.startswith((ZIP, *(magic for magic, _, _ in PACKED)))
    return os.path.getsize(path) > (LARGE_PACKED if is_packed else LARGE)


def is_packed_folder(path: str) -> bool:
    """Whether a file is one of sigrok, if it is read at all."""
    with open(path, "rb") as file:
        return file.read(len(ZIP)) == ZIP


@contextmanager
def sample(path: str, place: int) -> Iterator[str]:
    """The path of a dump with the declarations, and what comes after that many bytes; a problem if nothing does."""
    with temporary_track() as track:
        with named_if_no_room():
            track.write(_part_of_file(path, place))
            track.flush()
        yield track.name


def _part_of_file(path: str, place: int) -> bytes:
    blocks = Source(path).unpacked()
    begin = _gathered(blocks, 0)
    if not place:
        return begin
    end = _end_of_head(begin)
    body = _gathered(blocks, place - len(begin))
    body = body[body.find(b"\n#") + 1:]
    if not end or not body:
        raise Problem("%s: nothing else to look at" % path)
    return begin[:end] + b"\n" + body


def _gathered(blocks: Iterator[bytes], after: int) -> bytes:
    """What comes after that many bytes; a part of it ends before a time."""
    found, at = bytearray(), 0
    for block in blocks:
        found += block if at >= after else b""
        at += len(block)
        if len(found) >= SAMPLE:
            return bytes(found[:found.rfind(b"\n#") + 1])
    return bytes(found)


def _end_of_head(data: bytes) -> int:
    """Where the declarations end; 0 if they do not."""
    begin = data.find(END)
    return 0 if begin < 0 else data.find(b"$end", begin + len(END)) + len(b"$end")
