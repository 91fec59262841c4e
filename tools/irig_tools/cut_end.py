"""What is said of a file of which not all was read: it is cut, or it has another dump. A dump that the editor reads as it is can end
within a value: a code that no wire has is a part of one."""
from __future__ import annotations

import os
import re
from typing import List, Optional

from .dump_body import PAIRS, SCALAR
from .dump_header import Reader
from .dump_source import Source
from .editor import Problem
from .opening import Opened
from .wire import ENDS_WITHIN, SEVERAL_DUMPS

OF_DUMPS = re.compile(SEVERAL_DUMPS.replace("%d", "[0-9]+"))
TAIL = 4096  # bytes at the end of a file


def note_if_cut(track: Opened) -> None:
    """Notes that the file of a track is cut, if that is not known yet."""
    if track.is_as_it_is and not is_cut(track) and _ends_within_value(track.path):
        track.notes.append(ENDS_WITHIN["value"])


def is_cut(track: Opened) -> bool:
    """Whether it is noted that the file is cut."""
    return bool(cut_notes(track))


def cut_notes(track: Opened) -> List[str]:
    return [note for note in track.notes if note in ENDS_WITHIN.values()]


def notes_of_rest(track: Opened) -> List[str]:
    """What is noted of the rest of the file, which was not looked at: it is lost, or another dump."""
    return [note for note in track.notes if is_of_rest(note)]


def is_of_rest(note: str) -> bool:
    return note in ENDS_WITHIN.values() or bool(OF_DUMPS.match(note))


def _ends_within_value(path: str) -> bool:
    code = _last_code(path)
    if code is None:
        return False
    try:
        return code not in {wire.code for wire in Reader(Source(path)).read().wires}
    except Problem:
        return False


def _last_code(path: str) -> Optional[bytes]:
    """The code of the last change, if no white space follows it."""
    with open(path, "rb") as file:
        file.seek(max(0, os.path.getsize(path) - TAIL))
        tail = file.read()
    words = tail.split()
    if not words or tail[-1:].isspace():
        return None
    if len(words) > 1 and words[-2][0] in PAIRS:
        return words[-1]
    return words[-1][1:] if words[-1][0] in SCALAR else b"" if words[-1][0] in PAIRS else None
