"""The name of the wire of a track."""
from __future__ import annotations

from .dump_choice import choose, wire_name
from .dump_header import Reader
from .dump_source import Source
from .editor import Problem
from .opening import Opened


def wire_named(track: Opened) -> str:
    """The name of the wire in the track's own file, which all programs take."""
    if track.wire is not None:
        return track.wire
    header = Reader(Source(track.path)).read()
    return wire_name(header, choose(header, None))


def wire_or_none(track: Opened) -> str:
    """The same; nothing if only the editor can read the file."""
    try:
        return wire_named(track)
    except Problem:
        return ""
