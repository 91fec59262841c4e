"""The command that prints again what a page shows of a repair. It writes no file; if it makes a track first, it is one of bash."""
from __future__ import annotations

import os
from dataclasses import dataclass
from typing import List, Optional, Sequence

from .editor import Listing
from .escapes import in_command
from .opening import Opened
from .proposal import no_option

PASSING = ("/dev/", "/proc/")  # what is read or written there is gone


@dataclass(frozen=True)
class Names:
    """What irig_mend was given: its files, and what else decides the repair."""

    track: str
    out: str
    into: Optional[str] = None
    dump: Optional[int] = None
    rules: Sequence[str] = ()

    @property
    def is_put_back(self) -> bool:
        """Whether the track goes back into the file that it was read from."""
        return self.into is not None and os.path.realpath(self.into) == os.path.realpath(self.track)


def again(names: Names, track: Opened, listing: Listing) -> str:
    """The command. If a recording went through a pipe it has BEFORE or AFTER for its file."""
    code = ["--format=" + listing.kind, "--expression=%d" % listing.expression]
    wires = [*track.named]
    if names.is_put_back:
        wires += [each.replace("--wire", "--wire-after", 1) for each in track.named]
    words = " ".join(map(in_command, ["irig_diff", *wires, "--frames", *code]))
    return "%s %s %s" % (words, _before(names, track), _after(names, track, code))


def _before(names: Names, track: Opened) -> str:
    """The track before, for irig_diff."""
    if not is_kept(names.track):
        return "BEFORE"
    return in_command(no_option(names.track)) if track.is_as_it_is else _dump_of(names.track, names, track)


def _after(names: Names, track: Opened, code: Sequence[str]) -> str:
    """The repaired track. If it is a wire of another file it is made again, since it can be a part of that wire."""
    if not is_kept(names.out):
        return "AFTER"
    if names.into is not None and not names.is_put_back:
        wire = [] if track.wire is None else ["--wire=" + track.wire]
        words = ["irig_mend", *wire, *_unit_and_dump(names, track), *code, *names.rules, "--apply", "-"]
        return "<(%s %s)" % (" ".join(map(in_command, words)), in_command(no_option(names.track)) if is_kept(names.track) else "BEFORE")
    if names.into is not None and not track.is_as_it_is:
        return _dump_of(names.out, names, track)
    return in_command(no_option(names.out))


def _dump_of(path: str, names: Names, track: Opened) -> str:
    """The dump of the wire of a file."""
    wire = [] if track.wire is None else [track.wire]
    operands = [no_option(path), *wire]
    words = ["irig_wire", *_unit_and_dump(names, track), *["--"] * any(each.startswith("-") for each in wire), *operands]
    return "<(%s)" % " ".join(map(in_command, words))


def _unit_and_dump(names: Names, track: Opened) -> List[str]:
    """The options for the unit and the dump."""
    unit = [] if track.unit is None else ["--timescale=" + track.unit.replace(" ", "")]
    return unit + ([] if names.dump is None else ["--dump=%d" % names.dump])


def is_kept(path: str) -> bool:
    """Whether a file can be read again."""
    return path != "-" and not path.startswith(PASSING)
