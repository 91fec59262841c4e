"""What a repair changed: what irig_diff prints of the recording before and after it."""
from __future__ import annotations

import re
import subprocess
import tempfile
from bisect import bisect_left, bisect_right
from typing import Iterable

from .editor import Listing, Problem, find_beside, other_release
from .opening import Opened
from .sheet import Changes

INVERTED = re.compile(rb"invert ([0-9]+) ([0-9]+)\n")
DIFFER = (0, 1)  # the statuses of irig_diff that are no trouble
LISTED = 5000  # stretches whose lines are kept
DRAWN = 50000  # stretches that are kept one by one
PARTS = 4000  # of the recording: stretches after those are joined if they are not farther apart than one


def find_differ() -> str:
    """The path of irig_diff."""
    return find_beside("irig_diff", "--page with --apply shows what it prints")


def changes_of(track: Opened, listing: Listing, repaired: str) -> Changes:
    """What irig_diff prints of a track and of the file with the repaired one; the listing is that of the track."""
    code = ["--format=" + listing.kind, "--expression=%d" % listing.expression]
    command = [find_differ(), *track.named, "--frames", *code, track.path, repaired]
    with tempfile.TemporaryFile() as complaints:
        try:
            program = subprocess.Popen(command, stdin=subprocess.DEVNULL, stdout=subprocess.PIPE, stderr=complaints)
        except OSError as error:
            raise Problem("%s cannot be run: %s" % (command[0], error.strerror)) from error
        with program:
            assert program.stdout is not None
            found = read_changes(program.stdout, listing, command[0])
        complaints.seek(0)
        said = " ".join(complaints.read().decode(errors="replace").split())
    if program.returncode not in DIFFER:
        raise Problem(said or "irig_diff ended with status %d" % program.returncode)
    return found


def read_changes(printed: Iterable[bytes], listing: Listing, program: str) -> Changes:
    """Reads the lines of the program."""
    found = Changes()
    for line in printed:
        stretch = INVERTED.fullmatch(line)
        if not stretch and not line.startswith(b"# "):
            raise other_release(program, line)
        if found.stretches < LISTED:
            found.lines.append(line.decode("ascii", "replace").rstrip("\n"))
        if stretch:
            _take_stretch(found, int(stretch[1]), int(stretch[2]), listing)
    return found


def _take_stretch(found: Changes, start: int, end: int, listing: Listing) -> None:
    """Counts a stretch, and keeps its level or where it is."""
    found.stretches += 1
    found.time += end - start
    level = level_in(listing, start, end)
    if found.stretches <= LISTED:
        found.levels.append(level)
        return
    last = found.rest[-1] if found.rest and found.stretches > DRAWN else None
    if last and end - last[0] <= listing.length // PARTS:
        found.rest[-1] = (last[0], end, last[2] + 1 - level % 2, last[3] + level % 2)
    else:
        found.rest.append((start, end, 1 - level % 2, level % 2))


def level_in(listing: Listing, start: int, end: int) -> int:
    """The level with which a stretch begins, 0 or 1, and twice the edges in it: both recordings have these."""
    rises, falls = listing.rises, listing.falls
    begun = bisect_right(rises, start), bisect_right(falls, start)
    inside = bisect_left(rises, end) - begun[0] + bisect_left(falls, end) - begun[1]
    return begun[0] - begun[1] + 2 * inside
