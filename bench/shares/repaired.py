"""Recordings whose pulses without damage are known, and whether a repair of irig_mend gives these."""
from __future__ import annotations

import os
import sys
from bisect import bisect_left
from typing import List, Sequence, Tuple

HERE = os.path.dirname(os.path.realpath(__file__))
sys.path[:0] = [HERE, os.path.join(HERE, "../../tools")]

from irig_tools.editor import Listing  # noqa: E402
from irig_tools.script import Repair  # noqa: E402
from judge import PROGRAMS  # noqa: E402
from recordings import ALL, Draft, Recording  # noqa: E402
from sent import Pulse  # noqa: E402
from tape import joined  # noqa: E402

BESIDE = 0.6  # of an interval, before a repair and after it
OFF = 0.1  # of an interval


def link(programs: str, folder: str) -> None:
    """The programs of a folder that is built as this repository are next to each other in another one, for the tools."""
    for name in PROGRAMS:
        os.symlink(os.path.join(os.path.realpath(programs), "crates", name, "out", name), os.path.join(folder, name))
    os.environ["IRIG_ED"] = os.path.join(folder, "irig_ed")


def made(kind: str, seed: int) -> Tuple[Recording, List[Pulse]]:
    """A recording, and its pulses without any damage of the code: those that the recorder would have written then."""
    what = ALL[kind]
    draft = Draft(kind, seed, what.formats)
    what.before(draft)
    draft.send()
    sent = joined([pulse for each in draft.wire.pulses for pulse in each])
    what.after(draft)
    draft.silent_ends()
    draft.play()
    return Recording(kind, seed, draft), draft.tape.play(sent)


def is_right(repair: Repair, listing: Listing, sound: Sequence[Pulse], interval: int) -> bool:
    """Whether the pulses at a repair are those without damage."""
    begin, end = repair.at - BESIDE * interval, max(repair.at, repair.until) + BESIDE * interval
    own = [pulse for pulse in zip(listing.rises, listing.falls) if begin < pulse[0] < end]
    wanted = [(rise, fall) for rise, fall in sound[bisect_left(sound, (begin, 0)):] if rise < end]
    return len(own) == len(wanted) and all(is_alike(*pair, interval) for pair in zip(own, wanted))


def is_alike(one: Tuple[float, float], other: Tuple[float, float], interval: int) -> bool:
    """Whether two pulses rise at the same time and are as wide."""
    return abs(one[0] - other[0]) <= OFF * interval and abs(one[1] - one[0] - other[1] + other[0]) <= OFF * interval
