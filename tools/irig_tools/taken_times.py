"""Which repairs take a time away. What is damaged next to silence at an end, to a step, or to a frame that shows another time can count as
just that once it is repaired: then irig_time gives no time, or another one, to moments that had one by the recording as it was."""
from __future__ import annotations

import subprocess
from bisect import bisect_left, bisect_right
from typing import Dict, Iterator, List, Optional, Sequence, Tuple

from . import limits
from .apply import Refused, turned_track, turning
from .editor import CUT_OFF, Editor, Listing, Problem, find_beside
from .kinds import ALL_PULSES
from .layout import INTERVAL
from .opening import Opened
from .script import Repair
from .temporary import temporary_script
from .units import ELEMENTS

UNTIMED = "-"
KEEPS_TIMES = "--apply looks by it whether each sample keeps its time"
SECONDS_OF = (86400, 3600, 60, 1)  # of a day, an hour, a minute and a second
YEARS = 0, 365, 366  # days: no moment near a repair is another one of these by a repair


def takers(track: Opened, listing: Listing, script: Sequence[Repair], refused: Refused, repaired: str,
           widely: bool) -> List[Tuple[Repair, int]]:
    """The repairs that are nearest to a moment that had a time in the track of this listing and has none in the repaired one, or another:
    each with such a moment. If `widely`, all that can have done it. A wire that is upside down counts as it is when it is turned over, and
    no repair of all its pulses is one of these: all others are made for what it gives."""
    kept = [each for each in script if each.edits and each.kind not in ALL_PULSES and not refused.drops(each)]
    options, path = track.options, track.path
    if kept and turning(script):
        options, path = track.code, turned_track(repaired)
        listing = Editor([*options, path]).ask([])
    interval = INTERVAL[listing.kind]
    reach = limits.REACH_OF_A_REPAIR * ELEMENTS * interval
    moments = list(_moments(listing.rises, interval, _stretches_near(kept, interval)))
    if not moments:
        return []
    before, after = (times_of(words, of, moments, KEEPS_TIMES) for words, of in ((options, path), (track.code, repaired)))
    lost = [moment for moment, one, other in zip(moments, before, after) if _is_taken(one, other, interval)]
    most = reach if widely else 0
    found: Dict[int, int] = {}
    for moment in lost:
        nearest = min(_distance(each, moment) for each in kept)
        found.update({number: moment for number, each in enumerate(kept) if _distance(each, moment) <= max(nearest, most)})
    return [(kept[number], found[number]) for number in sorted(found)]


def _stretches_near(script: Sequence[Repair], interval: int) -> List[Tuple[int, int]]:
    """The stretches in which a repair can give a time, or take one."""
    reach = limits.REACH_OF_A_REPAIR * ELEMENTS * interval
    return sorted((each.at - reach, _end(each) + reach) for each in script)


def _end(repair: Repair) -> int:
    return max(repair.at, repair.until)


def _distance(repair: Repair, moment: int) -> int:
    return max(0, repair.at - moment, moment - _end(repair))


def _moments(rises: Sequence[int], interval: int, stretches: Sequence[Tuple[int, int]]) -> Iterator[int]:
    """Between each two pulses that can be in step, where a stretch begins or ends near them. Stretches are in order."""
    beyond = 0
    for begin, end in stretches:
        first = max(beyond, bisect_left(rises, begin))
        beyond = max(beyond, bisect_right(rises, end))
        for rise, after in zip(rises[first:beyond], rises[first + 1:beyond + 1]):
            if 2 * (after - rise) > interval and after - rise < 2 * interval:
                yield (rise + after) // 2


def times_of(options: Sequence[str], path: str, moments: Sequence[int], need: str) -> List[str]:
    """What irig_time gives these moments of a track."""
    program = find_beside("irig_time", need)
    with temporary_script("".join("%d\n" % moment for moment in moments)) as lines:
        done = subprocess.run([program, *options, path], stdin=lines, capture_output=True, check=False)
    found = [line.partition(b"\t")[0].decode("ascii", "replace") for line in done.stdout.splitlines()]
    if done.returncode not in (0, 1) or len(found) != len(moments):
        raise Problem(done.stderr.decode(errors="replace").strip() or CUT_OFF)
    return found


def _is_taken(before: str, after: str, interval: int) -> bool:
    """Whether a moment had a time, and has none now, or one that is off by more than a tenth of an interval."""
    if before in (UNTIMED, after):
        return False
    one, other = _microseconds(before), _microseconds(after)
    if one is None or other is None:
        return True
    return min(abs(abs(one - other) - days * SECONDS_OF[0] * 1000000) for days in YEARS) > limits.IN_STEP * interval


def _microseconds(time: str) -> Optional[int]:
    """From the begin of the year; None if it is no time."""
    day, _, clock = time.rpartition("-")[2].partition("T")
    if not clock:
        return None
    whole, _, part = clock.partition(".")
    parts = [int(day), *map(int, whole.split(":"))]
    return sum(many * each for many, each in zip(parts, SECONDS_OF)) * 1000000 + int(part or 0)
