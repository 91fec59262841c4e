"""What is said of a recording, with the numbers that its pulses have in one state of it. A repair changes the numbers of all pulses after
it, so a line that is typed has to say those of the recording on which it is typed."""
from __future__ import annotations

import re
from bisect import bisect_left
from dataclasses import replace
from typing import List, Sequence

from .became import moved_back, moved_by
from .kinds import DamageKind
from .script import Repair
from .units import Microseconds, plus

# pulses in words, and those of a line of a script; what is counted from a mark stays as it is
NUMBERS = re.compile(r"\b(pulses? )([0-9]+)(?:( to )([0-9]+))?"
                     r"|(?<![+-])\b()([0-9]+)(?:(,)([0-9]+))?(?=(?:,\$)? (?:delete|join|split|force|shift)\b)")
TIMES = re.compile(r"\b(insert|split|mark z|regen) ([0-9]+)(?: ([0-9]+))?")
WITH_A_COUNT = "regen"  # its second number is one of frames


def in_recording(script: Sequence[Repair], rises: Sequence[Microseconds]) -> List[Repair]:
    """The script, with what its remarks say counted in the recording with these rises, before the script."""
    moves = sorted(move for repair in script for move in repair.moves)
    return [_recounted(each, rises, each.at if each.out else each.at - moved_back(each.at, moves)) for each in script]


def in_repaired(script: Sequence[Repair], rises: Sequence[Microseconds]) -> List[Repair]:
    """The same, counted in the repaired recording with these rises, and with the times that it has there."""
    moves = sorted(move for repair in script for move in repair.moves)
    left = [_moved_remark(each, moved_by(each.at, moves)) for each in script]
    return [_recounted(each, rises, each.at) for each in left]


def _moved_remark(repair: Repair, by: int) -> Repair:
    """A remark whose lines are left out, that much later; any other has the times of the repaired recording."""
    if not repair.out or not by:
        return repair
    lines = [_shifted(line, by) for line in repair.out]
    return replace(repair, at=plus(repair.at, by), edits=lines).left_out(repair.seen)


def _recounted(repair: Repair, rises: Sequence[Microseconds], at: int) -> Repair:
    """A remark with its pulses counted in a track with these rises, in which it is at this time; of a repair what is trusted."""
    more = bisect_left(rises, at) - repair.ahead
    has_none = repair.kind == DamageKind.DIFFERS  # only names of files, and no pulses
    if repair.edits and not repair.is_trusted or not more or has_none:
        return repair
    comments, undecided = ([counted_on(text, more) for text in texts] for texts in (repair.comments, repair.undecided))
    pulses = tuple(plus(pulse, more) for pulse in repair.concern.pulses)
    return replace(repair, comments=comments, undecided=undecided, concern=repair.concern._replace(pulses=pulses))


def counted_on(text: str, more: int) -> str:
    """A text with the numbers of its pulses, if that many more are before them."""
    def shifted(found: "re.Match[str]") -> str:
        word, first, to, last = found.groups()[:4] if found[2] else found.groups()[4:]
        return "%s%d%s" % (word, int(first) + more, "%s%d" % (to, int(last) + more) if to else "")

    return NUMBERS.sub(shifted, text)


def _shifted(line: str, by: int) -> str:
    """A line of a script for what comes that much later."""
    def shifted(found: "re.Match[str]") -> str:
        word, first, second = found.groups()
        last = second and (second if word == WITH_A_COUNT else str(int(second) + by))
        return " ".join([word, str(int(first) + by), *[last] * bool(last)])

    return TIMES.sub(shifted, line)
