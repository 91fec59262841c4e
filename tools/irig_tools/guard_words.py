"""What irig_guard says of its own: the comments that say why a repair is not kept, and its line on the standard error.

The texts are those of the program (crates/irig_guarding/src/reason_text.rt, crates/irig_guard/src/statuses.rt), and a test compares
them. A reason that is none of these is of another release, and is refused.
"""
from __future__ import annotations

import re
from typing import NamedTuple, Optional

NOTHING_FINE = "# nothing to go by: no frame of the recording is fine"
NOT_KEPT = "# not kept: "
# after the name of a frame, and when it begins
NO_CONTROLS = " would have control functions that are not supported"
OF_A_FRAME = (" would be lost", " would change", " would have a time that is not supported", NO_CONTROLS, ": its pulses would move",
              ": its pulses would rise where nothing supports it")
UNSUPPORTED = "fine frames would not support each other"  # no frame was fine, so it is of all frames
UNJUDGED = "no frame would be fine to go by"  # the same
OF_NO_FRAME = ("not a repair", "memory ran out")
GONE = ("the pulse at ", " is in step, and would be gone")  # between them when it rises
MOMENT = "the moment "  # and then its microsecond
OF_A_MOMENT = (" would have no time", " would have another time", " would have a time, and a pulse next to it is doubted")
REFUSED_BY_EDITOR = "refused: "  # and then number and name of the refusal
FILLED = "control functions of %s %s are not in the recording"  # how many, and `frame` or `frames`

FRAME_AT_FAULT = re.compile("frame [0-9]+ [0-9:.]+ at ([0-9]+)(?:%s)" % "|".join(map(re.escape, OF_A_FRAME)))
PULSE_AT_FAULT = re.compile("[0-9]+".join(GONE))
MOMENT_AT_FAULT = re.compile(MOMENT + "[0-9]+(?:%s)" % "|".join(OF_A_MOMENT))
REFUSAL = re.compile(REFUSED_BY_EDITOR + "E[0-9]+ [A-Za-z]+")
FILLED_LINE = re.compile(".*: " + FILLED % ("([0-9]+)", "frames?"), re.S)


class Reason(NamedTuple):
    """Why a repair is not kept, or nothing is judged."""

    text: str
    begin: Optional[int] = None  # where the frame begins because of which it is, if it is because of one
    is_of_all: bool = False  # it is because of all frames


def guard_reason(line: str) -> Optional[Reason]:
    """The reason that a line of the guarded script is; none if it is a line of the script. A reason that is not known is a ValueError."""
    if line == NOTHING_FINE:
        return Reason(line[2:])
    if not line.startswith(NOT_KEPT):
        return None
    said = line[len(NOT_KEPT):]
    fault = FRAME_AT_FAULT.fullmatch(said)
    is_of_all = said in (UNSUPPORTED, UNJUDGED)
    others = (PULSE_AT_FAULT, MOMENT_AT_FAULT, REFUSAL)
    if not (fault or is_of_all or said in OF_NO_FRAME or any(each.fullmatch(said) for each in others)):
        raise ValueError(line)
    return Reason(line[2:], int(fault[1]) if fault else None, is_of_all)


def filled_frames(said: str) -> int:
    """How many frames have control functions that are not in the recording, by what is on the standard error."""
    found = FILLED_LINE.fullmatch(said)
    return int(found[1]) if found else 0


def filled_text(many: int) -> str:
    return FILLED % (many, "frame" if many == 1 else "frames")
