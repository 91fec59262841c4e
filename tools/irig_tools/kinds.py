"""The kinds of damage."""
from __future__ import annotations

from enum import Enum


class DamageKind(str, Enum):
    """A kind of damage, as `--json` has it. It is set where the damage is found."""

    SPLIT = "split"  # several pulses where one has to be
    JOINED = "joined"  # pulses have run together
    MISSING = "missing"
    STRETCH = "stretch"  # several places one after the other
    WIDTH = "width"  # that of no class
    CLASS = "class"  # another one than has to be there
    LATE = "late"  # or early
    STEP = "step"  # all that follows comes late or early
    CUT = "cut"  # elements are missing, and the rest follows at once
    TWICE = "twice"
    TIMES = "times"  # those of the frames go on elsewhere
    SILENCE = "silence"
    CLOCK = "clock"
    JITTER = "jitter"
    THRESHOLD = "threshold"
    INVERTED = "inverted"  # upside down
    CONTROL = "control"
    OUTSIDE = "outside"  # of any frame
    FORMAT = "format"  # another one, or another wire or expression
    DIFFERS = "differs"  # from another recording of the same code
    OTHER = "other"


ALL_PULSES = frozenset((DamageKind.INVERTED, DamageKind.THRESHOLD))  # all others are made for the wire as it is after these
STEPS = frozenset((DamageKind.STEP, DamageKind.CUT, DamageKind.TWICE, DamageKind.TIMES))  # of the recorder's clock: they stay
