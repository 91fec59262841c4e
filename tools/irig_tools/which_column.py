"""The column of a table that has time code, and how irig_demodulate reads it."""
from __future__ import annotations

from typing import List, NamedTuple, Optional

from .editor import Problem
from .escapes import in_line
from .every_column import every_column
from .what_samples import Lanes

AUTO = "auto"  # instead of the name of a column
NONE = "%s: no column of %d has time code of format A, B, E or G; --column names one"
SEVERAL = "%s: several columns have time code, and --column names one: %s; 'irig_what %s' says more"


class Chosen(NamedTuple):
    """The options that read it, and what is said of it."""

    words: List[str]
    text: str


def which_column(path: str, time: Optional[str], rate: int) -> Chosen:
    """A column that has this name is meant itself."""
    table = every_column(path, time, rate)
    if AUTO in table.named.names:
        return Chosen(["--table", "--column=" + AUTO], "the column that is called '%s' is read" % AUTO)
    found = Lanes(table.parts(), len(table.columns)).with_code()
    if not found:
        raise Problem(NONE % (path, len(table.columns)))
    if len(found) > 1:
        raise Problem(SEVERAL % (path, ", ".join(in_line(each.lane.text) for each in found), path))
    words = " ".join(found[0].words[1:])
    return Chosen(found[0].words, "%s has time code of format %s: %s" % (
        in_line(found[0].lane.text), found[0].carrier.kind, in_line(words)))
