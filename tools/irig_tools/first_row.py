"""Where the rows of a table begin: the lines before them are its heads."""
from __future__ import annotations

from typing import Iterable, List, Optional, Sequence, Tuple

from .digits import WHOLE
from .editor import Problem
from .heads import fields_of, is_row, parted_by

MOST_HEADS = 1000  # lines before the first row
NO_ROW = "is no table: no row of numbers is found; the columns are parted by , ; or a tab; if others have words, give the numbers of " \
         "both, as --time-column 1 --column 2"


def heads_and_row(path: str, lines: Iterable[str], columns: Sequence[Optional[str]]) -> Tuple[List[str], str]:
    """The lines before the first row, and that one. It has numbers in all fields, or in the columns that are given by a number, from 1."""
    places = [int(name) - 1 for name in columns if name and WHOLE.fullmatch(name) and int(name)]
    heads: List[str] = []
    for line in lines:
        if is_row(line, places):
            return heads, line
        heads.append(line)
        if len(heads) > MOST_HEADS:
            break
    widest = max((len(fields_of(line, parted_by(line))) for line in heads if is_row(line, [])), default=0)
    if 0 < widest <= max(places, default=0):
        raise Problem("%s: has no column %d; its rows have %d" % (path, max(places) + 1, widest))
    raise Problem("%s: %s" % (path, NO_ROW))
