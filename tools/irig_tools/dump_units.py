"""Units of time, as a dump names them."""
from __future__ import annotations

import re
from dataclasses import dataclass
from fractions import Fraction

from .editor import Problem

UNIT_NAMES = ("s", "ms", "us", "ns", "ps", "fs")
FEMTOSECONDS = {name: int(10 ** (15 - 3 * place)) for place, name in enumerate(UNIT_NAMES)}
MICROSECOND = FEMTOSECONDS["us"]
UNIT_FORM = re.compile(r"([0-9]{1,30}(?:\.[0-9]{1,30})?)?\s*([munpf\u00b5\u03bc]?)s(?:ec)?")


@dataclass
class Unit:
    """A permitted unit, and how many of it the dump's own unit is."""

    text: str
    femtoseconds: int
    factor: int = 1


def permitted(femtoseconds: int) -> Unit:
    """The largest permitted unit that divides this without a remainder."""
    for name in UNIT_NAMES:
        for number in (100, 10, 1):
            size = number * FEMTOSECONDS[name]
            if femtoseconds % size == 0:
                return Unit("%d %s" % (number, name), size, femtoseconds // size)
    raise AssertionError("one femtosecond is permitted")


def unit_of(text: str) -> Unit:
    """The unit that a text names: `1 ns`, `10000000ps`, `2.5us`."""
    found = UNIT_FORM.fullmatch(text.strip().lower())
    if not found:
        raise Problem("'%s' is no unit of time; give one, as --timescale 1ns" % text[:60])
    name = (found[2].replace("\u00b5", "u").replace("\u03bc", "u") or "") + "s"
    size = Fraction(found[1] or "1") * FEMTOSECONDS[name]
    if not size or size.denominator != 1:
        raise Problem("the unit '%s' is no whole number of femtoseconds; give another one, as --timescale 1ns" % text[:60])
    exact = re.fullmatch("(1|10|100) ?([munpf]?s)", text.strip())
    if exact:
        return Unit("%s %s" % (exact[1], exact[2]), int(size))
    return permitted(int(size))
