"""The commands to continue with, for one wire of a dump. None of them writes over a file that is there."""
from __future__ import annotations

import os
from dataclasses import dataclass
from typing import List, Optional, Sequence

from .escapes import in_command

LARGE_ONE = ("the file is large, so only a part of it was looked at; the next line repairs all of it, in windows if it is longer than a "
             "track, and writes the repaired recording as %s%s")


def free_name(name: str) -> str:
    """The name, or the first one with a number that no file has."""
    stem, dot, end = name.rpartition(".")
    found, number = name, 1
    while os.path.lexists(found):
        number += 1
        found = "%s-%d%s%s" % (stem, number, dot, end)
    return found


def no_option(path: str) -> str:
    """The path in a form that is not taken for an option; `-` is standard input."""
    return os.path.join(".", path) if path.startswith("-") and path != "-" else path


@dataclass
class Proposal:
    """What `irig_ed` or `irig_mend` has to be given. If it does not read the wire of the dump as it is, a dump of the
    wire is made first, by these words of `irig_wire`."""

    path: str
    wire: Optional[str]
    kind: str
    expression: int
    extraction: Optional[Sequence[str]] = None
    places: int = 0  # of damage, as irig_damage finds them
    repairs: int = 0  # that irig_mend proposes: one can be of several places
    remarks: int = 0
    choice: Sequence[str] = ()  # the options of irig_mend for the unit and the dump
    is_part: bool = False  # only a part of the dump was looked at
    has_beside: bool = False  # of a file of sigrok: other channels, which get their times of day

    def lines(self) -> List[str]:
        """The command is the last line; before it is what it is for, if the recording is damaged."""
        if self.has_beside:
            return [*self._told()[:-1], self._chain()]
        return self._told()

    def _chain(self) -> str:
        """All commands up to the time of day of the other channels."""
        new, data, timed = (in_command(free_name(name)) for name in ("new.vcd", "data.txt", "timed.txt"))
        first = "irig_wire --changes %s %s > %s" % (data, " ".join(map(in_command, self.extraction or ())), self._track())
        mend = "irig_mend %s --apply %s %s" % (self._options(), new, self._track())
        return "%s && %s && irig_time %s %s < %s > %s" % (first, mend, self._options(), new, data, timed)

    def _told(self) -> List[str]:
        """The command that repairs the recording or opens it, and before it what it is for, if there is something to say."""
        new = in_command(free_name("new.vcd"))
        mend = "irig_mend %s --apply %s %s" % (self._options(), new, self._track())
        if self.is_part:
            return [LARGE_ONE % (new, self._into()), mend]
        if not self.repairs + self.remarks:
            return [self._first() + "irig_ed %s --out %s %s" % (self._options(), new, self._track())]
        told = "%s: irig_mend has %s; the next line writes the repaired recording as %s (without --apply %s it prints the script%s)"
        return [told % (self._damaged(), self._counted(), new, new, self._into()), self._first() + mend]

    def _damaged(self) -> str:
        """In how many places; a remark can be of none."""
        return "damaged in %d place%s" % (self.places, "s" * (self.places > 1)) if self.places else "damaged"

    def _counted(self) -> str:
        parts = (self.repairs, "repair"), (self.remarks, "remark")
        return " and ".join("%d %s%s" % (many, noun, "s" * (many > 1)) for many, noun in parts if many)

    def _into(self) -> str:
        """How the other wires of the dump are kept."""
        if self.wire is None or self.extraction is not None or self.path == "-":
            return ""
        return ", and with --into %s it keeps the other wires" % self._track()

    def _first(self) -> str:
        if self.extraction is None:
            return ""
        words = " ".join(map(in_command, self.extraction))
        return "irig_wire %s > %s && " % (words, self._track())

    def _track(self) -> str:
        return in_command(no_option(self.path) if self.extraction is None else free_name("one.vcd"))

    def _options(self) -> str:
        code = "--format %s --expression %d" % (self.kind, self.expression)
        if self.extraction is not None:
            return code
        named = [] if self.wire is None else ["--wire=" + in_command(self.wire)]
        return " ".join([*named, *self.choice, code])
