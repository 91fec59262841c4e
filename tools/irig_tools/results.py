"""What became of the recordings of a folder: a row for each, worst first, as a table, as CSV and as JSON."""
from __future__ import annotations

import csv
import io
from collections import Counter
from dataclasses import dataclass, field
from typing import Any, Dict, List, Sequence, Tuple

from .ending import ALL_RIGHT, FOUND
from .escapes import in_cell, in_line
from .texts import counted

COUNTS = ("found", "repaired", "guessed", "filled", "off", "undecided", "left", "steps", "refused", "sound_before", "sound_after")
# the head of each column of the table, and what is in it
HEADS_OF_TABLE = (
    ("recording", "recording"), ("wire", "wire"), ("format", "format"), ("expression", "expression"), ("places", "found"),
    ("repaired", "repaired"), ("left", "open"), ("frames before", "sound_before"), ("after", "sound_after"), ("status", "status"))
NAMED_AT_MOST = 5  # recordings in a line
# those of the report
REPORTED = ("recording", "result", "wire", "format", "expression", *COUNTS[:-2], "sound_before", "sound_after", "status", "reasons")


@dataclass(frozen=True)
class Result:
    """What became of one recording; of one that was not read there are no counts."""

    recording: str
    result: str  # the name of the file that was written, if one was
    status: int
    reasons: Sequence[str] = ()
    wire: str = ""
    format: str = ""
    expression: object = ""
    counts: Dict[str, Any] = field(default_factory=dict)  # a number, or None if it was not counted
    is_kept: bool = False  # from a run before

    @property
    def is_read(self) -> bool:
        return self.status in (ALL_RIGHT, FOUND)

    @property
    def needs_a_person(self) -> bool:
        return self.status != ALL_RIGHT

    @property
    def open(self) -> int:
        """How many places are not repaired."""
        return sum(self.counts.get(name, 0) for name in ("undecided", "left", "steps"))

    def cell(self, name: str) -> object:
        """What a column has."""
        if name in COUNTS or name == "open":
            return "" if not self.counts else self.open if name == "open" else self.counts.get(name, 0)
        return "; ".join(self.reasons) if name == "reasons" else getattr(self, name)

    def rank(self) -> Tuple[Any, ...]:
        """The worst first: what was not read, then by what is left, then by the frames that are lost."""
        lost = self.counts.get("sound_before", 0) - self.counts.get("sound_after", 0)
        read = -self.status if not self.is_read else 0
        return not self.needs_a_person, self.is_read, read, -self.open, -self.counts.get("refused", 0), -lost, self.recording

    def as_object(self) -> Dict[str, object]:
        """The same for a program."""
        return {"recording": self.recording, "result": self.result or None, "wire": self.wire or None, "format": self.format or None,
                "expression": self.expression if self.is_read else None, "status": self.status,
                "summary": {name: self.counts[name] for name in COUNTS} if self.counts else None, "reasons": list(self.reasons)}


def of_object(found: Dict[str, Any], is_kept: bool = False) -> Result:
    """The result that an object is; one without a count is of a release that did not have it, and is a KeyError."""
    expression = "" if found["expression"] is None else found["expression"]
    return Result(found["recording"], found["result"] or "", found["status"], found["reasons"], found["wire"] or "",
                  found["format"] or "", expression, {name: found["summary"][name] for name in COUNTS if found["summary"]}, is_kept)


def worst_first(results: Sequence[Result]) -> List[Result]:
    return sorted(results, key=Result.rank)


def table_of_all(results: Sequence[Result]) -> str:
    """The rows, one below the other, then a reason for each that needs a person, and the sums."""
    rows = [[head for head, _ in HEADS_OF_TABLE]]
    rows += [[in_line(str(each.cell(name))) for _, name in HEADS_OF_TABLE] for each in results]
    wide = [max(len(row[column]) for row in rows) for column in range(len(HEADS_OF_TABLE))]
    lines = ["  ".join(cell.rjust(size) if 3 < column else cell.ljust(size)
                       for column, (cell, size) in enumerate(zip(row, wide))).rstrip() for row in rows]
    return "".join(line + "\n" for line in lines + [reason_of(each) for each in results if each.needs_a_person] + [sums(results)])


def reason_of(result: Result) -> str:
    """Why a recording needs a person, in a line: what is to be done comes last."""
    reasons = list(result.reasons) or ["damage is left: irig_damage lists it"]
    more = " (and %d more)" % (len(reasons) - 1) if len(reasons) > 1 else ""
    return in_line("%s: %s%s" % (result.recording, reasons[-1], more))


def sums(results: Sequence[Result]) -> str:
    total = {name: sum(each.counts.get(name) or 0 for each in results) for name in COUNTS}
    unread = sum(not each.is_read for each in results)
    left = sum(each.needs_a_person for each in results) - unread
    kept = sum(each.is_kept for each in results)
    return "%s: %d whole, %d with damage left, %d not repaired; %s found, %s repaired; %s sound before, %s after%s" % (
        counted(len(results), "recording"), len(results) - left - unread, left, unread, counted(total["found"], "place"),
        format(total["repaired"], ","), counted(total["sound_before"], "frame"), format(total["sound_after"], ","),
        "; %d from a run before" % kept if kept else "")


def several_expressions(results: Sequence[Result]) -> List[str]:
    """A line for each format of which recordings were read with several expressions. Control functions that never change can be read
    as a year, so of recordings of one source some can have a year that was never sent. If more than half have one expression, it names
    those that have another."""
    lines = []
    for kind in sorted({each.format for each in results if each.is_read}):
        numbers = {each.recording: each.expression for each in results if each.is_read and each.format == kind}
        found = Counter(numbers.values()).most_common()
        if len(found) > 1:
            lines.append("format %s: %s; if all are of one source, %s" % (
                kind, ", ".join("expression %s in %s" % (number, counted(count, "recording")) for number, count in found),
                _advice(kind, numbers, *found[0])))
    return lines


def _advice(kind: str, numbers: Dict[str, object], most: object, count: int) -> str:
    if 2 * count <= len(numbers):
        return "look at their years and control functions, and give --format %s --expression N" % kind
    few = sorted(name for name, number in numbers.items() if number != most)
    return "give --format %s --expression %s and look at: %s%s" % (
        kind, most, ", ".join(few[:NAMED_AT_MOST]), ", .." if len(few) > NAMED_AT_MOST else "")


def report_of(results: Sequence[Result]) -> bytes:
    """The table as CSV; a byte of a name that is no UTF-8 is written as it is."""
    text = io.StringIO()
    rows = csv.writer(text, lineterminator="\n")
    rows.writerow(REPORTED)
    for each in results:
        cells = [each.cell(name) for name in REPORTED]
        rows.writerow([in_cell(cell) if isinstance(cell, str) else cell for cell in cells])
    return text.getvalue().encode("utf-8", "surrogateescape")
