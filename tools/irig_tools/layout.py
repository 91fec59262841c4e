"""What the elements of a frame carry, by format and coded expression (IRIG Standard 200-04)."""
from __future__ import annotations

import re
from functools import lru_cache
from operator import itemgetter
from typing import Dict, Iterable, List, Optional, Tuple

from .units import ELEMENTS

INTERVAL = {"A": 1000, "B": 10000, "E": 100000, "G": 100}  # microseconds from element to element
PERIOD = {"A": 10, "B": 100, "E": 1000, "G": 1}  # hundredths of a second from frame to frame
POSITIONS = (0, 9, 19, 29, 39, 49, 59, 69, 79, 89, 99)
SHARE = {"0": 0.2, "1": 0.5, "P": 0.8}  # nominal widths, in intervals
NAMES = {"0": "zero", "1": "one", "P": "position", "b": "bad"}
LARGEST_IN = {"hundredths": 99, "seconds": 60, "minutes": 59, "hours": 23, "days": 366, "year": 99, "binary": 86400}
CONTROL = {"A": (50, 60, 70), "B": (50, 60, 70), "E": (50, 60, 70, 80, 90), "G": (60, 70, 80, 90)}
READABLE = re.compile("P[01]{8}P(?:[01]{9}P){9}")
WITH_CONTROL, WITH_BINARY, WITH_YEAR = (0, 1, 4, 5), (0, 3, 4, 7), (4, 5, 6, 7)  # coded expressions
MOST_DECODED = 100000  # frames that are kept as they were decoded: twice those of the longest track
DECIMAL = (1, 2, 4, 8, 10, 20, 40, 80, 100, 200)

Fields = Dict[str, int]  # which nobody changes


class Layout:
    """Which element has which weight in which field. A frame is a text of 100 classes: 0, 1, P, b and others for damage."""

    def __init__(self, kind: str, expression: int, steady: bool = False) -> None:
        """If `steady`, control functions never change in this recording."""
        self.kind, self.expression, self.steady = kind, expression, steady
        self.interval, self.period = INTERVAL[kind], PERIOD[kind]
        self.fields: Dict[str, List[Tuple[int, int]]] = {}
        self._known: Dict[Tuple[str, str], int] = {}
        self._decoded: Dict[str, Optional[Fields]] = {}  # of the frames that were decoded
        self._add_fields()
        self.with_year = "year" in self.fields
        tens = CONTROL[kind][expression in WITH_YEAR:] if expression in WITH_CONTROL else ()
        self.control = [ten + unit for ten in tens for unit in range(9)]
        self.carried = sorted(element for rows in self.fields.values() for element, _ in rows)
        used = {*self.carried, *self.control, *POSITIONS}
        self.unused = [element for element in range(ELEMENTS) if element not in used]
        self._carried_of = itemgetter(*self.carried)
        self._unused_of = itemgetter(*self.unused)

    def _add_fields(self) -> None:
        if self.kind != "E":
            self._add("seconds", range(1, 5), DECIMAL)
        self._add("seconds", range(6, 9), DECIMAL[4:])
        self._add("minutes", (10, 11, 12, 13, 15, 16, 17), DECIMAL)
        self._add("hours", (20, 21, 22, 23, 25, 26), DECIMAL)
        self._add("days", (30, 31, 32, 33, 35, 36, 37, 38, 40, 41), DECIMAL)
        if self.kind in "AG":
            self._add("hundredths", range(45, 49), DECIMAL[4:])
        if self.kind == "G":
            self._add("hundredths", range(50, 54), DECIMAL)
        if self.expression in WITH_YEAR:
            first = 60 if self.kind == "G" else 50
            self._add("year", (*range(first, first + 4), *range(first + 5, first + 9)), DECIMAL)
        if self.expression in WITH_BINARY and self.kind in "AB":
            self._add("binary", (*range(80, 89), *range(90, 98)), [1 << bit for bit in range(17)])

    def _add(self, name: str, elements: Iterable[int], weights: Iterable[int]) -> None:
        self.fields.setdefault(name, []).extend(zip(elements, weights))

    def value(self, name: str, text: str) -> int:
        """The number in a field, or -1 if one of its decimal digits is above 9."""
        rows = self.fields[name]
        part = text[rows[0][0]:rows[-1][0] + 1]
        if name == "binary":  # the position identifier at element 89 is in its middle
            return int((part[:9] + part[10:])[::-1], 2)
        if (name, part) not in self._known:
            ones = {weight for element, weight in rows if text[element] == "1"}
            above = any(8 * unit in ones and ones & {2 * unit, 4 * unit} for unit in (1, 10))
            self._known[name, part] = -1 if above else sum(ones)
        return self._known[name, part]

    def decode(self, text: str) -> Optional[Fields]:
        """The fields of a frame, or None if an element is damaged, a field is out of range, or two fields disagree."""
        if text not in self._decoded:
            if len(self._decoded) >= MOST_DECODED:
                self._decoded.clear()
            self._decoded[text] = self._decode(text)
        return self._decoded[text]

    def _decode(self, text: str) -> Optional[Fields]:
        if not set(self._carried_of(text)) <= {"0", "1"}:
            return None
        told = {name: self.value(name, text) for name in self.fields}
        if not told["days"] or not all(0 <= value <= LARGEST_IN[name] for name, value in told.items()):
            return None
        if told["seconds"] == 60 and (told["minutes"], told["hours"]) != (59, 23):
            return None
        of_day = 3600 * told["hours"] + 60 * told["minutes"] + told["seconds"]
        return told if told.get("binary", of_day) == of_day else None

    def shown(self, text: str) -> Optional[Fields]:
        """The fields of a frame that is fine; None if it has a one that the expression does not use."""
        return self.decode(text) if "1" not in self._unused_of(text) else None

    def encode(self, told: Fields) -> List[str]:
        """The 100 classes of a frame with these fields; `.` for a control function, which no field says."""
        text = ["P" if element in POSITIONS else "0" for element in range(ELEMENTS)]
        for element in self.control:
            text[element] = "."
        for name, rows in self.fields.items():
            for element, weight in rows:
                unit = 1 if weight < 10 or name == "binary" else 10 if weight < 100 else 100
                digit = told[name] if name == "binary" else told[name] // unit % 10
                if digit & weight // unit:
                    text[element] = "1"
        return text

    def class_of(self, width: float) -> str:
        """The class of a pulse of this width, in microseconds."""
        share = width / self.interval
        return "b" if share < 0.05 or share >= 0.95 else "0" if share < 0.35 else "1" if share < 0.65 else "P"


@lru_cache(None)
def layout_of(kind: str, expression: int, steady: bool) -> Layout:
    """The layout for all looks at a recording: what a frame shows is worked out once."""
    return Layout(kind, expression, steady)
