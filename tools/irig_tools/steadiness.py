"""Which elements that no field decides are steady: how often each changes from frame to frame."""
from __future__ import annotations

from typing import Sequence

from . import limits

UNSOUND = str.maketrans("", "", "Pb-?~")


class Steadiness:
    """The changes of each element, among the frames that show it."""

    def __init__(self, elements: Sequence[int], texts: Sequence[str]) -> None:
        shown = {element: "".join([text[element] for text in texts]).translate(UNSOUND) for element in elements}
        self._could = {element: max(0, len(row) - 1) for element, row in shown.items()}
        self._did = {element: row.count("01") + row.count("10") for element, row in shown.items()}
        self._none_did = not any(self._did.values())

    def never_changed(self, element: int) -> bool:
        """Whether an element never changed, in enough frames that a change in one alone has a small chance."""
        return not self._did[element] and self._could[element] >= limits.CHANCES

    def holds(self, element: int, before: int, after: int) -> bool:
        """Whether an element is as in the frames that far before and after, which agree: it never changed, or so seldom
        that two changes between them have a small chance."""
        did, could = self._did[element], self._could[element]
        if not did and (self._none_did or could >= limits.CHANCES):
            return True
        return _of_two_changes(did, could, before, after) < limits.CHANCE

    def holds_beside(self, element: int, before: int, after: int) -> bool:
        """The same if this frame shows another class there, and another recording the one of those frames."""
        return _of_two_changes(self._did[element] - 2, self._could[element] - 2, before, after) < limits.CHANCE_BESIDE


def _of_two_changes(did: int, could: int, before: int, after: int) -> float:
    """The chance that an element changes, and changes back; it changed so often of that many times."""
    rate = (did + 1) / (could + 2)
    return before * after * rate * rate
