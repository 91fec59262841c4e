"""A control function with a rule: an element that says whether the ones before it in its frame are odd in number.

IEEE 1344 and IEEE C37.118 have it at element 75. It is found, not assumed: an element that changes, and that follows from the
elements before it in nearly all frames.
"""
from __future__ import annotations

from typing import Dict, Iterable, NamedTuple, Optional, Sequence

from . import limits

MOST_USUAL = 75  # the element
NOT_KNOWN = str.maketrans("", "", "01P")


class Rule(NamedTuple):
    """With the ones before it in its frame an element makes an odd number of ones, or an even one."""

    element: int
    odd: bool

    def follows(self, text: str) -> str:
        """The class that follows from the elements before it."""
        return "01"[(text.count("1", 0, self.element) + self.odd) % 2]

    def shows(self, text: str) -> bool:
        """Whether all elements of a frame up to this one are known."""
        return not text[:self.element + 1].translate(NOT_KNOWN)

    def holds(self, text: str) -> bool:
        return text[self.element] == self.follows(text)


def rule_of(elements: Iterable[int], texts: Sequence[str]) -> Optional[Rule]:
    """The rule that holds in nearly all of these frames; None if none does."""
    return next(filter(None, (_rule_at(element, texts) for element in elements)), None)


def usual_rule_of(elements: Iterable[int], texts: Sequence[str]) -> Optional[Rule]:
    """The rule at the element that the standards have for it, if some of these frames show it and none contradicts it."""
    return _rule_at(MOST_USUAL, texts, limits.FEW_BY_RULE, len(texts)) if MOST_USUAL in elements else None


def _rule_at(element: int, texts: Sequence[str], least: int = limits.LEAST_BY_RULE,
             for_each: int = limits.FOR_EACH_AGAINST) -> Optional[Rule]:
    row = [text[element] for text in texts]
    if min(row.count("0"), row.count("1")) < limits.EACH_BY_RULE:  # it says nothing if it hardly changes
        return None
    even = Rule(element, False)
    known = [text for text in texts if even.shows(text)]
    many: Dict[bool, int] = {False: sum(map(even.holds, known))}
    many[True] = len(known) - many[False]
    odd = many[True] > many[False]
    is_rule = many[odd] >= least + for_each * many[not odd]
    return Rule(element, odd) if is_rule else None
