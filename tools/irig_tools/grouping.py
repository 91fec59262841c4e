"""Groups of what comes one after the other."""
from __future__ import annotations

from typing import Callable, Iterable, List, TypeVar

Each = TypeVar("Each")


def grouped(all_of_them: Iterable[Each], begins: Callable[[Each, Each], bool]) -> List[List[Each]]:
    """A group begins with the first, and wherever that is true of one and the next."""
    found: List[List[Each]] = []
    for each in all_of_them:
        if found and not begins(found[-1][-1], each):
            found[-1].append(each)
        else:
            found.append([each])
    return found
