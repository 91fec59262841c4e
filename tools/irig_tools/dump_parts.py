"""A file that may have several dumps, one after the other."""
from __future__ import annotations

from typing import Callable

from .dump_body import Body, Wanted
from .dump_header import Header, Reader
from .dump_source import Source
from .editor import Problem


def each_dump(source: Source, number: int, use: Callable[[Header], Body]) -> int:
    """Hands the header of one dump, by its number, to `use`, passes over the others, and counts all.

    A dump ends at the next header, and where times begin again below the last one.
    """
    header, dumps = Reader(source).read(), 0
    while True:
        dumps += 1
        body = use(header) if dumps == number else _passed_over(source)
        if body.more in ("", "cut", "back"):
            break
        if body.more == "header":
            header = Reader(source).read()
    if dumps < number:
        raise Problem("%s: has no dump %d; it has %d" % (source.path, number, dumps))
    return dumps


def _passed_over(source: Source) -> Body:
    body = Body(source, Wanted())
    for _ in body.changes():
        pass
    return body
