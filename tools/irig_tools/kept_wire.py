"""A wire as it was seen in the search, as a dump: so the file is not read again for it."""
from __future__ import annotations

from itertools import islice
from operator import lt

from .dump_body import Body, Wanted
from .search import Found, Probe
from .wire import Extract, Writer

AT_ONCE = 1 << 14  # edges that are written at once


def write_kept(found: Found, probe: Probe, extract: Extract) -> bool:
    """Writes a wire that was kept, as the extract would; whether it did. If something is said of a limit it is not, as the search left
    out what changes no level."""
    body = found.body
    if probe.kept is None or body is None or probe.kind[1] or extract.wish.name is None:
        return False
    writer = extract.begin(found.header, Wanted(), 0)
    _write(writer, probe, body)
    writer.finish(body)
    extract.end(found.header, body, writer)
    return not extract.report.over()


def _write(writer: Writer, probe: Probe, body: Body) -> None:
    """The edges: as many as can be at once, the others one by one."""
    kept = probe.kept
    assert kept is not None
    for begin in range(0, len(kept), AT_ONCE):
        part = kept[begin:begin + AT_ONCE]
        if begin and writer.begun and len(part) % 2 == 0 and part[0] > kept[begin - 1] and all(map(lt, part, islice(part, 1, None))):
            writer.take_rest(part, "1")
        else:
            for number, time in enumerate(part):
                writer.take(time, "01"[number % 2 == 0], body)
