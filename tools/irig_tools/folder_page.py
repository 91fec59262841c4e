"""The page of a folder: a row for each recording, worst first."""
from __future__ import annotations

import time
from typing import Sequence

from .page import digest, file_text, filled
from .results import HEADS_OF_TABLE, Result, sums
from .texts import escaped
from .version import version


def folder_page(folder: str, results: Sequence[Result]) -> str:
    style = file_text("page.css")
    parts = {
        "POLICY": "default-src 'none'; style-src 'sha256-%s'" % digest(style),
        "STYLE": style,
        "TITLE": escaped(folder),
        "SUMS": escaped(sums(results)),
        "MADE": escaped("irig_mend %s, %s" % (version(), time.strftime("%Y-%m-%d %H:%M"))),
        "HEADS": "".join('<th scope="col">%s</th>' % escaped(head) for head, _ in HEADS_OF_TABLE) + '<th scope="col">reasons</th>',
        "ROWS": "".join(map(_row, results)),
    }
    return filled("folder_page.html", parts)


def _row(result: Result) -> str:
    cells = "".join("<td>%s</td>" % escaped(str(result.cell(name))) for _, name in HEADS_OF_TABLE)
    state = "open" if result.is_read else "bad"
    return '<tr class="%s">%s<td>%s</td></tr>\n' % (state if result.needs_a_person else "whole", cells, _reasons(result))


def _reasons(result: Result) -> str:
    """The first reason, and the others folded."""
    first, *others = [escaped(each) for each in result.reasons] or [""]
    return "<details><summary>%s (and %d more)</summary>%s</details>" % (first, len(others), "<br>".join(others)) if others else first
