"""irig_mend for a folder: each recording to a file of the same name in another folder, and a table of what became of them."""
from __future__ import annotations

import os
import sys
from typing import IO, Dict, List, Sequence

from .ending import ALL_RIGHT, FOUND, NOT_READ, Usage, complain, name_of
from .editor import Problem, find_editor, progress_to
from .facts import json_lines
from .folder import Folder
from .folder_page import folder_page
from .options import DUMP, EDITOR, JSON, TIMESCALE, Given, Option, whole
from .output import is_standard_output, output
from .proposal import no_option
from .record import record_in
from .recordings import Looked, look_into
from .results import NAMED_AT_MOST, Result, report_of, several_expressions, table_of_all, worst_first
from .texts import counted
from .version import version

PROGRAM = "irig_mend"
APPLY_TO = Option("--apply-to", "FOLDER", "repairs each recording in the folder TRACK, and writes it with all its wires as a file of "
                  "the same name in this folder; prints a table, worst first. What a run before has done is not done again")
REPORT = Option("--report", "FILE", "with --apply-to: also writes the table as CSV, with the reasons")
JOBS = Option("--jobs", "N", "with --apply-to: that many recordings at once, with --apply windows of a long one; if not given, one for "
              "each processor", whole(1))


def mend_folder(given: Given, rules: Sequence[Option], page: Option) -> int:
    """Repairs all recordings; `rules` are the options that are those of each, and `page` that of a page."""
    folder, out = given.names[0], given.text(APPLY_TO) or ""
    looked = _looked(folder, out)
    find_editor()
    _check_outputs(given, page, looked, out)
    words = rules_of(given, rules)
    saves = any(given.has(rule) for rule in rules if rule.name == "--save")
    with record_in(out, [version(), *words]) as record:
        jobs = given.number(JOBS) or len(os.sched_getaffinity(0))
        work = Folder(no_option(out), words, not saves, jobs, progress_to(sys.stderr))
        try:
            results = work.mend(looked.recordings, record)
        except BaseException:
            complain("%s: %d of %d recordings are done; the same command does the others" % (
                name_of(folder), sum(each.is_read for each in work.results), len(looked.recordings)), PROGRAM)
            raise
    results = worst_first([*results, *(Result(name, "", NOT_READ, [why]) for name, why in looked.problems)])
    _write_all(given, page, folder, results)
    for line in several_expressions(results):
        complain(line, PROGRAM)
    return FOUND if any(each.needs_a_person for each in results) else ALL_RIGHT


def rules_of(given: Given, rules: Sequence[Option]) -> List[str]:
    """The words for each recording."""
    named = [option for option in (*EDITOR, TIMESCALE, DUMP) if given.has(option)]
    return ["%s=%s" % (option.name, given.values[option.name]) for option in named] + [
        rule.name for rule in rules if given.has(rule)]


def _looked(folder: str, out: str) -> Looked:
    """What is in the folder; files that are left out are named."""
    if not os.path.isdir(folder):
        os.stat(folder)
        raise Problem("%s: is no folder; --apply FILE repairs one recording" % folder)
    if os.path.realpath(folder) == os.path.realpath(out):
        raise Problem("--apply-to %s would write over the recordings that are read" % out)
    looked = look_into(folder, out)
    if looked.others:
        more = ", .." if len(looked.others) > NAMED_AT_MOST else ""
        said = counted(len(looked.others), "file is no dump and is", "files are no dumps and are")
        complain("%s: %s left out: %s%s" % (name_of(folder), said, ", ".join(looked.others[:NAMED_AT_MOST]), more), PROGRAM)
    if not looked.recordings and not looked.problems:
        raise Problem("%s: has no recording" % folder)
    return looked


def _check_outputs(given: Given, page: Option, looked: Looked, out: str) -> None:
    """Refuses a report or a page that would be a recording or a result."""
    places = {os.path.realpath(path): path for each in looked.recordings for path in (os.path.join(out, each.out), each.path)}
    used: Dict[str, Option] = {}
    for option in (REPORT, page):
        path = given.text(option)
        if path is None:
            continue
        place = "-" if is_standard_output(path) else os.path.realpath(path)
        if place in places:
            raise Problem("%s %s would write over %s" % (option.name, path, places[place]))
        if used.setdefault(place, option) is not option:
            raise Usage("%s and %s are one file" % (used[place].name, option.name))


def _write_all(given: Given, page: Option, folder: str, results: Sequence[Result]) -> None:
    """The table, and the files that were asked for."""
    written = [path for path in map(given.text, (REPORT, page)) if path is not None]
    stream: IO[str] = sys.stderr if any(map(is_standard_output, written)) else sys.stdout
    made = {REPORT.name: report_of(results), page.name: folder_page(folder, results).encode("utf-8") if given.has(page) else b""}
    for option in (REPORT, page):
        path = given.text(option)
        if path is not None:
            with output(path) as file:
                file.write(made[option.name])
    stream.write(json_lines([each.as_object() for each in results]) if given.has(JSON) else table_of_all(results))
