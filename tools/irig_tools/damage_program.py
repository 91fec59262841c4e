"""The program irig_damage."""
from __future__ import annotations

import gc
import os
import sys
from typing import Sequence

from .command import kept, of_any_length, run
from .cut_end import cut_notes, note_if_cut
from .damage import Damage, look
from .editor import Editor, progress_to
from .ending import ALL_RIGHT, FOUND, complain, name_of
from .facts import damages_as_json
from .named import wire_or_none
from .opening import Opened, opened
from .options import DUMP, EDITOR, JSON, QUIET, TIMESCALE, WIRE, Command, Given, Option
from .output import check_apart, write
from .overview import of_program, sheet_of
from .page import page
from .picture import picture
from .sheet import Sheet
from .texts import counted

PAGE = Option("--page", "FILE", "also writes a page (HTML) to look at: the whole recording, and each place as a "
              "waveform")
PICTURE = Option("--picture", "FILE", "also writes a picture (SVG) of the recording")
COUNT = Option("--count", about="prints only how many places are damaged")
COMMAND = Command("irig_damage", ("TRACK",), """\
Lists where a recording of IRIG 200-04 time code is damaged, in the order of
time, one line each: the time in microseconds, the frame, the element and the
pulses, counted from 1 in the recording as it is, and what is seen there. The track
is not changed; - is standard input.
Any dump that irig_wire reads is read; the wire, the format and the expression are
found if they are not given. The interval is that of the recording: a clock that drifts and rises that tremble
are said once. A leap second is no damage, and neither is a frame that is cut at
either end. Silence before the first pulse and after the last one is a remark, and
no damage.
""", (*EDITOR, TIMESCALE, DUMP, PAGE, PICTURE, JSON, COUNT, QUIET), """\
The editor is the program that IRIG_ED names, or irig_ed on the path.
The status is 0 if nothing is wrong, 1 if something is, 2 if the track was not
read, and 70 if memory ran out or the tool has a defect.
""")


def work(given: Given) -> int:
    name = given.names[0]
    check_apart(name, [(option.name, given.text(option)) for option in (PAGE, PICTURE)], not given.has(QUIET))
    with of_any_length(), kept(name) as path, opened(path, name, given, given.text(WIRE)) as track:
        note_if_cut(track)
        if not given.has(QUIET):
            say_notes(track, name, COMMAND.name)
        seen = look(Editor(track.words), progress_to(sys.stderr))
        length = seen.listing.length
        seen.damages += [Damage(length, length, "", note) for note in cut_notes(track)]
        found = sum(not damage.is_remark for damage in seen.damages)
        wire = wire_or_none(track)
        text = "%d\n" % found if given.has(COUNT) else text_of(seen.damages, track, given.has(JSON))
    if given.has(PAGE) or given.has(PICTURE):
        draw(given, of_program(sheet_of(os.path.basename(name), wire, seen), COMMAND.name, found_text(name, seen.damages)))
    if not given.has(QUIET):
        sys.stdout.write(text)
    return FOUND if found else ALL_RIGHT


def say_notes(track: Opened, name: str, program: str) -> None:
    """Says on standard error what was chosen of a file, and what was subtracted from the times."""
    notes = list(track.notes)
    if track.offset is not None and track.offset.count:
        notes.append("the times count from %s of the file that this was cut out of" % track.offset.text())
    for note in notes:
        complain("%s: %s" % (name_of(name), note), program)


def text_of(found: Sequence[Damage], track: Opened, as_json: bool) -> str:
    return damages_as_json(found, track.offset) if as_json else "".join(damage.line() + "\n" for damage in found)


def found_text(name: str, found: Sequence[Damage]) -> str:
    """What a page says first."""
    remarks = sum(each.is_remark for each in found)
    return "%s: %s of damage, %s" % (name_of(name), counted(len(found) - remarks, "place"), counted(remarks, "remark"))


def draw(given: Given, sheet: Sheet) -> None:
    """Writes the files that were asked for."""
    for option, text_of in ((PAGE, page), (PICTURE, picture)):
        path = given.text(option)
        if path is not None:
            write(path, text_of(sheet))


def main() -> int:
    gc.disable()  # millions of numbers, and nothing that refers to itself
    return run(COMMAND, work)
