"""The recordings that --with names: each is read with the format and the expression of the track, or it is said that it has others."""
from __future__ import annotations

import os
import subprocess
from contextlib import ExitStack
from dataclasses import replace
from typing import List, Sequence, Tuple

from .command import kept, unchanged
from .cut_end import note_if_cut
from .damage_program import say_notes
from .editor import CUT_OFF, Editor, Problem, Progress, find_editor
from .ending import Usage, name_of
from .opening import Opened, SeveralWires, opened
from .options import EXPRESSION, FORMAT, Given
from .others import Other, Others, not_used, other_of, others_of, seen_in
from .script import Repair
from .temporary import temporary_folder, temporary_script
from .witnesses import NO_WITNESSES


def check_others(track: str, names: Sequence[str]) -> None:
    """Refuses a recording that is given twice: what it has would count twice."""
    files = [track, *names]
    for place, name in enumerate(files):
        for before in files[:place]:
            if name == before or _is_one_file(name, before):
                raise Usage("%s and %s are one file; irig_wire makes one of each wire" % (name_of(before), name_of(name)))


def _is_one_file(one: str, other: str) -> bool:
    return os.path.exists(one) and os.path.exists(other) and os.path.samefile(one, other)


def read_others(names: Sequence[str], editor: Editor, progress: Progress, program: str, files: ExitStack, trusts_most: bool) -> Others:
    """What these recordings say of the editor's track, and whether most of them are trusted. Their dumps are there until the files are
    closed."""
    listing = editor.ask([])
    code = Given(values={FORMAT.name: listing.kind, EXPRESSION.name: str(listing.expression)})
    found: List[Other] = []
    remarks: List[Repair] = []
    for name in names:
        other, why = _read_other(name, code, progress, program, files)
        found += [] if why else [other]
        remarks += [not_used(other.name, why)] if why else []
    others = others_of(seen_in(editor, progress), found, trusts_most) if found else Others(NO_WITNESSES)
    return replace(others, remarks=remarks + others.remarks)


def _read_other(name: str, code: Given, progress: Progress, program: str, files: ExitStack) -> Tuple[Other, str]:
    """A recording, and why nothing of it can be used if it has another format or expression."""
    other, problem = Other(name_of(name)), None
    path = files.enter_context(kept(name))
    files.enter_context(unchanged(path))
    try:
        track = files.enter_context(opened(path, name, code, None))
        note_if_cut(track)
        say_notes(track, name, program)
        other = other_of(name_of(name), seen_in(Editor(track.words), progress))
        other.path = _dump_of_wire(track, files)
    except SeveralWires as error:
        raise Problem("%s: several wires carry time code, and irig_wire makes a dump of one, which %s takes: %s" % (
            name_of(name), "--with", error.wires)) from error
    except Problem as error:  # also if no frame can be read
        problem = error
    own = [] if other.frames else _own_code(path, name)
    if problem and not own:
        raise problem
    return other, "it has %s, and the track %s" % (_in_words(own), _in_words(_words(code))) if own not in ([], _words(code)) else ""


def _dump_of_wire(track: Opened, files: ExitStack) -> str:
    """A dump of the wire alone, which irig_guard can read."""
    if not track.named:
        return track.path
    path = os.path.join(files.enter_context(temporary_folder()), "wire.vcd")
    with temporary_script("write\n") as script:
        done = subprocess.run([find_editor(), *track.options, "--out", path, track.path], stdin=script, capture_output=True, check=False)
    if done.returncode:
        raise Problem(CUT_OFF)
    return path


def _words(code: Given) -> List[str]:
    return ["%s=%s" % (option.name, code.text(option)) for option in (FORMAT, EXPRESSION)]


def _in_words(code: Sequence[str]) -> str:
    return " and ".join(word.strip("-").replace("=", " ") for word in code)


def _own_code(path: str, name: str) -> List[str]:
    """The format and the expression of a recording, as words for the editor; none if they cannot be found."""
    try:
        with opened(path, name, Given(), None) as track:
            return track.code
    except Problem:
        return []
