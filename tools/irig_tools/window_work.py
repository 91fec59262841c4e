"""Repairs one window of a long recording, in a process of its own. Its times are those of the recording, and only what is its own
counts."""
from __future__ import annotations

import gc
import json
import os
import sys
from array import array
from bisect import bisect_left
from dataclasses import dataclass, replace
from typing import List, Sequence, Tuple

from .applied import Applied, How, applied_to, is_of_all
from .apply import Counts
from .editor import Editor
from .ending import ALL_RIGHT, ended, heed_signals
from .kinds import ALL_PULSES
from .mend import propose
from .opening import Opened
from .reasons import Rank, Ranked, ranked
from .recounted import counted_on
from .script import Repair
from .windows import TimeWindow
from .wire import Wish
from .wire_edges import WireEdges
from .written import head, edges_text

MENDER = "irig_mend"
NO_WINDOW = TimeWindow(0, 0, 0, 0, 0, False)
NOT_REPAIRED = "from %d to %d nothing is repaired: %s"
NONE_SOUND = "from %d to %d no frame is sound, so this part is left as it was"


@dataclass(frozen=True)
class Task:
    """What a process is given: a window, whose edges are in a file, and how it is repaired."""

    folder: str
    code: List[str]
    steady: bool = False
    is_text: bool = False  # the own part is written as words of a dump, and not as edges
    window: TimeWindow = NO_WINDOW

    def path(self, what: str) -> str:
        return os.path.join(self.folder, "%d.%s" % (self.window.number, what))

    def word(self) -> str:
        return json.dumps([self.folder, self.code, self.steady, self.is_text, list(self.window)])


def task_of(word: str) -> Task:
    folder, code, steady, is_text, window = json.loads(word)
    return Task(folder, code, steady, is_text, TimeWindow(*window))


@dataclass(frozen=True)
class OwnPart:
    """What became of the own part of a window."""

    counts: Counts
    reasons: List[Ranked]  # with the pulses of the repaired window
    ahead: int  # pulses of that before its own part
    edges: int  # of the own part
    last: int  # the last one of them, or -1
    before: bool  # its level at its beginning
    after: bool  # and at its end
    kind: str
    expression: int

    def counted(self, ahead: int) -> List[Ranked]:
        """The reasons, if that many pulses of the repaired recording are before its own part."""
        return [(rank, counted_on(text, ahead - self.ahead)) for rank, text in self.reasons]


def own_part_of(task: Task) -> OwnPart:
    """What a process has found."""
    with open(task.path("json"), encoding="utf-8") as file:
        counts, *rest = json.load(file)
    return OwnPart(Counts(*counts), *rest)


def work(task: Task) -> int:
    track = Opened(task.path("vcd"), task.code, is_as_it_is=True)
    _write_dump(task)
    editor = Editor(track.words)
    how = How(lambda asked, move: _own(task.window, propose(asked, _quiet, task.steady)), _quiet, task.steady, owns=task.window.owns)
    script, repaired = _own(task.window, propose(editor, _quiet, task.steady)), task.path("repaired")
    ran = applied_to(track, editor, script, how, repaired)
    now = ran.now(script)
    counted, reasons = ran.counts(now), _own_reasons(task.window, now, ran)
    ahead = bisect_left(ran.after.listing.rises, task.window.begin)
    if not _has_sound(ran, script):
        repaired, reasons = track.path, [(Rank.LEFT, NONE_SOUND % (task.window.begin, task.window.end))]
        counted = _left_as_it_was(counted)
    written, listing = _write_part(task, repaired), ran.before.listing
    with open(task.path("json"), "w", encoding="utf-8") as file:
        json.dump([list(vars(counted).values()), reasons, ahead, *written, listing.kind, listing.expression], file)
    return ALL_RIGHT


def _quiet(text: str) -> None:
    """The process that waits for this one says how far all is."""


def _own(window: TimeWindow, script: Sequence[Repair]) -> List[Repair]:
    """The repairs and the remarks of its own part; none reaches over its end. Those of all pulses each window has."""
    return [each for each in script if each.edits and each.kind in ALL_PULSES or is_of_all(each)
            or window.owns(each.at) and window.owns(max(each.at, each.until))]


def _has_sound(ran: Applied, script: Sequence[Repair]) -> bool:
    """Whether a frame was sound, or would be if the wire was the other way up, or its threshold another one."""
    return bool(ran.frames[0].sound or ran.frames[1].sound and any(each.kind in ALL_PULSES for each in script))


def _left_as_it_was(counted: Counts) -> Counts:
    """Of a part that is left as it was."""
    found = max(1, counted.found)
    return replace(counted, found=found, repaired=0, steps=0, undecided=0, left=found, guesses=0, filled=0, refused=0,
                   sound_after=counted.sound_before, off=0)


def _own_reasons(window: TimeWindow, script: Sequence[Repair], ran: Applied) -> List[Ranked]:
    """Why something is left, and what is a guess."""
    own = [each if window.owns(each.at) else _of_window(window, each) for each in script if window.owns(each.at) or is_of_all(each)]
    return ranked(own, ran.refused, ran.without_line(script))


def _of_window(window: TimeWindow, remark: Repair) -> Repair:
    """What is said of all that was looked at is of this window."""
    return replace(remark, undecided=[NOT_REPAIRED % (window.begin, window.end, comment) for comment in remark.undecided])


def _write_dump(task: Task) -> None:
    edges: "array[int]" = array("q")
    with open(task.path("edges"), "rb") as file:
        edges.frombytes(file.read())
    os.unlink(task.path("edges"))
    is_high = bool(edges) and edges[0] == 0
    with open(task.path("vcd"), "wb") as out:
        out.write(head(is_high) + edges_text(edges[is_high:], not is_high))
        if edges[-1:] != array("q", [task.window.stop]):
            out.write(b"#%d\n" % task.window.stop)


def _write_part(task: Task, repaired: str) -> Tuple[int, int, bool, bool]:
    """Writes the edges of the own part: how many, the last one, and the levels before and after it. As a text it has none at 0."""
    window, edges = task.window, WireEdges(repaired, Wish()).read().edges
    first, beyond = bisect_left(edges, window.begin), len(edges) if window.is_last else bisect_left(edges, window.end)
    many = beyond - first
    first += task.is_text and edges[first:first + 1] == array("q", [0])
    part = edges[first:beyond]
    with open(task.path("part"), "wb") as out:
        out.write(edges_text(part, first % 2 == 0) if task.is_text else part.tobytes())
    os.unlink(repaired)
    return many, part[-1] if part else -1, bool(first % 2), bool(beyond % 2)


def main() -> int:
    gc.disable()  # millions of numbers, and nothing that refers to itself
    heed_signals()
    return ended(MENDER, lambda: work(task_of(sys.argv[1])))
