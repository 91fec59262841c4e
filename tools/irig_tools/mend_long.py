"""irig_mend --apply on a recording that is longer than a track: window by window, a process for each, and one result."""
from __future__ import annotations

import mmap
import os
import shutil
from array import array
from contextlib import contextmanager, suppress
from functools import reduce
from itertools import chain
from typing import IO, Callable, Iterator, List, Optional, Tuple

from .apply import Code, Counts
from .cut_end import notes_of_rest
from .editor import Problem, Progress
from .ending import Stopped
from .escapes import in_line
from .merger import Level
from .named import wire_or_none
from .opening import Opened, opened
from .options import Given
from .put_back import TrackLevel
from .reasons import Ranked, in_order, of_whole
from .sampled import PLACES, sample
from .temporary import named_if_no_room
from .window_jobs import WindowJobs
from .window_work import OwnPart, Task
from .windows import TimeWindow, Windows
from .wire import ENDS_WITHIN, Wish
from .written import head

EDGE = 8  # bytes


class LongRecording:
    """A recording that can be longer than a track: what is on it, as a part of it shows, and its windows."""

    def __init__(self, track: Opened, progress: Progress) -> None:
        self.track, self.progress = track, progress
        self.wish = Wish(track.wire, track.unit, track.dump)
        self.parts: List[OwnPart] = []
        self.windows: List[TimeWindow] = []
        self.length = 0
        self.ended = ""  # how far it was, if somebody ended it

    def mend(self, task: Task, jobs: int, check: Callable[[], None]) -> bool:
        """Repairs all windows as the task says; nothing is done if all fits in a track. A check comes before the first one."""
        work = WindowJobs(task, jobs, self.progress)

        def take(window: TimeWindow, edges: "array[int]") -> None:
            if not work.tasks:
                check()
            work.start(window, edges)

        try:
            with named_if_no_room():
                windows = Windows(self.track.path, self.wish, take)
                reading = windows.read()
            self.parts = work.finish()
        except (KeyboardInterrupt, Stopped):
            self.ended = work.how_far()
            raise
        finally:
            self.progress("")
            work.end_all()
        self.windows, self.length, self.track.offset = windows.windows, reading.length, reading.offset
        self.track.notes += [ENDS_WITHIN[reading.within]] if reading.within else []
        return windows.is_long

    def counts(self) -> Counts:
        return reduce(Counts.plus, (part.counts for part in self.parts))

    def reasons(self) -> List[str]:
        """Why something is left; of one rank from the end to the beginning as in a script."""
        before, said = 0, []  # type: int, List[List[Ranked]]
        for part in self.parts:
            said.append(part.counted(before // 2))
            before += part.edges
        return in_order([*chain.from_iterable(reversed(said)), *of_whole(notes_of_rest(self.track))])

    def code(self, name: str) -> Code:
        return Code(name, wire_or_none(self.track), self.parts[0].kind, self.parts[0].expression)

    def write_text(self, folder: str, out: IO[bytes]) -> None:
        """The repaired track, as irig_ed would write it."""
        comment = self.track.offset.comment() if self.track.offset else ""
        out.write(head(self.parts[0].before, comment))
        for window, part, level in self._levels():
            if part.before != level:
                out.write(b"#%d\n%d!\n" % (window.begin, part.before))
            _copy(folder, window, out)
        if self.length and self.length != max(part.last for part in self.parts):
            out.write(b"#%d\n" % self.length)

    @contextmanager
    def level(self, folder: str) -> Iterator[TrackLevel]:
        """The repaired track by its edges, which are in a file: they can be more than the memory holds."""
        path = os.path.join(folder, "edges")
        with open(path, "w+b") as file:
            for window, part, level in self._levels():
                if part.before != level:
                    file.write(window.begin.to_bytes(EDGE, "little"))
                _copy(folder, window, file)
            file.flush()
            if not os.path.getsize(path):
                yield TrackLevel(Level((), self.length), self.track.offset)
                return
            with mmap.mmap(file.fileno(), 0, access=mmap.ACCESS_READ) as mapped, memoryview(mapped) as view, view.cast("q") as edges:
                yield TrackLevel(Level(edges, self.length), self.track.offset)

    def _levels(self) -> Iterator[Tuple[TimeWindow, OwnPart, bool]]:
        """Each window, and the level that the one before has at its end."""
        level = False
        for number, (window, part) in enumerate(zip(self.windows, self.parts)):
            yield window, part, level if number else part.before
            level = part.after


def _copy(folder: str, window: TimeWindow, out: IO[bytes]) -> None:
    """Copies what a window has written, and removes it."""
    path = os.path.join(folder, "%d.part" % window.number)
    with open(path, "rb") as file:
        shutil.copyfileobj(file, out)
    os.unlink(path)


def looked_at(path: str, name: str, given: Given, wire: Optional[str], progress: Progress) -> Optional[Opened]:
    """The wire, the format and the expression, as the first part of the file shows them that has time code; nothing if none has."""
    for place in PLACES:
        progress(in_line("looking at a part of %s" % os.path.basename(name)))
        with suppress(Problem), sample(path, place) as part, opened(part, name, given, wire) as track:
            return Opened(path, track.code, track.wire, None, track.notes, unit=track.unit, dump=track.dump)
    return None
