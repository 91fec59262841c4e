"""Repairs each recording of a folder in a process of its own, and ends them if it is ended."""
from __future__ import annotations

import json
import os
import signal
import subprocess
import sys
import tempfile
import time
from contextlib import suppress
from dataclasses import dataclass
from typing import IO, Dict, Iterator, List, Optional, Sequence

from .editor import Progress
from .ending import ALL_RIGHT, FOUND, NOT_READ, SIGNALLED
from .escapes import in_line
from .processes import LOOK_AGAIN, TOOLS, end_all
from .proposal import no_option
from .record import RECORD, Record, State, state_of_file
from .recordings import Recording
from .results import COUNTS, Result

START_OF_ONE = ("import sys; sys.dont_write_bytecode = True; sys.path.insert(0, sys.argv.pop(1)); "
                "from irig_tools import mend_program; sys.exit(mend_program.main())")
SAID = "irig_mend: "  # how its messages begin


@dataclass
class Running:
    """A process that repairs a recording, and the state of that before."""

    recording: Recording
    read: Optional[State]
    process: "subprocess.Popen[bytes]"
    printed: IO[bytes]
    said: IO[bytes]

    def result(self, out: str) -> Result:
        """What became of the recording."""
        status = self.process.returncode
        status = SIGNALLED - status if status < 0 else status
        texts = []
        for file in (self.printed, self.said):
            file.seek(0)
            texts.append(file.read().decode("utf-8", "surrogateescape"))
            file.close()
        name = self.recording.name
        if status not in (ALL_RIGHT, FOUND) or not os.path.exists(os.path.join(out, self.recording.out)):
            return Result(name, "", max(status, NOT_READ), [_last_said(texts[1], self.recording) or _ended_with(status)])
        found = json.loads(texts[0])
        return Result(name, self.recording.out, status, found["reasons"], found["wire"], found["format"], found["expression"],
                      {each: found["summary"][each] for each in COUNTS})


def _last_said(said: str, recording: Recording) -> str:
    """The last message, with the list below it and without what the table has: the tool and the file."""
    lines = said.split("\n")
    first = max((number for number, line in enumerate(lines) if line.startswith(SAID)), default=0)
    line = " ".join(line.strip() for line in lines[first:]).strip()
    for begin in (SAID, in_line(no_option(recording.path)) + ": "):
        line = line[len(begin):] if line.startswith(begin) else line
    return line


def _ended_with(status: int) -> str:
    return "ended with status %d" % status + (": memory can have run out" if status == SIGNALLED + signal.SIGKILL else "")


class Folder:
    """The recordings of a folder on their way to another."""

    def __init__(self, out: str, words: Sequence[str], keeps_wires: bool, jobs: int, progress: Progress) -> None:
        self.out, self.words, self.keeps_wires, self.jobs, self.progress = out, list(words), keeps_wires, jobs, progress
        self.running: List[Running] = []
        self.results: List[Result] = []

    def mend(self, recordings: Sequence[Recording], record: Record) -> List[Result]:
        """A result for each; those of a run before count if nothing has changed."""
        guarded = {identity: each.path for each in recordings for identity in [_identity_of(each.path)] if identity}
        waiting: Iterator[Recording] = iter(recordings)
        more = True
        try:
            while more or self.running:
                more = more and self._start_some(waiting, record, guarded)
                self._take_ended(record)
                self.progress("%d of %d recordings, %d need a person" % (
                    len(self.results), len(recordings), sum(each.needs_a_person for each in self.results)))
        finally:
            self.progress("")
            self._end_all()
        return self.results

    def _start_some(self, waiting: Iterator[Recording], record: Record, guarded: Dict[object, str]) -> bool:
        """Starts the next recordings, as many as can run at once; whether some can be left."""
        while len(self.running) < self.jobs:
            recording = next(waiting, None)
            if recording is None:
                return False
            done = record.result(recording) or self._refused(recording, guarded)
            if done:
                self.results.append(done)
            else:
                self.running.append(self._started(recording))
        return True

    def _refused(self, recording: Recording, guarded: Dict[object, str]) -> Optional[Result]:
        """A result must not be written over a recording, nor over the record."""
        path = os.path.join(self.out, recording.out)
        if recording.out == RECORD:
            return Result(recording.name, "", NOT_READ, ["its result would have the name of the record, %s" % path])
        over = guarded.get(_identity_of(path))
        return over and Result(recording.name, "", NOT_READ, ["%s would be written over the recording %s" % (path, over)]) or None

    def _started(self, recording: Recording) -> Running:
        out = os.path.join(self.out, recording.out)
        read = state_of_file(recording.path)
        os.makedirs(os.path.dirname(out) or ".", exist_ok=True)
        path = no_option(recording.path)
        words = ["--json", "--apply=" + out, *["--into=" + path] * self.keeps_wires, *self.words, "--", path]
        printed, said = tempfile.TemporaryFile(), tempfile.TemporaryFile()
        process = subprocess.Popen([sys.executable, "-I", "-S", "-c", START_OF_ONE, TOOLS, *words], stdin=subprocess.DEVNULL,
                                   stdout=printed, stderr=said, start_new_session=True)
        return Running(recording, read, process, printed, said)

    def _take_ended(self, record: Record) -> None:
        """Keeps the results of those that have ended; waits for a moment if none has."""
        ended = [each for each in self.running if each.process.poll() is not None]
        for each in ended:
            self.running.remove(each)
            result = each.result(self.out)
            self.results.append(result)
            if result.is_read:
                record.add(result, each.read)
        if self.running and not ended:
            time.sleep(LOOK_AGAIN)

    def _end_all(self) -> None:
        """Lets those that run remove their files, and waits for them."""
        end_all([each.process for each in self.running])


def _identity_of(path: str) -> object:
    """The device and the inode of what a path leads to."""
    with suppress(OSError):
        found = os.stat(path)
        return found.st_dev, found.st_ino
    return None
