"""Runs a process for each window of a long recording, and ends them if it is ended."""
from __future__ import annotations

import subprocess
import sys
import tempfile
import time
from array import array
from dataclasses import replace
from typing import IO, List, NamedTuple

from .editor import Problem, Progress
from .ending import ALL_RIGHT
from .processes import LOOK_AGAIN, TOOLS, end_all
from .window_work import MENDER, OwnPart, Task, own_part_of
from .windows import TimeWindow

START_OF_WORK = ("import sys; sys.dont_write_bytecode = True; sys.path.insert(0, sys.argv.pop(1)); "
                 "from irig_tools import window_work; sys.exit(window_work.main())")


class _Running(NamedTuple):
    task: Task
    process: "subprocess.Popen[bytes]"
    said: IO[bytes]

    def check(self) -> None:
        """A problem with what the process said, if it has failed."""
        self.said.seek(0)
        lines = self.said.read().decode("utf-8", "replace").splitlines()
        self.said.close()
        if self.process.returncode != ALL_RIGHT:
            last = (lines or ["%s: ended with status %d" % (MENDER, self.process.returncode)])[-1]
            last = last[len(MENDER) + 2:] if last.startswith(MENDER + ": ") else last
            window = self.task.window
            raise Problem("window %d, from %d to %d: %s" % (window.number, window.start, window.stop, last))


class WindowJobs:
    """The windows on their way."""

    def __init__(self, task: Task, jobs: int, progress: Progress) -> None:
        """`task` is what they have in common."""
        self.task, self.jobs, self.progress = task, jobs, progress
        self.running: List[_Running] = []
        self.tasks: List[Task] = []

    def start(self, window: TimeWindow, edges: "array[int]") -> None:
        """Starts a process for a window, once there is room for it."""
        self._wait_for(self.jobs - 1)
        task = replace(self.task, window=window)
        self.tasks.append(task)
        with open(task.path("edges"), "wb") as file:
            edges.tofile(file)
        said = tempfile.TemporaryFile()
        command = [sys.executable, "-I", "-S", "-c", START_OF_WORK, TOOLS, task.word()]
        process = subprocess.Popen(command, stdin=subprocess.DEVNULL, stdout=subprocess.DEVNULL, stderr=said, start_new_session=True)
        self.running.append(_Running(task, process, said))

    def finish(self) -> List[OwnPart]:
        """What became of all windows."""
        self._wait_for(0)
        self.progress("")
        return [own_part_of(task) for task in self.tasks]

    def _wait_for(self, many: int) -> None:
        """Waits until no more than that many run."""
        while True:
            ended = [each for each in self.running if each.process.poll() is not None]
            for each in ended:
                self.running.remove(each)
                each.check()
            if len(self.running) <= many:
                return
            self.progress(self.how_far())
            time.sleep(LOOK_AGAIN)

    def how_far(self) -> str:
        return "%d windows repaired, %d on their way" % (len(self.tasks) - len(self.running), len(self.running))

    def end_all(self) -> None:
        """Lets those that run remove their files, and waits for them."""
        end_all([each.process for each in self.running])
        self.running.clear()
