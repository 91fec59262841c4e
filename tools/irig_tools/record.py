"""The record of what is done: a line for each result, on the disk before the next. It says which recordings do not have to be
repaired again."""
from __future__ import annotations

import errno
import fcntl
import json
import os
import stat
from contextlib import contextmanager
from typing import IO, Any, Dict, Iterator, List, Optional, Sequence

from .editor import Problem
from .recordings import Recording
from .results import Result, of_object

RECORD = "irig_mend.done"  # its name in the folder of the results
State = List[int]  # the bytes of a file, and when it was written, in nanoseconds


def state_of_file(path: str) -> Optional[State]:
    """None if nothing is there."""
    try:
        found = os.stat(path)
    except OSError:
        return None
    return [found.st_size, found.st_mtime_ns]


class Record:
    """What runs with these rules have done. A result counts if both files are as the line has them."""

    def __init__(self, file: IO[bytes], out: str, rules: Sequence[str]) -> None:
        self.file, self.out, self.rules = file, out, list(rules)
        text = file.read()
        self.lines: Dict[str, Dict[str, Any]] = {}
        for line in text.split(b"\n"):
            found = _line(line)
            if found:
                self.lines[found["result"]["recording"]] = found
        if text and not text.endswith(b"\n"):  # a run was killed within a line
            file.write(b"\n")

    def result(self, recording: Recording) -> Optional[Result]:
        """The result of a run before, if neither file has changed."""
        found = self.lines.get(recording.name)
        if not found or found["rules"] != self.rules or found["result"]["result"] != recording.out:
            return None
        states = state_of_file(recording.path), state_of_file(os.path.join(self.out, recording.out))
        return of_object(found["result"], True) if None not in states and states == (found["read"], found["written"]) else None

    def add(self, result: Result, read: Optional[State]) -> None:
        """A line for a result whose file is there; both are on the disk then."""
        path = os.path.join(self.out, result.result)
        _sync_folder(os.path.dirname(path))
        line = {"result": result.as_object(), "rules": self.rules, "read": read, "written": state_of_file(path)}
        self.file.write(json.dumps(line).encode("ascii") + b"\n")
        self.file.flush()
        os.fsync(self.file.fileno())


def _line(line: bytes) -> Optional[Dict[str, Any]]:
    """What a line says; nothing if it is cut or another program's."""
    try:
        found: Dict[str, Any] = json.loads(line)
        of_object(found["result"])
        return found if {"rules", "read", "written"} <= set(found) else None
    except (ValueError, KeyError, TypeError):
        return None


def _sync_folder(path: str) -> None:
    number = os.open(path, os.O_RDONLY | os.O_DIRECTORY)
    try:
        os.fsync(number)
    finally:
        os.close(number)


def _itself(path: str, flags: int) -> int:
    """Opens a file, and not what a link leads to: another user of the folder could have made that."""
    try:
        number = os.open(path, flags | os.O_NOFOLLOW | os.O_NONBLOCK, 0o666)
    except OSError as error:
        if error.errno != errno.ELOOP:
            raise
        raise Problem("%s: is a link; the record of what is done is written through none" % path) from error
    if not stat.S_ISREG(os.fstat(number).st_mode):
        os.close(number)
        raise Problem("%s: is no file; the record of what is done is one" % path)
    return number


@contextmanager
def record_in(out: str, rules: Sequence[str]) -> Iterator[Record]:
    """The record of a folder; one run at a time has it."""
    os.makedirs(out, exist_ok=True)
    with open(os.path.join(out, RECORD), "a+b", opener=_itself) as file:
        try:
            fcntl.flock(file, fcntl.LOCK_EX | fcntl.LOCK_NB)
        except OSError as error:
            raise Problem("%s: another irig_mend works on this folder" % out) from error
        file.seek(0)
        yield Record(file, out, rules)
