"""How a program ends: its status, and the one line that says why."""
from __future__ import annotations

import errno
import os
import signal
import sys
import traceback
from types import FrameType
from typing import IO, Callable, Optional, Sequence

from . import progress
from .editor import Problem
from .escapes import in_line
from .temporary import named_if_full

ALL_RIGHT, FOUND, NOT_READ = 0, 1, 2  # statuses
DEFECT = 70  # a defect, or memory ran out: EX_SOFTWARE of sysexits.h
INTERRUPTED, UNREAD = 130, 141  # as a shell shows the signals INT and PIPE
SIGNALLED = 128  # and any other: with its number more
EMPTY_FILE, IS_FOLDER = "is empty", "is a folder"  # what is said of an input
NAME_OF_OUTPUT = "standard output"  # what has no room, if no file is named


class Usage(Exception):
    """Arguments that are not valid."""


class Stopped(BaseException):
    """A signal asks the program to end."""

    def __init__(self, number: int) -> None:
        super().__init__(number)
        self.number = number


def heed_signals() -> None:
    """After a hang-up or a signal TERM the files of this run are removed, as after Ctrl-C."""
    for number in (signal.SIGHUP, signal.SIGTERM):
        if signal.getsignal(number) is signal.SIG_DFL:
            signal.signal(number, _stop)


def unheed_signals() -> None:
    """Nothing is left to be removed: a signal ends the program at once."""
    for number in (signal.SIGHUP, signal.SIGINT, signal.SIGTERM):
        if signal.getsignal(number) in (_stop, signal.default_int_handler):
            signal.signal(number, signal.SIG_DFL)


def _stop(number: int, _: Optional[FrameType]) -> None:
    raise Stopped(number)


def complain(text: str, program: str, below: Sequence[str] = ()) -> None:
    """Says something in one line on standard error, if that is open, with a list below it."""
    if sys.stderr is not None:
        progress.clear()
        print("\n  ".join(map(in_line, ("%s: %s" % (program, text), *below))), file=sys.stderr)


def name_of(path: str) -> str:
    """What a file is called in a message."""
    return "standard input" if path == "-" else path


def ended(program: str, work: Callable[[], int]) -> int:
    """The status of some work. Whatever it raises has one line and a status of its own."""
    status = _status_of(program, work)
    for stream in filter(None, (sys.stdout, sys.stderr)):  # a closed one is None
        _drop_unwritten(stream)
    return status


def _status_of(program: str, work: Callable[[], int]) -> int:
    try:
        with named_if_full(NAME_OF_OUTPUT):
            status = work()
            sys.stdout.flush()
        return status
    except KeyboardInterrupt:
        return INTERRUPTED
    except Stopped as stopped:
        return SIGNALLED + stopped.number
    except BrokenPipeError:
        return UNREAD
    except (Usage, Problem, OSError, MemoryError) as error:
        return _known(error, program)
    except Exception as error:  # pylint: disable=broad-except
        name = " ".join(("%s: %s" % (type(error).__name__, error)).split())
        return _unknown("a defect of this tool: %s (with IRIG_DEBUG=1 it shows where)" % name, program)


def _known(error: Exception, program: str) -> int:
    """The end after an error that is no defect."""
    if isinstance(error, MemoryError) or isinstance(error, OSError) and error.errno == errno.ENOMEM:
        return _unknown("memory ran out", program)
    text = str(error)
    if isinstance(error, Usage):
        text += " (%s --help says more)" % program
    if isinstance(error, OSError):
        text = IS_FOLDER if isinstance(error, IsADirectoryError) else str(error.strerror or error)
        text = "%s: %s" % (error.filename, text) if error.filename else text
    if text.startswith("-: "):
        text = name_of("-") + text[1:]
    _last_words(text, program, error.below if isinstance(error, Problem) else ())
    return NOT_READ


def _unknown(text: str, program: str) -> int:
    if os.environ.get("IRIG_DEBUG"):
        traceback.print_exc()
    _last_words(text, program)
    return DEFECT


def _last_words(text: str, program: str, below: Sequence[str] = ()) -> None:
    """What is said last; the status is the same if nobody hears it."""
    try:
        complain(text, program, below)
    except OSError:
        pass


def _drop_unwritten(stream: IO[str]) -> None:
    """What a stream cannot write goes nowhere: Python would try it again at the end, and end with a status of its own."""
    try:
        stream.flush()
    except OSError:
        with open(os.devnull, "wb") as nothing:
            os.dup2(nothing.fileno(), stream.fileno())
