"""How the programs run: their help and version, where the track comes from, and how they end."""
from __future__ import annotations

import codecs
import io
import os
import shutil
import stat
import sys
from contextlib import contextmanager
from typing import Callable, Iterator, Tuple, Union

from .editor import Problem, called
from .ending import DEFECT, INTERRUPTED, IS_FOLDER, SIGNALLED, Stopped, ended, heed_signals, unheed_signals
from .options import HELP, VERSION, Command, Given
from .temporary import named_if_no_room, temporary_track
from .version import version

OPENED = ("/dev/fd/", "/dev/stdin", "/proc/")  # a path of a file that is open here, and not in the editor


@contextmanager
def kept(path: str) -> Iterator[str]:
    """A path of the track that can be read more than once, also by the editor: a copy, if it is a pipe. The path
    `-` is the standard input."""
    try:
        mode = os.stat(0 if path == "-" else path).st_mode
    except OSError as error:
        raise Problem("%s: %s" % (path, error.strerror)) from error
    if stat.S_ISREG(mode) and path != "-" and not path.startswith(OPENED):
        yield path
        return
    if stat.S_ISDIR(mode):
        raise Problem("%s: %s" % (path, IS_FOLDER))
    with temporary_track() as copy:
        with sys.stdin.buffer if path == "-" else open(path, "rb") as source, named_if_no_room():
            shutil.copyfileobj(source, copy)
            copy.flush()
        with called(copy.name, "standard input" if path == "-" else path):
            yield copy.name


@contextmanager
def of_any_length() -> Iterator[None]:
    """A complaint that a recording is longer than a track says what repairs it."""
    try:
        yield
    except Problem as error:
        if "V12 " not in str(error):
            raise
        hint = "irig_mend --apply repairs a recording of any length, and irig_wire --windows prints parts of it that fit in a track"
        raise Problem("%s; %s" % (error, hint)) from error


@contextmanager
def unchanged(path: str) -> Iterator[None]:
    """A file that is read more than once has to stay as it is: a repair would be made of two recordings."""
    before = _state(path)
    yield
    if _state(path) != before:
        raise Problem("%s: changed while it was read" % path)


def _state(path: str) -> Tuple[int, ...]:
    found = os.stat(path)
    return found.st_dev, found.st_ino, found.st_size, found.st_mtime_ns


def as_given(error: UnicodeError) -> Tuple[Union[str, bytes], int]:
    """What is printed for a letter that the terminal's code does not have: the byte that a file name has there, so
    that the name can be used again, or else the number of the letter."""
    assert isinstance(error, UnicodeEncodeError)
    number = ord(error.object[error.start])
    is_byte = 0xdc80 <= number <= 0xdcff
    return bytes([number - 0xdc00]) if is_byte else "\\u%04x" % number, error.start + 1


codecs.register_error("irig_tools", as_given)


def run(command: Command, work: Callable[[Given], int]) -> int:
    """Runs a program: its help, its complaints, and its end, also if nobody reads what it prints."""
    heed_signals()
    if isinstance(sys.stdout, io.TextIOWrapper):
        sys.stdout.reconfigure(errors="irig_tools")
    try:
        status = ended(command.name, lambda: help_or(command, work))
        unheed_signals()
        return status
    except Stopped as stopped:  # when the work was done
        return SIGNALLED + stopped.number
    except KeyboardInterrupt:
        return INTERRUPTED
    except BaseException:  # there is not even memory to say so
        os._exit(DEFECT)


def help_or(command: Command, work: Callable[[Given], int]) -> int:
    """Prints the help or the version if a word asks for it, and else works on what is given."""
    closed = [name for name in ("stdin", "stdout", "stderr") if getattr(sys, name) is None]
    if closed:
        raise Problem("%s is closed" % closed[0])
    given = command.parse(sys.argv[1:])
    if given.has(HELP):
        sys.stdout.write(command.help())
    elif given.has(VERSION):
        sys.stdout.write("%s %s\n" % (command.name, version()))
    else:
        return work(given)
    return 0
