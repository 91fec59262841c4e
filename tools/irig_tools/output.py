"""Files that are written: each as a whole, and never the file that is read."""
from __future__ import annotations

import errno
import os
import stat
import sys
import tempfile
from contextlib import contextmanager, suppress
from itertools import combinations
from typing import IO, Iterator, Optional, Sequence, Tuple, Union

from .editor import Problem
from .temporary import named_if_full

PathOrNumber = Union[str, int]  # a path, or the number of an open file
STANDARD_INPUT, STANDARD_OUTPUT = 0, 1
NEW = ".irig_ed-new-"  # in the name of a file until it is whole, as irig_ed calls its own; letters follow


def check_apart(source: str, outputs: Sequence[Tuple[str, Optional[str]]] = (), prints: bool = False) -> None:
    """Refuses an output that is the file that is read, by device and inode: nothing is read or written yet.

    `outputs` are options with their files, each a file of its own, and none the standard output if the tool `prints`
    there, too. The standard output is always looked at."""
    named = [("%s %s" % (option, path), path) for option, path in outputs if path is not None]
    printed = ("the standard output", "-")
    for (one, path), (other, twin) in combinations([*named, *[printed] * prints], 2):
        if _place(path) == _place(twin):
            raise Problem("%s and %s are one file" % (one, other))
    read = _identity(STANDARD_INPUT if source == "-" else source)
    for text, path in [*named, printed]:
        if read is not None and _identity(STANDARD_OUTPUT if path == "-" else path) == read:
            name = "standard input" if source == "-" else source
            raise Problem("%s would write over the file that is read, %s" % (text, name))


def _identity(place: PathOrNumber) -> Optional[Tuple[int, int]]:
    """The device and the inode of a regular file; nothing is lost in a device or a pipe."""
    try:
        found = os.stat(place)
    except (OSError, ValueError):
        return None
    return (found.st_dev, found.st_ino) if stat.S_ISREG(found.st_mode) else None


def _place(path: str) -> str:
    """What a path leads to."""
    return "-" if is_standard_output(path) else os.path.realpath(path)


def is_standard_output(path: str) -> bool:
    """Whether a path is `-`, or leads to where the standard output goes, as /dev/stdout does. A device is opened by its name."""
    if path == "-":
        return True
    try:
        there = os.stat(path)
        return not stat.S_ISCHR(there.st_mode) and os.path.samestat(there, os.stat(STANDARD_OUTPUT))
    except (OSError, ValueError):
        return False


@contextmanager
def new_file(path: str) -> Iterator[IO[bytes]]:
    """A file that is written as a whole: it has its name only at the end, and after an error not at all. A file that had the
    name keeps its mode, and has to be one that may be written. A pipe, a device, and an open file without a name are written
    directly."""
    found, target = _found(path), os.path.realpath(path)
    if found and _identity(target) != (found.st_dev, found.st_ino):
        with named_if_full(path), open(path, "wb") as straight:
            yield straight
        return
    mode = _mode(path, found)
    number, beside = _unfinished(target, path)
    try:
        with named_if_full(path), os.fdopen(number, "wb") as new:
            yield new
            new.flush()
            os.fsync(number)
        with _named(path):
            os.chmod(beside, mode)
            os.replace(beside, target)
    except BaseException:
        with suppress(FileNotFoundError):  # it has its name already
            os.unlink(beside)
        raise


def _unfinished(target: str, path: str) -> Tuple[int, str]:
    """A new file next to the target of a path. The name is left out of its own if the file system takes no such long one."""
    folder, name = os.path.split(target)
    with _named(path):
        try:
            return tempfile.mkstemp(prefix="." + name + NEW, dir=folder)
        except OSError as error:
            if error.errno != errno.ENAMETOOLONG:
                raise
            return tempfile.mkstemp(prefix=NEW, dir=folder)


@contextmanager
def _named(path: str) -> Iterator[None]:
    """An error has this name: nobody knows that of the new file."""
    try:
        yield
    except OSError as error:
        raise OSError(error.errno, error.strerror, path) from error


@contextmanager
def output(path: Optional[str]) -> Iterator[IO[bytes]]:
    """What is written: a new file, or the standard output."""
    if path is None or is_standard_output(path):
        yield sys.stdout.buffer
        sys.stdout.buffer.flush()
        return
    with new_file(path) as new:
        yield new


def write(path: str, text: str) -> None:
    """Writes a text as a file."""
    with output(path) as new:
        new.write(text.encode("utf-8"))


def _found(path: str) -> Optional[os.stat_result]:
    """What a path leads to, if anything is there."""
    try:
        return os.stat(path)
    except FileNotFoundError:
        return None


def _mode(path: str, found: Optional[os.stat_result]) -> int:
    """The mode that a new file gets: that of the file that has its name, if there is one."""
    if found is None:
        return 0o666 & ~_umask()
    if not os.access(path, os.W_OK):
        raise PermissionError(errno.EACCES, os.strerror(errno.EACCES), path)
    return found.st_mode & 0o777


def _umask() -> int:
    mask = os.umask(0)
    os.umask(mask)
    return mask
