"""Files with a name that are there as long as a tool works. What a killed tool leaves can be found by the name."""
from __future__ import annotations

import errno
import io
import shutil
import tempfile
from contextlib import contextmanager, suppress
from typing import IO, ContextManager, Iterator, TypeVar

Open = TypeVar("Open", bound=IO[bytes])
NAME = "irig_ed-"  # how they begin
FULL = (errno.ENOSPC, errno.EDQUOT, errno.EFBIG)


@contextmanager
def named_if_full(path: str) -> Iterator[None]:
    """If there is no room for what is written, the error has this name."""
    try:
        yield
    except OSError as error:
        if error.errno in FULL and error.filename is None:
            raise OSError(error.errno, error.strerror, path) from error
        raise


def named_if_no_room() -> ContextManager[None]:
    """The same, if a temporary file is written."""
    return named_if_full(tempfile.gettempdir())


@contextmanager
def _closed(file: Open) -> Iterator[Open]:
    """A file that is closed in the end: what it could not write was complained of before that."""
    try:
        yield file
    finally:
        with suppress(OSError):
            file.close()


def temporary_track() -> ContextManager["tempfile._TemporaryFileWrapper[bytes]"]:
    """A dump that the editor can read."""
    return _closed(tempfile.NamedTemporaryFile(prefix=NAME, suffix=".vcd"))


@contextmanager
def temporary_copy(stream: IO[bytes]) -> Iterator[IO[bytes]]:
    """What is read, as a file that can be read at any place."""
    with _closed(tempfile.TemporaryFile()) as copy:
        with named_if_no_room():
            shutil.copyfileobj(stream, copy)
            copy.seek(0)
        yield copy


def temporary_script(text: str) -> ContextManager[IO[bytes]]:
    """Lines for the editor: a pipe would break if it refuses the track."""
    return temporary_copy(io.BytesIO(text.encode()))


def temporary_folder() -> "tempfile.TemporaryDirectory[str]":
    """A folder for what is made before it is written."""
    return tempfile.TemporaryDirectory(prefix=NAME)
