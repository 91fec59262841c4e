"""A tool run in this process, as a program would be, with memory that any of its tests can do with."""
import contextlib
import io
import os
import resource
import sys
import tempfile
from unittest import mock

from irig_tools import demodulate_program, what_program, wire_program

MAINS = {"irig_wire": wire_program.main, "irig_what": what_program.main,
         "irig_demodulate": demodulate_program.main}
FAILED = 99  # a status that no tool has
MEMORY = 1 << 30  # bytes: a tool that asks for all memory must not get it


@contextlib.contextmanager
def little_memory():
    """This process gets no more memory than that."""
    soft, hard = resource.getrlimit(resource.RLIMIT_AS)
    least = MEMORY if soft == resource.RLIM_INFINITY else min(MEMORY, soft)
    resource.setrlimit(resource.RLIMIT_AS, (least, hard))
    try:
        yield
    finally:
        resource.setrlimit(resource.RLIMIT_AS, (soft, hard))


def run(tool, words, data=b""):
    """The status, what is printed, and what is said."""
    out, said = io.TextIOWrapper(io.BytesIO(), "utf-8"), io.StringIO()
    given = io.TextIOWrapper(io.BufferedReader(io.BytesIO(data)))
    with mock.patch.multiple(sys, argv=[tool, *words], stdin=given, stdout=out, stderr=said):
        with mock.patch("signal.signal"), little_memory():
            status = MAINS[tool]()
    out.flush()
    return status, out.buffer.getvalue(), said.getvalue()


def run_apart(tool, words, data=b""):
    """The same in a process of its own with real streams, as bytes. It is forked here, so Python does not start again."""
    with tempfile.TemporaryFile() as given, tempfile.TemporaryFile() as out, tempfile.TemporaryFile() as said:
        given.write(data)
        given.seek(0)
        child = os.fork()
        if not child:
            os._exit(_as_a_program(tool, words, (given, out, said)))
        status = os.waitstatus_to_exitcode(os.waitpid(child, 0)[1])
        for file in (out, said):
            file.seek(0)
        return status, out.read(), said.read()


def _as_a_program(tool, words, files):
    """The status of a tool that has these files as its streams."""
    status = FAILED
    with contextlib.suppress(BaseException):
        for number, file in enumerate(files):
            os.dup2(file.fileno(), number)
        sys.argv = [tool, *words]
        streams = [open(number, mode, encoding="utf-8", errors=errors, closefd=False)  # pylint: disable=consider-using-with
                   for number, mode, errors in ((0, "r", "strict"), (1, "w", "strict"), (2, "w", "backslashreplace"))]
        sys.stdin, sys.stdout, sys.stderr = streams
        status = MAINS[tool]()
        for stream in streams[1:]:
            stream.flush()
    return status
