"""The line of progress of the tools that read a file as a stream: on a terminal, and after two seconds."""
import io
import os
import sys
import tempfile
from itertools import count
from unittest import mock

from cases import case
from irig_tools import progress
from rows.in_process import MAINS
from rows.tools_carrier import wav
from rows.tools_what import B, dump


class Terminal(io.StringIO):
    def isatty(self):
        return True


def shown(tool, words, data, seconds, stream):
    """What a tool says, if the clock goes on by some seconds at each look."""
    with tempfile.TemporaryDirectory() as folder:
        path = os.path.join(folder, "one")
        with open(path, "wb") as file:
            file.write(data)
        out = io.TextIOWrapper(io.BytesIO(), "utf-8")
        with mock.patch.multiple(sys, argv=[tool, *words, path], stdout=out, stderr=stream), mock.patch("signal.signal"):
            with mock.patch.object(progress, "monotonic", count(0, seconds).__next__):
                status = MAINS[tool]()
    return status, stream.getvalue()


def line(tool, words, data):
    """The line comes after two seconds, has the share that is read, and is gone before anything else is said."""
    slow = shown(tool, words, data, 1.5, Terminal())[1]
    parts = slow.split("\r\033[K")
    good = "MB read, 100 %" in parts[0] and not parts[0].strip().startswith("irig") and "MB read" not in parts[-1]
    good = good and "MB read" not in shown(tool, words, data, 0.001, Terminal())[1]
    good = good and "MB read" not in shown(tool, words, data, 1.5, io.StringIO())[1]
    good or print("FAILED progress of %s: %r" % (tool, slow))
    return good


def cases(_):
    track = dump(*B).encode()
    return [case("progress: irig_wire", line, "irig_wire", [], track), case("progress: irig_what", line, "irig_what", [], track),
            case("progress: irig_demodulate", line, "irig_demodulate", ["--level"], wav(bytes(200000), 8000)),
            case("progress: a table", line, "irig_demodulate", ["--table"], b"Time [s],D0\n" + b"1,0\n1,1\n" * 9)]
