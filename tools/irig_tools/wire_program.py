"""The program irig_wire."""
from __future__ import annotations

from contextlib import ExitStack

from .command import kept, run
from .ending import ALL_RIGHT, FOUND, Usage, complain
from .escapes import in_line
from .options import DUMP, OUTPUT, TIMESCALE, Command, Given, Option, whole
from .other_wires import OtherWires
from .output import check_apart, output
from .put_back import PutBack, TrackEdges
from .texts import counted
from .windows import windows_text
from .wire import Extract, Wish

FROM = Option("--from", "TIME", "this time, in the dump's unit, is the new 0", whole(0))
TO = Option("--to", "TIME", "the end, in the dump's unit", whole(0))
INVERT = Option("--invert", about="high and low are swapped")
PUT_INTO = Option("--into", "ORIGINAL", "DUMP is a track that was made of this file and repaired: writes this file with the "
                  "track instead of the wire, all else byte for byte")
INTO_WIRE = Option("--wire", "NAME", "with --into: the wire of ORIGINAL, named as WIRE is")
CHANGES = Option("--changes", "FILE", "also writes what the other wires of one bit do, a line for each change, with the time that it has "
                 "in the new dump: microseconds, wire and level")
WINDOWS = Option("--windows", about="prints instead the windows in which irig_mend repairs a recording that is longer than a "
                 "track, a line each: from when to when it is read, and from when to when it counts, in the dump's unit")
LINES_OF_CHANGES = "%s has %s: microseconds, wire and level"
COMMAND = Command("irig_wire", ("DUMP", "[WIRE]"), """\
Makes of any value change dump the dump of one wire, which irig_ed reads. It says
on standard error what it changed. DUMP is a file of any size, plain or packed by
gzip, bzip2 or xz; - is standard input. WIRE is a name, a path of scopes
(tb.g.irig), a code, or a bit of a vector (bus[3]); it can be left out if there is
only one wire of one bit. A repaired track is put back by --into:

  irig_wire --into recording.vcd --wire tb.g.irig mended.vcd > merged.vcd
""", (TIMESCALE, DUMP, FROM, TO, INVERT, CHANGES, PUT_INTO, INTO_WIRE, WINDOWS, OUTPUT), """\
The status is 0 if all is right, 1 if there is something to look at (several
dumps and no --dump, words that mean nothing, more than irig_ed reads), 2 if the
dump was not read, and 70 if memory ran out or the tool has a defect.
""")


def work(given: Given) -> int:
    check_choices(given)
    name, into = given.names[1] if len(given.names) > 1 else None, given.text(PUT_INTO)
    for source in filter(None, (given.names[0], into)):
        check_apart(source, [(OUTPUT.name, given.text(OUTPUT)), (CHANGES.name, given.text(CHANGES))], not given.has(OUTPUT))
    chosen = name if into is None else given.text(INTO_WIRE)
    wish = Wish(chosen, given.text(TIMESCALE), given.number(DUMP), given.number(FROM), given.number(TO), given.has(INVERT))
    if given.has(WINDOWS):
        return print_windows(given, wish)
    track = None if into is None else TrackEdges(given.names[0], name)
    with ExitStack() as outputs:
        out = outputs.enter_context(output(given.text(OUTPUT)))
        others = OtherWires(outputs.enter_context(output(given.text(CHANGES)))) if given.has(CHANGES) else None
        report = PutBack(into, wish, track, out).run() if into and track else Extract(given.names[0], wish, out, others).run()
    if others:
        report.done.append(LINES_OF_CHANGES % (in_line(given.text(CHANGES) or ""), counted(others.count, "line")))
    for text in report.done + report.doubtful:
        complain(text, COMMAND.name)
    return FOUND if report.doubtful else ALL_RIGHT


def check_choices(given: Given) -> None:
    """Refuses those that exclude each other, or have no effect."""
    start, end, into = given.number(FROM), given.number(TO), given.text(PUT_INTO)
    if start is not None and end is not None and end < start:
        raise Usage("--to %d is before --from %d" % (end, start))
    if into is None and given.has(INTO_WIRE):
        raise Usage("--wire is only for --into; without it WIRE comes after DUMP")
    if into == given.names[0] == "-":
        raise Usage("DUMP and ORIGINAL are both standard input; only one can be")
    if into is not None and given.has(CHANGES):
        raise Usage("--changes is for a dump that is read, and --into has a track")


def print_windows(given: Given, wish: Wish) -> int:
    """A line for each window; one if the recording fits in a track."""
    for option in (FROM, TO, INVERT, CHANGES, PUT_INTO):
        if given.has(option):
            raise Usage("--windows and %s exclude each other" % option.name)
    with kept(given.names[0]) as path:
        text = windows_text(path, wish)
    with output(given.text(OUTPUT)) as out:
        out.write(text.encode("ascii"))
    return ALL_RIGHT


def main() -> int:
    return run(COMMAND, work)
