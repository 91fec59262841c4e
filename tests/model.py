#!/usr/bin/env python3
"""A reference model: tests/model.py [--wire NAME] [--from T] [--to T] [--format X] [--expression N] [--out PATH] TRACK < SCRIPT

It prints, writes and ends as irig_ed does if nothing outside of it fails, in the plainest way: every former state is
kept whole, and all frames are read again from the whole track. It was written from the documents and not from the
program; tests/scripts compares the two.
"""
import argparse
import os
import re
import sys

sys.dont_write_bytecode = True

from reference import dump, journal, language, listing, machine, timecode  # noqa: E402

LONGEST_LINE = 1000  # bytes, the newline not counted
LAST_TIME = 2**64 - 1  # of an option
EDITS = {
    "insert": machine.insert, "delete": machine.delete, "split": machine.split, "join": machine.join,
    "shift": machine.shift, "invert": machine.invert, "force": machine.force, "regen": machine.regen,
    "format": machine.set_format, "mark": machine.mark, "unmark": machine.unmark,
}


class Run:
    """A script obeyed line by line. Each word that is no edit has a method, which answers the lines that it prints."""

    def __init__(self, opened, put):
        """`put` takes a text and returns whether it was written."""
        self.machine = opened
        self.put = put
        self.is_over = False
        self.some_refused = False
        self.none_fine = False  # of the frames that were listed last

    def said(self, track):
        """What is said at the end, on the standard error."""
        more = "no frame is fine: format or expression can be wrong; irig_what FILE says more"
        return ("irig_ed: %s: %s\n" % (track, more)).encode() if self.none_fine else b""

    def script(self, text):
        """All that a script prints."""
        return b"".join(self.line(line) for line in text.split(b"\n"))

    def line(self, line):
        """What one line prints; nothing after a `quit`."""
        if self.is_over:
            return b""
        try:
            printed = self.obey(line)
        except machine.Refused as refusal:
            self.some_refused = True
            printed = ["? %s" % refusal]
        return "".join(text + "\n" for text in printed).encode()

    def obey(self, line):
        machine.need(len(line) <= LONGEST_LINE, "S2")
        word, values = language.parse(self.machine.present, line)
        if word is None:
            return []
        if word in EDITS:
            self.machine.edit(EDITS[word], *values)
            return []
        return getattr(self, word)(*values)

    def go(self, i):
        self.machine.go(i)
        return self.list(i, i)

    def list(self, i, j):
        machine.need(self.machine.present.has_pulses(i, j), "E2")
        return listing.pulses(self.machine.present, i, j)

    def frames(self):
        listed = listing.frames(self.machine.present)
        self.none_fine = not any(line.endswith(" fine") for line in listed)
        return listed

    def marks(self):
        return listing.marks(self.machine.present)

    def info(self):
        return listing.info(self.machine)

    def undo(self):
        self.machine.undo()
        return []

    def redo(self):
        self.machine.redo()
        return []

    def begin(self):
        self.machine.begin()
        return []

    def end(self):
        self.machine.end()
        return []

    def abort(self):
        self.machine.abort()
        return []

    def write(self):
        return self.put_whole(dump.text(self.machine.present.length, self.machine.present.edges))

    def save(self):
        return self.put_whole(journal.text(self.machine))

    def put_whole(self, text):
        machine.need(self.put(text), "S3")
        return [str(len(text))]

    def quit(self):
        self.is_over = True
        return []


def settings(words):
    parser = argparse.ArgumentParser(prog="irig_ed", allow_abbrev=False)
    parser.add_argument("--wire")
    parser.add_argument("--from", dest="first")
    parser.add_argument("--to", dest="end")
    parser.add_argument("--format", default="B", choices=list("ABEG"))
    parser.add_argument("--expression", default="2", choices=list("01234567"))
    parser.add_argument("--out")
    parser.add_argument("track", metavar="TRACK")
    return parser.parse_args(words)


def window_of(chosen):
    """From when to when a window of the track is opened, in microseconds; None if all of it is."""
    if chosen.first is None and chosen.end is None:
        return None
    return int(chosen.first or 0), LAST_TIME if chosen.end is None else int(chosen.end)


def refused(chosen):
    """What is said of an option with a value that it cannot have; None if there is none."""
    for name, word in (("--from", chosen.first), ("--to", chosen.end)):
        if word is not None and (not re.fullmatch("[0-9]+", word) or int(word) > LAST_TIME):
            return "%s: not a whole number of microseconds" % name
    window = window_of(chosen)
    if window and window[1] < window[0]:
        return "--to: before --from"
    if window and chosen.out is None:
        return "--out: not given, and a part does not replace TRACK"
    if int(chosen.expression) not in timecode.EXPRESSIONS[chosen.format]:
        return "E6 BadExpression"
    if window and os.path.exists(chosen.out) and os.path.exists(chosen.track) and os.path.samefile(chosen.track, chosen.out):
        return "--out: is TRACK, which a part does not replace"
    return None


class SavedSession(Exception):
    """A window is asked for of a saved session."""


def opened(chosen, source):
    """The machine that a dump describes, or a window of it; or a Fault, or a SavedSession."""
    wire = None if chosen.wire is None else os.fsencode(chosen.wire)
    window = window_of(chosen)
    if not window:
        return journal.opened(source, wire, chosen.format, int(chosen.expression))
    length, edges, saved = dump.read_parts(source, wire)
    if saved is not None:
        raise SavedSession("a saved session opens as a whole")
    length, edges = dump.window(length, edges, *window)
    return machine.Machine(length, frozenset(edges), chosen.format, int(chosen.expression))


def machine_of(chosen):
    """The machine that the track describes, or what is said of it instead."""
    most = -1 if window_of(chosen) else dump.MOST_BYTES
    try:
        with open(chosen.track, "rb") as track:
            source = track.read(most + 1 if most >= 0 else -1)
        if len(source) > most >= 0:
            return None, "too long"
        return opened(chosen, source), None
    except OSError:
        return None, "cannot be read"
    except (dump.Fault, SavedSession) as fault:
        return None, str(fault)


def put_at(path):
    def put(text):
        try:
            with open(path, "wb") as file:
                file.write(text)
            return True
        except OSError:
            return False
    return put


def main(words):
    chosen = settings(words)
    said = refused(chosen)
    if said:
        print("irig_ed: %s" % said, file=sys.stderr)
        return 2
    found, said = machine_of(chosen)
    if said:
        print("irig_ed: %s: %s" % (chosen.track, said), file=sys.stderr)
        return 3
    run = Run(found, put_at(chosen.out or chosen.track))
    for line in sys.stdin.buffer:
        sys.stdout.buffer.write(run.line(line.removesuffix(b"\n")))
        sys.stdout.buffer.flush()
        if run.is_over:
            break
    sys.stderr.buffer.write(run.said(chosen.track))
    return 1 if run.some_refused else 0


if __name__ == "__main__":
    sys.exit(main(sys.argv[1:]))
