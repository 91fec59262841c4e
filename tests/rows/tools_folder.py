"""Rows for `irig_mend --apply-to`: each recording of a folder to a file of the same name, and a table, worst first."""
import csv
import fcntl
import gzip
import io
import json
import os
import re
import signal
import subprocess
import sys
import time
from unittest import mock

from built import TIME, TOP
from cases import case
from irig_tools import recordings, results
from random_input import damages
from rows import tools
from rows.in_process import run
from rows.tools_apply import END, both, glitch, in_folder, nanoseconds, others, recorded, same, text_of

TO = ["--apply-to", "mended", "--expression=4"]
RUN_BEFORE = " from a run before"


def write_all(files):
    """Writes texts as files, in folders if a name has some."""
    for name, text in files.items():
        os.makedirs(os.path.dirname(name) or ".", exist_ok=True)
        with open(name, "wb") as file:
            file.write(text if isinstance(text, bytes) else text.encode("ascii"))


def of_kinds():
    """Recordings of one name in two folders: one with a glitch and other wires, a sound one; one with a step; and what is none."""
    return {"in/rec.vcd": nanoseconds(recorded(glitch)), "in/deep/rec.vcd": damages.dump(recorded(), END),
            "in/deep/step.vcd": damages.dump(recorded(both), END + 3300), "in/cut.vcd": damages.dump(recorded(), END)[:-6],
            "in/junk.vcd": "no dump at all\n", "in/notes.txt": "a note\n", "in/.hidden.vcd": "x"}


# a recording, its wire, places, repaired, undecided, left, steps, frames before and after, and status: worst first
ROWS = [
    ["junk.vcd", "", "", "", "", "", "", "", "", "2"],
    ["deep/step.vcd", "code", "2", "1", "0", "0", "1", "5", "6", "1"],
    ["cut.vcd", "code", "0", "0", "0", "0", "0", "7", "7", "1"],
    ["deep/rec.vcd", "code", "0", "0", "0", "0", "0", "7", "7", "0"],
    ["rec.vcd", "!", "1", "1", "0", "0", "0", "6", "7", "0"],
]
NAMES = ("recording", "wire", "found", "repaired", "undecided", "left", "steps", "sound_before", "sound_after", "status")
SUMS = "5 recordings: 2 whole, 2 with damage left, 1 not repaired; 3 places found, 2 repaired; 25 frames sound before, 27 after"


def rows_of(text):
    return [[row[name] for name in NAMES] for row in csv.DictReader(io.StringIO(text))]


def outputs():
    """The files below the folder of the results, without the record."""
    found = [os.path.relpath(os.path.join(place, name), "mended") for place, _, names in os.walk("mended") for name in names]
    return sorted(set(found) - {"irig_mend.done"})


def whole():
    """Those that are whole: what a killed run was just writing begins with a point."""
    return [name for name in outputs() if not os.path.basename(name).startswith(".")]


def mended(*words):
    """The status, the lines that are printed, and what is said."""
    status, printed, said = run("irig_mend", [*TO, *words, "in"])
    return status, printed.decode().splitlines(), said


def table():
    """Each recording has a row, in the table and in the report, and its result has all its wires."""
    def holds():
        write_all(of_kinds())
        before = {name: text_of(name) for name in of_kinds()}
        status, lines, said = mended("--report", "table.csv", "--page", "page.html", "--jobs", "2")
        yield same("the status, and the sums", (status, lines[-1]), (1, SUMS))
        yield same("the report", rows_of(text_of("table.csv")), ROWS)
        yield same("the table", [line.split()[0] for line in lines[1:6]], [row[0] for row in ROWS])
        why = [line for line in lines[6:-1] if line.startswith(("junk.vcd: ", "deep/step.vcd: ", "cut.vcd: "))]
        yield same("the reasons", len(why), len(lines) - 7)
        yield same("of a file that is cut", "cut.vcd: the file ends within a time, so it is cut" in why, True)
        yield same("what is left out", "in: 1 file is no dump and is left out: notes.txt" in said, True)
        yield same("the results", outputs(), ["cut.vcd", "deep/rec.vcd", "deep/step.vcd", "rec.vcd"])
        yield same("the recordings", {name: text_of(name) for name in before}, before)
        yield same("the other wires", others(text_of("mended/rec.vcd")), others(before["in/rec.vcd"]))
        run("irig_mend", ["--expression=4", "--apply", "one.vcd", "--into", "in/deep/step.vcd", "in/deep/step.vcd"])
        yield same("a result", text_of("mended/deep/step.vcd"), text_of("one.vcd"))
        with open("page.html", encoding="utf-8") as file:
            page = file.read()
        yield same("the page", (page.count("<tr class="), page.count('<tr class="whole">'), SUMS in page), (5, 2, True))

    return in_folder(lambda: list(holds()))


def not_all_read():
    """A last time that goes back is said, and what is written can be read without it; a second recording under the header is said, and
    stays as it is."""
    def holds():
        sound = damages.dump(recorded(), END)
        write_all({"in/back.vcd": sound + "#7000000\n", "in/twice.vcd": sound + "#7000000\n1!\n#7100000\n"})
        status, lines, _ = mended()
        yield same("the status, and the sums", (status, lines[-1].partition(";")[0]),
                   (1, "2 recordings: 0 whole, 2 with damage left, 0 not repaired"))
        yield same("a last time that goes back",
                   "back.vcd: the last time of the file is before the one before it, so it does not count" in lines, True)
        yield same("a second recording", "twice.vcd: the file has 2 dumps, one after the other; this is number 1 (--dump N reads another)"
                   in lines, True)
        yield same("the results", [text_of("mended/back.vcd"), text_of("mended/twice.vcd")], [sound, text_of("in/twice.vcd")])
        yield same("one is read by irig_ed", run("irig_damage", ["--quiet", "--expression=4", "mended/back.vcd"]), (0, b"", ""))

    return in_folder(lambda: list(holds()))


def when_written(names):
    """When each of these results was written."""
    return {name: os.stat("mended/" + name).st_mtime_ns for name in names}


def again(files, name, words, done):
    """A run after another one: which results are written again; `files` has when each was written, before the run and after it."""
    status, lines, _ = mended(*words)
    kept = {each for each, written in when_written(files).items() if files[each] == written}
    files.update(when_written(files))
    yield same(name, (status, set(files) - kept), (1, set(done)))
    yield same(name + ", the sums", lines[-1].endswith("; %d%s" % (len(kept), RUN_BEFORE)), bool(kept))


def longer(path):
    """Adds an empty line to a file."""
    with open(path, "a", encoding="ascii") as file:
        file.write("\n")


def goes_on():
    """What was done is not done again, unless a file or an option has changed or the line of the record is cut."""
    def holds():
        write_all(of_kinds())
        os.remove("in/junk.vcd")
        mended()
        files = when_written(outputs())
        yield from again(files, "nothing has changed", [], [])
        longer("in/rec.vcd")
        yield from again(files, "a recording has changed", [], ["rec.vcd"])
        longer("mended/cut.vcd")
        yield from again(files, "a result has changed", [], ["cut.vcd"])
        with open("mended/irig_mend.done", "rb+") as file:
            file.truncate(os.path.getsize("mended/irig_mend.done") - 20)  # that of the last one
        yield from again(files, "a line of the record is cut", [], ["cut.vcd"])
        yield from again(files, "and whole again", [], [])
        yield from again(files, "another rule", ["--steady"], files)
        yield from again(files, "as a track with its steps", ["--save"], files)
        yield same("with --save", "irig-journal-1" in text_of("mended/cut.vcd"), True)

    return in_folder(lambda: list(holds()))


def packed():
    """A result is not packed; if its name is taken, it has another."""
    def holds():
        text = damages.dump(recorded(glitch), END)
        write_all({"in/a.vcd": text, "in/a.vcd.gz": gzip.compress(text.encode()), "in/b.VCD.GZ": gzip.compress(text.encode()),
                   "in/dump": text, "in/table.csv": "1,2\n"})
        status, lines, said = mended()
        yield same("packed", (status, outputs()), (0, ["a.vcd", "a.vcd.gz.vcd", "b.VCD", "dump"]))
        yield same("what is left out", "left out: table.csv\n" in said, True)
        yield same("all are one", {text_of("mended/" + name) for name in outputs()}, {text_of("mended/a.vcd")})

    return in_folder(lambda: list(holds()))


def never_over():
    """No result is written over a recording, whatever leads there, and neither is a report."""
    def holds():
        write_all(of_kinds())
        os.makedirs("mended")
        os.symlink(os.path.abspath("in/rec.vcd"), "mended/cut.vcd")
        os.link("in/deep/step.vcd", "mended/rec.vcd")
        before = {name: text_of(name) for name in of_kinds()}
        status, printed, _ = run("irig_mend", [*TO, "--json", "in"])
        found = {each["recording"]: each for each in map(json.loads, printed.decode().splitlines())}
        bad = sorted(name for name, each in found.items() if each["status"] == 2)
        yield same("results over recordings", (status, bad), (1, ["cut.vcd", "junk.vcd", "rec.vcd"]))
        yield same("why", found["rec.vcd"]["reasons"], ["mended/rec.vcd would be written over the recording in/deep/step.vcd"])
        yield same("the recordings", {name: text_of(name) for name in before}, before)
        for words, text in ((["--apply-to", "in", "in"], "--apply-to in would write over the recordings that are read"),
                            ([*TO, "--report", "in/rec.vcd", "in"], "--report in/rec.vcd would write over in/rec.vcd"),
                            ([*TO, "--page", "mended/deep/rec.vcd", "in"], "would write over mended/deep/rec.vcd"),
                            ([*TO, "--page", "x", "--report", "./x", "in"], "--report and --page are one file"),
                            ([*TO, "in/rec.vcd"], "in/rec.vcd: is no folder; --apply FILE repairs one recording"),
                            ([*TO, "none"], "none: No such file or directory"), ([*TO, "--jobs", "0", "in"], "--jobs needs a whole"),
                            ([*TO, "--out", "x", "in"], "--apply-to and --out exclude each other"),
                            (["--report", "x", "in/rec.vcd"], "--report is only for --apply-to")):
            status, printed, said = run("irig_mend", words)
            yield same(" ".join(words), (status, printed, text in said), (2, b"", True))

    return in_folder(lambda: list(holds()))


# Once there are `most` results it does nothing but say something until nobody reads it: so a recording is being looked at whenever the run
# is ended, on any machine.
HELD = """#!/bin/sh
if [ "$(ls mended | grep -c vcd)" = "$(cat most)" ]
then echo $PPID > new; mv new held; while echo held; do sleep 0.02; done
fi
exec '%s' "$@"
"""


def was_running(process):
    """Ends a process with this number; whether there was one."""
    try:
        os.kill(process, signal.SIGTERM)
    except ProcessLookupError:
        return False
    return True


def takes_interrupts():
    """A shell lets what it runs in the background ignore them."""
    signal.signal(signal.SIGINT, signal.SIG_DFL)


def held_programs():
    """Makes four recordings, programs that do not end once `most` results are there, and a folder for what is temporary; the variables to
    use them, and the command."""
    text = damages.dump(recorded(glitch), END)
    write_all({"in/%d.vcd" % number: text for number in range(4)})
    os.mkdir("tmp")
    for name in ("irig_ed", "irig_guard"):
        program = os.path.join(os.path.dirname(os.environ["IRIG_ED"]), "../../%s/out/%s" % (name, name))
        write_all({name: HELD % os.path.abspath(program)})
        os.chmod(name, 0o755)
    held = dict(os.environ, IRIG_ED=os.path.abspath("irig_ed"), TMPDIR=os.path.abspath("tmp"))
    return held, [sys.executable, "-S", os.path.join(TOP, "tools", "irig_mend"), *TO, "--jobs=1", "in"]


def ended_by(number, wanted, held, command):
    """A run that a signal ends while a recording is being looked at: its status, what is said, and what is left."""
    write_all({"most": str(len(whole()) + 1)})
    process = subprocess.Popen(command, env=held, stdout=subprocess.DEVNULL, stderr=subprocess.PIPE, text=True,
                               preexec_fn=takes_interrupts)
    while not os.path.exists("held") and process.poll() is None:
        time.sleep(0.05)
    process.send_signal(number)
    process.wait()  # not for those that hold its standard error
    left = os.listdir("tmp"), [name for name in os.listdir("mended") if name[0] == "."]
    said = process.communicate()[1]
    yield same("the status after signal %d" % number, process.returncode, wanted)
    yield same("whether a recording is still looked at", was_running(int(text_of("held"))), number == signal.SIGKILL)
    os.remove("held")
    if number != signal.SIGKILL:
        yield same("what is said", "of 4 recordings are done; the same command does the others" in said, True)
        yield same("what is left", left, ([], []))


def ended():
    """A run that is ended goes on where it was, and leaves nothing but results."""
    def holds():
        programs = held_programs()
        for number, wanted in ((signal.SIGTERM, 143), (signal.SIGINT, 130), (signal.SIGKILL, -9)):
            yield from ended_by(number, wanted, *programs)
        kept = when_written(whole()[:2])
        status, lines, _ = mended()
        yield same("the rest is done", (status, whole()), (0, ["%d.vcd" % number for number in range(4)]))
        yield same("and no more", when_written(kept), kept)
        yield same("what is said then", RUN_BEFORE in lines[-1], True)

    return in_folder(lambda: list(holds()))


BACKGROUND = '"$@" 2> said & echo $! > pid; wait $!; echo $? > status'


def in_background():
    """A shell that is no user's has a run in the background ignore interrupts; TERM ends it as Ctrl-C ends one in the foreground, and the
    same command continues it."""
    def holds():
        held, command = held_programs()
        write_all({"most": "2"})
        shell = subprocess.Popen(["sh", "-c", BACKGROUND, "sh", *command], env=held, stdout=subprocess.DEVNULL)
        while not whole() and shell.poll() is None:
            time.sleep(0.05)
        number = int(text_of("pid"))
        os.kill(number, signal.SIGINT)
        while not os.path.exists("held") and shell.poll() is None:
            time.sleep(0.05)
        yield same("an interrupt does not end it", (len(whole()), shell.poll()), (2, None))
        os.kill(number, signal.SIGTERM)
        shell.wait()
        yield same("the status after TERM", text_of("status"), "143\n")
        yield same("what is said", "of 4 recordings are done; the same command does the others" in text_of("said"), True)
        yield same("what is left", (os.listdir("tmp"), [name for name in os.listdir("mended") if name[0] == "."]), ([], []))
        status, lines, _ = mended()
        yield same("the rest is done", (status, len(whole()), RUN_BEFORE in lines[-1]), (0, 4, True))

    return in_folder(lambda: list(holds()))


def alone():
    """Two runs never work on one folder; what cannot be looked at is a row."""
    def holds():
        write_all(of_kinds())
        mended()
        with open("mended/irig_mend.done", "rb") as file:
            fcntl.flock(file, fcntl.LOCK_EX)
            yield same("another run", mended()[::2], (2, mended()[2]))
            yield same("what is said", "mended: another irig_mend works on this folder" in mended()[2], True)
        with mock.patch("os.scandir", side_effect=PermissionError(13, "Permission denied", "in")):
            status, lines, _ = mended()
            yield same("a folder that cannot be read", (status, ".: Permission denied" in lines), (1, True))

    return in_folder(lambda: list(holds()))


def several_expressions():
    """If recordings of one format are read with several expressions, a line says which few differ from most; else there is none."""
    def holds():
        with_year = damages.dump(tools.recording(8, expression=7), END)
        write_all({"in/%s.vcd" % name: damages.dump(tools.recording(8, expression=2), END) for name in "abc"})
        write_all({"in/d.vcd": with_year, "in/a2.vcd": with_year})
        status, _, said = run("irig_mend", ["--apply-to", "mended", "in"])
        yield same("of two", (status, said), (0, "irig_mend: format B: expression 2 in 3 recordings, expression 7 in 2 recordings; "
                                                 "if all are of one source, give --format B --expression 2 and look at: a2.vcd, d.vcd\n"))
        os.remove("in/c.vcd")
        said = run("irig_mend", ["--apply-to", "equal", "in"])[2]
        yield same("of two equally", said, "irig_mend: format B: expression 2 in 2 recordings, expression 7 in 2 recordings; if all are of "
                                           "one source, look at their years and control functions, and give --format B --expression N\n")
        yield same("of one", run("irig_mend", ["--apply-to", "one", "--format", "B", "--expression", "2", "in"])[2], "")

    return in_folder(lambda: list(holds()))


def looked_into():
    """Neither hidden files and folders are looked at, nor what a link to a folder leads to; the link is named."""
    def holds():
        write_all({"in/rec.vcd": "$", "in/deep/rec.vcd": "$", "in/.hidden.vcd": "$", "in/.git/rec.vcd": "$", "in/deep/.git/rec.vcd": "$",
                   "elsewhere/rec.vcd": "$"})
        os.symlink("../elsewhere", "in/link")
        found = recordings.look_into("in", "mended")
        yield same("what is looked at", ([each.name for each in found.recordings], found.others, found.problems),
                   (["rec.vcd", "deep/rec.vcd"], ["link"], []))

    return in_folder(lambda: list(holds()))


def one_line_each():
    """A name or a reason with a newline stays a line of the table, and no cell of the report is a formula."""
    result = results.Result("=1\n2.vcd", "=1\n2.vcd", 1, ["+a\nb", "-c\nd"], "@code", "B", -4, {name: -1 for name in results.COUNTS})
    yield same("the reason", results.reason_of(result), r"=1\n2.vcd: -c\nd (and 1 more)")
    yield same("the table", len(results.table_of_all([result]).splitlines()), 4)
    cells = list(csv.reader(io.StringIO(results.report_of([result]).decode())))[1]
    yield same("the report", [cell for cell in cells if not cell.isdigit()],
               [r"'=1\n2.vcd", r"'=1\n2.vcd", "'@code", "B", "-4", *["-1"] * len(results.COUNTS), r"'+a\nb; -c\nd"])


def record_of_its_own():
    """The record is not written through a link, and is no pipe: another user of the folder could have made that."""
    for made, text in ((lambda path: os.symlink("../precious", path), "is a link"), (os.mkfifo, "is no file")):
        def holds():
            write_all({"in/rec.vcd": damages.dump(recorded(), END), "mended/sub/note": "", "precious": "kept\n"})
            made("mended/irig_mend.done")
            status, _, said = mended()
            yield same(text, (status, "mended/irig_mend.done: %s" % text in said, text_of("precious"), outputs()),
                       (2, True, "kept\n", ["sub/note"]))

        yield from in_folder(lambda: list(holds()))


def timed():
    """The lines of the how-to give each file of samples its times, also that of a packed recording."""
    def holds():
        blocks = re.findall(r"^```sh\n(.*?)^```", text_of(os.path.join(TOP, "docs", "HOWTO.md")), re.M | re.S)
        lines = next(block for block in blocks if "table.csv" in block)
        sound, names = damages.dump(recorded(), END), ("deep/a, b", "packed")
        write_all({"recordings/deep/a, b.vcd": sound, "recordings/packed.vcd.gz": gzip.compress(sound.encode()), "recordings/junk.vcd": ""})
        write_all({"samples/%s.txt" % name: "2500000 of %s\n" % name for name in names})
        run("irig_mend", ["--apply-to", "repaired", "--report", "table.csv", "recordings"])
        path = os.path.dirname(TIME) + os.pathsep + os.environ["PATH"]
        ran = subprocess.run(["bash", "-c", lines], env={**os.environ, "PATH": path}, stderr=subprocess.PIPE, check=False)
        yield same("what is said", ran.stderr.count(b"irig_time: 1 line, 1 with a time, 0 without"), len(names))
        made = ["timed/%s.txt" % name for name in names]
        yield same("the lines", [os.path.exists(path) and text_of(path).partition("\t")[2] for path in made],
                   ["2500000 of %s\n" % name for name in names])

    return in_folder(lambda: list(holds()))


def cases(top):
    """Each part by its name."""
    parts = (ended, in_background, table, not_all_read, goes_on, packed, never_over, alone, several_expressions, looked_into,
             one_line_each, record_of_its_own, timed)
    return [case("folder: " + part.__name__, part) for part in parts]
