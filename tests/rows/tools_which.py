"""Rows for the column of a table, or the channel of a sound file, that has time code: irig_what says which, and the commands that it
prints make a track of it."""
import os
import random
import shlex
import subprocess
import zipfile
from array import array
from unittest import mock

from built import TIME, TOP
from cases import case
from irig_tools import every_column, sigrok, table
from rows.in_process import run
from rows.tools_apply import in_folder, same, text_of
from rows.tools_carrier import fine, signal, wav
from rows.tools_tables import LENGTH, RATE, TABLES, changes, levels, packed
from rows.tools_what import track

OWN = ("--column", "--level", "--swap")  # what is found
OF_TWO = ("commas in quotes",)  # the other column has the code upside down
CODE = "track.vcd"
SOUNDS = (("B", 8000, 1000, 8, []), ("A", 48000, 10000, 20, ["--format", "A"]), ("E", 8000, 100, 4, ["--format", "E"]),
          ("E", 8000, 1000, 4, ["--format", "E", "--carrier", "1000"]))


def given(words):
    """The options of a row without those that are found."""
    left, skip = [], False
    for word in words:
        is_own = word.startswith(OWN)
        if not skip and not is_own:
            left.append(word)
        skip = word == "--column"
    return left


def of_tables():
    """Each table of an oscilloscope and of a logic analyser: the column that is found gives the same dump as the one that is named, and
    irig_what has the command that makes it."""
    for name, words, make in (row for row in TABLES if row[0] not in OF_TWO):
        text = make()
        text = text.encode() if isinstance(text, bytes) is False else text
        wanted = run("irig_demodulate", ["--table", *words, "-"], text)[1]
        found = run("irig_demodulate", ["--table", "--column=auto", *given(words), "-"], text)
        yield same(name, (found[0], found[1] == wanted), (0, True))
        if not given(words):
            yield same(name + ", irig_what", of_what(text), (0, wanted))


def of_what(text):
    """The status of irig_what, and the dump that its command makes."""
    def holds():
        with open("rec.csv", "wb") as file:
            file.write(text)
        status, printed, _ = run("irig_what", ["rec.csv"])
        words = shlex.split(printed.decode().splitlines()[-1].partition(" && ")[0])
        run(words[0], words[1:])
        return status, text_of(CODE).encode() if os.path.exists(CODE) else b""

    return in_folder(holds)


def of_sounds():
    """A sound file with noise in its first channel and code on a carrier in the second one."""
    rng = random.Random("which channel")
    for kind, rate, hertz, frames, words in SOUNDS:
        values, _ = signal(kind, rng, rate, hertz, 3.3, 0.02, 0.001, 0, frames)
        both = array("h", [each for value in values for each in (rng.randrange(-3000, 3000), value)])

        def holds():
            with open("rec.wav", "wb") as file:
                file.write(wav(both, rate, channels=2))
            status, printed, _ = run("irig_what", ["rec.wav"])
            lines = printed.decode().splitlines()
            chain = [shlex.split(part) for part in lines[-1].split(" && ")]
            yield same("what is said", (status, lines[0]), (0, "channel 2, on a carrier, format " + kind))
            yield same("the options", chain[0][:-5], ["irig_demodulate", "--channel", "2", *words])
            run(chain[0][0], chain[0][1:])
            yield same("the frames", fine(text_of(CODE).encode(), kind), frames)

        yield from in_folder(lambda: list(holds()))


def of_a_long_sound():
    """Of a channel on a carrier the first 2^18 samples are looked at; its seconds are those."""
    values, _ = signal("B", random.Random("long sound"), 8000, 1000, 3.3, 0.02, 0.001, 0, 36)

    def holds():
        with open("rec.wav", "wb") as file:
            file.write(wav(values, 8000))
        _, printed, _ = run("irig_what", ["rec.wav"])
        yield same("how long it was looked at", printed.decode().splitlines()[1].split(" in ")[1], "32.768000 seconds")

    return in_folder(lambda: list(holds()))


def in_a_shell(command):
    """The status of a command line with the tools and irig_time."""
    path = os.pathsep.join([os.path.join(TOP, "tools"), os.path.dirname(TIME), os.environ["PATH"]])
    return subprocess.run(command, shell=True, env={**os.environ, "PATH": path}, capture_output=True, text=True, check=False).returncode


def chain_of_commands():
    """All commands that are printed, in a shell: the other column has its time of day. No file is written over."""
    def holds():
        text = "Time [s],State,Channel 1\n" + changes("%.9f,7,%d\n")
        with open("rec.csv", "w", encoding="ascii") as file:
            file.write(text)
        with open("new.vcd", "w", encoding="ascii") as file:
            file.write("kept")
        command = run("irig_what", ["rec.csv"])[1].decode().splitlines()[-1]
        yield same("the status", (in_a_shell(command), text_of("new.vcd")), (0, "kept"))
        lines = text_of("timed.txt").splitlines()
        edges, _ = track("B", 2, 30000)
        # a position identifier before the first frame has its time, too
        wanted = ["061T12:34:%09.6f" % (20 + (time - 40000) / 1e6) for time, _ in edges if 30000 <= time < 2000000]
        found = [line.split("\t")[0] for line in lines if line[0] != "-"][:len(wanted)]
        yield same("the times of day", [pair for pair in zip(found, wanted) if pair[0] != pair[1]], [])

    return in_folder(lambda: list(holds()))


def chain_of_sigrok():
    """All commands for a file of sigrok: each change of the other channel, a clock that changes with each sample, has its time of day. The
    file is read once."""
    def holds():
        with open("rec.sr", "wb") as file:
            file.write(packed())
        with mock.patch.object(sigrok, "_samples", side_effect=sigrok._samples) as read:
            status, printed, _ = run("irig_what", ["rec.sr"])
        yield same("the channel", (status, printed.decode().partition("\n")[0], read.call_count),
                   (0, 'wire code (code ", path sigrok.code), upright, format B', 1))
        yield same("its status", in_a_shell(printed.decode().splitlines()[-1]), 0)
        apart = 1000000 // RATE
        # a position identifier is before the first frame
        wanted = ["061T12:34:%09.6f\t%d\tD0\t%d" % (20 + (time - 40000) / 1e6, time, time // apart % 2)
                  for time in range(40000, 2000000, apart)]
        lines = text_of("timed.txt").splitlines()
        found = lines[next(at for at, line in enumerate(lines) if "\t40000\t" in line):][:len(wanted)]
        yield same("the times of day", [pair for pair in zip(found, wanted) if pair[0] != pair[1]], [])

    return in_folder(lambda: list(holds()))


def channel_alone():
    """A file of sigrok with no other channel is mended as any dump."""
    def holds():
        with zipfile.ZipFile("rec.sr", "w") as folder:
            folder.writestr("metadata", "[device 1]\ncapturefile=logic-1\nsamplerate=20 kHz\nprobe1=code\nunitsize=1\n")
            folder.writestr("logic-1", bytes(levels()))
        last = run("irig_what", ["rec.sr"])[1].decode().splitlines()[-1]
        return same("the command", last.startswith("irig_wire rec.sr > one.vcd && irig_ed "), True)

    return in_folder(holds)


def of_other_files():
    """Code that begins late, no code, code in two columns, a column that is called auto, and no table."""
    quiet = "Time [s],A,B\n" + "".join("%.4f,0,%d\n" % (number / 1000, number % 2) for number in range(9000))
    late = quiet + "".join("%.6f,%d,0\n" % (10 + time / 1e6, level) for time, level in track("B", 2, 30000)[0])
    with mock.patch.object(every_column, "ROWS_OF_PART", 3000):
        status, printed, _ = run("irig_what", ["-"], late.encode())
    yield same("code that begins late", (status, printed.decode().partition("\n")[0]), (0, "column A, upright, format B"))
    status, printed, said = run("irig_what", ["-"], quiet.encode())
    yield same("no code", (status, printed, said), (1, b"no column or channel of 2 carries time code of format A, B, E or G\n", ""))
    status, _, said = run("irig_demodulate", ["--table", "--column=auto", "-"], quiet.encode())
    yield same("no code, auto", (status, "no column of 2 has time code" in said), (2, True))
    two = "Time [s],A,B\n" + "".join("%.6f,%d,%d\n" % (time / 1e6, level, level) for time, level in [(0, 0), *track("B", 2, 30000)[0]])
    status, printed, _ = run("irig_what", ["-"], two.encode())
    yield same("two columns", (status, printed.count(b"upright, format B\n")), (1, 2))
    status, _, said = run("irig_demodulate", ["--table", "--column=auto", "-"], two.encode())
    yield same("two columns, auto", (status, "--column names one: column A, column B" in said), (2, True))
    named = "Time [s],auto,B\n" + two.partition("\n")[2]
    yield same("a column of this name", run("irig_demodulate", ["--table", "--column=auto", "-"], named.encode())[0], 0)
    status, _, said = run("irig_what", ["-"], b"hello\n")
    yield same("no table", (status, "is no dump" in said), (2, True))


def read_once():
    """However many columns there are, each row is taken apart once."""
    many, seen = len(levels()), []

    def counted(line, parted):
        seen.append(line)
        return fields_of(line, parted)

    fields_of = table.fields_of
    rows = "".join("%.5f,%d,%d,%d,%d\n" % (number / 20000, number % 2, number % 3 == 0, level, 1) for number, level in enumerate(levels()))
    with mock.patch.object(table, "fields_of", counted):
        status, printed, _ = run("irig_what", ["-"], b"t,A,B,C,D\n" + rows.encode())
    yield same("the column", (status, printed.decode().partition("\n")[0]), (0, "column C, upright, format B"))
    yield same("rows that are read", (many, len(seen) <= many + 2), (LENGTH * 20000 // 1000000, True))


def cases(top):
    """Each kind by its name."""
    return [case("which: " + name, holds) for name, holds in (
        ("tables", of_tables), ("sound files", of_sounds), ("a long sound file", of_a_long_sound),
        ("the chain of commands", chain_of_commands),
        ("the chain of a file of sigrok", chain_of_sigrok), ("a channel alone", channel_alone), ("other files", of_other_files),
        ("each row once", read_once))]
