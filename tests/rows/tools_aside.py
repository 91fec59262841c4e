"""Rows for `irig_demodulate --samples`: other channels and other columns as lines, with the times of the dump. Then sound files of
several wave forms from tapes with wow and flutter: `irig_time` gives each of their samples its time of day, without a script."""
import math
import os
import random
import struct
import subprocess
from array import array
from bisect import bisect_right

from built import TIME
from cases import case
from rows.in_process import run
from rows.tools_apply import in_folder, same, text_of
from rows.tools_carrier import wav
from rows.tools_what import track

LEFT, RIGHT, BACK = (10, 20, 30, 40), (1, -2, 3, -4), (7, 8, 9, -32768)


def together(*channels):
    return [value for row in zip(*channels) for value in row]


def shorts(*channels):
    return struct.pack("<%dh" % (len(channels) * len(channels[0])), *together(*channels))


def floats(*channels):
    """A WAV file of 32-bit floats."""
    data = struct.pack("<%df" % (len(channels) * len(channels[0])), *together(*channels))
    form = struct.pack("<HHIIHH", 3, len(channels), 8000, 8000 * 4 * len(channels), 4 * len(channels), 32)
    chunks = b"WAVEfmt " + struct.pack("<I", len(form)) + form + b"data" + struct.pack("<I", len(data)) + data
    return b"RIFF" + struct.pack("<I", len(chunks)) + chunks


# name, options, the file, and the lines
WORKED = (
    ("the second channel", "--level", wav(shorts(LEFT, RIGHT), 8000, channels=2), "0\t1\n125\t-2\n250\t3\n375\t-4\n"),
    ("the first one", "--level --channel 2", wav(shorts(LEFT, RIGHT), 8000, channels=2), "0\t10\n125\t20\n250\t30\n375\t40\n"),
    ("two others", "--level --channel 2", wav(shorts(LEFT, RIGHT, BACK), 8000, channels=3),
     "0\t10\t7\n125\t20\t8\n250\t30\t9\n375\t40\t-32768\n"),
    ("44,100 in a second", "--level", wav(shorts(LEFT, RIGHT), 44100, channels=2), "0\t1\n22.676\t-2\n45.351\t3\n68.027\t-4\n"),
    ("of 8 bits", "--level", wav(bytes(together((128, 128), (0, 255))), 8000, 1, 2), "0\t0\n125\t255\n"),
    ("floats", "--level", floats((0.0, 1.0), (0.5, -0.25)), "0\t0.5\n125\t-0.25\n"),
    ("plus and minus of the code are swapped", "--level --swap", wav(shorts(LEFT, RIGHT), 8000, channels=2),
     "0\t1\n125\t-2\n250\t3\n375\t-4\n"),
    ("a table", "--table --column V", b"t,V,I\n0,1,0.5\n0.001,0,0.25\n0.002,1,\n", "0\t0.5\n1000\t0.25\n2000\t\n"),
    ("its times begin before 0", "--table --column V", b"t,V,I\n-0.5,1,5\n-0.4999999,0,6\n-0.25,1,7\n", "0\t5\n0.1\t6\n250000\t7\n"),
    ("its times begin later", "--table --column V", b"t,V,I\n7.25,1,5\n7.5,0,6\n", "7250000\t5\n7500000\t6\n"),
    ("in milliseconds, with decimal commas", "--table --column V", b"Zeit (ms);V;I;J\n0;1;0,5;3\n1,5;0;0,25;4\n",
     "0\t0.5\t3\n1500\t0.25\t4\n"),
    ("rows at a rate", "--table --rate 1000 --column 2", b"5,1\n6,0\n7,1\n", "0\t5\n1000\t6\n2000\t7\n"),
    ("an old scope, which has heads next to its first rows", "--table --time-column 4 --column 5",
     b"Record Length,4.000000e+00,Points,-0.000400,0,5.5,\nSample Interval,4e-04,s,0.000000,1,5.6,\n,,,0.000400,0,5.7,\n,,,0.000800,0,,\n",
     "0\t5.5\n400\t5.6\n800\t5.7\n1200\t\n"),
    ("words next to all rows", "--table --time-column 2 --column 3", b"1 May,0,1,on\n1 May,0.5,0,\n2 May,1,0,\n",
     "0\t1 May\ton\n500000\t1 May\t\n1000000\t2 May\t\n"),
    ("a column of words", "--table --time-column 1 --column 2", b"0,1,on\n0.5,0,off\n", "0\ton\n500000\toff\n"),
)


def worked(name, words, data, wanted):
    """The lines, and the same dump as without the option."""
    def holds():
        status, dump, said = run("irig_demodulate", [*words.split(), "--samples", "data.txt", "-"], data)
        yield same(name, text_of("data.txt"), wanted)
        yield same(name + ", the dump", (status, dump), run("irig_demodulate", [*words.split(), "-"], data)[:2])
        yield same(name + ", the lines are counted", "data.txt has %d lines: microseconds, then " % wanted.count("\n") in said, True)

    return in_folder(lambda: list(holds()))


# options, the file, what is said
REFUSED = (
    ("--level --samples x -", wav(shorts(LEFT), 8000), "has nothing next to the code; --samples writes other channels or columns"),
    ("--table --samples x -", b"t,V\n0,1\n1,0\n", "has nothing next to the code"),
    ("--table --time-column 4 --column 5 --samples x -", b"Sample Interval,4e-04,s,0,0,\n,,,0.0004,1,\n", "has nothing next to the code"),
    ("--raw s16 --rate 8000 --samples x -", b"\0\0", "--samples is for sound files and tables; --raw has one channel"),
    ("--table --samples x --out ./x -", b"t,V,I\n0,1,2\n1,0,2\n", "are one file"),
    ("--table --column V --samples - -", b"t,V,I\n0,1,2\n1,0,2\n", "are one file"),
    ("--table --column V --samples x -", b"t,V,I\n1,1,2\n0,0,2\n", "has a time before that of the last row"),
)


def refused():
    """Nothing is written."""
    def holds():
        for words, data, text in REFUSED:
            status, _, said = run("irig_demodulate", words.split(), data)
            yield same(words, (status, text in said), (2, True))
            yield same(words + ", no file", os.listdir("."), [])

    return in_folder(lambda: list(holds()))


# a wow and two flutters: the depth, and how many in a second
SPEEDS = ((0.01, 0.55), (0.0015, 2.3), (0.0006, 9.7))
FRAMES, HZ = 8, 8000


def code_times(rng, count):
    """The time of the code at each sample of the tape, in seconds: the speed is 1 and these sines."""
    phases = [rng.uniform(0, 2 * math.pi) for _ in SPEEDS]
    turns = [(depth / (2 * math.pi * hertz), 2 * math.pi * hertz / HZ, phase) for (depth, hertz), phase in zip(SPEEDS, phases)]
    return [number / HZ + sum(size * (math.cos(phase) - math.cos(turn * number + phase)) for size, turn, phase in turns)
            for number in range(count)]


def triangle(turn):
    return 2 / math.pi * math.asin(math.sin(turn))


def clipped(turn):
    return max(-0.6, min(0.6, math.sin(turn)))


def rounded(values):
    """What a filter makes of a level: it nears each value by a third at each sample."""
    last, found = values[0], []
    for value in values:
        last += (value - last) / 1.5
        found.append(last)
    return found


FORMS = (("a sine", math.sin), ("a sine that is clipped", clipped), ("a triangle", triangle), ("a level", None))


def recorded_by(form, rng):
    """Samples of 32 bits of the code, and next to each the microseconds of the code."""
    edges, length = track("B", FRAMES)
    times, places = code_times(rng, length * HZ // 1000000), [time for time, _ in edges]
    levels = [bisect_right(places, 1e6 * time) % 2 for time in times]
    heard = rounded(levels) if form is None else [(1 if level else 0.3) * form(2000 * math.pi * time)
                                                  for level, time in zip(levels, times)]
    code = [round(1e9 * (value + rng.gauss(0, 0.02)) / 2) for value in heard]
    return wav(array("i", together(code, [round(1e6 * time) for time in times])), HZ, 4, 2)


def timed(name, form):
    """Each sample within the frames gets the time of the code at it, to 0.1 ms; a sample without a time is at an end."""
    def holds():
        words = ["--level"] if form is None else ["--no-swap"]
        status, dump, said = run("irig_demodulate", [*words, "--samples", "data.txt", "-"],
                                 recorded_by(form, random.Random("aside " + name)))
        with open("track.vcd", "wb") as file:
            file.write(dump)
        yield same(name + ", status", (status, "no carrier" in said or "missing" in said), (0, False))
        with open("data.txt", "rb") as lines:
            done = subprocess.run([TIME, "--format=B", "--expression=2", "--form=seconds", "track.vcd"], stdin=lines,
                                  stdout=subprocess.PIPE, check=False)
        rows = [line.split("\t") for line in done.stdout.decode().splitlines()]
        begun = 45260 - 0.01  # 12:34:20 is the second frame marker, after a position identifier
        inside = [(row[0], int(row[2]) / 1e6) for row in rows if 0.02 < int(row[2]) / 1e6 < FRAMES - 0.1]
        far = [(time, true) for time, true in inside if time == "-" or abs(float(time) - begun - true) > 1e-4]
        yield same(name + ", samples", len(inside) > 0.9 * FRAMES * HZ, True)
        yield same(name + ", samples with another time", far[:3], [])

    return in_folder(lambda: list(holds()))


def cases(_):
    return [*(case("samples, tape: " + name, timed, name, form) for name, form in FORMS),
            *(case("samples: " + row[0], worked, *row) for row in WORKED), case("samples: refused", refused)]
