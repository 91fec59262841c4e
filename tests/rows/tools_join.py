"""Rows for irig_join: files of samples with their times, in one table in the order of time."""
import random
import subprocess

from built import TIME
from cases import case
from irig_tools import join_program
from random_input import damages
from rows import in_process, tools
from rows.in_process import run
from rows.tools_apply import END, in_folder, same, text_of

in_process.MAINS["irig_join"] = join_program.main
CSV = ["--quiet", "--comma", ",", "--header", "1"]
TWO = ("time,t,volts\n061T12:34:55.250000,1,0.31\n061T12:34:56.000000,2,0.33\n-,3,0.37\n",
       "when,temp,t\r\n061T12:34:55.500000,20,7\r\n061T12:34:56.000000,21,8\r\n")
# options, the files, the status, and what is printed
JOINED = (
    ("columns of two files", CSV, TWO, 0,
     "time,t_1,volts,temp,t_2\n061T12:34:55.250000,1,0.31,,\n061T12:34:55.500000,,,20,7\n061T12:34:56.000000,2,0.33,,\n"
     "061T12:34:56.000000,,,21,8\n-,3,0.37,,\n"),
    ("the other one first", CSV, TWO[::-1], 0,
     "when,temp,t_1,t_2,volts\n061T12:34:55.250000,,,1,0.31\n061T12:34:55.500000,20,7,,\n061T12:34:56.000000,21,8,,\n"
     "061T12:34:56.000000,,,2,0.33\n-,,,3,0.37\n"),
    ("three files, one of which has no lines", CSV,
     ("time,a\n2024-061T00:00:01.000000,1\n", "time,b\n", "time,c\nhole,2\n2024-060T23:59:59.999999,3"), 0,
     "time,a,b,c\n2024-060T23:59:59.999999,,,3\n2024-061T00:00:01.000000,1,,\nhole,,,2\n"),
    ("no head: lines as they are", ["--quiet"], ("061T12:34:56.000000\t5 a\n", "061T12:34:55.000000\t 7  b c\n061T12:34:56.000000\t8"), 0,
     "061T12:34:55.000000\t 7  b c\n061T12:34:56.000000\t5 a\n061T12:34:56.000000\t8\n"),
    ("white space and a head of two lines", ["--quiet", "--header", "2"],
     ("-\tmade today\ntime\tt  v\n2024-03-01T00:00:00.000000\t1  2\n", "-\t\ntime\tw\n2024-02-29T00:00:00.000000\t3\n"), 0,
     "time\tt\tv\tw\n2024-02-29T00:00:00.000000\t\t\t3\n2024-03-01T00:00:00.000000\t1\t2\t\n"),
    ("a leap second", ["--quiet"], ("2016-366T23:59:59.500000\ta\n2017-001T00:00:00.000000\tb\n", "2016-366T23:59:60.500000\tc\n"), 0,
     "2016-366T23:59:59.500000\ta\n2016-366T23:59:60.500000\tc\n2017-001T00:00:00.000000\tb\n"),
    ("times that go back in a file", ["--quiet"], ("061T12:00:09.000000\ta\n061T12:00:05.000000\tb\n", "061T12:00:07.000000\tc\n"), 1,
     "061T12:00:05.000000\tb\n061T12:00:07.000000\tc\n061T12:00:09.000000\ta\n"),
)
# options, the files, and what is said
REFUSED = (
    ("a decimal comma", CSV, (TWO[0], "time,t,v\n061T12:00:00.000000,0,05,1\n"), "b.csv: line 2 has 4 columns, and the head has 3"),
    ("a column is missing", CSV, ("time,t,v\n-,1\n", TWO[0]), "a.csv: line 2 has 2 columns, and the head has 3"),
    ("a head that is no header", ["--comma", ","], TWO, "a.csv: line 1 begins with no time as irig_time prints it; --header N leaves out"),
    ("a file without its head", CSV, (TWO[0], ""), "b.csv: ends before its header does, after 0 lines"),
    ("a file that ends within its head", ["--header", "2"], ("-\tx\n", "-\tx\ntime\ty\n"),
     "a.csv: ends before its header does, after 1 line"),
    ("no times", CSV, ("t,v\n5,6\n", TWO[1]), "a.csv: line 2 begins with no time as irig_time prints it"),
    ("seconds of a day", [], ("45296.250000\t1\n", "45296.350000\t2\n"), "a.csv: line 1: a time in seconds says no day; irig_time --form"),
    ("years in one file", [], ("061T12:00:00.000000\t1\n", "2024-061T12:00:00.000000\t2\n"),
     "b.csv: its times have a year and its day, and those of a.csv have a day of the year without a year; give irig_time the same"),
    ("two forms in a file", [], ("2024-061T12:00:00.000000\t1\n2024-03-01T12:00:01.000000\t1\n", "2024-061T12:00:00.000000\t2\n"),
     "a.csv: line 2: its time has a year, a month and a day, and those before it have a year and its day"),
    ("the end of a year without a year", [], ("365T23:59:59.000000\t1\n", "001T00:00:00.000000\t2\n"),
     "the times have no year, and go from day 1 to day 365: over the end of a year give irig_time --year"),
    ("the end of a year in one file", [], ("365T23:59:59.000000\t1\n001T00:00:00.000000\t2\n", "365T00:00:00.000000\t2\n"),
     "give irig_time --year"),
    ("a comma of two characters", ["--comma", ";;"], TWO, "--comma is one character"),
)


def files(texts):
    """These files, as a.csv, b.csv and so on, and what they are called."""
    names = ["%s.csv" % "abcdef"[number] for number in range(len(texts))]
    for name, text in zip(names, texts):
        with open(name, "w", encoding="ascii", newline="") as file:
            file.write(text)
    return names


def worked():
    def holds():
        for name, words, texts, status, wanted in JOINED:
            got = run("irig_join", [*words, *files(texts)])
            yield same(name, (got[0], got[1].decode()), (status, wanted))
            yield same(name + ", what is said", got[2].count("the times go back"), status)
        for words, text in ((CSV[1:], "irig_join: 5 lines of 2 files, 1 without a time, at the end\n"), (CSV, "")):
            yield same("at the end", run("irig_join", [*words, *files(TWO)])[2], text)
        status, printed, _ = run("irig_join", [*CSV, "--out", "all.csv", "a.csv", "-"], TWO[1].encode())
        yield same("through a pipe, into a file", (status, printed, text_of("all.csv")), (0, b"", JOINED[0][4]))

    return in_folder(lambda: list(holds()))


def refused():
    """Nothing is printed."""
    def holds():
        for name, words, texts, text in REFUSED:
            status, printed, said = run("irig_join", [*words, *files(texts)])
            yield same(name, (status, printed, text in said), (2, b"", True))
        for words, text in ((["a.csv"], "no second FILE is given"), (["-", "-"], "- is given twice"),
                            (["a.csv", "none"], "none: No such file"),
                            (["--out", "a.csv", "b.csv", "a.csv"], "--out a.csv would write over the file that is read")):
            status, printed, said = run("irig_join", words)
            yield same(" ".join(words), (status, printed, text in said), (2, b"", True))
        yield same("what is read stays", text_of("a.csv"), REFUSED[-1][2][0])

    return in_folder(lambda: list(holds()))


def at_random():
    """Each line of each file once, in the order of time, below the names of its file; those of one time in the order of the files."""
    def holds(rng):
        tables = [sorted(rng.choice((0, rng.randrange(10 ** 6))) for _ in range(rng.randrange(1, 40))) for _ in range(rng.choice((2, 3)))]
        rows = [["061T12:00:00.%06d,%d%d" % (time, number, place) for place, time in enumerate(times)]
                for number, times in enumerate(tables)]
        names = files(["time,v%d\n" % number + "".join(row + "\n" for row in own) for number, own in enumerate(rows)])
        lines = run("irig_join", [*CSV, *names])[1].decode().splitlines()
        yield same("the head", lines[0], ",".join(["time", *("v%d" % number for number in range(len(tables)))]))
        wanted = sorted(((row.split(",")[0], number, row.split(",")[1]) for number, own in enumerate(rows) for row in own),
                        key=lambda row: row[:2])
        cells = [line.split(",") for line in lines[1:]]
        found = [(time, number, value) for time, *values in cells for number, value in enumerate(values) if value]
        yield same("the lines", found, wanted)

    return in_folder(lambda: [each for seed in range(30) for each in holds(random.Random("joined %d" % seed))])


def of_recorders():
    """Three recorders of one code, each with its own clock and its own head: what irig_time prints, joined, has the samples in the order of
    the code."""
    def holds():
        sampled = [range(1000000 + number, 7000000, 70000 + 3 * number) for number in range(3)]
        for number, begin in enumerate((0, 370000, 1400000)):
            pulses = [[rise + begin, fall + begin] for rise, fall in tools.recording()]
            with open("track.vcd", "w", encoding="ascii") as file:
                file.write(damages.dump(pulses, END + begin))
            samples = "t,%s\n" % "abc"[number] + "".join("%d,%d\n" % (at + begin, at) for at in sampled[number])
            with open("%d.csv" % number, "wb") as file:
                subprocess.run([TIME, *CSV, "--expression=4", "track.vcd"], input=samples.encode(), stdout=file, check=False)
        lines = run("irig_join", [*CSV, "0.csv", "1.csv", "2.csv"])[1].decode().splitlines()
        yield same("the head", lines[0], "time,t_1,a,t_2,b,t_3,c")
        found = [int(next(filter(None, line.split(",")[2::2]))) for line in lines[1:]]
        yield same("the order of the code", found, sorted(at for own in sampled for at in own))

    return in_folder(lambda: list(holds()))


def cases(_top):
    """Each kind by its name."""
    return [case("join: " + name, holds) for name, holds in (
        ("worked", worked), ("refused", refused), ("at random", at_random), ("three recorders", of_recorders))]
