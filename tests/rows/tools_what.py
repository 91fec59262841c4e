"""Worked rows for irig_what: dumps with time code, made by the reference encoder, and what is found in them."""
import json
import os
import random
import re
import shlex
import subprocess
import sys
import tempfile
from unittest import mock

from built import TOP
from cases import case
from irig_tools import search
from reference import timecode
from rows import tools_sent
from rows.in_process import run

sys.path.insert(0, os.path.join(TOP, "bench", "shares"))

import damage  # noqa: E402
import recordings  # noqa: E402
from sent import DAY, HOUR, year_length  # noqa: E402
from tape import dump as dump_of  # noqa: E402


def frame(kind, expression, second, hundredths):
    """The widths of a frame of day 61 of year 24, 12:34 and a second, in tenths of an interval."""
    values = {"year": 24, "days": 61, "hours": 12, "minutes": 34, "seconds": second, "hundredths": hundredths,
              "sbs": 45240 + second}
    return [timecode.nominal(10, name) for name in timecode.encode(kind, expression, values)]


def track(kind, frames, start=0, jitter=None, expression=2):
    """The edges of a position identifier and some frames, in microseconds, and their length."""
    step, edges = timecode.INTERVAL[kind], []
    widths = [8]
    for number in range(frames):
        hundredths = number * (10 if kind == "A" else 1) if kind in "AG" else 0
        second = {"A": 20, "G": 20, "B": 20 + number, "E": 10 * (number % 6)}[kind]
        widths += frame(kind, expression, second, hundredths)
    for place, width in enumerate(widths):
        rise = start + place * step + (jitter.randrange(-step // 50, step // 50) if jitter else 0)
        edges += [(rise, 1), (rise + width * step // 10, 0)]
    return edges, start + (len(widths) + 2) * step


def with_event():
    """Expression 4 or 7, and in the second frame a control function, so it is 4, and a glitch."""
    edges, length = track("B", 4, 30000, expression=7)
    event = edges.index((1680000 + 2000, 0))  # element 64
    edges[event] = (1680000 + 5000, 0)
    rise = edges[event + 5][0]  # of element 67
    edges[event + 6:event + 6] = [(rise + 700, 0), (rise + 740, 1)]
    return edges, length


def dump(edges, length, unit="1 us", scale=1, upside=False, declared="$var wire 1 ! irig $end", ends=""):
    lines = ["$timescale %s $end" % unit if unit else "", declared, "$enddefinitions $end", "#0 %d!" % upside]
    lines += ["#%d %d!" % (time * scale, level ^ upside) for time, level in edges]
    return "\n".join([*lines, "#%d" % (length * scale), ends]) + "\n"


B = track("B", 4, 30000)
OPEN = [(10 * i, i % 2) for i in range(20000)], 200000  # an input that nothing was connected to
YEAR = track("B", 4, 30000, expression=7)
SCOPES = "$scope module tb $end $var wire 1 c clock $end $var wire 1 ! irig $end $upscope $end"
BUS = "$scope module tb $end $var wire 1 c clock $end $var reg 4 ! bus [3:0] $end $upscope $end"
CLOCK = "".join("#%d %dc " % (i, i % 2) for i in range(3000))


def bus(edges):
    return "\n".join(["$timescale 1 us $end", BUS, "$enddefinitions $end #0 b0 !"]
                     + ["#%d b%d00 ! 1c" % (time, level) for time, level in edges])


def in_bursts():
    """Code, and a clock next to it that is as fast as format A, sixteen pulses at a time: no frame of it is fine."""
    ticks = [burst + 1000 * tick for burst in range(35000, B[1] - 20000, 100000) for tick in range(16)]
    changes = [(time + shift, word) for time in ticks for shift, word in ((0, "1c"), (500, "0c"))]
    changes += [(time, "%d!" % level) for time, level in B[0]]
    lines = ["$timescale 1 us $end", SCOPES, "$enddefinitions $end", "#0 0! 0c", *("#%d %s" % each for each in sorted(changes))]
    return "\n".join([*lines, "#%d" % B[1]]) + "\n"


def noisy():
    """In frame 2 elements 45 to 74 are noise: pulses as wide as ones, 13 ms apart, so some are near control elements."""
    edges, length = track("B", 6, 30000)
    begin, end = 2040000 + 450000, 2040000 + 750000
    noise = [(time + shift, level) for time in range(begin + 4000, end - 13000, 13000) for shift, level in ((0, 1), (5000, 0))]
    return sorted([each for each in edges if not begin <= each[0] < end] + noise), length


def partly_turned():
    """Frames 2 and 3 of six are upside down."""
    edges, length = track("B", 6)
    begin, end = 1049000, 3049000
    levels = sorted([(time, 1 - level) if begin <= time < end else (time, level) for time, level in edges])
    return sorted([*levels, (begin, 1), (end, 0)]), length


def slipped(first, beyond, by):
    """Six frames. Counted from the second one, the elements from one up to another are lost, and the rest comes later by some
    microseconds."""
    edges, length = track("B", 6, 30000)
    return [*edges[:2 * first + 202], *((time + by, level) for time, level in edges[2 * beyond + 202:])], length + by


LOST = B[0][:222] + B[0][642:], B[1]  # frame 1 but for its first ten elements, frame 2, and twenty elements of frame 3

# name, dump, arguments, status, parts of what is printed, the frames that the last line lists as fine
ROWS = [
    ("format B", dump(*B), [], 0, ["upright, format B", "expression 2: 4 of 4 frames fine, 061 12:34:20"], 4),
    ("with year and seconds", dump(*YEAR), [], 0, ["expression 7: 4 of 4 frames fine, 061 12:34:20 year 24 to"], 4),
    ("code after much else", dump([*OPEN[0], *((time + OPEN[1], level) for time, level in B[0])], OPEN[1] + B[1]), [], 1,
     ["no wire of 1 carries time code", "1 wire changed 16,384 times without time code, and what follows was not looked at; "
      "irig_wire --from TIME"], None),
    ("for how long it is sound", dump(*B), [], 0,
     ["in seconds: sound 4.010000, damaged 0.000000, lost 0.000000, without frames 0.050000"], 4),
    ("for how long it is lost", dump(*LOST), [], 0,
     ["in seconds: sound 1.010000, damaged 1.000000, lost 2.000000, without frames 0.050000"], None),
    ("for how long it is lost where the recorder slipped", dump(*slipped(150, 350, 3700)), [], 0,
     ["in seconds: sound 3.010000, damaged 1.000000, lost 2.003700, without frames 0.050000"], None),
    ("for how long it is lost where the recorder lost some", dump(*slipped(150, 220, -3700)), [], 0,
     ["in seconds: sound 4.010000, damaged 1.300000, lost 0.696300, without frames 0.050000"], None),
    ("for how long it is damaged by a slip alone", dump(*slipped(151, 151, -3700)), [], 0,
     ["in seconds: sound 5.010000, damaged 0.996300, lost 0.000000, without frames 0.050000"], None),
    ("for how long it is upside down", dump(*partly_turned()), [], 0,
     ["in seconds: sound 4.010000, damaged 2.000000, lost 0.000000, without frames 0.020000"], None),
    ("how many frames, of which noise makes more", dump(*noisy()), [], 0, ["expression 2: 5 of 6 frames fine"], None),
    ("how many frames, two in a hole", dump(*LOST), [], 0, ["expression 2: 1 of 4 frames fine"], None),
    ("how many frames, one is cut", dump(B[0][:-100], B[1] - 500000), [], 0, ["expression 2: 3 of 3 frames fine"], None),
    ("noise that is near control elements", dump(*noisy()), [], 0,
     ["expression 2: 5 of 6 frames fine", "  expressions 2, 1, 5 and 6 fit equally; 2 is first, because it has no unused"], None),
    ("format A", dump(*track("A", 5)), [], 0, ["expression 2: 5 of 5", "12:34:20.00 to 061 12:34:20.40"], 5),
    ("format E", dump(*track("E", 3)), [], 0, ["format E", "expression 2: 3 of 3"], 3),
    ("format G", dump(*track("G", 9)), [], 0, ["format G", "expression 2: 9 of 9"], 9),
    ("upside down", dump(*B, upside=True), [], 0, ["upside down, format B", "irig_wire --invert"], 4),
    ("trembling rises", dump(*track("B", 5, 30000, random.Random(1))), [], 0, ["expression 2: 5 of 5"], 5),
    ("in nanoseconds", dump(*B, unit="1 ns", scale=1000), [], 0, ["upright, format B"], 4),
    ("no unit", dump(*B, unit="", scale=1000), [], 0, ["1 ns makes time code of it", "--timescale=1ns"], 4),
    ("a clock beside it", dump(*B, declared=SCOPES).replace("#0 0!", "#0 0! 0c"), [], 0, ["--wire=irig"], 4),
    ("letters on a clock", dump(*B, declared=SCOPES).replace("#0 0!", "#0 0! Uc"), [], 0, ["irig_wire"], 4),
    ("a bit of a vector", bus(B[0]), [], 0, ["tb.bus[2]", "irig_wire", "'bus[2]'"], 4),
    ("a file that ends within a time", dump(*B) + "#1", [], 1, ["the file ends within a time, so it is cut"], 0),
    ("a file that ends within a value", dump(*B) + "#99999999 1", [], 1, ["the file ends within a value, so it is cut"], 0),
    ("a file that ends within the code of another wire",
     dump(*B, declared="$var wire 1 ! irig $end $var wire 1 ab data $end") + "#99999999 1a", [], 1,
     ["the file ends within a value, so it is cut"], None),
    ("two dumps in a file", dump(*B) + dump(*B), [], 1, ["the file has 2 dumps", "--dump=1"], 4),
    ("two wires with time code", dump(*B, declared=SCOPES).replace("0!", "0! 0c").replace("1!", "1! 1c"), [], 1,
     ["clock (code c, path tb.clock)", "irig (code !, path tb.irig)"], 4),
    ("a clock in bursts next to it", in_bursts(), [], 0,
     ["clock (code c, path tb.clock), upside down, format A: no frame is fine under any"], 4),
    ("no frame", dump(B[0][:40], 300000), [], 1, ["no frame is fine under any expression; 2 is only a guess"], 0),
    ("nothing", dump([(5, 1), (9, 0)], 99), [], 1, ["A, B, E or G; the unit of time is 1us (--timescale UNIT takes another)"], None),
    ("nothing, and no unit", dump([(5, 1), (9, 0)], 99, unit=""), [], 1, ["no unit of time is named, and these were tried: 1 us,"], None),
    ("several expressions", dump(*B), [], 0, ["  expressions 2, 1, 5 and 6 fit equally; 2 is first, because it has no unused"], 4),
    ("a control function in a damaged frame", dump(*with_event()), [], 0, ["  expression 4: 3 of 4 frames fine",
     "expressions 4, 0 and 7 fit equally; 4 is first, because damaged frames"], None),
    ("a clock alone", dump([], 0, declared="$var wire 1 c c $end").replace("#0 0!", CLOCK), [], 1, ["no wire"], None),
    ("no dump", "hello", [], 2, [], None),
    ("a folder", None, ["/"], 2, [], None),
    ("a wrong unit", dump(*B), ["--timescale=1 mile"], 2, [], None),
]


def verilator(top):
    """The dump that Verilator made of a generator of format A."""
    with open(os.path.join(top, "tests", "rows", "dumps", "irig_a.vcd"), encoding="ascii") as file:
        return file.read()


def fine_frames(top, command, folder):
    """How many frames the last line leads to."""
    places = os.path.join(top, "tools") + ":" + os.path.join(folder, "bin") + ":" + os.environ["PATH"]
    done = subprocess.run(["bash", "-c", command], cwd=folder,
                          input=b"frames\n", env=dict(os.environ, PATH=places), stdout=subprocess.PIPE,
                          stderr=subprocess.DEVNULL, check=False)
    return done.stdout.decode().count(" fine\n")


def row_holds(top, name, text, words, status, parts, fine):
    with tempfile.TemporaryDirectory() as folder:
        os.mkdir(folder + "/bin")
        os.symlink(os.environ["IRIG_ED"], folder + "/bin/irig_ed")
        path = os.path.join(folder, "some track.vcd")
        if text is not None:
            with open(path, "w", encoding="utf-8") as file:
                file.write(text)
        got, printed, said = run("irig_what", [*words] + ([path] if text is not None else []))
        shown = printed.decode()
        last = shown.strip().split("\n")[-1]
        good = got == status and all(part in shown for part in parts) and (status < 2 or said.startswith("irig_what: "))
        if good and fine is not None:
            good = shlex.quote(path) in last and fine_frames(top, last, folder) == fine
    if not good:
        print("FAILED irig_what, %s: status %d\n%s%s" % (name, got, shown, said))
    return good


def piped(top):
    """A dump from standard input, and a reader that goes away."""
    code = "%s/tools/irig_what - | head -n 1" % top
    done = subprocess.run(["bash", "-c", code], input=dump(*B).encode(), stdout=subprocess.PIPE,
                          stderr=subprocess.PIPE, check=False)
    return done.stdout == b"wire irig (code !), upright, format B\n" and not done.stderr


def passes():
    """A dump is read once, with several wires that carry time code, and if it names no unit; twice if they have too many edges to keep
    them all, with the same answer."""
    wires = "".join("$var wire 1 %s wire_%s $end " % (code, code) for code in "abcdefgh")
    text = dump(*B, unit="", scale=1000, declared=wires + "$var wire 1 ! irig $end")
    text = "".join(line.replace("0!", "0! " + " ".join("0" + code for code in "abcdefgh")).replace(
        "1!", "1! " + " ".join("1" + code for code in "abcdefgh")) + "\n" for line in text.split("\n"))
    with tempfile.TemporaryDirectory() as folder:
        path = os.path.join(folder, "one.vcd")
        with open(path, "w", encoding="ascii") as file:
            file.write(text)
        found = []
        for most in (search.MOST_KEPT_EDGES, 2000):
            opened = mock.Mock(side_effect=open)
            with mock.patch("irig_tools.dump_source.open", opened, create=True), mock.patch.object(search, "MOST_KEPT_EDGES", most):
                found.append((run("irig_what", [path]), opened.call_count))
    (answer, _), (again, _) = found
    shown, counts = answer[1].decode(), [count for _, count in found]
    good = counts == [1, 2] and answer == again and shown.count("expression 2: 4 of 4") == 8 and "1 ns makes time code of it" in shown
    good or print("FAILED irig_what, passes: %s\n%s%s" % (counts, shown, answer[2]))
    return good


def judged():
    """After some windows one of several says what a wire carries, for all of them: it is what most look like, also if that begins late."""
    steps, laps = {"1 us": search.steps_of("1 us")}, 17
    edges = [time for time, _ in track("B", 60)[0]][:-2]
    period = 60 * 1000000
    for name, low, beyond, wanted in (("upright", 0, 0, False), ("upside down in 107 windows of 198", 40000, 150000, True),
                                      ("upside down in 49 windows of 198", 150000, 200000, False)):
        times = [time + lap * period for lap in range(laps) for time in edges]
        if beyond:  # without one edge a fall is a rise, until another one is left out
            del times[beyond], times[low]
        probe = search.Probe(mock.Mock(), steps, search.Room(search.MOST_KEPT_EDGES))
        with mock.patch.object(search, "kinds_of", wraps=search.kinds_of) as looks:
            probe.take(times, True)
            probe.judge()
        votes = probe.in_units["1 us"]
        good = votes.most_common(1)[0][0] == ("B", wanted) and looks.call_count < 100 and list(probe.kept) == times
        good or print("FAILED irig_what, judged, %s: %s, %d looks" % (name, votes, looks.call_count))
        yield good


def holes():
    """Of recordings of the generator of bench/shares, in which a recorder loses some in a hole: all from the first pulse to the last one is
    in a state, and as long is lost as there are no pulses, but for half a frame at each end of it."""
    for seed in range(8):
        made = recordings.make("hole", seed)
        rises = [int(time) for time in re.findall(r"^#(\d+)\n1!", made.text, re.M)]
        silence = sum(max(0, after - before - made.interval) for before, after in zip(rises, rises[1:]))
        with tempfile.NamedTemporaryFile("w", suffix=".vcd") as file:
            file.write(made.text)
            file.flush()
            found = json.loads(run("irig_what", ["--json", file.name])[1].splitlines()[0])
        ends = rises[0] + made.length - rises[-1] - made.interval
        rest = found["length"] - sum(found[state] for state in ("sound", "damaged", "lost"))
        good = abs(rest - max(0, ends)) <= 2 * made.interval and abs(found["lost"] - silence) <= made.frame
        good or print("FAILED irig_what, hole %d: %d without pulses, %d at the ends: %s" % (seed, silence, ends, found))
        yield good


def numbered():
    """Of recordings of the generator of bench/shares with damage and noise: as many frames as there is time for from the first pulse to the
    last one, or one less, since a frame can be cut at both ends."""
    for kind, seed in [(kind, seed) for kind in ("noise", "many", "hole") for seed in range(6)]:
        made = recordings.make(kind, seed)
        rises = [int(time) for time in re.findall(r"^#(\d+)\n1!", made.text, re.M)]
        most = (rises[-1] - rises[0] + made.interval) // made.frame
        with tempfile.NamedTemporaryFile("w", suffix=".vcd") as file:
            file.write(made.text)
            file.flush()
            found = json.loads(run("irig_what", ["--json", file.name])[1].splitlines()[0])
        good = most - 1 <= found["frames"] <= most and found["fine"] <= found["frames"]
        good or print("FAILED irig_what, frames of %s %d: %d are whole at most: %s" % (kind, seed, most, found))
        yield good


def flipped(*elements):
    """In the tenth frame these elements are of the other class, and the frame reads well."""
    def change(draft):
        draft.time = 60 * DAY + 12 * HOUR
        draft.flips[draft.time + 10 * draft.format.frame] = set(elements)
    return change


def with_year(year, before):
    """The recording begins some frames before the end of a year."""
    def change(draft):
        draft.first, draft.year, draft.time = 0.0, year, year_length(year) * DAY - before * draft.format.frame
    return change


# what is sent, and the expression that is found with the years that it shows first and last
YEARS = (
    ("one frame of thirty with an element of the year", "2", flipped(51), (1, None, None)),
    ("one with two elements of it, and binary seconds", "3", flipped(50, 56), (0, None, None)),
    ("each frame with its year", "6", with_year(2024, 200), (6, "24", "24")),
    ("three frames of 1999, and all others of 2000", "6", with_year(1999, 3), (6, "99", "00")),
)


def of_years():
    """A year is what most fine frames show. One damaged frame makes none, and format A after it neither."""
    for name, expression, before, wanted in YEARS:
        made = tools_sent.Made(121, "B", expression, 30, tools_sent.several(tools_sent.still, before))
        end = made.damaged.length
        code_after = [(rise + end, fall + end) for rise, fall in tools_sent.pulses_of(tools_sent.Made(122, "A", "2", 10).sound.text)]
        for words, after, length in (("", [], end), (", then format A", code_after, end + 1000000)):
            with tempfile.NamedTemporaryFile("w", suffix=".vcd") as file:
                file.write(dump_of([*tools_sent.pulses_of(made.damaged.text), *after], length))
                file.flush()
                found = json.loads(run("irig_what", ["--json", file.name])[1].splitlines()[0])
            row = next(each for each in found["readings"] if each["expression"] == found["expression"])
            years = [row[each].partition(" year ")[2] or None for each in ("first", "last")]
            yield tools_sent.same(name + words, (found["format"], found["expression"], *years), ("B", *wanted))


def of_places():
    """Where two damages are next to each other, one repair mends both: irig_what says how many places are damaged, as irig_mend --apply
    does, and how many repairs the script has."""
    def hurt(draft):
        for kind, frame, element in (("merged", 3, 51), ("missing", 4, 50), ("split", 4, 51)):
            damage.KINDS[kind](draft.wire, tools_sent.element_of(draft, frame, element))
        draft.event("lose", draft.clock.place(7.3 * draft.format.frame), draft.format.frame)

    made = tools_sent.Made(131, "B", "2", 0, tools_sent.several(tools_sent.still, tools_sent.beginning(0.95, 10)), hurt)
    with tempfile.NamedTemporaryFile("w", suffix=".vcd") as file:
        file.write(made.damaged.text)
        file.flush()
        lines = run("irig_what", [file.name])[1].decode().splitlines()
        found = json.loads(run("irig_what", ["--json", file.name])[1])
    yield tools_sent.same("the line", lines[-2].partition(";")[0], "damaged in 4 places: irig_mend has 2 repairs and 1 remark")
    yield tools_sent.same("for programs", [found[name] for name in ("places", "repairs", "remarks")], [4, 2, 1])
    said = "4 places found, 3 repaired, 0 undecided, 0 left, 1 step that stays"
    yield tools_sent.same("by irig_mend", made.mended().lines[0].partition(";")[0], said)


def most_memory_of(text):
    """What irig_what says first of a dump, and how many bytes it took at most."""
    watch = "import sys; sys.path.insert(0, sys.argv.pop(1)); from irig_tools import what_program; what_program.main(); " \
        "print(*[line.split()[1] for line in open('/proc/self/status') if line.startswith('VmHWM')])"
    with tempfile.NamedTemporaryFile("w", suffix=".vcd") as file:
        file.write(text)
        file.flush()
        done = subprocess.run([sys.executable, "-c", watch, os.path.join(TOP, "tools"), file.name], stdin=subprocess.DEVNULL,
                              stdout=subprocess.PIPE, text=True, check=False)
    lines = done.stdout.split("\n")
    return lines[0], 1024 * int(lines[1])


def silent():
    """A wire that is silent takes less than 400 bytes, be there 100,000 of them. What Python itself takes differs from machine to
    machine, so a dump of one wire is measured, too."""
    def of_wires(many):
        codes = ["".join(chr(33 + number // 94 ** place % 94) for place in range(3)) for number in range(many)]
        text = "".join("$var wire 1 %s wire_%d $end\n" % (code, number) for number, code in enumerate(codes))
        return text + "$enddefinitions $end\n#0\n" + "".join("0%s\n" % code for code in codes) + "#9\n"

    (said, many), (_, one) = most_memory_of(of_wires(100000)), most_memory_of(of_wires(1))
    good = said.startswith("no wire of 100000") and many - one < 100000 * 400
    good or print("FAILED irig_what, silent wires: %s, %d and %d bytes" % (said, many, one))
    return good


def cases(top):
    """Each row by its name."""
    parts = ["wire irig (code $, path TOP.bench.irig), upright, format A", "expression 2: 1 of 1", "109 12:34:56.70"]
    simulated = "a simulator's dump", verilator(top), [], 0, parts, 1
    return [*(case("what: " + row[0], row_holds, top, *row) for row in (*ROWS, simulated)),
            case("what: in a pipe", piped, top), case("what: one pass", passes), case("what: windows", judged),
            case("what: silent wires", silent), case("what: holes in which a recorder slipped", holes),
            case("what: how many frames by their times", numbered),
            case("what: years", of_years), case("what: places and repairs", of_places),
            case("what: help", lambda: run("irig_what", ["--help"])[0] == 0)]
