"""Rows for recordings that are longer than a track: where they are cut, and that what comes out is the same in windows of any size."""
import gzip
import os
import random
import re
import stat
import zlib
from unittest import mock

from built import GUARD
from cases import case
from irig_tools import mend_long, sampled, seams, window_jobs
from irig_tools.command import of_any_length
from irig_tools.editor import Problem
from irig_tools.ending import Stopped
from random_input import damages
from reference import timecode
from rows.in_process import run
from rows.tools_apply import in_folder, same, text_of

STEP = timecode.INTERVAL["B"]
FRAME = 100 * STEP
KINDS = (damages.glitch_in, damages.glitch_between, damages.merged, damages.missing, damages.lost, damages.wrong_class,
         damages.wrong_width, damages.marker)
SIZES = (100000, 59000, 34000, 12000)  # pulses of a window: so there are 1, 2, 3 and 7
CODE = ("--format=B", "--expression=4")
BEGUN = "has more pulses than a track holds, so it is repaired in windows of {:,} pulses; the result is written when all are repaired\n"
FAILS_IN_THE_THIRD = """case "$*" in */3.vcd*) echo irig_guard: input failed >&2; exit 4 ;; esac
exec "%s" "$@\""""


def code(frames):
    """The pulses of that many frames of format B, expression 4, without damage."""
    found = []
    for number in range(frames):
        for name in timecode.encode("B", 4, timecode.generated("B", (738000, 4320000), number, 0)):
            found.append([len(found) * STEP, len(found) * STEP + timecode.nominal(STEP, name)])
    return found


def damaged(frames, places, slip=False):
    """The same with damage in places that are evenly apart, and a recorder that loses 7.3 milliseconds in the middle."""
    pulses, chance = code(frames), random.Random("long")
    if slip:
        middle = len(pulses) // 2
        pulses[middle:] = [[rise - 7300, fall - 7300] for rise, fall in pulses[middle + 1:]]
    for number in range(places):
        first = number * len(pulses) // places + chance.randrange(500, 900)
        part, beyond = pulses[first:first + 600], pulses[first + 600][0]
        KINDS[number % len(KINDS)](chance, part, STEP)
        part.sort()
        damages.tidy(part, beyond)
        pulses[first:first + 600] = part
    return pulses


def dump(pulses):
    return damages.dump(pulses, pulses[-1][0] + STEP)


def two_wires(pulses):
    """The same next to another wire, in a unit of 100 nanoseconds."""
    lines = ['$timescale 100 ns $end $var wire 1 ! code $end $var wire 1 " data $end $enddefinitions $end', '#0 0! 0"']
    for number, (rise, fall) in enumerate(pulses):
        lines += ["#%d 1!" % (10 * rise + 3), '#%d %d"' % (10 * rise + 7, number % 2), "#%d 0!" % (10 * fall + 3)]
    return "\n".join([*lines, "#%d\n" % (10 * pulses[-1][0] + 10 * STEP)])


def in_windows(size, tool, *words):
    """What a tool prints if windows have that many pulses; 0 for those of a long recording."""
    with mock.patch.dict(os.environ, {"IRIG_WINDOW": str(size)} if size else {}):
        return run(tool, list(words))


def edges_of(pulses):
    return [edge for pulse in pulses for edge in pulse]


def chosen_seams():
    """Eight sound frames before the first place that is looked at, and eight after it; the middle of the level before a marker."""
    sound = edges_of(code(60))
    lost = sound[:3500] + sound[3502:]  # pulse 1750, of frame 17, is gone
    late = edges_of(code(60)[3:])  # it begins with element 3
    yield same("sound", seams.seam_in(sound, 2000, 8000), (3600, 17999000, True))
    yield same("a lost pulse", seams.seam_in(lost, 2000, 8000), (5198, 25999000, True))
    yield same("another element first", seams.seam_in(late, 2000, 8000), (3794, 18999000, True))
    yield same("upside down", seams.seam_in(sound[1:], 2000, 8000), (3799, 18999000, True))
    wide = [[rise, rise + 3500] for rise, _ in code(60)]
    yield same("no classes, and all in step", seams.seam_in(edges_of(wide), 2000, 8000), (3600, 17996750, True))
    strays = [rise + (number * 7 % 5) * STEP // 8 for number, rise in enumerate(sound)]
    yield same("nothing is in step", seams.seam_in(strays, 2000, 8000)[::2], (2000, False))


def printed_windows():
    """What irig_wire --windows prints: cut after each size before the marker that follows the eighth sound frame; a hundred frames more on
    each side are read."""
    three = ("0 447999000 0 347999000\n248000000 795999000 347999000 695999000\n596000000 1000000000 695999000 1000000000\n")

    def holds():
        for size, many in zip(SIZES, (1, 2, 3, 7)):
            status, printed, said = in_windows(size, "irig_wire", "--windows", "track.vcd")
            yield same("windows of %d" % size, (status, printed.count(b"\n"), said), (0, many, ""))
        yield same("three", in_windows(34000, "irig_wire", "--windows", "track.vcd")[1].decode(), three)
        yield same("one track", in_windows(0, "irig_wire", "--windows", "track.vcd")[1].decode(), "0 1000000000 0 1000000000\n")
        finer = in_windows(34000, "irig_wire", "--windows", "two.vcd", "code")[1].decode().split()
        yield same("another unit", finer, [str(10 * int(time)) for time in three.split()])
        status, _, said = in_windows(1000, "irig_wire", "--windows", "track.vcd")
        yield same("too small", (status, "at least 3200, not '1000'" in said), (2, True))
        status, _, said = in_windows(0, "irig_wire", "--windows", "--from", "5", "track.vcd")
        yield same("with --from", (status, "exclude each other" in said), (2, True))

    pulses = code(1000)
    return in_folder(lambda: list(holds()), track=dump(pulses), two=two_wires(pulses))


def in_any_size():
    """A recording of 100,000 pulses whole, and in 1, 2, 3 and 7 windows: the same file, the same sums and reasons."""
    def holds():
        for words in (["--apply", "new.vcd", "track.vcd"], ["--apply", "new.vcd", "--into", "two.vcd", "--wire=code", "two.vcd"]):
            whole = in_windows(0, "irig_mend", *CODE, *words)
            new, sums = text_of("new.vcd"), whole[1].decode().splitlines()
            yield same("whole", (whole[0], "21 places found, " in sums[0], ", 1 step that stays; " in sums[0]), (1, True, True))
            for size in SIZES:
                status, printed, said = in_windows(size, "irig_mend", *CODE, "--jobs=2", *words)
                begun = "irig_mend: track.vcd: " if words[2:] == ["track.vcd"] else "irig_mend: two.vcd: "
                yield same("in windows of %d" % size, (status, printed, said.replace(begun + BEGUN.format(size), "")), whole)
                yield same("in windows of %d, what is said first" % size, said.startswith(begun + BEGUN.format(size)), True)
                yield same("in windows of %d, the file" % size, text_of("new.vcd") == new, True)
        left, found = in_windows(0, "irig_mend", "--json", "--apply=a.vcd", "track.vcd"), in_windows(
            12000, "irig_mend", "--json", "--apply=b.vcd", "track.vcd")
        yield same("for programs", found[:2], left[:2])

    pulses = damaged(1000, 20, True)
    return in_folder(lambda: list(holds()), track=dump(pulses), two=two_wires(pulses))


def of_no_sound_frame():
    """A stretch without a sound frame is left as it was; what is before it and after it is repaired."""
    def holds():
        status, printed, _ = in_windows(4000, "irig_mend", *CODE, "--apply", "new.vcd", "track.vcd")
        lines = printed.decode().splitlines()
        yield same("status", (status, any("no frame is sound, so this part is left as it was" in line for line in lines)), (1, True))
        before, after = text_of("track.vcd").split(), text_of("new.vcd").partition("$dumpvars")[2].split()
        yield same("what is left", [word for word in before if "#160000000" < word < "#190000000" and word[0] == "#"],
                   [word for word in after if "#160000000" < word < "#190000000" and word[0] == "#"])
        yield same("a glitch before it and one after it", [word for word in ("#50103100", "#350103100") if word in after], [])

    pulses, chance = code(400), random.Random("no frame")
    for pulse in pulses[10000:21000]:
        pulse[1] = pulse[0] + chance.choice((3600, 6400, 9600))  # of no class
    for number in (35010, 5010):
        pulses[number][1:] = [pulses[number][0] + 3100]
        pulses.insert(number + 1, [pulses[number][0] + 3150, pulses[number][0] + 5000])
    return in_folder(lambda: list(holds()), track=dump(pulses))


def that_end_early():
    """A file that ends within a time, in the middle of a window; and a read that fails there: nothing is written over."""
    def holds():
        whole = in_windows(0, "irig_mend", *CODE, "--apply", "one.vcd", "cut.vcd")
        found = in_windows(12000, "irig_mend", *CODE, "--apply", "new.vcd", "cut.vcd")
        yield same("the file ends within a time", (found[:2], text_of("new.vcd") == text_of("one.vcd")), (whole[:2], True))
        yield same("what is said", "the file ends within a time, so it is cut" in found[2], True)
        with open("new.vcd", "w", encoding="ascii") as file:
            file.write("kept")
        with open("packed.gz", "wb") as file:
            file.write(gzip.compress(text_of("cut.vcd").encode())[:-80000])
        with mock.patch.object(sampled, "SAMPLE", 100000):
            status, printed, said = in_windows(12000, "irig_mend", *CODE, "--apply", "new.vcd", "packed.gz")
        yield same("a read that fails", (status, printed, "packed.gz: cannot be unpacked: " in said), (2, b"", True))
        yield same("what was there", (text_of("new.vcd"), len(os.listdir("."))), ("kept", 4))

    text = dump(damaged(1000, 20))
    return in_folder(lambda: list(holds()), cut=text[:re.search("#870[0-9]{6} ", text).start() + 8])


def read_that_fails():
    """A read that fails while the third window is read."""
    started, start = [], window_jobs.WindowJobs.start

    def counted(jobs, window, edges):
        started.append(window.number)
        start(jobs, window, edges)

    with mock.patch.object(window_jobs.WindowJobs, "start", counted), mock.patch.object(sampled, "SAMPLE", 100000):
        status, printed, said = in_windows(12000, "irig_mend", *CODE, "--apply", "new.vcd", "packed.gz")
    yield same("a read that fails", (started, status, printed, "packed.gz: cannot be unpacked: " in said), ([1, 2], 2, b"", True))


def program_that_fails():
    """A program that fails in the third window."""
    for name, text in (("irig_ed", 'exec "%s" "$@"' % os.environ["IRIG_ED"]), ("irig_guard", FAILS_IN_THE_THIRD % GUARD)):
        with open("bin/" + name, "w", encoding="ascii") as file:
            file.write("#!/bin/sh\n%s\n" % text)
        os.chmod("bin/" + name, stat.S_IRWXU)
    with mock.patch.dict(os.environ, {"IRIG_ED": os.path.abspath("bin/irig_ed")}):
        for words in ([], ["--into", "track.vcd"]):
            status, printed, said = in_windows(12000, "irig_mend", *CODE, "--apply", "new.vcd", *words, "track.vcd")
            said = re.sub(r" \(it writes .*\)", "", re.sub("[0-9]{2,}", "N", said))
            yield same("a program that fails", (status, printed, said.partition("\n")[2]),
                       (2, b"", "irig_mend: window 3, from N to N: irig_guard: input failed\n"))


def that_fail():
    """A read that fails while the third window is read, and a program that fails in the third window: nothing is written over."""
    def holds():
        with open("new.vcd", "w", encoding="ascii") as file:
            file.write("kept")
        yield from read_that_fails()
        yield from program_that_fails()
        yield same("what was there", (text_of("new.vcd"), sorted(os.listdir("."))), ("kept", ["bin", "new.vcd", "packed.gz", "track.vcd"]))

    def prepared():
        os.mkdir("bin")
        text = text_of("track.vcd").encode()
        with open("packed.gz", "wb") as file:
            file.write(cut_packed(text, text.index(b"\n#560000000 ")))  # the third window needs more
        return list(holds())

    return in_folder(prepared, track=dump(damaged(1000, 20)))


def that_are_ended():
    """Ctrl-C, or a signal TERM, in the third window: a line says how far it was, and nothing is written over."""
    def holds():
        with open("new.vcd", "w", encoding="ascii") as file:
            file.write("kept")
        start = window_jobs.WindowJobs.start
        for error, ends_with in ((KeyboardInterrupt(), 130), (Stopped(15), 143)):
            def ended_in_the_third(jobs, window, edges):
                if window.number == 3:  # the two before it are repaired
                    jobs._wait_for(0)
                    raise error
                start(jobs, window, edges)

            with mock.patch.object(window_jobs.WindowJobs, "start", ended_in_the_third):
                status, printed, said = in_windows(12000, "irig_mend", *CODE, "--apply", "new.vcd", "track.vcd")
            line = "irig_mend: track.vcd: ended, 2 windows repaired, 0 on their way; nothing is written, and the same command begins " \
                   "at the first window"
            yield same("the status", (status, printed), (ends_with, b""))
            yield same("how far it was", said.splitlines()[1:], [line])
            yield same("what was there", (text_of("new.vcd"), sorted(os.listdir("."))), ("kept", ["new.vcd", "track.vcd"]))

    return in_folder(lambda: list(holds()), track=dump(damaged(1000, 20)))


def cut_packed(text, size):
    """The first bytes of a text, packed, as a file that is cut after them."""
    packer = zlib.compressobj(wbits=31)
    return packer.compress(text[:size]) + packer.flush(zlib.Z_FULL_FLUSH)


def refused():
    """What is not there for windows, and a recording without code."""
    def holds():
        for words in (["--save"], ["--move"], ["--out=script.ed"], ["--page=page.html"]):
            status, _, said = in_windows(4000, "irig_mend", *CODE, *words, "--apply", "new.vcd", "track.vcd")
            text = "track.vcd: has more pulses than a track holds, so it is repaired in windows, and that goes without "
            yield same(words[0], (status, text + words[0].split("=")[0] in said), (2, True))
        status, _, said = in_windows(4000, "irig_mend", "--apply", "new.vcd", "quiet.vcd")
        yield same("no code", (status, "quiet.vcd: no frame can be read" in said, len(os.listdir("."))), (2, True, 2))

    quiet = "$timescale 1 us $end $var wire 1 ! code $end $enddefinitions $end\n#0 0!\n#500 1!\n#90000 0!\n#100000000\n"
    return in_folder(lambda: [*holds()], quiet=quiet, track=dump(code(100)))


def looked_at_later():
    """The code begins after the first part that is looked at: a later part shows wire, format and expression."""
    def holds():
        with mock.patch.object(sampled, "SAMPLE", 100000), mock.patch.object(mend_long, "PLACES", (0, 200000, 400000)):
            status, printed, said = in_windows(12000, "irig_mend", "--apply", "new.vcd", "late.vcd")
        yield same("sums", (status, b"0 places found" in printed, "wire code (code !), format B" in said), (0, True, True))

    lines = ['$timescale 1 us $end $var wire 1 ! code $end $var wire 1 " data $end $enddefinitions $end', '#0 0! 0"']
    lines += ['#%d %d"' % (1000 * number, number % 2) for number in range(1, 30000)]
    later = [[rise + 40000000, fall + 40000000] for rise, fall in code(300)]
    lines += dump(later).partition("#0 0!\n")[2:]
    return in_folder(lambda: list(holds()), late="\n".join(lines))


def proposed():
    """Of a large file irig_what looks at a part, and the command that it prints repairs all of it."""
    def holds():
        with mock.patch.multiple(sampled, LARGE=100000, SAMPLE=300000):
            status, printed, said = run("irig_what", ["track.vcd"])
            command = printed.decode().splitlines()[-1].split()
            yield same("irig_what", (status, b"only a part of it was looked at" in printed, said, command[0], command[-1]),
                       (0, True, "", "irig_mend", "track.vcd"))
            status, printed, said = in_windows(12000, "irig_mend", *command[1:])
            yield same("the command", (status, b": 20 places found, 20 repaired, " in printed), (0, True))
        try:
            with of_any_length():
                raise Problem("track.vcd: V12 TooManyPulses")
        except Problem as error:
            yield same("too many pulses", "V12 TooManyPulses; irig_mend --apply repairs" in str(error), True)

    return in_folder(lambda: list(holds()), track=dump(damaged(1000, 20)))


def cases(top):
    """Each part by its name."""
    return [case("long: " + part.__name__, part) for part in (chosen_seams, printed_windows, in_any_size, of_no_sound_frame, that_end_early,
                                                              that_fail, that_are_ended, refused, looked_at_later, proposed)]
