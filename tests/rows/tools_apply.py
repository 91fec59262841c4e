"""Rows for `irig_mend --apply`, for tracks that are found in any dump, and for what is printed for programs."""
import json
import os
import re
import subprocess
import tempfile
from unittest import mock

from built import GUARD, TIME
from cases import case
from irig_tools import damage_program, mend_program
from irig_tools.apply import Refused
from irig_tools.became import became_of
from irig_tools.damage import Damage
from irig_tools.guard_words import Reason
from irig_tools.kinds import DamageKind
from irig_tools.left import left_lines, without_line
from irig_tools.script import Repair
from random_input import damages
from reference import timecode
from rows import in_process, tools
from rows.in_process import run

in_process.MAINS.update(irig_damage=damage_program.main, irig_mend=mend_program.main)
END = 8000000


def glitch(pulses):
    tools.glitch(pulses)


def late(pulses):
    tools.moved(pulses, 450, 3300)


def function(pulses):
    pulses[364][1] = 3645000  # a control function that no other frame has


def both(pulses):
    late(pulses)
    glitch(pulses)


def late_for_a_while(pulses):
    """The frame in which all is in time again has a control function of its own: the guard alone keeps no frame with that."""
    tools.moved(pulses, 250, 3300)
    tools.moved(pulses, 645, -3300)
    own_function(pulses)


def own_function(pulses):
    pulses[664][1] = 6645000


def late_and_own_functions(pulses):
    """That of the frame in which all gets late moves with it, so nothing says that it was recorded there."""
    pulses[264][1] += 3000
    late_for_a_while(pulses)


def late_with_a_glitch(pulses):
    late_and_own_functions(pulses)
    glitch(pulses)


def two_in_a_frame(pulses):
    """Once the position identifier is there, the frame reads day 063."""
    pulses[331][1] = pulses[331][0] + 5000
    del pulses[359]


def other_code(pulses):
    """Zeros of format A for nine tenths of a second, in a hole of two frames."""
    pulses[230:330] = [[2310000 + 1000 * at, 2310200 + 1000 * at] for at in range(900)]


def dropout(pulses):
    """Thirteen pulses are lost, and the next one rises late."""
    pulses[430][0] += 300
    del pulses[417:430]


def late_rise(pulses):
    """In a frame that is fine."""
    pulses[430][0] += 300


def recorded(change=lambda pulses: None):
    pulses = tools.recording()
    change(pulses)
    return pulses


def nanoseconds(pulses, begin=0, two=False):
    """A dump of several wires at 1 ns: rises come 137 ns after their microsecond; if `two`, another wire has the code, too."""
    lines = ["$timescale 1 ns $end $scope module top $end $scope module rx $end $var wire 1 ! irig $end $upscope $end",
             '$var wire 1 " clk $end $var reg 8 # bus [7:0] $end $var wire 1 % irig $end $upscope $end $enddefinitions $end',
             '#%d $dumpvars 0! 0" b0 # x%% $end' % begin]
    for number, (rise, fall) in enumerate(pulses):
        own = "1! 1%", "0! 0%"
        lines.append("#%d %s" % (begin + 1000 * rise + 137, own[0] if two else "1!"))
        lines.append('#%d %d" b%s #' % (begin + 1000 * rise + 900, number % 2, format(number % 256, "b")))
        lines.append("#%d %s" % (begin + 1000 * fall, own[1] if two else "0!"))
    return "\n".join([*lines, "#%d\n" % (begin + 1000 * END)])


def others(text):
    """The words of a dump without the changes of the wire `!`, and without times."""
    return [word for word in text.split() if word not in ("0!", "1!", "x!") and word[0] != "#" or word == "#"]


def in_folder(holds, **files):
    """Whether something holds in a folder with these files."""
    with tempfile.TemporaryDirectory() as folder:
        for name, text in files.items():
            with open(os.path.join(folder, name + ".vcd"), "w", encoding="ascii") as file:
                file.write(text)
        before = os.getcwd()
        os.chdir(folder)
        try:
            return holds()
        finally:
            os.chdir(before)


def text_of(name):
    with open(name, encoding="ascii") as file:
        return file.read()


def same(name, got, wanted):
    if got != wanted:
        print("FAILED %s\n wanted %s\n got    %s" % (name, wanted, got))
    return got == wanted


# what is done to the recording, options, status, what became of it, and what is written
APPLIED = (
    ("nothing is damaged", lambda pulses: None, "", 0,
     "0 places found, 0 repaired, 0 undecided, 0 left, 0 steps that stay; 7 frames sound before, 7 after", recorded),
    ("a glitch", glitch, "", 0,
     "1 place found, 1 repaired, 0 undecided, 0 left, 0 steps that stay; 6 frames sound before, 7 after", recorded),
    ("two damages in a frame, which reads another time after one repair alone", two_in_a_frame, "", 0,
     "2 places found, 2 repaired, 0 undecided, 0 left, 0 steps that stay; 6 frames sound before, 7 after", recorded),
    ("code of another format is left", other_code, "", 1,
     "1 place found, 0 repaired, 1 undecided, 0 left, 0 steps that stay; 5 frames sound before, 5 after", lambda: recorded(other_code)),
    ("a dropout, after which a rise is late", dropout, "", 0,
     "1 place found, 1 repaired, 0 undecided, 0 left, 0 steps that stay; 6 frames sound before, 7 after", recorded),
    ("a late rise in a frame that is fine, of which the guard moves no pulse", late_rise, "", 1,
     "1 place found, 0 repaired, 1 undecided, 0 left, 0 steps that stay; 7 frames sound before, 7 after", lambda: recorded(late_rise)),
    ("a glitch, and a step that stays", both, "", 1,
     "2 places found, 1 repaired, 0 undecided, 0 left, 1 step that stays; 5 frames sound before, 6 after", lambda: recorded(late)),
    ("the same, with --move", both, "--move", 0,
     "2 places found, 2 repaired, 0 undecided, 0 left, 0 steps that stay; 5 frames sound before, 7 after", recorded),
    ("two steps that belong together, with --move", late_for_a_while, "--move", 1,
     "2 places found, 1 repaired, 1 undecided, 0 left, 0 steps that stay; 5 frames sound before, 7 after",
     lambda: recorded(own_function)),
    ("two steps, which irig_guard drops, and a glitch, with --move", late_with_a_glitch, "--move", 1,
     "3 places found, 1 repaired, 0 undecided, 0 left, 2 steps that stay; 4 frames sound before, 5 after",
     lambda: recorded(late_and_own_functions)),
)


def applied(name, change, words, status, text, wanted):
    """One command: what it prints, its status, and the recording that it writes."""
    def holds():
        got, printed, said = run("irig_mend", ["--expression=4", *words.split(), "--apply", "new.vcd", "rec.vcd"])
        lines = printed.decode().splitlines()
        found = text_of("new.vcd").partition("$dumpvars")[2]
        edges = [int(word[1:]) for word in found.split() if word[0] == "#"]
        pulses = [edge for pulse in wanted() for edge in pulse]
        good = same(name, (got, lines[:1], said), (status, ["rec.vcd: " + text], ""))
        return good and same(name + ", edges", [edge for edge in edges if edge < END], [e for e in pulses if 0 < e < END])

    return in_folder(holds, rec=damages.dump(recorded(change), END + (3300 if "step" in name or "move" in name else 0)))


def into():
    """A recording of several wires: the wire is found, repaired and put back; all else is as it was."""
    def holds():
        text = text_of("rec.vcd")
        status, printed, said = run("irig_mend", ["--apply", "new.vcd", "--into", "rec.vcd", "rec.vcd"])
        new = text_of("new.vcd")
        yield same("--into", (status, "1 place found, 1 repaired" in printed.decode()), (0, True))
        yield same("what is said", "wire ! (path top.rx.irig), format B, expression" in said, True)
        yield same("the other wires", others(new), others(text))
        yield same("the damage that is left", run("irig_damage", ["--expression=4", "--wire=rx.irig", "new.vcd"])[0], 0)
        yield same("the wire", new.replace("\n", " ").count(" 1!"), 800)
        yield same("the input", text_of("rec.vcd"), text)
        run("irig_wire", ["rec.vcd", "rx.irig", "--out", "one.vcd"])
        status = run("irig_mend", ["--apply", "two.vcd", "--into", "rec.vcd", "--wire=rx.irig", "--expression=4", "one.vcd"])[0]
        yield same("a track of one wire", (status, text_of("two.vcd") == new), (0, True))
        words = ["--apply", "three.vcd", "--into", "rec.vcd", "--wire=rx.irig", "--expression=4", "-"]
        status = run("irig_mend", words, text_of("one.vcd").encode())[0]
        yield same("the same through a pipe", (status, text_of("three.vcd") == new), (0, True))
        words = ["--apply", "-", "--into", "-", "--wire=rx.irig", "--expression=4", "one.vcd"]
        status, printed, _ = run("irig_mend", words, text.encode())
        yield same("the recording through a pipe", (status, printed.decode() == new), (0, True))
        status, printed, said = run("irig_mend", ["--apply", "-", "--into", "-", "-"], text.encode())
        yield same("all through a pipe", (status, printed.decode() == new, "-: 1 place found" in said), (0, True, True))

    return in_folder(lambda: list(holds()), rec=nanoseconds(recorded(glitch)))


def not_read():
    """If another wire has letters of VHDL, the proved programs do not read what --into writes: a line has the command that makes a dump of
    the wire, and this is read. Without such letters no line says it."""
    def holds():
        for name, is_silent in (("vhdl.vcd", False), ("plain.vcd", True)):
            status, _, said = run("irig_mend", ["--apply", "new.vcd", "--into", name, name])
            line = "irig_mend: %s: irig_ed and irig_time do not read this file as it is, but a dump of its wire: " % name
            yield same(name, (status, line + "irig_wire new.vcd code > one.vcd" in said.splitlines(), line in said),
                       (0, not is_silent, not is_silent))
        run("irig_mend", ["--apply", "new.vcd", "--into", "vhdl.vcd", "vhdl.vcd"])
        yield same("the command", run("irig_wire", ["new.vcd", "code", "--out", "one.vcd"])[0], 0)
        times = subprocess.run([TIME, "--expression=4", "one.vcd"], input="1500000\n", stdout=subprocess.PIPE, text=True, check=False)
        yield same("it is read", (times.returncode, times.stdout[:4]), (0, "2024"))

    text = damages.dump(recorded(glitch), END)
    head, end, body = text.partition("$enddefinitions $end")
    text = head + '$var wire 1 " data $end ' + end + body
    return in_folder(lambda: list(holds()), plain=text, vhdl=text.replace("#0 1!", '#0 1! U"', 1))


def options_of_a_script():
    """What irig_ed needs for a script and the user did not give is its first line; an empty script has none."""
    def holds():
        for words, head in (
                ("rec.vcd", "# for irig_ed --format=B --expression=7"), ("--expression=4 rec.vcd", "# frame"),
                ("two.vcd", "# for irig_ed '--wire=!' --format=B --expression=7"),
                ("--expression=4 --timescale=1us --dump=1 rec.vcd",
                 "# for irig_ed --expression=4 and the dump of irig_wire --timescale=1us --dump=1"),
                ("sound.vcd", "")):
            lines = run("irig_mend", words.split())[1].decode().split("\n")
            yield same("the first line of a script, " + words, lines[0].partition(" 2024")[0], head)

    return in_folder(lambda: list(holds()), two=nanoseconds(recorded(glitch)),
                     rec=damages.dump(recorded(glitch), END), sound=damages.dump(recorded(), END))


def late_times():
    """Times from 1970: what is subtracted stays in the file, and the track goes back to its place."""
    def holds():
        status, _, said = run("irig_mend", ["--apply", "new.vcd", "rec.vcd"])
        comment = "$comment irig_wire: offset %d ns $end" % (begin + 137)
        yield same("an offset", (status, text_of("new.vcd").splitlines()[1]), (0, comment))
        yield same("what is said", "the times count from %d ns" % (begin + 137) in said, True)
        yield same("put back", run("irig_wire", ["--into", "rec.vcd", "--wire=rx.irig", "new.vcd", "--out", "all.vcd"])[0], 0)
        run("irig_mend", ["--apply", "more.vcd", "--into", "rec.vcd", "rec.vcd"])
        yield same("the same at once", text_of("all.vcd") == text_of("more.vcd"), True)
        found = run("irig_damage", ["--json", "rec.vcd"])[1].decode().splitlines()
        each = json.loads(found[0])
        yield same("the time in the file", (each["time"], each["original"]), (3010000, "1700000003010000.137"))

    begin = 1700000000 * 10**9
    pulses = recorded(glitch)
    text = nanoseconds(pulses, begin).replace('#%d $dumpvars' % begin, '#0 $dumpvars', 1)
    return in_folder(lambda: list(holds()), rec=text)


def saved():
    """With --save each step can be undone: the history is in the file."""
    def holds():
        status = run("irig_mend", ["--expression=4", "--apply", "new.vcd", "--save", "rec.vcd"])[0]
        text = text_of("new.vcd")
        return same("--save", (status, "irig-journal-1" in text, "past 1" in text), (0, True, True))

    return in_folder(holds, rec=damages.dump(recorded(glitch), END))


def page_alone():
    """If the page or the script goes to standard output, what became of the recording goes to standard error."""
    def holds():
        status, printed, said = run("irig_mend", ["--expression=4", "--apply", "new.vcd", "--out", "-", "rec.vcd"])
        yield same("--out -", (status, printed.decode().splitlines()[1:], "1 place found" in said), (0, ["302,303 join"], True))
        status, printed, said = run("irig_mend", ["--expression=4", "--apply", "new.vcd", "--page", "-", "rec.vcd"])
        text = printed.decode()
        yield same("--page -", (status, text[:5], text[-8:], "1 place found" in said), (0, "<!DOC", "</html>\n", True))

    return in_folder(lambda: list(holds()), rec=damages.dump(recorded(glitch), END))


def one_line():
    """What became of a recording is one line, whatever the name of the file is."""
    def holds():
        _, printed, _ = run("irig_mend", ["--expression=4", "--apply", "new.vcd", "a\nb\x1b[1m.vcd"])
        return same("a newline in a name", printed.decode().partition(": ")[0], r"a\nb\x1b[1m.vcd")

    return in_folder(holds, **{"a\nb\x1b[1m": damages.dump(recorded(), END)})


def cut():
    """A recording that ends within a time has lost what came after it."""
    def holds():
        said = "the file ends within a time, so it is cut\n"
        yield same("irig_damage", run("irig_damage", ["--quiet", "--expression=4", "rec.vcd"]), (1, b"", ""))
        status, printed, _ = run("irig_damage", ["--expression=4", "rec.vcd"])
        yield same("its line", (status, printed.decode()), (1, "7998000 " + said))
        yield same("irig_mend --apply", run("irig_mend", ["--expression=4", "--apply", "new.vcd", "rec.vcd"])[::2],
                   (1, "irig_mend: rec.vcd: " + said))

    return in_folder(lambda: list(holds()), rec=damages.dump(recorded(), END)[:-6])


GROWING = """#!/bin/sh
echo '#%d' >> rec.vcd
exec '%s' "$@"
"""


def growing():
    """A recording that changes while it is read is not repaired, and nothing is written."""
    def holds():
        with open("irig_ed", "w", encoding="ascii") as file:
            file.write(GROWING % (END, os.environ["IRIG_ED"]))
        os.chmod("irig_ed", 0o755)
        before = sorted(os.listdir("."))
        for words in ("rec.vcd", "--page page rec.vcd", "--apply new.vcd --page page rec.vcd",
                      "--apply new.vcd --into rec.vcd two.vcd"):
            with mock.patch.dict(os.environ, IRIG_ED=os.path.abspath("irig_ed")):
                ended = run("irig_mend", ["--expression=4", *words.split()])
            wanted = 2, b"", "irig_mend: rec.vcd: changed while it was read\n"
            yield same("a recording that grows, %s" % words, (*ended[:2], ended[2].splitlines(True)[-1]), wanted)
            yield same("what is written then", sorted(os.listdir(".")), before)

    return in_folder(lambda: list(holds()), **{name: damages.dump(recorded(glitch), END) for name in ("rec", "two")})


def upside_down():
    """A wire that is upside down is turned over before irig_guard goes by its frames, also if its clock is off."""
    def turned(pulses):
        tools.slow_with_a_glitch(pulses)
        tools.turned(pulses)

    def holds():
        wanted = [edge for pulse in recorded(tools.slow) for edge in pulse][2:-2]  # the ends were no pulses upside down
        for words, kept in (("", False), ("--save", True)):
            got, printed, _ = run("irig_mend", ["--expression=4", *words.split(), "--apply", "new.vcd", "rec.vcd"])
            yield same("upside down " + words, (got, printed.decode().partition("; ")[2]), (0, "0 frames sound before, 6 after\n"))
            track, _, journal = text_of("new.vcd").partition("$dumpvars")[2].partition("$comment")
            edges = [int(word[1:]) for word in track.split() if word[0] == "#"]
            yield same("the edges " + words, [edge for edge in edges if wanted[0] <= edge <= wanted[-1]], wanted)
            yield same("the steps " + words, "past 2" in journal, kept)

    return in_folder(lambda: list(holds()), rec=damages.dump(recorded(turned), END + 40000))


def steady():
    """With --steady a control function that one frame alone has is mended, and the guard keeps that."""
    def holds():
        status, printed, said = run("irig_mend", ["--expression=4", "--steady", "--apply", "new.vcd", "rec.vcd"])
        found = text_of("new.vcd").partition("$dumpvars")[2]
        edges = [int(word[1:]) for word in found.split() if word[0] == "#"]
        wanted = [edge for pulse in recorded() for edge in pulse if 0 < edge < END]
        yield same("--steady", (status, printed.splitlines()[1:], said),
                   (0, [b"rec.vcd: control functions of 1 frame are not in the recording"], ""))
        yield same("--steady, edges", [edge for edge in edges if edge < END], wanted)

    return in_folder(lambda: list(holds()), rec=damages.dump(recorded(function), END))


def guarded():
    """A guard next to the editor runs the script; what it refuses is counted, and why is printed. With --move it gets
    --moved."""
    def holds():
        os.symlink(os.path.abspath(os.environ["IRIG_ED"]), "irig_ed")
        with open("irig_guard", "w", encoding="ascii") as file:
            file.write('#!/bin/sh\necho "$*" > words; while [ "$1" != --out ]; do shift; done; cp "$3" "$2"\n'
                       'echo "# nothing to go by: no frame of the recording is fine"\n'
                       'sed "/^#/!s/^/# not kept: not a repair\\n# /"; exit 1\n')
        os.chmod("irig_guard", 0o755)
        with mock.patch.dict(os.environ, IRIG_ED=os.path.abspath("irig_ed")):
            text = "1 place found, 0 repaired, 0 undecided, 1 left, 0 steps that stay, 1 line refused"
            for words in ("", "--move"):
                got, said, _ = run("irig_mend", ["--expression=4", *words.split(), "--apply", "new.vcd", "rec.vcd"])
                why = [line for line in said.decode().splitlines() if "not kept: " in line]
                yield same("a guard " + words, (got, text in said.decode(), why), (1, True, ["rec.vcd: not kept: not a repair"]))
                yield same("what it gets " + words, "--moved" in text_of("words").split(), words == "--move")

    return in_folder(lambda: list(holds()), rec=damages.dump(recorded(glitch), END))


def unjudged():
    """If no frame is fine, the guard writes nothing: then the recording is written as it is, and why is printed."""
    def holds():
        editor = os.path.abspath(os.environ["IRIG_ED"])
        os.symlink(editor, "irig_ed")
        with open("irig_guard", "w", encoding="ascii") as file:
            file.write('#!/bin/sh\necho "# nothing to go by: no frame of the recording is fine"\n'
                       'sed "/^#/!s/^/# not kept: no frame would be fine to go by\\n# /"; exit 1\n')
        os.chmod("irig_guard", 0o755)
        with mock.patch.dict(os.environ, IRIG_ED=os.path.abspath("irig_ed")):
            got, said, _ = run("irig_mend", ["--expression=4", "--apply", "new.vcd", "rec.vcd"])
        subprocess.run([editor, "--expression=4", "--out", "as_it_is.vcd", "rec.vcd"], input=b"write\n", stdout=subprocess.PIPE, check=True)
        yield same("nothing to go by", (got, b"not kept: no frame would be fine to go by" in said), (1, True))
        yield same("it is written as it is", text_of("new.vcd"), text_of("as_it_is.vcd"))

    return in_folder(lambda: list(holds()), rec=damages.dump(recorded(glitch), END))


def listings():
    """The editor lists the pulses twice, however long the recording is: before the repair, and after it. The proposal's looks are the first
    and the last one."""
    def holds():
        editor = os.path.abspath(os.environ["IRIG_ED"])
        with open("irig_ed", "w", encoding="ascii") as file:
            file.write('#!/bin/sh\ncat > lines\ngrep -c ",list" lines >> counts\nexec %s "$@" < lines\n' % editor)
        os.chmod("irig_ed", 0o755)
        os.symlink(GUARD, "irig_guard")
        with mock.patch.dict(os.environ, IRIG_ED=os.path.abspath("irig_ed")):
            for name, change in (("a glitch", glitch), ("two damages in a frame", two_in_a_frame)):
                with open("rec.vcd", "w", encoding="ascii") as file:
                    file.write(damages.dump(recorded(change), END))
                status = run("irig_mend", ["--format=B", "--expression=4", "--apply", "new.vcd", "rec.vcd"])[0]
                yield same("listings, " + name, (status, sum(map(int, text_of("counts").split()))), (0, 2))
                os.remove("counts")

    return in_folder(lambda: list(holds()))


def outside():
    """Pulses that belong to no frame are left: a line has their place, and so has the page, though there is no script."""
    def holds():
        status, printed, _ = run("irig_mend", ["--expression=4", "--apply", "new.vcd", "--page", "page.html", "rec.vcd"])
        lines = printed.decode().splitlines()
        yield same("the sums", (status, "0 repaired, 0 undecided, 1 left" in lines[0]), (1, True))
        line = "rec.vcd: left: at 8101000: pulses 801 to 803 of the repaired recording: pulses that belong to no frame"
        yield same("the line", lines[1:], [line])
        with open("page.html", encoding="utf-8") as file:
            page = json.loads(file.read().split('id="data">')[1].split("</script>")[0])
        yield same("the page", [(each["at"], "after" in each) for each in page["places"]], [(8101000, False)])
        yield same("there is no script", page["script"], [])

    pulses = recorded() + [[END + after, END + after + 2000] for after in (101000, 125000, 160000)]
    return in_folder(lambda: list(holds()), rec=damages.dump(pulses, END + 200000))


def seen_at(time, kind=DamageKind.WIDTH):
    return Damage(time, time + 10000, "frame X, element 1", "it is spoilt", kind=kind)


def named():
    """What is still damaged has a line of its own if neither a comment nor the frame of a repair that is not kept names it. What neither
    is a step nor is said to be undecided is left."""
    script = [Repair(1000000, ["undecided: here"], undecided=["undecided: here"]), Repair(5000000, ["stays: here"], kind=DamageKind.STEP)]
    not_kept = Refused(1, [Reason("not kept: frame 3 12:00:03 at 3000000 would change", 3000000)])
    times = (1000000, 2989999, 2990000, 3999999, 4000000)
    there = [*map(seen_at, times), seen_at(5000000, DamageKind.STEP), seen_at(6000000, DamageKind.STEP)]
    lines = without_line(there, script, not_kept, 10000)
    yield same("without a line", [each.at for each in lines], [2989999, 4000000, 6000000])
    yield same("the lines", left_lines(lines[:1]), ["left: at 2989999: frame X, element 1: it is spoilt"])
    yield same("left", [each.at for each in became_of([], there, script, 0).left], [2989999, 2990000, 3999999, 4000000])
    yield same("nothing is said of it", [each.at for each in without_line(there, [], Refused(0), 10000)], [each.at for each in there])


def places_that_became():
    """A place is repaired if nothing is damaged there now. One that became two is none that is repaired, and both are left; neither is one
    whose begin only moved, but one next to which another is left is. A comment names one place."""
    def became(found, there, script=()):
        now = became_of([seen_at(*each) for each in found], [seen_at(*each) for each in there], script, 50000)
        return [[each.at for each in places] for places in (now.repaired, now.steps, now.undecided, now.left, now.comments)]

    undecided = Repair(20000, ["undecided: here"], until=60000, undecided=["undecided: here"])
    step, moved = DamageKind.STEP, Repair(9000, [], ["9,$ shift 7000"], moves=[(9000, 7000, 0)])
    for name, found, there, script, wanted in (
            ("all repaired", [(0,), (20000,)], [], (), [[0, 20000], [], [], [], []]),
            ("one is repaired, and the next element is left", [(0,), (10000,)], [(10000,)], (), [[0], [], [], [10000], []]),
            ("one became two", [(0,), (90000,)], [(2000,), (8000,)], (), [[90000], [], [], [2000, 8000], []]),
            ("its begin moved", [(0,), (990000, step)], [(960000, step)], (), [[0], [960000], [], [], []]),
            ("one that was hidden", [(0,)], [(700000,)], (), [[0], [], [], [700000], []]),
            ("a comment on two places", [(20000,), (40000,)], [(20000,), (40000,)], [undecided], [[], [], [20000], [40000], []]),
            ("a comment on none", [(20000,)], [], [undecided], [[20000], [], [], [], [20000]]),
            ("the rest was moved", [(0,), (990000,)], [(997000,)], [moved], [[0], [], [], [997000], []])):
        yield same("became: " + name, became(found, there, script), wanted)


def lost_function(pulses):
    pulses.pop(64)  # a control function of the first frame: two frames are before none of it


def guesses():
    """What is undecided is counted as it is printed: a repair that is dropped is no guess."""
    def holds():
        status, printed, _ = run("irig_mend", ["--expression=4", "--apply", "new.vcd", "rec.vcd"])
        lines = printed.decode().splitlines()
        yield same("a guess", (status, "1 repaired (1 by a guess), 0 undecided" in lines[0], len(lines)), (0, True, 2))
        os.symlink(os.path.abspath(os.environ["IRIG_ED"]), "irig_ed")
        with open("irig_guard", "w", encoding="ascii") as file:
            file.write('#!/bin/sh\nwhile [ "$1" != --out ]; do shift; done; cp "$3" "$2"\n'
                       'sed "/^#/!s/^/# not kept: not a repair\\n# /"; exit 1\n')
        os.chmod("irig_guard", 0o755)
        with mock.patch.dict(os.environ, IRIG_ED=os.path.abspath("irig_ed")):
            lines = run("irig_mend", ["--expression=4", "--apply", "new.vcd", "rec.vcd"])[1].decode().splitlines()
        text = "rec.vcd: 1 place found, 0 repaired, 0 undecided, 1 left, 0 steps that stay, 1 line refused; 7 frames"
        place = "rec.vcd: left: at 640000: frame 2024-061T12:00:00, element 64: no pulse"  # the guard names none
        yield same("a guess that is dropped", (lines[0].startswith(text), lines[1:]), (True, ["rec.vcd: not kept: not a repair", place]))

    return in_folder(lambda: list(holds()), rec=damages.dump(recorded(lost_function), END))


def filled():
    """How many frames have control functions that are not in the recording: in a line, on the page and for programs."""
    def lost(pulses):
        pulses.pop(364)

    def holds():
        lines = run("irig_mend", ["--expression=4", "--apply", "new.vcd", "rec.vcd"])[1].decode().splitlines()
        yield same("a frame that was filled in", lines[1:], ["rec.vcd: control functions of 1 frame are not in the recording"])
        for words, wanted in ((["--page", "new.html"], 1), (["--move"], None)):
            printed = run("irig_mend", ["--expression=4", "--json", *words, "--apply", "new.vcd", "rec.vcd"])[1]
            yield same("for programs", json.loads(printed)["summary"]["filled"], wanted)
        with open("new.html", encoding="utf-8") as file:
            yield same("on the page", "<p>control functions of 1 frame are not in the recording</p>" in file.read(), True)

    return in_folder(lambda: list(holds()), rec=damages.dump(recorded(lost), END))


REFUSED = (
    ("--apply rec.vcd rec.vcd", "--apply rec.vcd would write over the file that is read"),
    ("--apply two.vcd --into two.vcd rec.vcd", "--apply two.vcd would write over the file that is read"),
    ("--save rec.vcd", "--save is only for --apply"),
    ("--into two.vcd rec.vcd", "--into is only for --apply"),
    ("--explain --apply new.vcd rec.vcd", "--explain and --apply exclude each other"),
    ("--explain --page new rec.vcd", "--explain and --page exclude each other"),
    ("--explain --json rec.vcd", "--explain and --json exclude each other"),
    ("--apply new.vcd --save --into two.vcd rec.vcd", "--save and --into exclude each other"),
    ("--apply - --out - rec.vcd", "--out - and --apply - are one file"),
    ("--apply new.vcd --into - rec.vcd", "standard input: is empty"),
    ("--apply new.vcd --into none.vcd rec.vcd", "none.vcd: No such file"),
    ("--apply none/new.vcd rec.vcd", "No such file or directory"),
    ("--apply new.vcd --into two.vcd rec.vcd", "several wires are named 'irig'"),
    ("--apply new.vcd two.vcd", "several wires carry time code, and --wire names one: ! (path top.rx.irig), % (path top.irig)"),
    ("--format E --expression 4 rec.vcd", "--format E has no expression 4; it has 1, 2, 5, 6"),
    ("--apply new.vcd junk.vcd", "no frame can be read in any format and expression; 'irig_what junk.vcd' says more"),
    ("--apply new.vcd --wire top.clk two.vcd", "no frame can be read"),
    ("--apply new.vcd --into short.vcd --wire irig rec.vcd", "8000000 microseconds long, and the dump is shorter"),
)


def refused():
    """Nothing is written, and one line says why."""
    def holds():
        before = sorted(os.listdir("."))
        for words, text in REFUSED:
            status, printed, said = run("irig_mend", words.split())
            yield same("irig_mend " + words, (status, printed, text in said, sorted(os.listdir("."))), (2, b"", True, before))

    named = damages.dump(recorded(), END).replace(" code ", " irig ")
    short = "$timescale 1 us $end $var wire 1 ! irig $end $enddefinitions $end #0 0! #9"
    return in_folder(lambda: list(holds()), rec=named, two=nanoseconds(recorded(), two=True), short=short,
                     junk=damages.dump([[5 * place, 5 * place + 2] for place in range(400)], 2000))


def objects_of(program, *words):
    """What a tool prints for programs."""
    return [json.loads(line) for line in run(program, [*words, "--json", "rec.vcd"])[1].splitlines()]


def members(found, *names):
    """These members of each object."""
    return [tuple(each[name] for name in names) for each in found]


def places_of_damage():
    """The objects of irig_damage, and what else it prints for programs."""
    yield same("irig_damage --json",
               members(objects_of("irig_damage", "--expression=4"), "kind", "pulses", "frames", "elements", "time", "step"),
               [("split", [302, 303], ["2024-061T12:00:03"] * 2, [1, 1], 3010000, None),
                ("step", [452, 452], ["2024-061T12:00:04"] * 2, [50, 50], 4503300, 3300)])
    for words, text in (
            ("--format=G", "most pulses do not follow each other by 100; is it another format, or another wire?"),
            ("--expression=2", "many frames have ones that expression 2 does not use; is it another expression?")):
        seen = {each["seen"] for each in objects_of("irig_damage", words) if each["kind"] == "format"}
        yield same("what fits " + words, seen, {text})
    yield same("--count", run("irig_damage", ["--expression=4", "--count", "rec.vcd"]), (1, b"2\n", ""))
    yield same("--quiet", run("irig_damage", ["--quiet", "rec.vcd"]), (1, b"", ""))


def places_of_repairs():
    """The objects of irig_mend, and its sums if it applies what it repairs."""
    found = objects_of("irig_mend", "--expression=4")
    yield same("irig_mend --json", members(found, "kind", "repair", "undecided", "step"),
               [("step", False, False, 3300), ("split", True, False, None)])
    lines = run("irig_mend", ["--expression=4", "rec.vcd"])[1].decode().splitlines()
    yield same("its script", found[1]["script"], [line for line in lines if line[0] != "#"])
    done, = objects_of("irig_mend", "--expression=4", "--apply", "new.vcd")
    yield same("the summary", done["summary"], {
        "found": 2, "repaired": 1, "undecided": 0, "left": 0, "steps": 1, "guessed": 0, "filled": 0, "off": 0, "refused": 0,
        "sound_before": 5, "sound_after": 6})
    yield same("what irig_time needs", members([done], "recording", "wire", "format", "expression"), [("rec.vcd", "code", "B", 4)])
    yield same("why something is left", [each.partition(":")[0] for each in done["reasons"]], ["stays"])


def code_that_is_found():
    """The object of irig_what."""
    each, = objects_of("irig_what")
    got = each["wire"], each["format"], each["fine"], each["inverted"], each["pulses"], each["command"].split()[0]
    yield same("irig_what --json", got, ("code", "B", 5, False, 801, "irig_mend"))


def objects():
    """What is printed for programs has the members of the manual pages."""
    return in_folder(lambda: [*places_of_damage(), *places_of_repairs(), *code_that_is_found()],
                     rec=damages.dump(recorded(both), END + 3300))


def rest_is_early(pulses):
    """Three pulses are lost, and the rest comes early, up to the end of the recording."""
    tools.moved(pulses, 430, -3300)
    del pulses[427:430]


def of_a():
    """Eight tenths of a second of format A, whose frames have tenths; the pulse of element 45 of the fourth is lost."""
    start, pulses = (tools.DAY, tools.NOON), []
    for number in range(8):
        for name in timecode.encode("A", 4, timecode.generated("A", start, number, 0)):
            pulses.append([1000 * len(pulses), 1000 * len(pulses) + timecode.nominal(1000, name)])
    return pulses[:345] + pulses[346:]


# a command, and the kind, the pulses, the frames, the elements and the step of each place
ENDS = (
    ("irig_damage drop.vcd", [("stretch", [418, 418], ["2024-061T12:00:04"] * 2, [17, 30], None)]),
    ("irig_mend drop.vcd", [("stretch", [418, 418], ["2024-061T12:00:04"] * 2, [17, 30], None)]),
    ("irig_damage early.vcd", [("step", [428, 428], ["2024-061T12:00:04"] * 2, [30, 30], -3300)]),
    ("irig_mend --move early.vcd", [("step", [428, 428], ["2024-061T12:00:04"] * 2, [30, 30], -3300)]),
    ("irig_damage control.vcd", [("control", None, ["2024-061T12:00:03"] * 2, [64, 64], None)]),
    ("irig_damage a.vcd", [("missing", None, ["2024-061T12:00:00.30"] * 2, [45, 45], None)]),
    ("irig_mend control.vcd", [("control", None, ["2024-061T12:00:03"] * 2, [64, 64], None)]),
)


def ends():
    """What a place concerns goes from its first to its last frame, element and pulse, also if the text does not name them."""
    def holds():
        for command, wanted in ENDS:
            program, *words = command.split()
            kind = "A" if words[-1] == "a.vcd" else "B"
            printed = run(program, ["--format", kind, "--expression=4", "--json", *words])[1]
            got = members(map(json.loads, printed.splitlines()), "kind", "pulses", "frames", "elements", "step")
            yield same(command, got, wanted)

    made = {name: recorded(change) for name, change in (("drop", dropout), ("early", rest_is_early), ("control", function))}
    made["a"] = of_a()
    return in_folder(lambda: list(holds()), **{name: damages.dump(pulses, pulses[-1][1]) for name, pulses in made.items()})


def kinds():
    """Each place of a worked row of damage has a kind; what is undecided is counted as the lines say."""
    def holds():
        for name, change, length, wanted in tools.ROWS:
            pulses = tools.recording()
            change(pulses)
            with open("row.vcd", "w", encoding="utf-8") as file:
                file.write(damages.dump(pulses, length))
            words = ["--expression=4", "row.vcd"]
            found = [json.loads(line) for line in run("irig_damage", ["--json", *words])[1].splitlines()]
            yield same("the kinds of " + name, (len(found), "other" in [each["kind"] for each in found]), (len(wanted), False))
            told = run("irig_mend", ["--apply", "mended.vcd", *words])[1].decode()
            counted = [int(re.search(r"(\d+) %s" % each, told)[1]) for each in ("undecided", "step")]
            said = [sum(line.startswith("row.vcd: %s: " % each) for line in told.splitlines()) for each in ("undecided", "stays")]
            yield same("the count of " + name, counted, said)
        changing = tools.recording(12)
        for frame in (4, 7, 8):
            changing[100 * frame + 74][1] += 3000
        del changing[674]
        with open("row.vcd", "w", encoding="utf-8") as file:
            file.write(damages.dump(changing, 12000000))
        told = run("irig_mend", ["--json", "--apply", "guessed.vcd", "--expression=4", "row.vcd"])[1]
        counted = json.loads(told)["summary"]
        yield same("a guess", (counted["undecided"], counted["guessed"]), (0, 1))

    return in_folder(lambda: list(holds()))


def cases(top):
    """Each part by its name."""
    return [*(case("apply: " + row[0], applied, *row) for row in APPLIED),
            *(case("apply: " + part.__name__, part)
              for part in (into, not_read, options_of_a_script, late_times, saved, page_alone, one_line, cut, growing, upside_down, steady,
                           guarded, unjudged, listings, outside, named, places_that_became, guesses, filled, refused, objects, ends,
                           kinds))]
