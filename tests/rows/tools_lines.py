"""Rows for the lines that irig_mend prints: what is typed as they say does what they say. docs/LINES.md has them."""
import json
import os
import random
import re
import subprocess
from unittest import mock

from cases import case
from irig_tools import damage_program, mend_program, recounted
from irig_tools.guess import Guess, guess_lines
from irig_tools.script import Repair
from random_input import damages
from rows import in_process
from rows.in_process import run
from rows.tools_apply import both, in_folder, recorded, same, text_of
from rows.tools_rare import signal

in_process.MAINS.update(irig_damage=damage_program.main, irig_mend=mend_program.main)
CODE = ["--format=B", "--expression=4"]
FRAMES = 60
LEFT_OUT = re.compile(r"undecided: at ([0-9]+): with these lines .*, so they are left out: (.*)")


def spoilt(rng):
    """A recording: what is in it once all is repaired, and as it is. Pulses are lost and there twice in some frames; in others, which stay
    fine, one rises late."""
    whole = signal(FRAMES)
    pulses = [list(pulse) for pulse in whole]
    frames = rng.sample(range(2, FRAMES - 2, 3), 12)
    for frame in frames[:6]:
        rise, fall = pulses[100 * frame + rng.choice((31, 40, 62, 77))]
        pulses[pulses.index([rise, fall])][:] = rng.choice(([0, 0], [rise, rise + 700, fall - 600, fall]))
    for frame in frames[6:]:
        pulses[100 * frame + rng.randint(2, 97)][0] += rng.randint(500, 950)
    edges = [edge for pulse in pulses for edge in pulse if pulse[1]]
    return whole, list(zip(edges[::2], edges[1::2]))


def edges_in(name):
    """The edges of a dump of irig_ed."""
    return [int(word[1:]) for word in text_of(name).partition("$dumpvars")[2].split() if word[0] == "#" and word != "#0"]


def typed(name, lines):
    """What irig_ed answers to these lines between two looks at the frames, and the edges that it writes."""
    script = "frames\n%s\nframes\nwrite\n" % "\n".join(lines)
    done = subprocess.run([os.environ["IRIG_ED"], *CODE, "--out", "typed.vcd", name], input=script, capture_output=True, text=True,
                          check=False)
    fine = [sum(line.endswith(" fine") for line in part) for part in parted(done.stdout.splitlines())]
    return [line for line in done.stdout.splitlines() if line[0] == "?"], fine, edges_in("typed.vcd")


def parted(answers):
    """The two lists of frames: the second begins with the first frame."""
    second = next(at for at, line in enumerate(answers) if at and line.startswith("1 "))
    return answers[:second], answers[second:]


def left_out(texts):
    """When the lines that are left out are, and the lines, from the last to the first as in a script."""
    found = [match for text in texts for match in [LEFT_OUT.search(text)] if match]
    return [(int(match[1]), match[2].split("; ")) for match in sorted(found, key=lambda match: -int(match[1]))]


def numbers_typed():
    """The lines of what is undecided, typed on the repaired recording, repair the frame and lose none; those of a script, before it on the
    recording as it is. In windows they are the same."""
    for number in range(6):
        whole, pulses = spoilt(random.Random("typed %d" % number))
        text = damages.dump(pulses, 1000000 * FRAMES)

        def holds():
            printed = run("irig_mend", [*CODE, "--apply", "new.vcd", "rec.vcd"])[1].decode().splitlines()
            found = left_out(printed)
            yield same("how many", len(found), 6)
            wanted = [edge for pulse in whole for edge in pulse if edge][:-1]
            refused, fine, edges = typed("new.vcd", [line for _, lines in found for line in lines])
            yield same("on the repaired recording", (refused, fine, edges[:len(wanted)] == wanted), ([], [59, 59], True))
            with mock.patch.dict(os.environ, IRIG_WINDOW="3200"):
                in_windows = run("irig_mend", [*CODE, "--apply", "new.vcd", "rec.vcd"])[1].decode().splitlines()
            yield same("in windows", left_out(in_windows), found)

        yield from in_folder(lambda: list(holds()), rec=text)


def numbers_in_windows():
    """A window that is read from the middle of the recording on counts its pulses from the beginning of the recording. A pulse that is in
    two comes before all but the first of the rises that are late."""
    places, late = (2050, 15050, 25350), [list(pulse) for pulse in signal(270)]
    for place in places:
        late[place][0] += 700
    rise, fall = late[2231]
    late[2231:2232] = [[rise, rise + 700], [fall - 600, fall]]

    def holds():
        for size in ({}, {"IRIG_WINDOW": "3200"}):
            with mock.patch.dict(os.environ, size):
                printed = run("irig_mend", [*CODE, "--apply", "new.vcd", "rec.vcd"])[1].decode().splitlines()
            found = [int(number) for _, lines in left_out(printed)[::-1] for number in {line.split()[0] for line in lines}]
            yield same("the pulses, with %s" % size, found, [place + 1 for place in places])
        with mock.patch.dict(os.environ, IRIG_WINDOW="3200"):
            windows = run("irig_wire", ["--windows", "rec.vcd"])[1].decode().splitlines()
        yield same("a window begins in the middle", windows[-1].split()[0] != "0", True)

    return in_folder(lambda: list(holds()), rec=damages.dump(late, 270000000))


def numbers_of_a_step():
    """A pulse is cut in two before the rest comes late: from pulse 452 on in the recording, and from pulse 451 on in the repaired one."""
    def said(lines):
        return [found[0] for line in lines for found in [re.search("from pulse [0-9]+ at [0-9]+ on all comes 3300 late", line)] if found]

    def holds():
        for number, words in ((452, ["irig_mend", *CODE, "rec.vcd"]), (451, ["irig_mend", *CODE, "--apply", "new.vcd", "rec.vcd"]),
                              (452, ["irig_damage", *CODE, "rec.vcd"]), (451, ["irig_damage", *CODE, "new.vcd"])):
            lines = run(words[0], words[1:])[1].decode().splitlines()
            yield same(" ".join(words), said(lines), ["from pulse %d at 4503300 on all comes 3300 late" % number])
        found = [json.loads(line) for line in run("irig_mend", [*CODE, "--json", "rec.vcd"])[1].splitlines()]
        yield same("for programs", [each["pulses"] for each in found if each["kind"] == "step"], [[452, 452]])

    return in_folder(lambda: list(holds()), rec=damages.dump(recorded(both), 8003300))


def numbers_that_are_said():
    """Two pulses more are before those of a line, which is also three seconds later; what is counted from a mark, and how many frames
    are made, stays."""
    before = "pulses 3 to 4, pulse 9: 2 pulses where one has to be; 12 delete; 9,10 join; 8 split 30 40; 7,$ shift -5; 6 force one; " \
             "mark z 11; 'z+1,'z+3 delete; 'z,$ shift 5; unmark z; insert 20 30; regen 50 2 2024-061T12:00:00"
    after = "pulses 5 to 6, pulse 11: 2 pulses where one has to be; 14 delete; 11,12 join; 10 split 30 40; 9,$ shift -5; 8 force one; " \
            "mark z 11; 'z+1,'z+3 delete; 'z,$ shift 5; unmark z; insert 20 30; regen 50 2 2024-061T12:00:00"
    yield same("the numbers", recounted.counted_on(before, 2), after)
    lines = ["8 split 30 40", "mark z 11", "'z shift 5", "insert 20 30", "regen 50 2 2024-061T12:00:00"]
    dropped = Repair(25, [], lines, ahead=7).left_out("this and that")
    move = Repair(10, [], ["1,$ shift 3000000"], moves=[(10, 3000000, 0)])
    found = recounted.in_repaired([dropped, move], [0] * 9 + [3000025])[0]
    wanted = "undecided: at 3000025: with these lines this and that, so they are left out: 10 split 3000030 3000040; mark z 3000011; " \
             "'z shift 5; insert 3000020 3000030; regen 3000050 2 2024-061T12:00:00"
    yield same("the times", (found.at, found.undecided), (3000025, [wanted]))
    yield same("in the recording", recounted.in_recording([dropped, move], [0] * 8)[0].undecided[0].partition("out: ")[2][:7], "9 split")
    long = Repair(0, [], ["%d force position" % number for number in range(100, 120)]).left_out("this")
    yield same("lines are whole", long.undecided[0].partition("out: ")[2],
               "; ".join("%d force position" % number for number in range(100, 110)) + "; and 10 more")


GUESSED = r"frame \S+T12:00:20 to frame \S+T12:00:22, elements 60, 61, from 20600000 to 22610000: 6 are guesses: " \
          "nothing says whether each was zero or one"


def order_of_lines():
    """A hole with two control functions in three frames that nothing decides, a step, and a rise that is left to a person: the guesses
    are one line and come first, and what a person has to decide comes last. The line of a folder has that."""
    whole = signal(FRAMES, control=lambda k: 3 * k % 4)
    pulses = whole[:2050] + whole[2270:4033] + [[whole[4033][0] + 700, whole[4033][1]]] + whole[4034:]
    pulses = pulses[:-1000] + [[rise + 3300, fall + 3300] for rise, fall in pulses[-1000:]]

    def holds():
        lines = run("irig_mend", [*CODE, "--apply", "new.vcd", "rec.vcd"])[1].decode().splitlines()
        yield same("the guesses are repaired, and count as that", lines[0].partition("; ")[0],
                   "rec.vcd: 3 places found, 1 repaired (1 by a guess), 1 undecided, 0 left, 1 step that stays")
        found = [line.partition("rec.vcd: ")[2] for line in lines[1:]]
        yield same("what comes after the sums", [line.partition(": ")[0] if line[0] != "f" else "frame" for line in found],
                   ["control functions of 3 frames are not in the recording", "frame", "stays", "undecided"])
        yield same("the guesses", bool(re.fullmatch(GUESSED, found[1])), True)
        os.mkdir("in")
        os.rename("rec.vcd", "in/rec.vcd")
        lines = run("irig_mend", [*CODE, "--jobs=1", "--apply-to", "out", "in"])[1].decode().splitlines()
        yield same("of a folder", [line.split()[1] for line in lines if line.startswith("rec.vcd: ")], ["undecided:"])

    return in_folder(lambda: list(holds()), rec=damages.dump(pulses, 1000000 * FRAMES + 3300))


def lines_of_guesses():
    """One line for each hole and what there is to go by, whatever the moment in another recording."""
    nothing = "nothing says whether it was zero or one"
    looks = "it looks like a one here, and is a zero in b.vcd at %d.000000 s"
    found = [Guess(1000000 * frame + 10000 * element, hole, "frame %d" % frame, element, "zero", why) for frame, element, hole, why in (
        (3, 60, 50, nothing), (3, 62, 50, looks % 8), (3, 61, 50, nothing), (4, 60, 50, nothing), (4, 62, 50, looks % 9),
        (4, 64, 50, nothing), (4, 65, 50, nothing), (4, 66, 50, nothing), (7, 60, 90, nothing), (8, 62, 95, looks % 7))]
    yield same("the lines", guess_lines(found[::-1]), [
        "frame 3 to frame 4, elements 60, 61, 64 to 66, from 3600000 to 4660000: 6 are guesses: "
        "nothing says whether each was zero or one",
        "frame 3 to frame 4, element 62, from 3620000 to 4620000: 2 are guesses: "
        "each looks like a one here, and is a zero in b.vcd at 8.000000 s and later",
        "frame 7, element 60, at 7600000: this zero is a guess: " + nothing,
        "frame 8, element 62, at 8620000: this zero is a guess: " + looks % 7])


def cases(top):
    """Each kind by its name."""
    return [case("lines: " + name, holds) for name, holds in (
        ("numbers that are typed", numbers_typed), ("numbers in windows", numbers_in_windows),
        ("numbers of a step", numbers_of_a_step), ("numbers that are said", numbers_that_are_said),
        ("their order", order_of_lines), ("guesses", lines_of_guesses))]
