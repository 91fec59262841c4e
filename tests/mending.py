"""One recording damaged, mended and judged; tests/tools runs many of them."""
import copy
import os
import re
import subprocess
import sys
import tempfile

sys.dont_write_bytecode = True

from built import TOP  # noqa: E402

sys.path.insert(0, os.path.join(TOP, "tools"))

from irig_tools import editor, mend  # noqa: E402
from random_input import damages  # noqa: E402

WHOLE, TOLD, HIDDEN, LEFT, WRONG, REFUSED = "whole", "told", "hidden", "left", "wrong", "refused"


class Case:
    """A recording, undamaged and damaged."""

    def __init__(self, rng, frames=None):
        self.rng, self.recording = rng, damages.Recording(rng, frames)
        self.interval = self.recording.interval
        self.pulses = copy.deepcopy(self.recording.pulses)
        self.length = self.damaged_length = self.recording.length
        self.exact = True  # whether the undamaged edges are to come back
        self.late = []  # by how much a rest was late, each time
        self.steady = False  # whether irig_mend has to assume that control functions never change
        self.move = False  # whether it has to move the rest, as if the time code alone had slipped
        self.gone = 0  # elements that are cut out; what follows comes at once

    def damage(self, kinds, many):
        """`many` damages, one each time from these kinds."""
        self.move = self.move or damages.late_rest in kinds
        for _ in range(many):
            if len(self.pulses) < 400:
                return
            kind = self.rng.choice(kinds)
            last = self.pulses[-1][0]
            kind(self.rng, self.pulses, self.interval)
            if kind is damages.late_rest:
                self.late.append(self.pulses[-1][0] - last)
                self.damaged_length += self.late[-1]
            damages.tidy(self.pulses, self.damaged_length)

    def drift(self, rate):
        """The clock is off in truth as well."""
        for pulses in (self.recording.pulses, self.pulses):
            length = damages.drift(pulses, self.length, rate)
        self.damaged_length, self.length, self.exact = length, length, False

    def jitter(self, share):
        damages.jitter(self.rng, self.pulses, self.interval, share)
        self.exact = False
        damages.tidy(self.pulses, self.damaged_length)


def listed(options, path, script):
    """What the editor says after a script: its refusals, its frames without their numbers, and its pulses."""
    lines = script + "frames\ninfo\n,list\n"
    done = subprocess.run(
        [editor.find_editor(), *options, path], input=lines, stdout=subprocess.PIPE, text=True
    )
    said, _, pulses = done.stdout.rpartition("length ")
    answers = said.splitlines()
    frames = [line.split(" ", 3)[2:] for line in answers if not line.startswith("?")]
    edges = [tuple(map(int, line.split()[1:3])) for line in pulses.splitlines()[1:]]
    return [line for line in answers if line.startswith("?")], [(int(at), text) for at, text in frames], edges


def time_of(text):
    """What a frame shows without its control functions and its note."""
    words = text.split()
    return words[: words.index("control")] if "control" in words else words[:-1]


def of_frames(case, fine, found, stays):
    """The worst that can be said of the frames that were found, by those that are fine in truth; `stays` says whether the script leaves
    one as it was recorded."""
    near, verdict = case.interval * 45 // 100, TOLD
    for at, text in found:
        truth = [true for when, true in fine if near >= min(abs(when - at), abs(when - case.gone * case.interval - at))]
        if time_of(text) not in map(time_of, truth):
            late = any(time_of(true) == time_of(text) and is_late(case, at - when) for when, true in fine)
            if not late and not stays((at, text)):
                return WRONG
            verdict = LEFT
        elif text not in truth and verdict != LEFT:
            verdict = HIDDEN
    return verdict


def judge(case, options, true_path, damaged_path, script):
    """How well a script repairs the damaged recording."""
    refused, frames, edges = listed(options, damaged_path, script)
    if refused:
        return REFUSED
    _, true_frames, true_edges = listed(options, true_path, "")
    if edges == true_edges:
        return WHOLE
    fine, found = ([(at, text) for at, text in each if text.endswith("fine")] for each in (true_frames, frames))
    verdict = of_frames(case, fine, found, lambda frame: is_left(case, options, damaged_path, script, frame))
    if verdict == WRONG:
        return WRONG
    if case.gone:
        return TOLD if says_cut(case, script) else LEFT
    if len(found) < len(fine):
        return LEFT
    return WHOLE if verdict == TOLD and not case.exact else verdict


def is_left(case, options, damaged_path, script, frame):
    """Whether a frame is as it was recorded, and the script says that it contradicts the others: damage can look as if the clock had been
    set. irig_time gives no sample a time by it alone."""
    named = [int(at) for at in re.findall("undecided: at ([0-9]+): frame [^;]*: [0-9]+ elements? contradicts? ", script)]
    recorded = any(text == frame[1] for _, text in listed(options, damaged_path, "")[1])
    return recorded and any(abs(at - frame[0]) < case.interval for at in named)


def is_late(case, by):
    """Whether a frame is late by what some of the late rests add up to: it is where the damage moved it."""
    sums = {0}
    for late in case.late:
        sums |= {each + late for each in sums}
    return any(abs(by - each) <= case.interval * 45 // 100 for each in sums)


def says_cut(case, script):
    """Whether the script says how many elements are missing, and makes nothing up."""
    said = re.findall(
        r"(\d+) elements are missing (by the times|not counting)",
        script.replace("missing, not", "missing not"),
    )
    clock = re.findall(r"times are ([0-9.]+) seconds later", script)
    return any(
        int(many) == (case.gone if by == "by the times" else case.gone % 100) for many, by in said
    ) or any(abs(float(seconds) * 1000000 - case.gone * case.interval) < case.interval for seconds in clock)


def mended(case, through=None):
    """Damages are in the case: the verdict, and the script; `through` makes it of the repairs that irig_mend proposes."""
    options = case.recording.options()
    with tempfile.TemporaryDirectory() as folder:
        true_path, damaged_path = os.path.join(folder, "true.vcd"), os.path.join(folder, "damaged.vcd")
        for path, pulses, length in (
            (true_path, case.recording.pulses, case.length),
            (damaged_path, case.pulses, case.damaged_length),
        ):
            with open(path, "w") as file:
                file.write(damages.dump(pulses, length))
        opened = editor.Editor([*options, damaged_path])
        repairs = mend.propose(opened, lambda text: None, case.steady, case.move)
        script = through(options, damaged_path, repairs) if through else mend.script_text(repairs)
        return judge(case, options, true_path, damaged_path, script), script
