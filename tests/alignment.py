"""The time of data next to a time code, before and after a repair: nothing may be worse.

A sample of data is in a frame that is fine if it comes from the frame's marker on, and before one frame of time is
over. Its time is that of the marker and what has passed since. It is right if it is the sample's true moment to a
hundredth of an interval. A repair makes a sample worse if its time was right and is wrong or missing afterwards, or if
it had no time and gets a wrong one. It makes a frame wrong if the frame is fine, shows another time than its marker
truly had, and did not show that before.
"""
import os
import re
import tempfile
from bisect import bisect_right
from dataclasses import dataclass, field

import mending
from irig_tools import damage, editor, mend
from random_input import damages, recorders

NEAR = 100  # a time that is off by less than the interval by this is right
FINEST = 5  # microseconds: what no hole of three frames shows if the clock is off


@dataclass
class Harm:
    """What a script did."""

    worse: int = 0  # samples whose time was right and is not, or that got a wrong one
    better: int = 0  # samples that had no time, or a wrong one, and got a right one
    samples: int = 0
    wrong_before: int = 0
    wrong_after: int = 0
    frames: int = 0  # frames that were made wrong
    unfounded: int = 0  # control functions that are filled in wrongly, with a reason
    guessed: int = 0  # those filled in wrongly as undecided
    right: int = 0  # those filled in rightly
    refused: int = 0
    script: str = ""
    notes: list = field(default_factory=list)


class Shown:
    """The frames that are fine, and the time that each shows, as a true moment of its marker."""

    def __init__(self, frames, moments, interval, slow):
        """`slow` is by how much longer the recorder's microseconds are."""
        self.slow, self.frame = slow, 100 * interval * slow
        self.fine = [(at, text, moments.get(plain(text))) for at, text in frames if text.endswith("fine")]
        self.starts = [at for at, _, _ in self.fine]

    def error(self, where, moment):
        """By how much the time of a sample is off; None if it has none, and much if the time is not of this
        recording."""
        at = bisect_right(self.starts, where) - 1
        if at < 0 or where - self.starts[at] >= self.frame:
            return None
        shown = self.fine[at][2]
        return 1 << 60 if shown is None else abs(shown + (where - self.starts[at]) / self.slow - moment)


def plain(text):
    return " ".join(mending.time_of(text))


class Case:
    """A signal, what a recorder kept of it, and damage of the time code alone."""

    def __init__(self, rng, recording, slips=(), gap=None, slow=1):
        self.recording, self.slow = recording, slow
        self.tape = recorders.Tape(recording.length, slips)
        self.slips = slips
        code = [[rise, fall] for rise, fall in recording.pulses]
        if gap:
            code = [pulse for pulse in code if not gap[0] <= pulse[0] < gap[1]]
        self.pulses, self.length = self.tape.pulses(code), self.tape.length
        self.samples = self.tape.samples(rng)
        self.damage(rng, rng.choice((0, 0, 1, 3)))
        if slow != 1:
            self.length = damages.drift(self.pulses, self.length, slow - 1)
            self.samples = [(round(where * slow), moment) for where, moment in self.samples]

    def damage(self, rng, many):
        """Damage of the time code at that many places."""
        for _ in range(many):
            rng.choice(damages.PLACES)(rng, self.pulses, self.recording.interval)
            damages.tidy(self.pulses, self.tape.length)


# what a recorder did


def slipped(rng):
    """The whole recorder slipped once."""
    recording = damages.Recording(rng, rng.randint(9, 30))
    return Case(rng, recording, recorders.slips(rng, recording, 1))


def several(rng):
    """It slipped in several places."""
    recording = damages.Recording(rng, rng.randint(14, 30))
    return Case(rng, recording, recorders.slips(rng, recording, rng.randint(2, 5)))


def hole(rng):
    """It slipped within a hole of the time code, so that the rest is early or late."""
    recording = damages.Recording(rng, rng.randint(9, 30))
    begin, end, slip = recorders.hole(rng, recording)
    return Case(rng, recording, [slip], (begin, end))


def slow(rng):
    """The same on a recorder whose clock is off."""
    recording = damages.Recording(rng, rng.randint(9, 30))
    begin, end, slip = recorders.hole(rng, recording)
    return Case(rng, recording, [slip], (begin, end), 1 + rng.choice((-1, 1)) * rng.choice((0.0002, 0.002, 0.01)))


def hardly_slow(rng):
    """The same on a clock that is off as those of recorders are."""
    recording = damages.Recording(rng, rng.randint(9, 30))
    begin, end, slip = recorders.hole(rng, recording)
    return Case(rng, recording, [slip], (begin, end), 1 + damages.millionths(rng))


def changing(rng):
    """Control functions change from frame to frame, and some are lost."""
    recording = recorders.Changing(rng, rng.randint(9, 40))
    while not recording.controls():
        recording = recorders.Changing(rng, rng.randint(9, 40))
    case = Case(rng, recording)
    recorders.without_controls(rng, recording, case.pulses, rng.randint(1, 8))
    return case


def step_is_seen(rng):
    """Whether a step of any size has a line if it is as large as the page says, and a much smaller one has none."""
    recording = damages.Recording(rng, rng.randint(9, 30))
    pulses, interval = recording.pulses, recording.interval
    share = rng.choice((0, 0, 0.002, 0.01))
    if share:
        damages.jitter(rng, pulses, interval, share)
    # half of the distances are off by more than 0.586 of the jitter; the limit is five times that, from whole microseconds
    exactly, rounded = 2.93 * share * interval, 5 * round(0.586 * share * interval)
    least, most = max(2, min(exactly, rounded)), max(2, exactly, rounded)
    # a step of a whole interval is an element that is missing, or there twice
    large = (min(size * most, 0.45 * interval) for size in (1.4, 2, 5, 20))
    by = round(rng.choice((0.3 * least, 0.4 * least, *large))) * rng.choice((-1, 1))
    at = rng.randrange(120, len(pulses) - 120)
    for pulse in pulses[at:]:
        pulse[0], pulse[1] = pulse[0] + by, pulse[1] + by
    lines = " ".join(each.seen for each in _damage(recording, pulses, recording.length + max(0, by)))
    seen = re.findall(r"on all comes (\d+) (late|early)", lines)
    if abs(by) < least:
        return not seen
    way = "late" if by > 0 else "early"
    return len(seen) == 1 and seen[0][1] == way and abs(int(seen[0][0]) - abs(by)) <= most


def _damage(recording, pulses, length):
    damages.tidy(pulses, length)
    with tempfile.NamedTemporaryFile("w", suffix=".vcd") as file:
        file.write(damages.dump(pulses, length))
        file.flush()
        return damage.look(editor.Editor([*recording.options(), file.name]), lambda text: None).damages


def silence_is_sound(rng):
    """Whether silence at the ends of a sound recording is no damage."""
    recording = damages.Recording(rng)
    before, after = (rng.randrange(3000) * recording.interval // 100 for _ in range(2))
    pulses = [[rise + before, fall + before] for rise, fall in recording.pulses]
    return all(each.is_remark for each in _damage(recording, pulses, recording.length + before + after))


# what a repair did


def as_it_is(_options, _path, repairs):
    """The script of some repairs."""
    return mend.script_text(repairs)


def judged(case, move=False, through=as_it_is):
    """What the script that irig_mend proposes does to the data, or what `through` makes of its repairs."""
    options = case.recording.options()
    with tempfile.TemporaryDirectory() as folder:
        true_path, path = os.path.join(folder, "true.vcd"), os.path.join(folder, "damaged.vcd")
        for name, pulses, length in (
            (true_path, case.recording.pulses, case.recording.length),
            (path, case.pulses, case.length),
        ):
            with open(name, "w") as file:
                file.write(damages.dump(pulses, length))
        opened = editor.Editor([*options, path])
        repairs = mend.propose(opened, lambda text: None, **({"move": True} if move else {}))
        script = through(options, path, repairs)
        _, true_frames, _ = mending.listed(options, true_path, "")
        _, before, _ = mending.listed(options, path, "")
        refused, after, edges = mending.listed(options, path, script)
    harm = Harm(script=script, refused=len(refused))
    interval = case.recording.interval
    _count_controls(harm, case, edges, repairs)
    moments = {plain(text): at for at, text in true_frames}
    shown = [Shown(frames, moments, interval, case.slow) for frames in (before, after)]
    _count_samples(harm, case, *shown, interval)
    _count_frames(harm, case, *shown, interval)
    return harm


def _count_samples(harm, case, before, after, interval):
    near = max(interval / NEAR, FINEST if case.slow != 1 else 0)
    for where, moment in case.samples:
        was, now = before.error(where, moment), after.error(where, moment)
        harm.samples += 1
        harm.wrong_before += was is not None and was > near
        harm.wrong_after += now is not None and now > near
        right_before, right_after = was is not None and was <= near, now is not None and now <= near
        worse = (right_before and not right_after) or (was is None and now is not None and now > near)
        if worse:
            harm.notes.append("sample at %d: %s, then %s" % (where, was, now))
        harm.worse += worse
        harm.better += right_after and not right_before


def _count_controls(harm, case, edges, repairs):
    """Control functions that were damaged and are filled in. Only a recorder that does not slip is judged."""
    if case.slips:
        return
    sound, after = set(map(tuple, case.pulses)), dict(edges)
    undecided = [(repair.at, max(repair.at, repair.until)) for repair in repairs if repair.guesses]
    for rise, fall in case.recording.controls():
        if rise in after and not {(rise, fall), (rise, after[rise])} & sound:
            if abs(after[rise] - fall) < case.recording.interval // 10:
                harm.right += 1
            elif any(begin <= rise <= end for begin, end in undecided):
                harm.guessed += 1
            else:
                harm.unfounded += 1
                harm.notes.append("control function at %d" % rise)


def _count_frames(harm, case, before, after, interval):
    known = {(at, text) for at, text, _ in before.fine}
    near = interval // 10
    for at, text, shown in after.fine:
        true = case.tape.moments(at / case.slow, near)
        if shown is None or all(abs(shown - each) > near for each in true):
            if (at, text) not in known:
                harm.frames += 1
                harm.notes.append("frame at %d: %s" % (at, text))
