"""One recorder mended with another one's recording, and judged: its frames, and the time of each moment by irig_time.

A frame is had by a recorder if it is fine and as it was sent. Each that either of them has, and that lies within the mended
recording, has to be in it as it was sent. No moment may get a wrong time.
"""
import os
import re
import subprocess
import tempfile
from dataclasses import dataclass, field

import mending
from built import TIME
from irig_tools import mend_program
from random_input import damages, pairs
from reference import timecode
from rows import in_process

in_process.MAINS.update(irig_mend=mend_program.main)
SAMPLES = 200
UNITS = (None, 100, 10)  # nanoseconds, of the other recording
DIFFERS = re.compile(" (is|are) recorded here|it looks like a ")
SHOWN = re.compile(r"(\d{3})T(\d\d):(\d\d):(\d\d\.\d{6})\s")


@dataclass
class Judged:
    """What became of a recording: frames by what they show, and samples."""

    had: set  # by either, and within the recording
    before: set  # of these, those that the recording had before
    after: set  # that are fine in the mended one
    samples: int = 0  # that have a time
    gained: int = 0
    wrong: list = field(default_factory=list)  # samples, and frames at another place or with another time
    said: str = ""
    parity: bool = False  # whether one element says something of those before it

    @property
    def missing(self):
        """Frames that one of them has, and the mended one not."""
        return self.had - self.after

    @property
    def dropped(self):
        """Those of the missing frames that irig_guard left as they were: it dropped a repair that mends them, perhaps with others."""
        times = {tuple(mending.time_of(text)) for text in self.after}
        return {text for text in self.missing if "not kept: " in self.said and tuple(mending.time_of(text)) not in times
                or "not kept: frame %s %s at " % tuple(text.split()[:2]) in self.said}

    @property
    def doubtful(self):
        """Those in which both have recorded something else, and nothing else says what was sent. The same two files come of a signal that
        is another one there, damaged in the other recorder alone; so no tool is right for both. Each has a line."""
        lines = [line for line in self.said.splitlines() if DIFFERS.search(line) and self._is_open(line)]
        return {text for text in self.missing if any("T".join(text.split()[:2]) in line for line in lines)}

    def _is_open(self, line):
        """Whether no parity is of the elements that a line names."""
        return not self.parity or all(int(element) > pairs.PARITY for element in re.findall(r"element (\d+)", line))


def frames_of(options, path):
    """The frames of a file that are fine, and where they begin."""
    return {text: at for at, text in mending.listed(options, path, "")[1] if text.endswith("fine")}


def seconds_of(text):
    """The day and the second of a frame, or of a line of irig_time."""
    day, clock = text.split()[:2] if " " in text else text.split("T")
    hours, minutes, rest = clock.split(":")
    return int(day) * 86400 + int(hours) * 3600 + int(minutes) * 60 + float(rest)


def times_by(options, path, moments):
    """The time that irig_time gives each moment, or None."""
    lines = "".join("%d\n" % each for each in moments)
    done = subprocess.run([TIME, *options, path], input=lines, capture_output=True, text=True, check=False)
    found = [SHOWN.search(line) for line in done.stdout.splitlines()]
    return [each and (int(each[1]) * 24 + int(each[2])) * 3600 + int(each[3]) * 60 + float(each[4]) for each in found]


def written(folder, name, text):
    path = os.path.join(folder, name)
    with open(path, "w", encoding="ascii") as file:
        file.write(text)
    return path


def mended(folder, options, *words):
    """What irig_mend prints and says."""
    status, printed, said = in_process.run("irig_mend", [*options, *words, os.path.join(folder, "here.vcd")])
    return printed.decode() + said if status in (0, 1) else "status %d: %s" % (status, said)


def judged(rng, with_other=True):
    """One pair; if not `with_other`, the other recording is not given."""
    unit = rng.choice(UNITS)
    signal, (here, other) = pairs.pair(rng)
    options = signal.options()
    with tempfile.TemporaryDirectory() as folder:
        path, new = written(folder, "here.vcd", here.dump()), os.path.join(folder, "new.vcd")
        words = ["--with", written(folder, "other.vcd", other.dump(unit))] if with_other else []
        said = mended(folder, options, "--apply", new, *words)
        begun, after = frames_of(options, path), frames_of(options, new)
        there, true, sent = (frames_of(options, written(folder, "a.vcd", text)) for text in (
            other.dump(), here.dump(true=True), damages.dump(signal.pulses, signal.length)))
        whole = set(true) & set(sent)
        found = Judged((set(begun) | set(there)) & whole, set(begun) & whole, set(after), said=said, parity=signal.parity is not None)
        found.wrong += wrong_frames(signal, after, true, begun)
        judge_samples(rng, found, signal, here, (options, path, new), sent)
    return found


def strange(rng):
    """Whether nothing is taken from a recording of another day or hour, or whose clock was set otherwise by some frames: the script is
    the same, and a line says that it is not used."""
    signal = pairs.signal(rng)
    here = pairs.recorder(rng, signal)
    day, hour, frame = timecode.DAY, 360000, signal.interval // 100
    by = rng.choice((day, -day, 3 * hour, -hour, frame, -2 * frame, 5 * frame))
    other = pairs.recorder(rng, signal.set_otherwise(0, by))
    with tempfile.TemporaryDirectory() as folder:
        written(folder, "here.vcd", here.dump())
        path = written(folder, "other.vcd", other.dump())
        plain, found = (mended(folder, signal.options(), *words).splitlines() for words in ((), ("--with", path)))
    is_said = abs(by) < hour or " seconds " in found[0] or "no frame of it is fine and supported" in found[0]
    return " is not used: " in found[0] and is_said and found[1:] == plain


def wrong_frames(signal, after, true, begun):
    """Frames that became fine with a time that was not sent there."""
    near = signal.interval // 10
    places = {tuple(mending.time_of(text)): at for text, at in true.items()}
    for text, at in after.items():
        if text not in begun and abs(places.get(tuple(mending.time_of(text)), -signal.length) - at) > near:
            yield "frame at %d: %s" % (at, text)


def judge_samples(rng, found, signal, here, tracks, sent):
    """Compares the times that irig_time gives to moments with the true ones."""
    options, before, after = tracks
    whole = range(here.begin + 2 * signal.interval, here.end)  # not in a pulse that the beginning cuts: its rise is not recorded
    moments = sorted(rng.sample(whole, SAMPLES))
    places = [here.place(moment) for moment in moments]
    first = min(sent, key=sent.get)
    begin, near = seconds_of(first) - sent[first] / 1e6, max(5, signal.interval // 100) / 1e6
    for moment, *both in zip(moments, times_by(options, before, places), times_by(options, after, places)):
        was, now = (None if each is None else abs(off_by(each - begin - moment / 1e6)) <= near for each in both)
        found.samples += now is not None
        found.gained += was is None and now is not None
        if now is False and was is not False:
            found.wrong.append("sample at %d" % here.place(moment))


def off_by(seconds):
    """By how much a time is off, in whichever year."""
    return min((seconds + 86400 * days for days in (0, 365, 366)), key=abs)
