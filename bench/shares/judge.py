"""Runs irig_time on a recording, as it was recorded and after `irig_mend --apply`, and compares each sample with the truth."""
from __future__ import annotations

import os
import subprocess
import tempfile
from collections import Counter
from typing import Dict, List, NamedTuple, Optional, Sequence, Tuple

from recordings import Recording, samples

RIGHT = 0.1  # of an interval: a right time is off by less
EXACT = 2.0  # microseconds: a right time is exact if it is off by no more than that and the jitter
TREE = os.path.realpath(os.path.join(os.path.dirname(__file__), "../.."))
PROGRAMS = ("irig_ed", "irig_guard", "irig_diff", "irig_time", "irig_explain")


class Seen(NamedTuple):
    """A sample: its moment, what was printed for it, how it is (exact, near, wrong, none or guess), and by how much it is off. By the law
    of time, how far it can be off, in intervals: 0 if no pulse is missing around it."""

    moment: float
    shown: str
    how: str
    off: float
    bound: float = 0.0


class Frame(NamedTuple):
    """A row of the table: the moment of the marker, the time, and whether it is wrong."""

    moment: int
    shown: str
    wrong: bool


class Result(NamedTuple):
    """What was found of a recording. The last four are only there after a repair."""

    kind: str
    seed: int
    format: str
    expression: int
    frames: int
    recorded: List[Seen]
    recorded_frames: List[Frame]
    status: Optional[int] = None
    repaired: List[Seen] = []
    spoilt: List[Tuple[Seen, Seen]] = []
    made_wrong: List[Frame] = []


class Judge:
    """The programs of a folder that is built as this repository, and the tools of that folder, of another one or of this one."""

    def __init__(self, folder: str, find: bool = False, tools: str = "") -> None:
        self.built = {name: os.path.join(folder, "crates", name, "out", name) for name in PROGRAMS}
        mend = os.path.join(tools or folder, "tools/irig_mend")
        self.mend = mend if os.path.exists(mend) else os.path.join(TREE, "tools/irig_mend")
        self.find = find  # the format, too

    def result(self, recording: Recording, apply: bool, keep: Optional[str]) -> Result:
        with tempfile.TemporaryDirectory(prefix="shares-") as folder:
            track = os.path.join(folder, "track.vcd")
            with open(track, "w", encoding="ascii") as file:
                file.write(recording.text)
            seen, frames = self.samples(recording, track), self.frames(recording, track)
            found = Result(recording.kind, recording.seed, recording.format, recording.expression, recording.frames, seen, frames)
            if apply:
                found = self.after(recording, found, folder, keep)
        return found

    def after(self, recording: Recording, before: Result, folder: str, keep: Optional[str]) -> Result:
        """The result with what comes after the repair. A recording that is not repaired stays as it is."""
        mended = os.path.join(folder, "mended.vcd")
        status = self.repair(recording, os.path.join(folder, "track.vcd"), mended, folder)
        if not os.path.exists(mended):
            return before._replace(status=status, repaired=before.recorded)
        if keep:
            with open(mended, "rb") as source, open(os.path.join(keep, name(recording) + ".mended.vcd"), "wb") as copy:
                copy.write(source.read())
        seen, frames = self.samples(recording, mended), self.frames(recording, mended)
        spoilt = [(old, new) for old, new in zip(before.recorded, seen) if right(old) and not right(new)]
        made = [each for each in frames if each.wrong and not was_there(recording, each, before.recorded_frames)]
        return before._replace(status=status, repaired=seen, spoilt=spoilt, made_wrong=made)

    def samples(self, recording: Recording, track: str) -> List[Seen]:
        moments = samples(recording)
        lines = "".join("%.3f\n" % moment for moment in moments)
        printed = self.time(recording, track, [], lines).splitlines()
        assert len(printed) == len(moments)
        return [seen_as(recording, moment, line.split("\t")[0]) for moment, line in zip(moments, printed)]

    def frames(self, recording: Recording, track: str) -> List[Frame]:
        found = []
        for line in self.time(recording, track, ["--table"], "").splitlines():
            moment, shown = line.split("\t")[:2]
            found.append(Frame(int(moment), shown, seen_as(recording, int(moment) + 0.5, shown).how == "wrong"))
        return found

    def time(self, recording: Recording, track: str, options: Sequence[str], lines: str) -> str:
        command = [self.built["irig_time"], "--format", recording.format, "--expression", str(recording.expression), *options, track]
        ran = subprocess.run(command, input=lines, stdout=subprocess.PIPE, stderr=subprocess.PIPE, text=True, check=False)
        assert ran.returncode in (0, 1), (command, ran)
        return ran.stdout

    def repair(self, recording: Recording, track: str, mended: str, folder: str) -> int:
        """Repairs a recording; the status. All programs are next to each other."""
        for each, path in self.built.items():
            os.symlink(path, os.path.join(folder, each))
        known = [] if self.find else ["--format", recording.format, "--expression", str(recording.expression)]
        environment = dict(os.environ, IRIG_ED=os.path.join(folder, "irig_ed"))
        ran = subprocess.run([self.mend, *known, "--apply", mended, track], env=environment, stdout=subprocess.PIPE,
                             stderr=subprocess.PIPE, text=True, check=False)
        assert ran.returncode in (0, 1, 2), (recording.kind, recording.seed, ran)
        return ran.returncode


def name(recording: Recording) -> str:
    return "%s-%d" % (recording.kind, recording.seed)


def seen_as(recording: Recording, moment: float, shown: str) -> Seen:
    if shown == "-":
        return Seen(moment, shown, "none", 0.0)
    off = recording.off(moment, shown)
    if off is None:
        return Seen(moment, shown, "guess", 0.0)
    if abs(off) <= EXACT + recording.jitter:
        return Seen(moment, shown, "exact", off)
    return Seen(moment, shown, "near" if abs(off) <= EXACT + RIGHT * recording.interval else "wrong", off)


def right(seen: Seen) -> bool:
    return seen.how in ("exact", "near")


def was_there(recording: Recording, frame: Frame, frames: Sequence[Frame]) -> bool:
    """Whether a frame with this time was there before."""
    return any(each.shown == frame.shown and abs(each.moment - frame.moment) < recording.interval for each in frames)


def counts(seen: Sequence[Seen]) -> Dict[str, int]:
    found = Counter(each.how for each in seen)
    return {how: found[how] for how in ("exact", "near", "wrong", "none", "guess")}
