"""What irig_mend proposes for recordings whose truth is known, what irig_guard keeps of it, and how each sample is by the law of time."""
from __future__ import annotations

import os
import subprocess
import sys
import tempfile
from fractions import Fraction
from typing import Iterator, List, NamedTuple, Optional, Sequence, Set, Tuple

from by_law import text_of
from irig_tools.editor import Editor, Listing, progress_to
from irig_tools.mend import propose
from irig_tools.opening import Opened
from irig_tools.script import Repair
from judge import right, seen_as
from recordings import Recording, frames_of, samples
from reference import dump, law, machine
from repaired import is_right, link, made


class Quick(machine.State):
    """A state that lists its pulses once."""

    def pulses(self) -> List[Tuple[int, int]]:
        if not hasattr(self, "listed"):
            self.listed = super().pulses()
        return self.listed


class Proposed(NamedTuple):
    """A recording as it was opened, the repairs that are proposed, the lines that irig_guard keeps, and what it writes. `right` are the
    repairs after which the recording is there as without its damage."""

    recording: Recording
    opened: machine.State
    script: List[Repair]
    lines: List[str]
    right: List[bool]
    kept: Set[int]
    guarded: machine.State

    def edits(self) -> Iterator[Tuple[Repair, List[int]]]:
        """Each repair, and the places of its lines that edit."""
        at = 0
        for each in self.script:
            yield each, [place for place in range(at, at + len(each.lines())) if self.lines[place] in each.edits]
            at += len(each.lines())


def proposed_for(programs: str, kind: str, seed: int, most: int) -> Optional[Proposed]:
    """What irig_mend proposes, and what irig_guard makes of it; None if that is nothing, or if the recording has more frames than that."""
    if frames_of(kind, seed) > most:
        return None
    recording, sound = made(kind, seed)
    with tempfile.TemporaryDirectory(prefix="guard-") as folder:
        link(programs, folder)
        path = os.path.join(folder, "track.vcd")
        with open(path, "w", encoding="ascii") as file:
            file.write(recording.text)
        script, listing = proposed(recording, path)
        if not script:
            return None
        lines = [line for each in script for line in each.lines()]
        kept, guarded = by_guard(recording, path, lines, folder)
    are_right = [is_right(each, listing, sound, recording.interval) for each in script]
    return Proposed(recording, state_of(recording, recording.text.encode()), script, lines, are_right, kept, guarded)


def proposed(recording: Recording, path: str) -> Tuple[List[Repair], Listing]:
    """What irig_mend proposes to irig_guard, and the recording after all of it."""
    track = Opened(path, ["--format=" + recording.format, "--expression=%d" % recording.expression], is_as_it_is=True, is_as_given=True)
    editor = Editor(track.words)
    script = [each for each in propose(editor, progress_to(sys.stderr), False, False) if each.edits and not each.is_in_fine]
    return script, editor.ask([each.lines() for each in script])


def by_guard(recording: Recording, path: str, lines: Sequence[str], folder: str) -> Tuple[Set[int], machine.State]:
    """The places of the lines that irig_guard keeps, and what it writes; the recording if it writes nothing."""
    out = os.path.join(folder, "out.vcd")
    words = ["--format", recording.format, "--expression", str(recording.expression), "--out", out, path]
    ran = subprocess.run([os.path.join(folder, "irig_guard"), *words], input="\n".join([*lines, ""]), stdout=subprocess.PIPE,
                         stderr=subprocess.PIPE, text=True, check=False)
    assert ran.returncode in (0, 1), ran
    with open(out if os.path.exists(out) else path, "rb") as file:
        return places_of(lines, ran.stdout.splitlines()), state_of(recording, file.read())


def places_of(lines: Sequence[str], printed: Sequence[str]) -> Set[int]:
    """Which lines are printed as they are; between them are reasons and lines that are not kept, as comments."""
    found, place = set(), 0
    for line in printed:
        if place < len(lines) and line in (lines[place], "# " + lines[place]):
            found.update({place} if line == lines[place] else ())
            place += 1
    assert place == len(lines), printed
    return found


def state_of(recording: Recording, text: bytes) -> machine.State:
    length, edges, _ = dump.read_parts(text)
    return Quick(length, frozenset(edges), recording.format, recording.expression, {}, len(edges) // 2)


def hows(recording: Recording, times: law.Law) -> List[str]:
    """How each sample is."""
    found = []
    for moment in samples(recording):
        got = times.time_at(Fraction("%.3f" % moment))
        seen = seen_as(recording, moment, text_of(got.time) if got else "-")
        found.append("right" if right(seen) else seen.how)
    return found


def made_wrong(before: Sequence[str], after: Sequence[str]) -> List[int]:
    """The samples that are wrong, and were not."""
    return [place for place, (old, new) in enumerate(zip(before, after)) if new == "wrong" != old]
