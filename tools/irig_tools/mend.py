"""Proposes a script: looks at the track, adds repairs, looks at the repaired track again, and in the end checks that
no frame is worse."""
from __future__ import annotations

from dataclasses import dataclass, field
from typing import Dict, List, Optional, Sequence, Set, Tuple

from . import limits
from .analysis import START, Findings, looks
from .believed import NOTHING_BEARS, without_time
from .by_marks import by_mark, changes_numbers
from .check import Check, Harm, Moved
from .concern import NOTHING, Concern
from .editor import Editor, Listing, Progress
from .faults import Remark
from .joining import one_of
from .kinds import STEPS, DamageKind
from .layout import INTERVAL
from .repairs import repairs
from .script import Repair
from .units import Microseconds
from .witnesses import NO_WITNESSES, Witnesses


def called_for(findings: Findings) -> List[Repair]:
    """The repairs, and the remarks as repairs without edits."""
    found = findings.whole + _said(findings.remarks)
    for part in findings.parts:  # from the last to the first
        if part.copies:
            found += part.copies
        else:
            edits, left = repairs(part.faults)
            found += _said(part.remarks + part.faults.remarks + left) + edits
    return found


def _said(remarks: Sequence[Remark]) -> List[Repair]:
    return [_of_remark(remark.at, remark.comment(), remark.kind, remark.concern) for remark in remarks]


def _of_remark(at: Microseconds, said: str, kind: DamageKind, concern: Concern = NOTHING) -> Repair:
    """A repair without edits: nothing decides what is right, but of a step."""
    return Repair(at, [said], kind=kind, undecided=[] if kind in STEPS else [said], concern=concern)


def obeyed(editor: Editor, script: List[Repair], refused: Set[str]) -> Listing:
    """The listing after the script; a repair that the editor refuses goes another way, or becomes a remark."""
    while True:
        listing = editor.ask([repair.lines() for repair in script])
        if not listing.refused:
            return listing
        for at in listing.refused:
            refused.add(script[at].text())
            script[at] = script[at].refused()


@dataclass
class _Mending:
    """One way through the rounds, without the repairs that are refused."""

    editor: Editor
    progress: Progress
    steady: bool
    move: bool
    refused: Set[str]
    witnesses: Witnesses
    script: List[Repair] = field(default_factory=list)
    remarks: List[Repair] = field(default_factory=list)
    looks: List[Tuple[int, Listing, Findings]] = field(default_factory=list)  # repairs before each, and what is seen
    after: Listing = field(default_factory=Listing)

    def run(self) -> None:
        rounds = looks(self.editor, lambda: obeyed(self.editor, self.script, self.refused), self.progress, self.script, self.steady,
                       self.move, witnesses=self.witnesses)
        for turn, (listing, findings) in enumerate(rounds):
            self.after = listing
            if turn < limits.ROUNDS:
                self._add(listing, findings)

    def _add(self, listing: Listing, findings: Findings) -> None:
        """Adds the repairs that the findings call for."""
        found = called_for(findings)
        for repair in found:
            repair.count_in(listing.rises)
        self.looks.append((len(self.script), listing, findings))
        self.remarks = [each for each in found if not each.edits]
        changing = [number for number, each in enumerate(self.script) if changes_numbers(each)]
        for repair in (each for each in found if each.edits):
            self._add_one(repair, [number for number in changing if self.script[number].at < repair.at], listing)

    def _add_one(self, repair: Repair, changing: Sequence[int], listing: Listing) -> None:
        """Adds a repair. If repairs of former looks that are before it in time, `changing` of the script, can change its numbers, it is
        counted from a mark, and is one with one that is next to it."""
        own = by_mark(repair, listing.rises) if changing else repair
        near = Microseconds(repair.at - limits.BESIDE_ANOTHER * INTERVAL[listing.kind])
        beside = [number for number in changing if own is not repair and self.script[number].touches(near, repair.at)]
        together = one_of([self.script[beside[0]], own]) if beside else own
        if together.text() in self.refused:
            return
        if beside:
            self.script[beside[0]] = together
        else:
            self.script.append(together)

    def first_look(self) -> Tuple[int, Listing, Findings]:
        """The first look at pulses that have their classes, or some of them."""
        return next((look for look in self.looks if not look[2].whole or look[2].partly), self.looks[-1])

    def harms(self) -> List[Harm]:
        """What the script makes worse, if the pulses had their classes before it, or some of them."""
        last = self.looks[-1][2]
        done, before, first = self.first_look()
        clock = first.clock or last.clock
        if clock is None or last.clock is None or not self.script[done:]:
            return []
        moved = Moved(self.script[done:])
        return list(Check(first.layout, clock.interval, step_times(last), (before, self.after), moved, clock.most_off,
                          first.leap or last.leap, first.rule or last.rule, self.witnesses).harms())


def step_times(findings: Findings) -> List[Microseconds]:
    """When the parts of a track begin, and each rest that is late or early and is left."""
    tracks = [part.track for part in findings.parts]
    late = [(track, zone.right) for track in tracks for zone in track.zones if zone.late and zone.right]
    return [track.rises[run.first] for track, run in [(track, track.runs[0]) for track in tracks] + late]


def _go_both_ways(moves: Sequence[float]) -> bool:
    """Whether some go later and some earlier: what comes after both can be right as it is."""
    return min(moves, default=0) < 0 < max(moves, default=0)


def _distances(script: Sequence[Repair]) -> List[float]:
    """By how many microseconds rests are moved."""
    return [by for repair in script for _, by, _ in repair.moves]


def _half_moved(script: Sequence[Repair], last: Findings) -> List[Repair]:
    """A remark if some rests are moved, and one that can belong to them is not: they alone would move what is right."""
    left = [zone for part in last.parts for zone in part.track.zones if round(zone.late)]
    moves, cut = _distances(script), any(zone.glued for zone in left)
    if not moves or not left or not (cut or _go_both_ways(moves + [-zone.late for zone in left])):
        return []
    at = min(begin for repair in script for begin, _, _ in repair.moves)
    seen = "undecided: at %d: from here on not every step can be moved, and the others alone would give a wrong time to " \
           "what is right; so none is moved" % at
    return [_of_remark(at, seen, DamageKind.OTHER)]


def _together(script: Sequence[Repair]) -> List[Repair]:
    """The script; if rests are moved both ways, all from the first to the last of these repairs are one."""
    if not _go_both_ways(_distances(script)):
        return list(script)
    moving = [at for at, repair in enumerate(script) if repair.moves]
    first, beyond = moving[0], moving[-1] + 1
    return [*script[:first], one_of(script[first:beyond]), *script[beyond:]]


def propose(editor: Editor, progress: Progress, steady: bool = False, move: bool = False,
            seen: Optional[List[Findings]] = None, witnesses: Witnesses = NO_WITNESSES) -> List[Repair]:
    """The script that repairs what the editor's track has; no line of it is refused, and none makes a frame worse.
    If control functions are `steady`, no frame has others than most. If not `move`, no rest is moved, and neither if only
    some of those could be that belong together. `witnesses` are frames of other recordings.

    First are remarks: what is undecided when all repairs are made. `seen` gets what is found in the track as it is."""
    refused: Set[str] = set()
    taken: Dict[int, Repair] = {}
    for turn in range(limits.MOST_CHECKS):
        mending = _Mending(editor, progress, steady, move, refused, witnesses)
        mending.run()
        if seen is not None and not seen:
            seen.append(mending.first_look()[2])
        harms = mending.harms()
        if not harms:
            break
        for repair, harm in _blamed(mending.script, harms, turn + 1 == limits.MOST_CHECKS):
            refused.add(repair.text())
            taken[repair.at] = repair.left_out(harm.seen)
    else:
        mending.script = []
    progress("")
    half = _half_moved(mending.script, mending.looks[-1][2])
    if half:
        return half + propose(editor, progress, steady, witnesses=witnesses)
    return mending.remarks + [taken[at] for at in sorted(taken, reverse=True)] + _together(mending.script)


def _blamed(script: Sequence[Repair], harms: Sequence[Harm], all_of_them: bool) -> List[Tuple[Repair, Harm]]:
    """The repairs that make something worse: those that touch it, or all."""
    edits = [repair for repair in script if repair.edits]
    found = [(repair, harm) for repair in edits for harm in harms if repair.touches(harm.at, harm.until)]
    return found if found and not all_of_them else [(repair, harms[0]) for repair in edits]


def of_no_time(editor: Editor, script: Sequence[Repair]) -> List[Repair]:
    """What is said first if no sample gets a time by the track after a script."""
    why = without_time(editor.ask([repair.lines() for repair in script]))
    return _said([Remark(START, why + " after this script", NOTHING_BEARS)]) if why else []


def script_text(script: Sequence[Repair]) -> str:
    return "".join(line + "\n" for repair in script for line in repair.lines())
