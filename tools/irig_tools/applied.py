"""A proposed script that was run on its track, and what was seen before and after it."""
from __future__ import annotations

from dataclasses import dataclass, replace
from functools import cached_property
from typing import Callable, List, Sequence, Tuple, Union

from . import limits
from .analysis import START
from .apply import Counts, FrameCount, Refused, frames_of, guesses_in, most_off, run_script
from .became import became_of
from .believed import NOTHING_BEARS, without_time
from .damage import Damage, Seen, look
from .editor import Editor, Listing, Progress
from .kinds import DamageKind
from .left import without_line
from .opening import Opened
from .recounted import in_repaired
from .script import Repair
from .taken_times import takers
from .units import ELEMENTS

TAKEN = "the samples at %d and next to it would have no time, or another one"
IN_FINE = "a pulse would move in a frame that is fine, and samples next to it would have another time"


@dataclass(frozen=True)
class How:
    """What is asked for, and how a script is proposed: for the track of an editor, with moves or without."""

    propose: Callable[[Editor, bool], List[Repair]]
    progress: Progress
    steady: bool = False
    move: bool = False
    save: bool = False
    others: Sequence[str] = ()  # dumps of other recordings
    owns: Callable[[int], bool] = lambda time: True  # what counts is at such times


@dataclass
class Applied:
    """What was seen, what was refused, and the frames of both tracks."""

    before: Seen
    after: Seen
    refused: Refused
    frames: Tuple[FrameCount, FrameCount]
    owns: Callable[[int], bool]

    def counts(self, script: Sequence[Repair]) -> Counts:
        """What the script did, of what counts."""
        found = [each for each in self.before.damages if not each.is_remark and self._counts(each)]
        became = became_of(found, self.there(), script, ELEMENTS * self.before.findings.layout.interval)
        refused, (first, last) = self.refused, self.frames
        return Counts(len(found), len(became.repaired), len(became.steps), len(became.undecided) + len(became.comments), len(became.left),
                      guesses_in(script, found, refused), refused.filled, refused.lines, first.sound, last.sound,
                      most_off(script, refused))

    def now(self, script: Sequence[Repair]) -> List[Repair]:
        """The script, of which the remarks have the pulses and the times of the repaired recording."""
        return in_repaired(script, self.after.listing.rises)

    def there(self) -> List[Damage]:
        """The places of damage that are still there."""
        return [each for each in self.after.damages if not each.is_remark and self._counts(each)]

    def without_line(self, script: Sequence[Repair]) -> List[Damage]:
        """Those of them that nothing else names."""
        return without_line(self.there(), script, self.refused, self.after.findings.layout.interval)

    @cached_property
    def no_time(self) -> List[str]:
        """What is said if no sample gets a time by the repaired track."""
        why = without_time(self.after.listing)
        return ["%s after the repair: %s" % (why, NOTHING_BEARS)] if why else []

    def _counts(self, seen: Damage) -> bool:
        return self.owns(seen.at) or is_of_all(seen)


def is_of_all(seen: Union[Damage, Repair]) -> bool:
    """Whether all that was looked at seems to be of another format, or of another wire."""
    return seen.kind == DamageKind.FORMAT and seen.at == START


def applied_to(track: Opened, editor: Editor, script: List[Repair], how: How, repaired: str) -> Applied:
    """Runs a script, and writes what it gives; the script gets the repairs that were tried in the end."""
    script[:] = _without_moves_in_fine(script)
    before = look(editor, how.progress, how.steady)
    refused = _run_without_takers(track, editor, script, how, repaired, before.listing)
    editor_after = Editor([*track.code, repaired])
    frames = (frames_of(track.options, track.path, how.owns), frames_of(track.code, repaired, how.owns))
    if refused.is_nothing:  # it is what the last look of the proposal was at
        editor_after.knows(editor, [repair.lines() for repair in script], frames[1].info)
    return Applied(before, look(editor_after, how.progress, how.steady, before.findings.grid), refused, frames, how.owns)


def _without_moves_in_fine(script: Sequence[Repair]) -> List[Repair]:
    """The script without what irig_guard never keeps, with remarks in its place: a frame that is fine keeps each rise."""
    return [each.left_out(IN_FINE) if each.is_in_fine else each for each in script]


def _run_without_takers(track: Opened, editor: Editor, script: List[Repair], how: How, repaired: str, listing: Listing) -> Refused:
    """Runs a script until no repair of it takes the time of a sample: one that does is left out, with a remark in its place. If the rest
    moves, samples have other times then."""
    for number in range(limits.MOST_CHECKS):
        refused = _run_once(track, script, how, repaired, listing.kind, editor)
        taking = [] if how.move else takers(track, listing, script, refused, repaired, number >= limits.MOST_NEAREST)
        if not taking:
            return refused
        remarks = {repair.at: repair.left_out(TAKEN % moment) for repair, moment in taking}
        without = [remarks.pop(each.at, each) if each.edits else each for each in script]
        script[:] = [*remarks.values(), *without]
    return _run_once(track, script, how, repaired, listing.kind, editor)


def _run_once(track: Opened, script: List[Repair], how: How, repaired: str, kind: str, editor: Editor) -> Refused:
    """Runs a script; without moves if one of them is dropped, as what comes after it in the script counts on it."""
    refused = run_script(track, script, how.save, repaired, how.move, kind, how.others)
    if not refused.drops_moves(script):
        return refused
    script[:] = _without_moves_in_fine(how.propose(editor, False))
    again = run_script(track, script, how.save, repaired, False, kind, how.others)
    return replace(again, reasons=[*refused.reasons, *again.reasons])
