"""The script that is proposed: repairs, each with the sentences that say why."""
from __future__ import annotations

from bisect import bisect_left, bisect_right
from dataclasses import dataclass, field, replace
from itertools import accumulate
from typing import List, Sequence, Tuple

from .concern import NOTHING, Concern
from .escapes import in_script
from .guess import Guess, guess_lines
from .kinds import DamageKind
from .units import Microseconds

LONGEST_COMMENT = 395  # bytes of a comment; the editor refuses lines of more than a thousand
BY_LINE = 200  # letters of the lines that a comment has: the sentence before them takes up to 180 more
BETWEEN = "; "
LEFT_OUT = "so they are left out"

Move = Tuple[Microseconds, int, int]  # from when on all is moved, by how many microseconds, and how many are taken out there


@dataclass
class Repair:
    """Sentences, and the edits that belong together."""

    at: Microseconds
    comments: List[str]
    edits: List[str] = field(default_factory=list)
    instead: List[str] = field(default_factory=list)  # what also does it, if an edit is refused
    until: Microseconds = Microseconds(0)  # where it ends
    moves: List[Move] = field(default_factory=list)  # edit by edit
    kind: DamageKind = DamageKind.OTHER  # of the damage
    undecided: List[str] = field(default_factory=list)  # of a remark: the comments that say of what nothing decides
    guesses: List[Guess] = field(default_factory=list)  # what it fills in though nothing decides that
    concern: Concern = NOTHING
    off: int = 0  # by how many microseconds what it fills in can be off, if the clock wanders and that is worth a word
    is_in_fine: bool = False  # it moves rises that are off, of frames that are fine, and does nothing else
    is_trusted: bool = False  # it changes classes of sound frames, as most recordings have them
    ahead: int = 0  # pulses that begin before it in the track in which its own are counted
    seen: str = ""  # of a remark in the place of a repair: what is seen with the lines of that
    out: List[str] = field(default_factory=list)  # and these lines

    def text(self) -> str:
        """Its edits, by which it is known."""
        return "\n".join(self.edits)

    def touches(self, begin: Microseconds, end: Microseconds) -> bool:
        return self.at <= end and begin <= max(self.at, self.until)

    def lines(self) -> List[str]:
        edits = ["begin", *self.edits, "end"] if len(self.edits) > 1 else self.edits
        return ["# " + _bounded(in_script(comment)) for comment in self.comments] + edits

    def refused(self) -> Repair:
        """The editor refuses one of the edits: the other way, or if there is none a remark."""
        if self.instead:
            return replace(self, edits=self.instead, instead=[], moves=[])
        said = "the editor refuses these lines, %s: %s" % (LEFT_OUT, _whole_lines(self.edits))
        return Repair(self.at, self.comments + [said], kind=self.kind, undecided=guess_lines(self.guesses), concern=self.concern,
                      ahead=self.ahead)

    def left_out(self, seen: str) -> Repair:
        """A remark in its place: what is seen with its lines."""
        said = "undecided: at %d: with these lines %s, %s: %s" % (self.at, seen, LEFT_OUT, _whole_lines(self.edits))
        return Repair(self.at, [said], kind=self.kind, undecided=[said], concern=self.concern, ahead=self.ahead, seen=seen, out=self.edits)

    def count_in(self, rises: Sequence[Microseconds]) -> None:
        """Its pulses are counted in a track with these rises."""
        self.ahead = bisect_left(rises, self.at)


def _whole_lines(lines: Sequence[str]) -> str:
    """As many lines as there is room for, each whole, since they are typed; and how many more there are."""
    ends = accumulate(len(line) + len(BETWEEN) for line in lines)
    many = max(1, bisect_right(list(ends), BY_LINE + len(BETWEEN)))
    more = ["and %d more" % (len(lines) - many)] * (len(lines) > many)
    return BETWEEN.join([*lines[:many], *more])


def _bounded(comment: str) -> str:
    whole = comment.encode("utf-8")
    return comment if len(whole) <= LONGEST_COMMENT else whole[:LONGEST_COMMENT].decode("utf-8", "ignore") + " .."
