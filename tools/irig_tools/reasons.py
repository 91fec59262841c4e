"""Why something is left, and what is a guess. It is printed in the order of its rank: what a person has to do comes last."""
from __future__ import annotations

from enum import IntEnum
from operator import itemgetter
from typing import Iterable, List, Sequence, Tuple

from .apply import Refused
from .damage import Damage
from .guess import guess_lines
from .kinds import STEPS, DamageKind
from .left import left_by, left_lines
from .script import Repair


class Rank(IntEnum):
    """Of a line."""

    TRUSTED = 0  # nothing is to be done
    GUESSED = 1  # nor here
    STAYS = 2
    NOT_KEPT = 3
    LEFT = 4
    DIFFERS = 5
    UNDECIDED = 6  # the line has what to choose from
    OF_ALL = 7  # the whole recording


Ranked = Tuple[int, str]
TRUSTED_AT = "trusted: at %d: %s"


def ranked(script: Sequence[Repair], refused: Refused, left: Sequence[Damage]) -> List[Ranked]:
    """What is said of a script that was run, of which irig_guard refused something, and of the places that are left."""
    kept = [each for each in script if not refused.drops(each)]
    found: List[Ranked] = [(Rank.TRUSTED, TRUSTED_AT % (each.at, comment)) for each in kept if each.is_trusted for comment in each.comments]
    found += [(Rank.GUESSED, line) for line in guess_lines(guess for each in kept for guess in each.guesses)]
    found += [(Rank.NOT_KEPT, reason.text) for reason in refused.reasons]
    found += [(_rank_of(each), comment) for each in kept for comment in left_by(each)]
    return found + [(Rank.LEFT, line) for line in left_lines(left)]


def of_whole(texts: Iterable[str]) -> List[Ranked]:
    return [(Rank.OF_ALL, text) for text in texts]


def in_order(found: Iterable[Ranked]) -> List[str]:
    """Those of one rank stay in their order."""
    return [text for _, text in sorted(found, key=itemgetter(0))]


def _rank_of(remark: Repair) -> Rank:
    return Rank.STAYS if remark.kind in STEPS else Rank.DIFFERS if remark.kind == DamageKind.DIFFERS else Rank.UNDECIDED
