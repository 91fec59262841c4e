"""Which lines of a script are kept by the law of the guard: all if they can be, else those of each half of the repairs, down to lines."""
from typing import Dict, Iterator, List, Optional, Sequence, Set, Tuple

from reference import guard, language, machine
from reference.guard_law import Safety
from reference.law import Law
from reference.reading import Move


class Judged:
    """A run over a proposed script, from what was kept before. `kept` are the places of the lines that are kept, `reasons` why another one
    is not. If a script may move pulses, a line `shift` says where they were recorded."""

    def __init__(self, before: machine.State, lines: Sequence[bytes], safety: Optional[Safety] = None, may_move: bool = False) -> None:
        self.before, self.lines, self.safety, self.may_move = before, lines, safety or Safety(before), may_move
        self.now = Law(before.kind, before.expression, before.pulses())
        self.moves: Tuple[Move, ...] = ()
        self.kept: Set[int] = set()
        self.reasons: Dict[int, str] = {}
        self.repairs = list(repairs(lines))
        left, last = [edits for edits in map(self.edits_of, self.repairs) if edits], None
        while left and self.kept != last:  # what is dropped is tried again until nothing changes
            last = set(self.kept)
            self.keep(left)
            left = [rest for rest in ([place for place in edits if place not in self.kept] for edits in left) if rest]

    def edits_of(self, repair: range) -> List[int]:
        """The places of the lines of a repair that edit; none if it is no repair."""
        words = [guard.word_of(self.lines[place]) for place in repair]
        inner = words[1:-1] if [words[0], words[-1]] == ["begin", "end"] else words
        if all(word in guard.EDITS or word == guard.REMARK for word in inner):
            return [place for place, word in zip(repair, words) if word in guard.EDITS]
        self.reasons.update((place, guard.NO_REPAIR) for place in repair)
        return []

    def keep(self, several: List[List[int]]) -> None:
        """Keeps some repairs if they can be kept together; else what can be kept of each half of them, or of the lines of one."""
        places = [place for edits in several for place in edits]
        reason = self.tried(places)
        if reason is None:
            self.kept.update(places)
            return
        self.reasons.update((place, reason) for place in places)
        smaller = several if len(several) > 1 else [[place] for place in several[0]]
        if len(smaller) > 1:
            self.keep(smaller[:len(smaller) // 2])
            self.keep(smaller[len(smaller) // 2:])

    def tried(self, places: List[int]) -> Optional[str]:
        """Why some lines cannot be kept, too, each at its place in the script."""
        state, moves = self.before, []
        for place in sorted({*self.kept, *places}):
            try:
                word, arguments = language.parse(state, self.lines[place])
                moves += [moved(state, *arguments)] if self.may_move and word == "shift" else []
                state = guard.EDITS[word](state, *arguments)
            except machine.Refused as refused:
                return guard.REFUSED + str(refused)
        now = Law(state.kind, state.expression, state.pulses())
        reason = self.safety.fault(self.now, now, tuple(moves))
        if not reason:
            self.now, self.moves = now, tuple(moves)
        return reason

    def printed(self, repair: range) -> List[bytes]:
        """The lines of a repair. One that is not kept is a comment, after the reason."""
        dropped = [place for place in repair if place in self.reasons and place not in self.kept]
        found: List[bytes] = []
        said = ""
        for place in repair:
            is_kept = place not in dropped and (not dropped or not self.kept.isdisjoint(repair))
            if is_kept or guard.word_of(self.lines[place]) == guard.REMARK:
                found.append(self.lines[place])
                continue
            reason = self.reasons.get(place, said or self.reasons[dropped[0]])
            found += [guard.NOT_KEPT + reason.encode()] * (reason != said) + [guard.commented(self.lines[place])]
            said = reason
        return found


def moved(state: machine.State, first: int, last: int, by: int) -> Move:
    """What a line `shift` says: from where to where pulses were recorded too early."""
    state_pulses = state.pulses()
    machine.need(state.has_pulses(first, last), "E2")
    return Move(state_pulses[first - 1][0], state_pulses[last - 1][1], by)


def repairs(lines: Sequence[bytes]) -> Iterator[range]:
    """The places of the lines of each repair."""
    at = 0
    for repair in guard.repairs(list(lines)):
        yield range(at, at + len(repair))
        at += len(repair)


def judge(recording: machine.State, lines: Sequence[bytes], others: Sequence[machine.State] = (), before: Optional[machine.State] = None,
          may_move: bool = False) -> Tuple[List[bytes], List[str]]:
    """The lines that are kept, the others as comments after the reason; and what is said of guesses. The script goes on from `before`, if
    something was kept before."""
    found = Judged(before or recording, lines, Safety(recording, others), may_move)
    return [line for repair in found.repairs for line in found.printed(repair)], found.safety.guesses(found.now, found.moves)
