"""What the rule of the control functions says, if there is one: which are damaged in a frame that reads well, and what is lost."""
from __future__ import annotations

from typing import Dict, Iterable, List, Optional

from .faults import LEFT_FRAME, Faults
from .frames import Times
from .kinds import DamageKind
from .layout import NAMES
from .parity import Rule
from .track import Track
from .units import ELEMENTS, FrameNumber, PlaceNumber, place_in
from .witnesses import OTHER, Witnesses, rule_with

BY_HAND = "force the one that is wrong"
NOT_AS_WIDE = ", and the %s here is not as wide as others"
NEXT_TO_DAMAGE = ", and what is next to it here is damaged, too"
MOST_HAVE_IT = ", as most recordings have it"
NOT_TAKEN = "so nothing of it is taken: its clock was set otherwise, or it is another code"


def faults_of(track: Track, times: Times, witnesses: Witnesses, left: Iterable[FrameNumber] = ()) -> Faults:
    """The faults of a track, with those that the rule shows; `left` are frames that are to stay as they are, `witnesses` those of
    other recordings."""
    times.rule = rule_with(times, witnesses)
    faults = Faults(track, times, left, witnesses)
    if times.rule:
        for number, text in times.texts.items():
            is_known = times.moment(number) is not None and number not in times.spliced
            if is_known and number not in faults.left and number not in faults.contrary:
                _Frame(faults, times.rule, number, text).compare()
    _compare_elsewhere(faults)
    return faults


def _compare_elsewhere(faults: Faults) -> None:
    """What is recorded here, and otherwise in another recording, is damage if something else says so, too. Else it is left."""
    elsewhere = faults.elsewhere
    for number in sorted(faults.times.texts.keys() - faults.left):
        for element in elsewhere.unlike(number):
            place = place_in(number, element)
            if place in faults.wanted:
                continue
            why = _why_damage(faults, number, element) if number not in faults.contrary else None
            if why is not None:
                faults.trusted.update([place] * (why == MOST_HAVE_IT))
                faults.wanted[place], faults.besides[place] = OTHER[faults.times.texts[number][element]], why
                faults.by_others.add(place)
            else:
                seen = "%s: %s%s" % (faults.name(place), elsewhere.said(number, element), _not_as_wide(faults, number, element))
                faults.remark(place, seen, BY_HAND, DamageKind.DIFFERS, elements=[element])
        if number in elsewhere.contrary:
            seen = "%s: %s" % (faults.times.name(number), elsewhere.said_of_frame(number))
            faults.remark(faults.track.within(place_in(number)), seen, NOT_TAKEN, DamageKind.DIFFERS)


def _why_damage(faults: Faults, number: FrameNumber, element: int) -> Optional[str]:
    """What else says that an element is damage here which other recordings have otherwise: it is the only one, and the rule says so; or
    the frames next to it have it as they do; or its pulse is not as wide as others, and theirs is; or the frame is damaged, and most
    recordings have it so, which needs no more words, or a place next to it is damaged. None if nothing does, or if the rule confirms
    it."""
    times, elsewhere, here = faults.times, faults.elsewhere, faults.times.texts[number][element]
    if times.is_confirmed(number, element):
        return None
    if elsewhere.rule and elsewhere.is_by_rule(number, element) and elsewhere.unlike(number) == [element]:
        return ", and as element %d says" % elsewhere.rule.element
    if times.are_beside(number, element, OTHER[here]):
        return " and in the frames next to it"
    width = _not_as_wide(faults, number, element)
    if width and (number not in times.sound or times.is_beside(number, element, OTHER[here]) or _is_apart(faults, number, element)):
        return width
    is_voted = elsewhere.outvotes(number, element, here)
    if number in times.sound:
        return MOST_HAVE_IT if is_voted and elsewhere.trusts_most else None
    return "" if is_voted else _next_to_damage(faults, number, element)


def _not_as_wide(faults: Faults, number: FrameNumber, element: int) -> str:
    """What is said if the width of a pulse shows that it is damaged here, and not where it is recorded otherwise."""
    here = faults.times.texts[number][element]
    is_shown = faults.is_odd(place_in(number, element)) and faults.elsewhere.is_usual(number, element, OTHER[here])
    return NOT_AS_WIDE % NAMES[here] if is_shown else ""


def _is_apart(faults: Faults, number: FrameNumber, element: int) -> bool:
    """Whether irig_guard, which knows the widths of a frame alone, keeps that of a fine frame, too."""
    marker = faults.track.pulses_at(place_in(number))[0]
    there = OTHER[faults.times.texts[number][element]]
    return faults.widths.is_apart(marker, element) and faults.elsewhere.is_even(number, element, there)


def _next_to_damage(faults: Faults, number: FrameNumber, element: int) -> Optional[str]:
    """What is said if a place next to an element is damaged here, and its pulse is as wide as others where it is recorded otherwise; else
    None. One damage of both is likelier than one of each recording at places that meet. A frame that is fine stays as it is."""
    place, here = place_in(number, element), faults.times.texts[number][element]
    is_beside = place - 1 in faults.wanted or place + 1 in faults.wanted
    if not is_beside or faults.is_fine(number):
        return None
    return NEXT_TO_DAMAGE if faults.elsewhere.is_usual(number, element, OTHER[here]) else None


class _Frame:
    """A frame, with the classes that it gets as far as the rule goes."""

    def __init__(self, faults: Faults, rule: Rule, number: FrameNumber, text: str) -> None:
        self.faults, self.rule, self.number, self.old = faults, rule, number, text
        self.place = place_in(number, rule.element)
        wanted = faults.wanted
        self.text = "".join([wanted.get(place_in(number, element), text[element]) for element in range(rule.element + 1)])
        before = [place_in(number, element) for element in faults.times.kept if element < rule.element]
        # by their shape, or as the frames next to it have them
        self.filled = [place for place in before
                       if place in wanted and place not in faults.by_others and not faults.is_recorded(place, wanted[place])]

    def compare(self) -> None:
        """Gives the element of the rule what follows if it is lost; if it is there, it says what else is lost or damaged."""
        if self.place in self.faults.wanted.keys() - self.faults.by_others:
            self._fill_in()
        elif self.rule.shows(self.text):
            self._confirm() if self.rule.holds(self.text) else self._contradict()

    def _fill_in(self) -> None:
        if not self.rule.shows(self.text):
            return
        target = self.faults.wanted[self.place] = self.rule.follows(self.text)
        self.faults.guesses.pop(self.place, None)
        if any(place in self.faults.guesses for place in self.filled):
            self.faults.guesses[self.place] = target
        else:
            self.faults.by_rule.add(self.place)

    def _confirm(self) -> None:
        """One that was filled in alone is as the rule wants it."""
        if len(self.filled) == 1:
            self._take(self.filled[0], self.faults.wanted[self.filled[0]])

    def _contradict(self) -> None:
        """Something is not as it was sent."""
        if len(self.filled) == 1 and set(self._unlike()) <= set(self.filled):
            self._take(self.filled[0], OTHER[self.faults.wanted[self.filled[0]]])
        elif self.filled:
            self.faults.guesses.update({place: self.faults.wanted[place] for place in self.filled})
        elif not self.faults.is_between(self.number) and self.rule.holds(self.old):
            self._leave()
        else:
            self._repair(self._suspects())

    def _repair(self, suspects: List[PlaceNumber]) -> None:
        """The only one that is not as in the frames next to it is damage."""
        if len(suspects) == 1:
            self._take(suspects[0], OTHER[self.text[suspects[0] % ELEMENTS]])
        else:
            told = NAMES[self.rule.follows(self.text)]
            self._say("element %d: by the elements before it this has to be a %s" % (self.rule.element, told), BY_HAND)

    def _around(self) -> Dict[int, Optional[str]]:
        """What the frames around this one have before the element of the rule, if they agree."""
        times = self.faults.times
        return {element: times.around(self.number, element) for element in sorted(times.kept) if element < self.rule.element}

    def _unlike(self) -> List[PlaceNumber]:
        """Those that differ from the nearest frames, which agree."""
        return [place_in(self.number, element) for element, told in self._around().items() if told and told != self.text[element]]

    def _suspects(self) -> List[PlaceNumber]:
        """The only one that other recordings have otherwise; else those that differ from the nearest frames; if none does, the element
        of the rule itself."""
        places = [place_in(self.number, each) for each in self.faults.elsewhere.unlike(self.number) if each <= self.rule.element]
        elsewhere = [place for place in places if place not in self.faults.wanted]
        if len(elsewhere) == 1:
            self.faults.by_others.update(elsewhere)
            return elsewhere
        unlike, times, element = self._unlike(), self.faults.times, self.rule.element
        if not unlike and None not in self._around().values() and times.is_beside(self.number, element, self.rule.follows(self.text)):
            return [self.place]
        return unlike

    def _take(self, place: PlaceNumber, target: str) -> None:
        self.faults.wanted[place] = target
        self.faults.guesses.pop(place, None)
        self.faults.by_rule.add(place)

    def _leave(self) -> None:
        """Nothing of the frame is changed."""
        faults, own = self.faults, range(place_in(self.number), place_in(self.number) + ELEMENTS)
        faults.wanted = {place: target for place, target in faults.wanted.items() if place not in own}
        self._say("reads well by itself, and another time than the frames next to it lead to", LEFT_FRAME)

    def _say(self, seen: str, choice: str) -> None:
        faults = self.faults
        faults.remark(self.place, "%s, %s" % (faults.times.name(self.number), seen), choice, DamageKind.CONTROL)
