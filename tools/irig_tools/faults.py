"""What is wrong at each place of a track, and what has to be there."""
from __future__ import annotations

import copy
from dataclasses import dataclass
from itertools import groupby
from typing import Container, Dict, Iterable, List, Optional, Sequence, Set

from . import limits
from .believed import is_fine_at
from .concern import NOTHING, Concern, of_frame
from .frames import Times
from .kinds import STEPS, DamageKind
from .layout import NAMES, POSITIONS, READABLE, SHARE
from .moments import SECOND
from .texts import counted
from .track import Track
from .units import ELEMENTS, FrameNumber, Microseconds, PlaceNumber, PulseIndex, frame_of, number_of, place_in, plus, through
from .widths import Widths
from .witnesses import Elsewhere, Witnesses

OF_A_DAY = {"hundredths": 1, "seconds": SECOND, "minutes": 60 * SECOND, "hours": 3600 * SECOND}
LEFT_FRAME = "the frame is left as it is; regen gives it the time to which the others lead"


@dataclass
class Remark:
    """Damage that no edit repairs for sure: where, what is seen, and what the choices are."""

    at: Microseconds
    seen: str
    choice: str = ""
    name: str = ""  # its frame and element, if they are to be named
    kind: DamageKind = DamageKind.OTHER
    is_question: bool = False  # the choice asks whether the recording is another one than was said
    concern: Concern = NOTHING

    def comment(self) -> str:
        """A step of the recorder's clock stays; what another recording has otherwise differs, and is no place of damage; of all else
        nothing decides what is right."""
        word = "stays" if self.kind in STEPS else "differs" if self.kind == DamageKind.DIFFERS else "undecided"
        return "%s: at %d: %s%s" % (word, self.at, self.seen, "; " + self.choice if self.choice else "")


def pulses_text(first: PulseIndex, last: PulseIndex) -> str:
    """Pulses as their users know them."""
    return "pulse %d" % number_of(first) if first == last else "pulses %d to %d" % (number_of(first), number_of(last))


class Faults:
    """The places whose pulse is not what follows, each with the class that has to be there."""

    def __init__(self, track: Track, times: Times, left: Iterable[FrameNumber], witnesses: Witnesses) -> None:
        """`left` are frames that are to stay as they are; `witnesses` those of other recordings."""
        self.track, self.layout, self.clock, self.times = track, track.layout, track.clock, times
        self.elsewhere = Elsewhere(times, witnesses)
        self.left = set(left)
        self.rises, self.falls = track.rises, track.falls
        self.widths = Widths(track.rises, track.falls, track.classes, self.layout.interval)
        self.wanted: Dict[PlaceNumber, str] = {}
        self.unsaid: Set[PlaceNumber] = set()  # places without a pulse, where nothing says which class has to be
        self.guesses: Dict[PlaceNumber, str] = {}  # places of control functions that nothing says
        self.by_rule: Set[PlaceNumber] = set()  # places of control functions that a rule says
        self.by_others: Set[PlaceNumber] = set()  # and that other recordings have
        self.trusted: Set[PlaceNumber] = set()  # of these, those of sound frames, by the most of several
        self.besides: Dict[PlaceNumber, str] = {}  # of these places, recorded otherwise here, what else says so
        self.contrary: Set[FrameNumber] = set()  # frames that show another time, too clearly to be damage
        self.remarks: List[Remark] = []
        self.usual = times.usual() if self.layout.steady else {}
        self._look_at_all()
        off = [place for place in sorted(self.wanted) if self._is_off_alone(place)]
        # of which the rise alone is off, in frames that are fine
        self.in_fine = {place for number, places in groupby(off, frame_of) if self.is_fine(number) for place in places}

    def _look_at_all(self) -> None:
        """Compares each frame with what follows for it, and takes the rises that stray."""
        doubted = self._doubted()
        for number, text in self.times.texts.items():
            self._compare_control(number, text)
            if number in doubted:
                self.contrary.add(number)
            elif number not in self.times.sound:
                self._look_at(number, text, self.times.expected(number))
        for place in self.track.strays:
            told = self.track.told[place - self.track.first]
            if told in SHARE and frame_of(place) in self.times.texts:
                self.wanted.setdefault(place, told)

    def is_fine(self, number: FrameNumber) -> bool:
        """Whether a frame is fine as it is."""
        marker = self.track.pulses_at(max(self.track.first, place_in(number)))
        return bool(marker) and is_fine_at(self.track.listing, self.layout, marker[0])

    def _is_off_alone(self, place: PlaceNumber) -> bool:
        """Whether one pulse is there, of the class that is wanted: nothing but its rise can be off."""
        pulses = self.track.pulses_at(place)
        return len(pulses) == 1 and self.track.classes[pulses[0]] == self.wanted[place]

    def without(self, places: Container[PlaceNumber]) -> Faults:
        """The same, as if nothing were wrong at these places, and in frames that are to stay as they are."""
        found, kept = copy.copy(self), [place for place in self.wanted if frame_of(place) not in self.left]
        found.wanted = {place: self.wanted[place] for place in kept if place not in places}
        return found

    def _doubted(self) -> Set[FrameNumber]:
        """The frames at an end of the recording, before the first sound one or after the last, if of one of them another recording has
        too much otherwise: their time is counted from the sound ones, and a clock that was set there looks just so."""
        first, last = min(self.times.sound, default=0), max(self.times.sound, default=0)
        before = any(number < first for number in self.elsewhere.contrary)
        after = any(number > last for number in self.elsewhere.contrary)
        return {number for number in self.times.texts if (before and number < first) or (after and number > last)}

    def _look_at(self, number: FrameNumber, text: str, expected: str) -> None:
        """Compares a frame with what follows for it."""
        if number not in self.times.spliced and self._contradicts(number, text, expected):
            self.contrary.add(number)
            return
        if self.times.moment(number) is None and READABLE.fullmatch(text) and number not in self.times.own:
            self.remark(place_in(number), "a frame whose fields contradict each other", "nothing says which is right")
        self._doubt_time(number)
        unknown = []
        for element, (told, follows) in enumerate(zip(text, expected)):
            if told == "~" or told == follows or (follows == "." and told in "01"):
                continue
            place = place_in(number, element)
            target = follows if follows != "." else self._decide(place, element in self.times.kept)
            if target:
                self.wanted[place] = target
            else:
                unknown.append(element)
                self.unsaid.update([place] * (not self.track.pulses_at(place)))
        self._doubt_control(number, text)
        if unknown and number not in self.left:
            elements = self.times.name(number), ", ".join(map(str, unknown))
            seen = "%s, element %s: neither its shape nor another frame says whether it is a zero or a one" % elements
            self.remark(place_in(number, unknown[0]), seen, "force or insert the right one", elements=unknown)

    def _doubt_time(self, number: FrameNumber) -> None:
        """A frame alone that shows another time than the others, too clearly to be damage."""
        own = self.times.own.get(number)
        if own is not None and self.times.bases[number] is None and self.times.spans and number not in self.left:
            shown = self.times.calendar.name(self.times.calendar.moment(number, own))
            self.remark(place_in(number), "a frame alone shows %s, to which no other frame leads" % shown, LEFT_FRAME)

    def remark(self, place: PlaceNumber, seen: str, choice: str, kind: DamageKind = DamageKind.OTHER, elements: Sequence[int] = ()) -> None:
        """What is said of a frame, or of some of its elements."""
        concern = of_frame(self.times.shown(frame_of(place)), elements)
        self.remarks.append(Remark(self.track.rise_at(place), seen, choice, kind=kind, concern=concern))

    def concern(self, first: PlaceNumber, last: PlaceNumber) -> Concern:
        """The places from one to another, for programs."""
        shown, pulses = [self.times.shown(frame_of(place)) for place in (first, last)], self.track.pulses_of(through(first, last))
        return Concern(tuple(shown) if all(shown) else (), (first % ELEMENTS, last % ELEMENTS), (pulses[0], pulses[-1]) if pulses else ())

    def _contradicts(self, number: FrameNumber, text: str, expected: str) -> bool:
        """Whether a frame shows another time than its neighbours lead to, too clearly to be damage."""
        told = [element for element in self.layout.carried if text[element] in "01" and expected[element] in "01"]
        against = [element for element in told if text[element] != expected[element]]
        binary = {element for element, _ in self.layout.fields.get("binary", ())}
        twice_told = number in self.times.own and not binary.isdisjoint(against)
        # a clock that was set shows another time in both fields that say it
        in_one = not binary.isdisjoint(told) and (binary.isdisjoint(against) or binary.issuperset(against))
        most = limits.MOST_CONTRARY if in_one or self.is_between(number) else limits.CONTRARY_AT_END
        is_clear = len(against) > (0 if twice_told or self.times.turns_at(number) else most)
        many = len(against) + self._ones_at_end(number, text, expected)
        if not is_clear and many <= most and not self._can_be_another_time(number, told, against):
            return False
        seen = "%s: %s contradict%s the time that the frames next to it lead to" % (
            self.times.name(number), counted(many, "element"), "" if many > 1 else "s")
        first = max(self.track.first, place_in(number))
        self.remark(first, seen, LEFT_FRAME)
        return True

    def _ones_at_end(self, number: FrameNumber, text: str, expected: str) -> int:
        """How many ones a frame at an end has where its expression has zeros: they are of other elements if some were lost next to it."""
        ones = [each for each in self.layout.unused if (text[each], expected[each]) == ("1", "0")]
        return 0 if self.is_between(number) else len(ones)

    def _can_be_another_time(self, number: FrameNumber, told: Sequence[int], against: Sequence[int]) -> bool:
        """Whether a frame at an end shows another time of its day, as after a loss of whole frames, or if the clock was set there: what
        contradicts is one pulse each, as wide as others of its class, and in the last frame all from there on is as it would be then, in
        the first one all up to there. No other recording has the time to which the others lead."""
        moment, agreeing = self.times.moment(number), self.times.agreeing
        if moment is None or not against or not agreeing or min(agreeing) <= number <= max(agreeing) or self.elsewhere.have(number):
            return False
        places = [place_in(number, element) for element in against]
        if any(len(self.track.pulses_at(place)) != 1 or self.is_odd(place) for place in places):
            return False
        is_last, text, most = number > max(agreeing), self.times.texts[number], limits.LONGEST_CUT // ELEMENTS
        shown = [element for element in told if (element >= against[0] if is_last else element <= against[-1])]
        for off in (self._set_by(text, against), *(by * self.layout.period for by in range(-most, most + 1))):
            other = self.layout.encode(self.times.calendar.fields(plus(moment, off)))
            if all(other[element] == text[element] for element in shown):
                return True
        return False

    def _set_by(self, text: str, against: Sequence[int]) -> int:
        """By how many hundredths of a second a clock was set that shows just these elements otherwise: by what they say of the time of day,
        or if they say nothing of that by what they say of its seconds."""
        fields, of_a_day = self.layout.fields, [element for name in OF_A_DAY for element, _ in self.layout.fields.get(name, ())]
        sizes = OF_A_DAY if not set(of_a_day).isdisjoint(against) else {"binary": SECOND}
        rows = [(element, weight * sizes.get(name, 0)) for name in fields for element, weight in fields[name] if element in against]
        return sum(weight if text[element] == "1" else -weight for element, weight in rows)

    def is_between(self, number: FrameNumber) -> bool:
        """Whether frames before this one and after it show the time to which all lead."""
        return min(self.times.agreeing, default=number) < number < max(self.times.agreeing, default=number)

    def _decide(self, place: PlaceNumber, control: bool) -> Optional[str]:
        """Zero or one if nothing follows for a place: by its shape, else by other recordings, else by its neighbours, else a guess
        that is named as one."""
        pulses, number, element = self.track.pulses_at(place), frame_of(place), place % ELEMENTS
        if element in self.usual:
            return self.usual[element]
        near = self.times.neighbours(number, element) if control else None
        other = self.elsewhere.told(number, element) if control else None
        own = self.layout.class_of(self.width_of(pulses[0])) if len(pulses) == 1 else ""
        burst = control and self._in_burst(place)
        if own in ("0", "1") and not burst and (not (near or other) or self._is_nominal(place, pulses[0], own)):
            return self._kept(place, own, other, near)
        shape = self._by_shape(place, burst)
        if other and (shape in (None, other) or near == other):
            self.by_others.add(place)
            return other
        if other and shape:
            return self._kept(place, shape, other, near)
        if near and self.times.never_changed(element):  # damage can look like the other class
            return near
        if shape or near or not control:
            return shape or near
        self.guesses[place] = self.times.likely(number, element) or (self._nearest_shape(place) if pulses else "0")
        return self.guesses[place]

    def _kept(self, place: PlaceNumber, own: str, other: Optional[str], near: Optional[str]) -> str:
        """What is recorded here stays, unless several other recordings have something else, or one has and the damage here explains what
        it looks like; nothing decides it if one has something else, and the frames next to it do not have the same."""
        if other and other != own and near != own:
            if self.elsewhere.outvotes(frame_of(place), place % ELEMENTS, own) or self._is_explained(place, other):
                self.by_others.add(place)
                return other
            self.guesses[place] = own
        return own

    def _is_explained(self, place: PlaceNumber, other: str) -> bool:
        """Whether one damage here explains that a place does not look like the class that a sound pulse elsewhere has: its rise alone is
        late, the only pulse is not as wide as others of its class, or a place next to it is damaged, too."""
        pulses, at = self.track.pulses_at(place), place - self.track.first
        if not pulses or not self.elsewhere.is_usual(frame_of(place), place % ELEMENTS, other):
            return False
        off = self.falls[pulses[-1]] - self.track.rise_at(place) - self.width(other, place)
        beside = self.track.told[max(0, at - 1):at] + self.track.told[at + 1:at + 2]
        return abs(off) <= limits.AS_WIDE * self.layout.interval or self.is_odd(place) or any(each not in "01P~" for each in beside)

    def _nearest_shape(self, place: PlaceNumber) -> str:
        """The class that a place looks like most."""
        return min("01", key=lambda target: self.difference(place, target))

    def _by_shape(self, place: PlaceNumber, burst: bool) -> Optional[str]:
        """The class that a place looks like; None if it looks like none."""
        best = self._nearest_shape(place)
        most = (limits.LIKE_IN_BURST if burst else limits.LIKE) * self.layout.interval
        return best if self.difference(place, best) < most else None

    def _compare_control(self, number: FrameNumber, text: str) -> None:
        """If control functions never change, one that most frames do not have is damage, unless their rule confirms it."""
        for element, usual in self.usual.items():
            if text[element] in "01" and text[element] != usual and not self.times.is_confirmed(number, element):
                self.wanted[place_in(number, element)] = usual

    def _in_burst(self, place: PlaceNumber) -> bool:
        """Whether places on both sides, or two on one side, are damaged."""
        at = place - self.track.first
        near = self.track.told[max(0, at - 2):max(0, at)] + self.track.told[at + 1:at + 3]
        return sum(letter not in "01P~" for letter in near) >= limits.BURST

    def width_of(self, pulse: PulseIndex) -> int:
        return self.falls[pulse] - self.rises[pulse]

    def is_recorded(self, place: PlaceNumber, name: str) -> bool:
        """Whether one pulse of a place was recorded with this class, though it can be late."""
        pulses = self.track.pulses_at(place)
        return len(pulses) == 1 and self.track.classes[pulses[0]] == name and self._is_nominal(place, pulses[0], name)

    def is_odd(self, place: PlaceNumber) -> bool:
        """Whether the only pulse of a place is not as wide as others of its class."""
        pulses = self.track.pulses_at(place)
        return len(pulses) == 1 and self.widths.is_odd(pulses[0])

    def _is_nominal(self, place: PlaceNumber, pulse: PulseIndex, name: str) -> bool:
        return abs(self.width_of(pulse) - self.width(name, place)) <= limits.NOMINAL * self.layout.interval

    def _doubt_control(self, number: FrameNumber, text: str) -> None:
        """A control function next to damage that has no nominal width is damage, too, if other recordings or its neighbours say
        otherwise."""
        for element in self.times.kept:
            place, told = place_in(number, element), text[element]
            beside = place - 1 in self.wanted or place + 1 in self.wanted
            if told in "01" and beside and place in self.track.zone_of:
                other = self.elsewhere.told(number, element)
                near = other or self.times.neighbours(number, element)
                if near and near != told and not self._is_sound(place, told):
                    self.wanted[place] = near
                    self.by_others.update([place] * bool(other))

    def _is_sound(self, place: PlaceNumber, told: str) -> bool:
        """Whether a pulse next to damage has the width of its class, and in a burst its place, too."""
        if self._in_burst(place):
            return self.difference(place, told) < limits.LIKE_IN_BURST * self.layout.interval
        return self._is_nominal(place, self.track.pulses_at(place)[0], told)

    def difference(self, place: PlaceNumber, target: str) -> float:
        """For how many microseconds the level is not that of the target, within its interval."""
        begin = self.track.rise_at(place)
        end, fall = begin + round(limits.INTERVAL_SEEN * self.track.interval_at(place)), begin + self.width(target, place)
        nearby = through(self.track.within(plus(place, -3)), self.track.within(plus(place, 1)))
        high = both = 0
        for pulse in self.track.pulses_of(nearby):
            low, top = max(begin, self.rises[pulse]), min(end, self.falls[pulse])
            high += max(0, top - low)
            both += max(0, min(top, fall) - low)
        return high + fall - begin - 2 * both

    def width(self, target: str, place: PlaceNumber) -> int:
        """The width that a class has at the real interval of a place."""
        return round(SHARE[target] * self.track.interval_at(place))

    # in words

    def name(self, place: PlaceNumber) -> str:
        return "%s, element %d" % (self.times.name(frame_of(place)), place % ELEMENTS)

    def where(self, place: PlaceNumber) -> str:
        """The frame, the element, and the pulses with their numbers, or else when one should rise."""
        pulses = self.track.pulses_at(place)
        if not pulses:
            return "%s, at %d" % (self.name(place), self.track.rise_at(place))
        return "%s, %s" % (self.name(place), pulses_text(pulses[0], pulses[-1]))

    def reason(self, place: PlaceNumber) -> str:
        """Why this class has to be there."""
        target, element = NAMES[self.wanted[place]], place % ELEMENTS
        if place in self.guesses:
            return "this %s is a guess: %s" % (target, self.guessed(place, target))
        if element in self.usual:
            return "a %s as in most frames" % target
        if place in self.by_others:
            sources = self.elsewhere.sources(frame_of(place), element, self.wanted[place])
            return "a %s as recorded in %s%s" % (target, sources, self.besides.get(place, ""))
        if place in self.by_rule and self.times.rule:
            parts = target, self.times.rule.element
            return "a %s by the elements of its frame, of which element %d says whether the ones are odd in number" % parts
        if element in self.times.kept:
            return "a %s by its shape or the frames next to it" % target
        if element in POSITIONS or element in self.layout.unused:
            return "a %s has to be there" % target
        if frame_of(place) in self.times.spliced:
            return "a %s follows from the frames before: this frame was cut, and keeps the time with which it begins" % target
        return "a %s follows from the frames around it" % target

    def guessed(self, place: PlaceNumber, target: str) -> str:
        """What a guess has to go by."""
        number, element = frame_of(place), place % ELEMENTS
        other = self.elsewhere.told(number, element)
        if other:
            return "it looks like a %s here, and is a %s in %s" % (target, NAMES[other], self.elsewhere.sources(number, element, other))
        if self.elsewhere.is_split(number, element):
            said = ["a %s in %s" % (NAMES[told], self.elsewhere.sources(number, element, told)) for told in "01"]
            return "it is %s" % ", and ".join(said)
        return "nothing says whether it was zero or one"

    def kind(self, place: PlaceNumber) -> DamageKind:
        """The kind of damage at a place."""
        pulses = self.track.pulses_at(place)
        if not pulses:
            return DamageKind.MISSING
        if self.track.spans(place, pulses[-1]):
            return DamageKind.JOINED
        if len(pulses) > 1:
            return DamageKind.SPLIT
        is_off = abs(self.rises[pulses[0]] - self.track.rise_at(place)) > self.track.stray_at(place)
        return DamageKind.WIDTH if self.track.classes[pulses[0]] == "b" else DamageKind.LATE if is_off else DamageKind.CLASS

    def seen(self, place: PlaceNumber) -> str:
        """What is at a place."""
        pulses = self.track.pulses_at(place)
        if not pulses:
            return "no pulse"
        over = self.track.spans(place, pulses[-1])
        if over:
            return "%d pulses have run together" % (over + 1)
        if len(pulses) > 1:
            return "%d pulses where one has to be" % len(pulses)
        name = self.track.classes[pulses[0]]
        words = "%d wide, %s" % (self.width_of(pulses[0]), "which is no class" if name == "b" else "a " + NAMES[name])
        off = self.rises[pulses[0]] - self.track.rise_at(place)
        if abs(off) > self.track.stray_at(place):
            words += ", and %d %s" % (abs(off), "late" if off > 0 else "early")
        return words
