"""Frames that other recordings of the same code have, by the times that they carry, and what they say of a frame of this track."""
from __future__ import annotations

from collections import Counter
from typing import Dict, Iterable, List, Mapping, NamedTuple, Optional, Sequence, Tuple

from . import limits
from .frames import Times
from .layout import NAMES, Fields, Layout
from .parity import Rule, rule_of, usual_rule_of
from .texts import counted, seconds
from .units import FrameNumber, Microseconds, PulseIndex, plus
from .widths import Widths

TimeOfFrame = Tuple[int, ...]  # the fields of a frame, in the order of its layout


class Witness(NamedTuple):
    """A frame that is fine in another recording, and supported there."""

    name: str  # of its file
    text: str  # its classes
    rises: Sequence[Microseconds]  # of all pulses of that recording
    first: PulseIndex
    widths: Widths  # of these pulses

    def source(self, element: int) -> str:
        """Where an element of it is."""
        return "%s at %s" % (self.name, seconds(self.rises[self.first + element]))

    def is_usual(self, element: int) -> bool:
        """Whether the pulse of an element is as wide as others of its class there."""
        return self.widths.is_usual(plus(self.first, element))

    def is_even(self, elements: Iterable[int]) -> bool:
        """Whether the pulses of these elements are as wide there as others of the frame, as irig_guard sees it."""
        return not any(self.widths.is_apart(self.first, element) for element in elements)


class Witnesses:
    """These frames by their times. Each is equal to itself alone, so that what is found with it can be kept by it."""

    def __init__(self, frames: Mapping[TimeOfFrame, Sequence[Witness]], trusts_most: bool = False) -> None:
        """If `trusts_most`, what most recordings have decides in a frame that is fine, too."""
        self.frames, self.trusts_most = frames, trusts_most

    def inserted(self, layout: Layout) -> List[Fields]:
        """The times of those that show second 60."""
        return [told for told in (dict(zip(layout.fields, time)) for time in self.frames) if told.get("seconds") == 60]


NO_WITNESSES = Witnesses({})
OTHER = {"0": "1", "1": "0"}


def time_of_frame(layout: Layout, told: Fields) -> TimeOfFrame:
    return tuple(told[name] for name in layout.fields)


def time_here(times: Times, number: FrameNumber) -> Optional[TimeOfFrame]:
    """The time to which the frames near a frame lead; None if they do not agree."""
    moment = times.moment(number)
    return None if moment is None else time_of_frame(times.layout, times.calendar.fields(moment))


def rule_with(times: Times, witnesses: Witnesses) -> Optional[Rule]:
    """The rule of the control functions: that of the frames here; if they show none, that of all recordings."""
    return times.rule or (rule_of(times.layout.control, texts_of_all(times, witnesses)) if witnesses.frames else None)


def texts_of_all(times: Times, witnesses: Witnesses) -> List[str]:
    """The frames of all recordings, each time once, and none of which two recordings have something else: one of them is damaged."""
    control = times.layout.control
    texts = {time: found[0].text for time, found in witnesses.frames.items()
             if not any(unlike(found[0].text, each.text, control) for each in found)}
    alone = []  # frames whose time only this recording has
    for number, text in times.texts.items():
        time = time_here(times, number)
        if time is None or time not in witnesses.frames:
            alone.append(text)
        elif time in texts and unlike(text, texts[time], control):
            del texts[time]
    return [*texts.values(), *alone]


def unlike(text: str, other: str, elements: Iterable[int]) -> List[int]:
    """Which of these elements are zero or one in both frames, and differ."""
    return [each for each in elements if text[each] != other[each] and text[each] in "01" and other[each] in "01"]


class Elsewhere:
    """What other recordings have in the elements that no field decides, frame by frame. It is asked for what is damaged here, or
    recorded otherwise."""

    def __init__(self, times: Times, witnesses: Witnesses) -> None:
        self.times, self.elements, self.trusts_most = times, sorted(times.kept), witnesses.trusts_most
        self._near: Dict[FrameNumber, List[Witness]] = {}
        self.rule = times.rule or (usual_rule_of(times.layout.control, texts_of_all(times, witnesses)) if witnesses.frames else None)
        self.contrary: Dict[FrameNumber, Witness] = {}  # frames of which nothing is taken: too much is recorded otherwise here
        whole = [number for number in times.texts if witnesses.frames and number not in times.spliced]
        shown = {number: time_here(times, number) for number in whole}
        often = Counter(shown.values())
        for number, time in shown.items():
            if time is not None and time in witnesses.frames and often[time] == 1:  # one that is there twice can be of another moment
                self._take(number, witnesses.frames[time])

    def _take(self, number: FrameNumber, found: Sequence[Witness]) -> None:
        text, rule = self.times.texts[number], self.rule
        for each in found:
            if rule and rule.shows(each.text) and not rule.holds(each.text):
                continue  # damaged there
            if len(unlike(text, each.text, self.elements)) > limits.MOST_CONTRARY:
                self.contrary[number] = each
            else:
                self._near.setdefault(number, []).append(each)

    def told(self, number: FrameNumber, element: int) -> Optional[str]:
        """What most of them have there; None if as many differ, or none has this frame."""
        often = Counter(each.text[element] for each in self._near.get(number, ())).most_common(2)
        return None if not often or (len(often) > 1 and often[0][1] == often[1][1]) else often[0][0]

    def have(self, number: FrameNumber) -> bool:
        """Whether one of them has a frame with the time to which the frames here lead."""
        return number in self._near

    def is_split(self, number: FrameNumber, element: int) -> bool:
        """Whether as many of several have a zero there as a one."""
        return number in self._near and self.told(number, element) is None

    def outvotes(self, number: FrameNumber, element: int, here: str) -> bool:
        """Whether of all recordings that have a frame, this one counted, most have another class there than is recorded here."""
        told = [each.text[element] for each in self._near.get(number, ())]
        return bool(told) and 2 * told.count(OTHER[here]) > len(told) + 1

    def is_usual(self, number: FrameNumber, element: int, told: str) -> bool:
        """Whether one that has this class there has it in a pulse that is as wide as others of its class."""
        return any(each.text[element] == told and each.is_usual(element) for each in self._near.get(number, ()))

    def is_even(self, number: FrameNumber, element: int, told: str) -> bool:
        """Whether one that has this class there is a frame in which all control functions are as wide as others."""
        return any(each.text[element] == told and each.is_even(self.elements) for each in self._near.get(number, ()))

    def is_by_rule(self, number: FrameNumber, element: int) -> bool:
        """Whether the rule says that an element is damaged here: the frame does not fit it, and would with what others have."""
        text, rule = self.times.texts[number], self.rule
        return rule is not None and element <= rule.element and rule.shows(text) and not rule.holds(text)

    def unlike(self, number: FrameNumber) -> List[int]:
        """The elements that are recorded here, and that most of them have otherwise."""
        text = self.times.texts[number]
        elements = self.elements if number in self._near else ()
        return [each for each in elements if text[each] in "01" and self.told(number, each) not in (text[each], None)]

    def sources(self, number: FrameNumber, element: int, told: str) -> str:
        """Who has this class there."""
        return " and ".join(each.source(element) for each in self._near.get(number, ()) if each.text[element] == told)

    def said(self, number: FrameNumber, element: int) -> str:
        """What is said of an element that differs."""
        here = self.times.texts[number][element]
        told = "1" if here == "0" else "0"
        return "a %s is recorded here, and a %s in %s" % (NAMES[here], NAMES[told], self.sources(number, element, told))

    def said_of_frame(self, number: FrameNumber) -> str:
        """What is said of a frame of which nothing is taken."""
        witness = self.contrary[number]
        many = len(unlike(self.times.texts[number], witness.text, self.elements))
        return "%s that are recorded here are others in %s" % (counted(many, "control function"), witness.source(0))
