"""A guard for proposed repairs, as docs/GUARD.md has it: each is tried, and kept only if the result is safe; and what is kept agrees with
the recording."""
from bisect import bisect_left, bisect_right
from functools import cached_property
from typing import Any, Dict, Iterator, List, NamedTuple, Optional, Sequence, Tuple

from reference import language, machine, timecode
from reference.agreement import Agreement, Fault
from reference.bearing import LONGEST_COUNT, Bearing, Near, Shown, clock

LONGEST_LINE, LONGEST_COMMENT = 1000, 900
LEAST_ANCHORS = 60  # of a frame, if nothing was fine
PARITY = 75  # the element
LEAST_WITH_PARITY, FOR_EACH_WITHOUT = 8, 5
LEAST_ALIKE = 5  # other pulses of its class in its frame, with whose widths one is compared
NOTHING_FINE, NOT_KEPT = b"# nothing to go by: no frame of the recording is fine", b"# not kept: "
NO_REPAIR, REFUSED = "not a repair", "refused: "
LOST, CHANGED, UNSUPPORTED = "would be lost", "would change", "would have a time that is not supported"
UNRECORDED = "would have control functions that are not supported"
MOVED = ": its pulses would move"
MISPLACED = ": its pulses would rise where nothing supports it"
ALONE = "fine frames would not support each other"
REMOVED = "the pulse at %d is in step, and would be gone"
UNJUDGED = "no frame would be fine to go by"
FEW = 8  # times as far as the nearest repair: a round in which it is more is late
IN_STEP = 10  # parts of an interval: by one of them the distance of pulses that are in step can be off, and a pulse in its place
EDITS = {
    "insert": machine.insert, "delete": machine.delete, "split": machine.split, "join": machine.join,
    "shift": machine.shift, "invert": machine.invert, "force": machine.force, "regen": machine.regen,
    "mark": machine.mark, "unmark": machine.unmark,
}


class Fine(NamedTuple):
    """A frame that is fine: what it shows, and its hundred pulses."""

    shown: Shown
    pulses: Sequence[Tuple[int, int]]


def fine(state: machine.State) -> List[Fine]:
    """The frames of a state that are fine."""
    interval, pulses = state.interval(), state.pulses()
    found = []
    for marker in timecode.markers(interval, pulses):
        if timecode.fault_of(interval, pulses, marker) is None:
            values, note = timecode.decode(state.kind, state.expression, timecode.ones_of(interval, pulses, marker))
            if note == "fine":
                found.append(Fine(Shown(pulses[marker][0], values), pulses[marker:marker + 100]))
    return found


class Safety:
    """What is safe for a recording."""

    def __init__(self, opened: machine.State, moved: bool, others: Sequence[machine.State]) -> None:
        self.bearing = Bearing(opened.kind)
        self.fines = fine(opened)
        self.old = [frame.shown for frame in self.fines]
        self.moved = moved
        self.controls = Controls(opened, self.fines, self.bearing, [fine(other) for other in others])
        self.anchors = Anchors(opened, self.bearing)
        self.loose = loose(opened, self.fines)

    def fault(self, last: Sequence[Shown], new: Sequence[Fine], pulses: Sequence[Tuple[int, int]]) -> Optional[str]:
        """Why what is fine now is not safe, or these pulses are not; `last` was fine after the last repair that was kept."""
        now = [frame.shown for frame in new]
        if not self.old:
            found = [None if self._support_each_other(now) else ALONE, self._unrooted(new), self._lost(last, now)]
            return self._first([*found, self._removed(pulses), None if now else UNJUDGED])
        old = located(self.old, now) if self.moved else self.old
        found = [self._times(old, now), self._controls(old, new), self._pulses(old, new)]
        return self._first([*found, self._lost(located(last, now) if self.moved else last, now), self._removed(pulses)])

    def _removed(self, pulses: Sequence[Tuple[int, int]]) -> Optional[str]:
        """The first pulse that was in step, in no frame that was fine, and in whose place none is now: none rises there, to a tenth
        of an interval, and none falls when it rose, as if it was turned over. It is not asked if frames may move."""
        reach, rises, falls = self.bearing.interval // IN_STEP, [rise for rise, _ in pulses], {fall for _, fall in pulses}
        gone = (rise for rise in self.loose if not rises[bisect_left(rises, rise - reach):bisect_right(rises, rise + reach)])
        return None if self.moved else next((REMOVED % rise for rise in gone if rise not in falls), None)

    def _first(self, found: Sequence[Optional[str]]) -> Optional[str]:
        return next((why for why in found if why), None)

    def _lost(self, last: Sequence[Shown], now: Sequence[Shown]) -> Optional[str]:
        """The first frame that was fine after the last repair, and that has no fine frame of its own at its place now."""
        rises = [frame.rise for frame in now]
        for frame in last:
            if frame.rise not in rises:
                return named(frame, LOST)
            rises = rises[rises.index(frame.rise) + 1:]
        return None

    def _times(self, old: Sequence[Shown], now: Sequence[Shown]) -> Optional[str]:
        """The first of the frames, one by one, that is lost, changed or not supported."""
        place = 0
        for frame in now:
            if place < len(old) and old[place].rise < frame.rise:
                return named(old[place], LOST)
            if place < len(old) and old[place].rise == frame.rise:
                if not self._stays(near(old, place, place + 1), old[place], frame):
                    return named(old[place], CHANGED)
                place += 1
            elif not self.bearing.is_borne(near(old, place, place), frame):
                return named(frame, UNSUPPORTED)
        return named(old[place], LOST) if place < len(old) else None

    def _stays(self, beside: Near, was: Shown, frame: Shown) -> bool:
        """Whether a frame is as it was, or was wrong and is mended, or has other control functions alone that both next to
        it have: all that it has, or those that change, if other recordings have them, too."""
        is_wrong = self.bearing.is_contradicted(beside, was) or self._is_refuted(beside, was, frame)
        mended = is_wrong and self.bearing.is_borne(beside, frame)
        return frame == was or mended or has_control_of_both(beside, was, frame) or self._has_control_of_most(beside, was, frame)

    def _is_refuted(self, beside: Near, was: Shown, frame: Shown) -> bool:
        """Whether nothing is on one side of a frame, the two on the other contradict it, and another recording has the time that it has
        now, and none that which it had."""
        if beside.before is None:
            later = [beside.after, beside.after_next]
            contradict = None not in later and not any(self.bearing.allows(was, one) for one in later)
        else:
            earlier = [beside.before_last, beside.before]
            contradict = beside.after is None and None not in earlier and not any(self.bearing.allows(one, was) for one in earlier)
        return contradict and self.controls.have_time(frame) and not self.controls.have_time(was)

    def _has_control_of_most(self, beside: Near, was: Shown, frame: Shown) -> bool:
        """Whether a frame has other control functions than it had, nothing else is another, and each of those that are others is so
        in most other recordings, and in both next to it; or its pulse was not as wide as others; or it is the only one, and the
        parity of those says so."""
        if not changes_control(was, frame):
            return False
        now, sides = frame.values["control"], (beside.before, beside.after)
        changed = [bit for bit in range(len(self.controls.elements)) if (was.values["control"] ^ now) >> bit & 1]
        shared = [None not in sides and not any((one.values["control"] ^ now) >> bit & 1 for one in sides if one) for bit in changed]
        is_allowed = not (sides[0] and not self.bearing.allows(sides[0], frame) or sides[1] and not self.bearing.allows(frame, sides[1]))
        is_right = len(changed) == 1 and is_allowed and self.controls.is_by_parity(was, frame)
        return all(self.controls.is_told(frame, bit) and (each or is_right or self.controls.is_by_width(was, frame, bit))
                   for bit, each in zip(changed, shared))

    def _controls(self, old: Sequence[Shown], new: Sequence[Fine]) -> Optional[str]:
        """The first frame that is not as it was, and whose control functions are not supported."""
        rises = [frame.rise for frame in old]
        for frame in new:
            place = bisect_left(rises, frame.shown.rise)
            was = old[place] if rises[place:place + 1] == [frame.shown.rise] else None
            beside = near(old, place, place + 1 if was else place)
            if was != frame.shown and not self.controls.are_supported(beside, frame):
                return named(frame.shown, UNRECORDED)
        return None

    def _pulses(self, old: Sequence[Shown], new: Sequence[Fine]) -> Optional[str]:
        """The first frame that was fine and still is, and whose pulses do not rise as long after its marker as they did; or that
        was not, and whose pulses are not where the recording has them."""
        rises = [frame.rise for frame in old]
        for frame in new:
            place = bisect_left(rises, frame.shown.rise)
            if rises[place:place + 1] == [frame.shown.rise]:
                if since(self.fines[place]) != since(frame):
                    return named(frame.shown, MOVED)
            elif not self.anchors.are_placed(near(old, place, place), frame):
                return named(frame.shown, MISPLACED)
        return None

    def _unrooted(self, new: Sequence[Fine]) -> Optional[str]:
        """If nothing was fine: the first frame of which fewer than 60 pulses are anchors."""
        return next((named(frame.shown, MISPLACED) for frame in new if len(self.anchors.of(frame)) < LEAST_ANCHORS), None)

    def _support_each_other(self, new: Sequence[Shown]) -> bool:
        """If nothing was fine: whether there are none, or at least three, each of which leads to the next."""
        return not new or (len(new) >= 3 and all(self.bearing.leads(*pair) for pair in zip(new, new[1:])))


def loose(opened: machine.State, fines: Sequence[Fine]) -> List[int]:
    """The rises of the pulses that are in step, and in no frame that is fine: the two before each and the two after it follow each other
    by one interval, to a tenth."""
    rises, interval = [rise for rise, _ in opened.pulses()], opened.interval()
    step = [IN_STEP * abs(after - rise - interval) <= interval for rise, after in zip(rises, rises[1:])]
    of_frames = {rise for frame in fines for rise, _ in frame.pulses}
    return [rise for place, rise in enumerate(rises[2:-2]) if all(step[place:place + 4]) and rise not in of_frames]


def since(frame: Fine) -> List[int]:
    """How long after its marker each pulse of a frame rises."""
    return [rise - frame.shown.rise for rise, _ in frame.pulses]


def has_control_of_both(near: Near, was: Shown, frame: Shown) -> bool:
    """Whether a frame has other control functions than it had, nothing else is another, and both next to it have those."""
    if not changes_control(was, frame) or near.before is None or near.after is None:
        return False
    return all(one.values["control"] == frame.values["control"] for one in (near.before, near.after))


def changes_control(was: Shown, frame: Shown) -> bool:
    """Whether nothing of a frame is another than its control functions."""
    return "control" in frame.values and {**was.values, "control": frame.values["control"]} == frame.values


def near(old: Sequence[Shown], place: int, after: int) -> Near:
    """The frames next to a place: those before `place`, and those from `after` on."""
    def at(k: int) -> Optional[Shown]:
        return old[k] if 0 <= k < len(old) else None

    return Near(at(place - 2), at(place - 1), at(after), at(after + 1))


def located(old: Sequence[Shown], now: Sequence[Shown]) -> List[Shown]:
    """The frames where they are now: each where the next frame is that has its time; one without such a frame where it was."""
    found: List[Shown] = []
    at = 0
    for frame in old:
        there = [place for place in range(at, len(now)) if clock(now[place].values) == clock(frame.values)]
        found.append(Shown(now[there[0]].rise, frame.values) if there else frame)
        at = there[0] + 1 if there else at
    return found


def backed(bearing: Bearing, frames: Sequence[Fine]) -> List[Shown]:
    """Those of some frames with which one next to them agrees."""
    pairs = [bearing.agrees(one.shown, two.shown) for one, two in zip(frames, frames[1:])]
    return [frame.shown for frame, before, after in zip(frames, [False, *pairs], [*pairs, False]) if before or after]


def of_time(frames: Sequence[Shown], frame: Shown) -> List[Shown]:
    """Those that have the time of a frame."""
    own = {**frame.values, "control": 0}
    return [one for one in frames if {**one.values, "control": 0} == own]


def is_in_most(frames: Sequence[Shown], frame: Shown, bit: int) -> bool:
    """Whether most of those that have the time of a frame have a control function as it has it."""
    votes = [(one.values["control"] ^ frame.values["control"]) >> bit & 1 for one in of_time(frames, frame)]
    return 2 * sum(votes) < len(votes)


class Controls:
    """Which control functions a recording supports, or others of the same code."""

    def __init__(self, opened: machine.State, fines: Sequence[Fine], bearing: Bearing, others: Sequence[List[Fine]]) -> None:
        self.others = [shown for frames in others for shown in backed(bearing, frames)]
        self.interval, self.pulses = opened.interval(), opened.pulses()
        self.rises = [rise for rise, _ in self.pulses]
        self.code = opened.kind, opened.expression
        fields = timecode.layout(*self.code)
        self.elements = [element for element, _ in fields["control"][0]] if "control" in fields else []
        self.fines = fines
        even = [[frame for frame in frames if not self._odd(frame)] for frames in others]
        self.even = [shown for frames in even for shown in backed(bearing, frames)]

    @cached_property
    def odd(self) -> List[Tuple[Shown, int]]:
        return [(frame.shown, bit) for frame in self.fines for bit in self._odd(frame)]

    def are_supported(self, near: Near, frame: Fine) -> bool:
        """Whether each is recorded, or as in the nearest frames on both sides, or what was recorded of it was lost, or as most others
        of that time have it."""
        return all(
            self._is_recorded(pulse) or self._is_shared(near, frame.shown, bit) or self._is_lost(pulse) or self.is_told(frame.shown, bit)
            for bit, pulse in enumerate(frame.pulses[element] for element in self.elements)
        )

    def are_recorded(self, frame: Fine) -> bool:
        """Whether all are."""
        return all(self._is_recorded(frame.pulses[element]) for element in self.elements)

    def _is_recorded(self, pulse: Tuple[int, int]) -> bool:
        """Whether a pulse of the recording is of its class, and rises within a tenth of an interval of it."""
        return self._class(pulse) in map(self._class, self._near(pulse, 10))

    def _is_lost(self, pulse: Tuple[int, int]) -> bool:
        """Whether no pulse of the recording that has a class rises within half an interval of it."""
        return all(self._class(other) == "bad" for other in self._near(pulse, 2))

    def _near(self, pulse: Tuple[int, int], part: int) -> List[Tuple[int, int]]:
        """The pulses of the recording that rise within this part of an interval of a pulse."""
        reach = self.interval // part
        return self.pulses[bisect_left(self.rises, pulse[0] - reach):bisect_right(self.rises, pulse[0] + reach)]

    def _class(self, pulse: Tuple[int, int]) -> str:
        return timecode.class_of(self.interval, pulse[1] - pulse[0])

    def is_told(self, frame: Shown, bit: int) -> bool:
        """Whether most frames of other recordings with its time have a control function as it has it."""
        return is_in_most(self.others, frame, bit)

    def is_by_width(self, was: Shown, frame: Shown, bit: int) -> bool:
        """Whether the pulse of a control function is not as wide as others, and most frames of its time in other recordings of which
        all are have it as it is now."""
        is_odd = any(bit == each and was.rise == one.rise and of_time([one], was) for one, each in self.odd)
        return is_odd and is_in_most(self.even, frame, bit)

    def _odd(self, frame: Fine) -> List[int]:
        """The control functions whose pulse is not as wide as the others of its class in the frame."""
        return [bit for bit, element in enumerate(self.elements) if self._is_odd(frame, element)]

    def _is_odd(self, frame: Fine, element: int) -> bool:
        """Whether a pulse is narrower than the others of its class, or wider, by a hundredth of an interval and twice what they differ
        by."""
        rise, fall = frame.pulses[element]
        widths = [pulse[1] - pulse[0] for place, pulse in enumerate(frame.pulses)
                  if place != element and self._class(pulse) == self._class((rise, fall))]
        if len(widths) < LEAST_ALIKE:
            return False
        margin = self.interval // 100 + 2 * (max(widths) - min(widths))
        return not min(widths) - margin <= fall - rise <= max(widths) + margin

    def is_by_parity(self, was: Shown, frame: Shown) -> bool:
        """Whether a frame has the parity of the others, and had not: at least eight have it, and five more for each that has not."""
        parity, *others = map(self._parity, (frame, *self.others))
        return parity != self._parity(was) and others.count(parity) >= LEAST_WITH_PARITY + FOR_EACH_WITHOUT * others.count(1 - parity)

    def _parity(self, frame: Shown) -> int:
        """Whether the ones up to the element of the parity are odd in number."""
        return timecode.encode(*self.code, frame.values)[:PARITY + 1].count("one") % 2

    def have_time(self, frame: Shown) -> bool:
        """Whether another recording has a frame of its time."""
        return bool(of_time(self.others, frame))

    def _is_shared(self, near: Near, frame: Shown, bit: int) -> bool:
        """Whether the two nearest frames have a control function as it has it."""
        def function(one: Shown) -> int:
            return one.values["control"] >> bit & 1

        two = near.two()
        return two is not None and all(function(one) == function(frame) for one in two)


Point = Tuple[int, int]  # an element, by its number in a frame, and when it rises


class Anchors:
    """Where a recording has the pulses of frames."""

    def __init__(self, opened: machine.State, bearing: Bearing) -> None:
        self.bearing = bearing
        self.rises = {rise for rise, _ in opened.pulses()}
        self.falls = {fall for _, fall in opened.pulses()}

    def of(self, frame: Fine) -> List[Point]:
        """The pulses of a frame that rise when one of the recording does, or that are a gap of it turned over."""
        return [
            (k, rise) for k, (rise, fall) in enumerate(frame.pulses)
            if rise in self.rises or (rise in self.falls and fall in self.rises)
        ]

    def are_placed(self, near: Near, frame: Fine) -> bool:
        """Whether each pulse is an anchor, or on the line between the anchors next to it."""
        first, last = self._before(near, frame.shown), self._after(near, frame.shown)
        points = self.of(frame)
        anchored = dict(points)
        for k, (rise, _) in enumerate(frame.pulses):
            if k in anchored:
                continue
            before = max([point for point in points if point[0] < k], default=first)
            after = min([point for point in points if point[0] > k], default=last)
            if not self._is_on_line(near, before, (k, rise), after):
                return False
        return True

    def _before(self, near: Near, frame: Shown) -> Optional[Point]:
        """The marker of the nearest frame before, if it is counted."""
        if near.before is None or not self._is_counted(near, frame, near.before, frame):
            return None
        return -100 * self.bearing.count(near.before, frame), near.before.rise

    def _after(self, near: Near, frame: Shown) -> Optional[Point]:
        if near.after is None or not self._is_counted(near, frame, frame, near.after):
            return None
        return 100 * self.bearing.count(frame, near.after), near.after.rise

    def _is_counted(self, near: Near, frame: Shown, one: Shown, other: Shown) -> bool:
        """Whether the distance of a frame from one next to it says how many elements it is: both agree, or the frame is where the
        recording's own clock has it, 500 frames away at most."""
        return self.bearing.agrees(one, other) or (self.bearing.is_own(near, frame) and self.bearing.count(one, other) <= LONGEST_COUNT)

    def _is_on_line(self, near: Near, before: Optional[Point], point: Point, after: Optional[Point]) -> bool:
        if before is not None and after is not None:
            return self._is_between(before, point, after) or self._is_on_curve(near, before, point, after)
        if before is not None:
            return self._is_along(near, before, point)
        return after is not None and self._is_along(near, point, after)

    def _is_between(self, before: Point, point: Point, after: Point) -> bool:
        """Whether a point is on the line between two, to a tenth of an interval."""
        many, whole = point[0] - before[0], after[0] - before[0]
        due, found = many * (after[1] - before[1]), whole * (point[1] - before[1])
        return 10 * abs(found - due) <= whole * self.bearing.interval

    def _is_on_curve(self, near: Near, before: Point, point: Point, after: Point) -> bool:
        """So on the curve on which the clock changes there."""
        bend = self.bearing.bend(near, point[0] - before[0], after[0] - point[0])
        return self._is_between(before, (point[0], max(before[1], point[1] - bend)), after)

    def _is_along(self, near: Near, one: Point, other: Point) -> bool:
        """Whether two points are as far apart as the nominal interval says, to a tenth of it and a thousandth of the distance;
        or as the clock of the two nearest frames says, to a tenth."""
        many, distance = other[0] - one[0], other[1] - one[1]
        if 1000 * abs(distance - many * self.bearing.interval) <= 100 * self.bearing.interval + distance:
            return True
        two = near.two()
        if two is None or not self.bearing.shows_clock(*two):
            return False
        whole = self.bearing.count(*two)
        due, found = many * (two[1].rise - two[0].rise) // 100, whole * distance
        return abs(found - due) <= whole * (self.bearing.interval // 10)


class Guard:
    """A run over a proposed script. `printed` has its lines, `refused` is whether some were not kept; `is_judged` is whether there
    was a frame to go by: if not, nothing is written."""

    def __init__(self, opened: machine.Machine, moved: bool = False, others: Sequence[machine.State] = ()) -> None:
        self.machine = opened
        self.safety = Safety(opened.present, moved, others)
        self.agreement = Agreement(opened.present)
        self.last = self.safety.old
        self.printed: List[bytes] = []
        self.refused = False
        self.bars: Dict[int, str] = {}  # why repairs are barred, by the places of their first lines

    def script(self, text: bytes) -> None:
        """Runs the script until what is kept agrees with the recording. If it does not, what was kept near the faults is barred."""
        lines = text.split(b"\n")
        opened = before(self.machine)
        times = 1
        while True:
            kept = self._round(lines if lines[-1] else lines[:-1])
            faults = [] if self.safety.moved else self.agreement.faults(self.machine.present)
            if not faults:
                return
            for fault in faults:
                self._bar(kept, fault, times)
            times *= 2
            vars(self.machine).update(opened, past=list(opened["past"]), made=list(opened["made"]), future=[], unmade=[])

    def _round(self, lines: List[bytes]) -> List[Tuple[int, int]]:
        """Tries each repair. Gives the places of the first lines of those that are kept, and when what they changed last rises."""
        self.printed, self.refused, self.last = [] if self.safety.old else [NOTHING_FINE], False, self.safety.old
        place, kept = 0, []
        for repair in repairs(lines):
            reason = self._dropped(repair, self.bars.get(place))
            if reason is None:
                self.printed += repair
                kept += [] if [word_of(line) for line in repair] == [REMARK] else [(place, self._moment())]
            else:
                self.refused = True
                self.printed += [NOT_KEPT + reason.encode(), *map(commented, repair)]
            place += len(repair)
        return kept

    def _moment(self) -> int:
        cursor, pulses = self.machine.present.cursor, self.machine.present.pulses()
        return pulses[cursor - 1][0] if 0 < cursor <= len(pulses) else 0

    def _bar(self, kept: List[Tuple[int, int]], fault: Fault, times: int) -> None:
        """Bars what was kept between the frames that were fine around a fault. If there is nothing, or in a late round, it is the nearest
        repair on each side, and all up to that many times as far."""
        rises = [frame.rise for frame in self.safety.old]
        later = bisect_right(rises, fault.moment)
        between = [place for place, moment in kept if bisect_right(rises, moment) == later and times <= FEW]
        self.bars.update((place, fault.what) for place in between)
        for is_before in () if between else (True, False):
            near = [(abs(moment - fault.moment), place) for place, moment in kept if (moment <= fault.moment) == is_before]
            self.bars.update((place, fault.what) for far, place in near if far <= times * min(near)[0])

    @property
    def is_judged(self) -> bool:
        return bool(self.safety.old or self.last)

    def remark(self) -> bytes:
        """What is said on the standard error: how many frames have a control function that is not in the recording, if some have.
        They are not counted if frames may move, or if nothing was fine. Or that there was no frame to go by."""
        if not self.is_judged:
            return b"no frame is fine, so nothing is kept, and nothing is written"
        many = sum(not self.safety.controls.are_recorded(frame) for frame in fine(self.machine.present))
        if not many or self.safety.moved or not self.safety.old:
            return b""
        return b"control functions of %d frame%s are not in the recording" % (many, b"s" * (many > 1))

    def _dropped(self, repair: List[bytes], barred: Optional[str]) -> Optional[str]:
        """Tries a repair that is not barred, and undoes it if it is not kept; then why."""
        if len(repair) == 1 and word_of(repair[0]) == REMARK:
            return None
        if barred:
            return barred
        old = before(self.machine)
        reason = self._stopped(repair)
        new = fine(self.machine.present)
        reason = reason or self.safety.fault(self.last, new, self.machine.present.pulses())
        if reason is None:
            self.last = [frame.shown for frame in new]
        else:
            vars(self.machine).update(old)
        return reason

    def _stopped(self, repair: List[bytes]) -> Optional[str]:
        """Obeys the lines of a repair up to the first that cannot be; why it cannot."""
        is_group = word_of(repair[0]) == "begin"
        if is_group and (len(repair) == 1 or word_of(repair[-1]) != "end"):
            return NO_REPAIR
        if is_group:
            self.machine.begin()
        for line in repair[1:-1] if is_group else repair:
            word = word_of(line)
            if word == REMARK:
                continue
            if word not in EDITS:
                return NO_REPAIR
            try:
                self.machine.edit(EDITS[word], *language.parse(self.machine.present, line)[1])
            except machine.Refused as refused:
                return REFUSED + str(refused)
        if is_group:
            self.machine.end()
        return None


def before(session: machine.Machine) -> Dict[str, Any]:
    return dict(vars(session), past=list(session.past), made=list(session.made))


def named(frame: Shown, what: str) -> str:
    """A frame by its time and its rise, and what becomes of it."""
    values = frame.values
    part = ".%02d" % values["hundredths"] if "hundredths" in values else ""
    time = "%03d %02d:%02d:%02d%s" % (values["days"], values["hours"], values["minutes"], values["seconds"], part)
    return "frame %s at %d%s%s" % (time, frame.rise, "" if what.startswith(":") else " ", what)


def commented(line: bytes) -> bytes:
    """A line that is not kept, as a comment; a comment stays as it is."""
    return line if word_of(line) == REMARK else b"# " + line[:LONGEST_COMMENT]


def repairs(lines: List[bytes]) -> Iterator[List[bytes]]:
    """The lines, those from a `begin` to the next `end` or `abort` together."""
    at = 0
    while at < len(lines):
        behind = at + 1
        if word_of(lines[at]) == "begin":
            closing = [k for k in range(at + 1, len(lines)) if word_of(lines[k]) in ("end", "abort")]
            behind = closing[0] + 1 if closing else len(lines)
        yield lines[at:behind]
        at = behind


NOWHERE = machine.State(0, frozenset(), "B", 2, {}, 0)
BAD_LINE, REMARK = "bad line", "remark"


def word_of(line: bytes) -> str:
    """The word of a line, `go` for an address; a remark, or a bad line. The words do not depend on the track."""
    if len(line) > LONGEST_LINE:
        return BAD_LINE
    try:
        word, _ = language.parse(NOWHERE, line)
    except machine.Refused:
        return BAD_LINE
    return word or REMARK
