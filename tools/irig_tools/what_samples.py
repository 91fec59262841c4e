"""Says which column of a table, or which channel of a sound file, has time code, and how to continue."""
from __future__ import annotations

from dataclasses import dataclass
from itertools import islice
from typing import Dict, Iterator, List, Optional, Sequence, Tuple

from .editor import Problem
from .escapes import in_command, in_line
from .every_column import LanePart, every_column
from .lanes import MOST_LOOKED, KeptSamples, Lane, lane_of, write_lanes
from .proposal import free_name, no_option
from .samples import MICROSECONDS, Samples
from .sound import W64_RIFF
from .temporary import named_if_no_room, temporary_track
from .what import CodeWire, What

LOOKED_AT_FIRST = 1 << 16  # bytes, in which a dump has a declaration
DECLARATIONS = (b"$enddefinitions", b"$timescale", b"$var", b"$scope", b"$date", b"$version")
SOUNDS = (b"RIFF", b"RIFX", b"RF64", W64_RIFF)
NO_TABLE = ("is no table", "is too long for a table")
SECONDS_OF_SOUND = 60  # of a part
MOST_PARTS = 8  # of a sound file


@dataclass
class CodeLane:
    """A column or a channel with time code."""

    lane: Lane
    carrier: CodeWire

    @property
    def words(self) -> List[str]:
        """The options of irig_demodulate that make a track of it that is upright."""
        return [*self.lane.words, *["--swap"] * self.carrier.inverted]

    @property
    def has_frames(self) -> bool:
        return self.carrier.has_frames

    def first_line(self) -> str:
        side = "upside down" if self.carrier.inverted else "upright"
        how = "on a carrier" if self.lane.is_carrier else side
        return "%s, %s, format %s" % (in_line(self.lane.text), how, self.carrier.kind)

    def lines(self) -> List[str]:
        return [self.first_line(), *self.carrier.lines()[1:]]

    def as_object(self, command: str) -> Dict[str, object]:
        """For a program."""
        return {**self.carrier.as_object(), "wire": self.lane.text, "code": None, "path": None, "options": self.words, "command": command}

    def command(self, name: str, has_others: bool) -> str:
        """The whole chain: a dump of it, repaired, and if something was recorded next to it that with its time of day."""
        track, data = (free_name(each) for each in ("track.vcd", "data.txt"))
        code = ["--format", self.carrier.kind, "--expression", str(self.carrier.expression)] if self.carrier.fine else []
        aside = ["--samples", data] if has_others else []
        words = [["irig_demodulate", *self.words, *aside, "--out", track, no_option(name)],
                 ["irig_mend", *code, "--apply", free_name("new.vcd"), track]]
        chain = " && ".join(" ".join(map(in_command, each)) for each in words)
        if not has_others:
            return chain
        return "%s && irig_time %s < %s > %s" % (chain, " ".join([*code, free_name("new.vcd")]), data, free_name("timed.txt"))


@dataclass
class Lanes:
    """What a table or a sound file has, part by part."""

    parts: Iterator[LanePart]
    many: int  # columns or channels, without the times

    def with_code(self) -> List[CodeLane]:
        """Those with time code in the first part in which a frame is fine, or else in the last one in which some have any; the one with
        the most fine frames first."""
        found: List[CodeLane] = []
        for lanes, length in self.parts:
            new = _coded(lanes, length) if lanes else []
            found = new or found
            if any(each.carrier.fine for each in new):
                break
        return found


def _coded(lanes: Sequence[Lane], length: int) -> List[CodeLane]:
    with temporary_track() as track:
        with named_if_no_room():
            write_lanes(lanes, length, track)
            track.flush()
        carriers = What(track.name, track.name, "", 1).carriers
    return [CodeLane(lanes[int(carrier.signal.path[len("lane"):])], carrier) for carrier in carriers]


def lanes_at(path: str) -> Optional[Lanes]:
    """The columns of a table or the channels of a sound file at a path; nothing if it is neither."""
    with open(path, "rb") as file:
        first = file.read(LOOKED_AT_FIRST)
    if first.startswith(SOUNDS):
        return _of_sound(path)
    if not first or any(word in first for word in DECLARATIONS):
        return None
    try:
        table = every_column(path)
    except Problem as problem:
        if any(text in str(problem) for text in NO_TABLE):
            return None
        raise
    return Lanes(table.parts(), len(table.columns))


def _of_sound(path: str) -> Lanes:
    one = Samples(path, 1, "", 0)
    size = min(MOST_LOOKED, SECONDS_OF_SOUND * one.rate)
    channels = [Samples(path, number, "", 0).chunks(size) for number in range(1, one.channels + 1)]
    return Lanes(islice(_parts_of_sound(path, one, zip(*channels)), MOST_PARTS), one.channels)


def _parts_of_sound(path: str, one: Samples, parts: Iterator[Tuple[Sequence[float], ...]]) -> Iterator[LanePart]:
    begun = 0.0
    for part in parts:
        lanes = [lane_of("channel %d" % number, ["--channel", str(number)] * (one.channels > 1),
                         KeptSamples(path, values, one.kind, one.rate, begun)) for number, values in enumerate(part, 1)]
        begun += MICROSECONDS * len(part[0]) / one.rate
        found = [lane for lane in lanes if lane]
        yield found, max([lane.until for lane in found], default=round(begun))
