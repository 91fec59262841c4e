"""Runs a proposed script and writes the repaired recording, as a track or put back into its file."""
from __future__ import annotations

import os
import shutil
import subprocess
from bisect import bisect_left, bisect_right
from contextlib import ExitStack
from dataclasses import dataclass
from functools import cached_property
from typing import IO, Callable, Dict, List, Optional, Sequence, Set, Tuple

from .damage import Damage
from .dump_header import Reader
from .dump_choice import choose, singles, wire_name
from .dump_source import Source
from .editor import CUT_OFF, Info, Listing, Problem, find_beside, find_editor, info_of, other_release
from .escapes import in_command
from .guard_words import NOTHING_FINE, Reason, filled_frames, filled_text, guard_reason
from .joining import frames_at_fault, joined
from .kinds import DamageKind
from .named import wire_named, wire_or_none
from .opening import Opened
from .output import is_standard_output, output
from .proposal import no_option
from .put_back import PutBack, TrackEdges, TrackLevel
from .readings import is_opened
from .script import Repair
from .temporary import temporary_script
from .wire import Wish

HEAD = b"$timescale 1 us $end\n"  # how a dump of the editor begins
UNREAD_AS_IT_IS = "irig_ed and irig_time do not read this file as it is, but a dump of its wire: %s > one.vcd"
OFF_AT_MOST = "the clock wanders: times in holes that were filled can be up to %.3g milliseconds off"


@dataclass(frozen=True)
class Summary:
    """What became of the places of damage, and how many frames are sound."""

    found: int
    repaired: int
    undecided: int
    left: int
    steps: int  # of the recorder's clock; they stay
    guessed: int  # of those that are repaired
    filled: Optional[int]  # frames with control functions that are not in the recording; None if they were not counted
    refused: int  # lines that were refused
    sound_before: int
    sound_after: int
    off: int = 0  # by how many microseconds what is filled in can be off at most, if the clock wanders; 0 if that is not worth a word

    def text(self) -> str:
        guessed = " (%d by a guess)" % self.guessed if self.guessed else ""
        refused = ", %d line%s refused" % (self.refused, "s" * (self.refused > 1)) if self.refused else ""
        return "%d place%s found, %d repaired%s, %d undecided, %d left, %d step%s that stay%s%s; %d frame%s sound before, %d after" % (
            self.found, "s" * (self.found != 1), self.repaired, guessed, self.undecided, self.left, self.steps,
            "s" * (self.steps != 1), "s" * (self.steps == 1), refused, self.sound_before, "s" * (self.sound_before != 1),
            self.sound_after)

    @property
    def notes(self) -> List[str]:
        """What is said after the sums: nothing in the recording supports these control functions; and how far off all can be that is
        filled in."""
        return ([filled_text(self.filled)] if self.filled else []) + ([OFF_AT_MOST % (self.off / 1000)] if self.off else [])

    @property
    def is_whole(self) -> bool:
        return not (self.undecided or self.left or self.steps or self.refused)


@dataclass(frozen=True)
class Refused:
    """How many lines of a script were refused, why irig_guard did so, and all that it printed."""

    lines: int
    reasons: Sequence[Reason] = ()
    printed: Sequence[str] = ()
    filled: Optional[int] = None  # frames with control functions that are not in the recording, if they are counted

    @cached_property
    def dropped(self) -> Set[str]:
        """The lines that are comments now."""
        return {line[2:] for line in self.printed if line.startswith("# ")}

    def drops(self, repair: Repair) -> bool:
        """Whether a repair is dropped: its lines are comments."""
        return bool(repair.edits) and self.dropped.issuperset(repair.edits)

    @property
    def is_nothing(self) -> bool:
        """Whether irig_guard kept all."""
        return all(reason.text == NOTHING_FINE[2:] for reason in self.reasons) and not self.lines

    def drops_moves(self, script: Sequence[Repair]) -> bool:
        """Whether a repair that moves what follows was refused."""
        return any(self.drops(repair) for repair in script if repair.moves)


@dataclass(frozen=True)
class Counts:
    """What is counted of a recording, or of a part of it."""

    found: int  # places of damage
    repaired: int  # of these
    steps: int
    undecided: int
    left: int
    guesses: int  # places that are repaired by one
    filled: Optional[int]
    refused: int
    sound_before: int
    sound_after: int
    off: int  # at most, of what is filled in

    def plus(self, other: Counts) -> Counts:
        """Of two parts that follow each other."""
        sums = {name: (mine or 0) + (vars(other)[name] or 0) for name, mine in vars(self).items()}
        sums["filled"] = None if self.filled is None or other.filled is None else sums["filled"]
        return Counts(**{**sums, "off": max(self.off, other.off)})

    def summary(self) -> Summary:
        return Summary(self.found, self.repaired, self.undecided, self.left, self.steps, min(self.repaired, self.guesses), self.filled,
                       self.refused, self.sound_before, self.sound_after, self.off)


def guesses_in(script: Sequence[Repair], found: Sequence[Damage], refused: Refused) -> int:
    """How many places are repaired by a guess: not if the repair is dropped."""
    return _places_of([each for each in script if each.guesses and not refused.drops(each)], found)


def most_off(script: Sequence[Repair], refused: Refused) -> int:
    """By how many microseconds what is filled in can be off at most."""
    return max((each.off for each in script if each.edits and not refused.drops(each)), default=0)


def _places_of(repairs: Sequence[Repair], damages: Sequence[Damage]) -> int:
    """How many places of damage these repairs touch."""
    begins = [each.at for each in damages]
    touched: Set[int] = set()
    for repair in repairs:
        near = range(max(0, bisect_left(begins, repair.at) - 1), bisect_right(begins, max(repair.at, repair.until)))
        touched.update(place for place in near if repair.touches(damages[place].at, damages[place].until))
    return len(touched)


@dataclass(frozen=True)
class Code:
    """Which recording it is, and how irig_time reads it."""

    recording: str
    wire: str
    format: str
    expression: int


def find_guard() -> str:
    """The path of irig_guard."""
    return find_beside("irig_guard", "--apply tries each repair in it")


def beside(others: Sequence[str]) -> List[str]:
    """The options that name other recordings for irig_guard."""
    return [word for path in others for word in ("--with", path)]


def run_script(track: Opened, script: Sequence[Repair], save: bool, out: str, moved: bool, kind: str,
               others: Sequence[str] = ()) -> Refused:
    """Runs a script on the track, of this format, through irig_guard and writes a file, with its history if `save`; what was
    refused. Frames that are fine may move if `moved`. What irig_guard goes by is first made by the editor. It gets the dumps of other
    recordings."""
    guard, (first, rest) = [find_guard(), *["--moved"] * moved, *beside(others)], made_before(script)
    if not first:
        guard, path = [*guard, *track.options], track.path
    else:
        guard, path = [*guard, *track.code], turned_track(out)
        _run([find_editor(), *track.options], track.path, [*lines_of_all(first), "save" if save else "write"], path)
    return run_guarded([*guard, *["--save"] * save], path, rest, out, kind)


def made_before(script: Sequence[Repair]) -> Tuple[Sequence[Repair], Sequence[Repair]]:
    """What the editor makes before irig_guard judges all else, and that: a wire that is upside down is turned over, since the guard goes by
    the frames that are fine; and what most recordings have is trusted without it: that changes neither a time nor how many pulses there
    are."""
    many = turning(script)
    trusted = [each for each in script[many:] if each.is_trusted]
    return [*script[:many], *trusted], [each for each in script[many:] if not each.is_trusted]


def run_guarded(command: List[str], path: str, script: Sequence[Repair], out: str, kind: str) -> Refused:
    """Runs a script through irig_guard. If it drops repairs because of a frame, those of the frame are tried again as one:
    a frame with two damages can read another time after one repair alone. If that helps some frames only, only theirs are
    one. The run that drops fewest lines counts."""
    best = _run_guard(command, path, script, out)
    frames, again = frames_at_fault(best.reasons), out + ".joined"
    for _ in range(2):
        as_one = joined(script, frames, kind)
        if len(as_one) == len(script):
            break
        found = _run_guard(command, path, as_one, again)
        if found.lines < best.lines:
            os.replace(again, out)
            best = found
        in_vain = frames & frames_at_fault(found.reasons)
        if not in_vain:
            break
        frames -= in_vain
    return best


def _run_guard(command: List[str], path: str, script: Sequence[Repair], out: str) -> Refused:
    lines = lines_of_all(script)
    printed, said = _run(command, path, lines, out)
    if not os.path.exists(out):
        _run([find_editor(), *_options_of_editor(command[1:])], path, ["save" if "--save" in command else "write"], out)
    reasons = [_reason(command[0], line) for line in printed]
    is_counted = "--moved" not in command and NOTHING_FINE not in printed
    return Refused(_refused_by_guard(lines, printed, reasons), [each for each in reasons if each], printed,
                   filled_frames(said) if is_counted else None)


def _options_of_editor(words: Sequence[str]) -> List[str]:
    """Those of some options of irig_guard that the editor has, too."""
    return [word for word, before in zip(words, ["", *words]) if word not in ("--moved", "--save", "--with") and before != "--with"]


def _reason(program: str, line: str) -> Optional[Reason]:
    try:
        return guard_reason(line)
    except ValueError as error:
        raise other_release(program, line.encode()) from error


def turned_track(out: str) -> str:
    """Where the track is, turned over, while a script runs that turns it over and writes to this path."""
    return out + ".turned"


def turning(script: Sequence[Repair]) -> int:
    """How many repairs and remarks come up to the one that turns the wire over; 0 if none does."""
    return next((number for number, each in enumerate(script, 1) if each.edits and each.kind == DamageKind.INVERTED), 0)


def lines_of_all(script: Sequence[Repair]) -> List[str]:
    return [line for each in script for line in each.lines()]


def _run(command: List[str], path: str, lines: Sequence[str], out: str) -> Tuple[List[str], str]:
    """The lines that a program prints that runs a script on a track and writes a file, and what it says on the standard error. If no
    frame is fine, irig_guard writes none."""
    with temporary_script("".join(line + "\n" for line in lines)) as script:
        try:
            done = subprocess.run([*command, "--out", out, path], stdin=script, capture_output=True, check=False)
        except OSError as error:
            raise Problem("%s cannot be run: %s" % (command[0], error.strerror)) from error
    printed, said = done.stdout.decode(errors="replace").splitlines(), done.stderr.decode(errors="replace").strip()
    if done.returncode not in (0, 1) or not (os.path.exists(out) or NOTHING_FINE in printed):
        raise Problem("%s (it writes %s)" % (said or "%s ended with status %d" % (command[0], done.returncode), out))
    return printed, said


def _refused_by_guard(lines: Sequence[str], kept: Sequence[str], reasons: Sequence[Optional[Reason]]) -> int:
    """How many lines of the script it printed as comments; its own comments, which say why, are passed over."""
    printed = (line for line, reason in zip(kept, reasons) if not reason)
    return sum(not line.startswith("#") and line not in ("begin", "end") and after == "# " + line
               for line, after in zip(lines, printed))


@dataclass(frozen=True)
class FrameCount:
    """What the editor says of a track, and how many frames of it are fine."""

    info: Info
    sound: int


def frames_of(options: Sequence[str], path: str, counts_at: Callable[[int], bool] = lambda time: True) -> FrameCount:
    """Frames count that begin at times of which this is true."""
    with temporary_script("info\nframes\n") as script:
        done = subprocess.run([find_editor(), *options, path], stdin=script, stdout=subprocess.PIPE,
                              stderr=subprocess.DEVNULL, check=False)
    if done.returncode:
        raise Problem(CUT_OFF)
    first, *lines = done.stdout.splitlines()
    return FrameCount(info_of(first.split()), sum(line.endswith(b" fine") and counts_at(int(line.split(None, 3)[2])) for line in lines))


@dataclass
class Target:
    """Where the repaired recording goes, with all outputs: each gets its name in the end, if all went well."""

    outputs: ExitStack
    out: str
    into: Optional[str] = None  # the file whose wire is replaced
    wire: Optional[str] = None  # its name there
    unit: Optional[str] = None
    dump: Optional[int] = None

    def write(self, repaired: str, track: Opened) -> List[str]:
        """Writes the repaired track; what is said of it."""
        out = self.outputs.enter_context(output(self.out))
        if self.into is None:
            with open(repaired, "rb") as source:
                out.write(_with_offset(source.read(len(HEAD)), track))
                shutil.copyfileobj(source, out)
            return []
        level = TrackEdges(repaired, None)
        level.offset = track.offset
        return self.put_back(level, track, out) + self._unread(out, track)

    def _unread(self, out: IO[bytes], track: Opened) -> List[str]:
        """What is said if the proved programs do not read the file, as if another wire has letters of VHDL: these stay."""
        if is_standard_output(self.out):
            return []
        out.flush()
        path, header = "/proc/%d/fd/%d" % (os.getpid(), out.fileno()), Reader(Source(self.into or "")).read()
        name = wire_name(header, choose(header, self._wire(track)))
        if not os.path.isfile(path) or is_opened(path, ["--wire=" + name]):
            return []
        return [UNREAD_AS_IT_IS % " ".join(map(in_command, ["irig_wire", no_option(self.out), name]))]

    def put_back(self, level: TrackLevel, track: Opened, out: IO[bytes]) -> List[str]:
        """Writes the file with the level of the repaired track; what is said of it."""
        assert self.into is not None
        report = PutBack(self.into, Wish(self._wire(track), self.unit, self.dump), level, out).run()
        return report.done + report.doubtful

    def _wire(self, track: Opened) -> Optional[str]:
        """The wire of the file: the one that is named, or the only one, or the one with the name of the track's."""
        assert self.into is not None
        header = Reader(Source(self.into)).read()
        if self.wire is not None or len(singles(header)) == 1:
            return self.wire
        return wire_named(track)


def _with_offset(head: bytes, track: Opened) -> bytes:
    """The beginning of the repaired track, with what was subtracted from its times."""
    if track.offset is None or head != HEAD:
        return head
    return head + track.offset.comment().encode("ascii") + b"\n"


def code_of(name: str, track: Opened, listing: Listing) -> Code:
    """The recording with this name."""
    return Code(name, wire_or_none(track), listing.kind, listing.expression)


def as_object(found: Summary, code: Code, reasons: Sequence[str]) -> Dict[str, object]:
    return {**vars(code), "summary": dict(vars(found)), "reasons": list(reasons)}
