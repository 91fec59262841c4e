"""Runs irig_ed and reads what it prints."""
from __future__ import annotations

import os
import shutil
import subprocess
import tempfile
from contextlib import contextmanager
from dataclasses import dataclass, field
from functools import cached_property, lru_cache
from itertools import islice
from operator import sub
from typing import IO, Any, Callable, Dict, Iterable, Iterator, List, Optional, Sequence, Set, Tuple, TypeVar, cast

from .temporary import temporary_script
from .units import Microseconds

CLASSES = {b"zero": b"0", b"one": b"1", b"position": b"P", b"bad": b"b"}
CUT_OFF = "irig_ed ended before its answer did"
ANSWER_BLOCK = 1 << 16  # bytes that are read at once: what is made of more is not at hand in the fastest memory

Progress = Callable[[str], None]
Judgement = TypeVar("Judgement")


class Problem(Exception):
    """A track that is not read, or an editor that is not found; the text says which. A list that belongs to it has a line for each item
    below the text."""

    def __init__(self, text: str, below: Sequence[str] = ()) -> None:
        super().__init__(text)
        self.below = tuple(below)


@contextmanager
def called(hidden: str, name: str) -> Iterator[None]:
    """A complaint has the name of a file that the user knows, and not that of its copy."""
    try:
        yield
    except Problem as error:
        raise Problem(str(error).replace(hidden, name), error.below) from error


class _Same(Dict[int, int]):
    """Of numbers that are the same the first one that was asked for."""

    def __missing__(self, number: int) -> int:
        self[number] = number
        return number


@dataclass
class Listing:
    """What the editor prints of a track after some repairs."""

    length: Microseconds = Microseconds(0)
    pulses: int = 0  # as the editor counts them
    kind: str = "B"
    expression: int = 2
    rises: List[Microseconds] = field(default_factory=list)
    falls: List[Microseconds] = field(default_factory=list)
    classes: str = ""  # a letter each pulse: 0, 1, P, b
    refused: Set[int] = field(default_factory=set)  # which of the blocks, from 0, had a refused line

    @property
    def info(self) -> Info:
        return Info(self.length, self.pulses, self.kind, self.expression)

    @cached_property
    def apart(self) -> Sequence[int]:
        """From each rise to the next; those that are the same are one object, as they are millions."""
        return list(map(_Same().__getitem__, map(sub, islice(self.rises, 1, None), self.rises)))


def find_editor() -> str:
    """The path of irig_ed: what IRIG_ED names, else the one that was installed with these tools, else the one on
    the path, else the one of the repository, if it is built."""
    named = os.environ.get("IRIG_ED")
    if named:
        if shutil.which(named) is None:
            raise Problem("IRIG_ED names '%s', which is no program that can be run" % named)
        return named
    tools = os.path.dirname(os.path.dirname(os.path.realpath(__file__)))
    installed = os.path.normpath(os.path.join(tools, "../../../bin/irig_ed"))
    starter, built = os.path.join(tools, "../irig_ed"), os.path.join(tools, "../crates/irig_ed/out/irig_ed")
    found = shutil.which(installed) or shutil.which("irig_ed")
    if not found and os.path.isfile(built):
        found = _started(shutil.which(os.path.normpath(starter)))
    if not found:
        raise Problem("irig_ed is not found: it is not on the path, and IRIG_ED does not name it")
    return found


@lru_cache(None)
def _started(starter: Optional[str]) -> Optional[str]:
    """The start of the repository's editor, once it needs no proof: one takes minutes, and what it says of that has to be seen."""
    if starter and subprocess.run([starter, "--help"], stdin=subprocess.DEVNULL, stdout=subprocess.DEVNULL, check=False).returncode:
        raise Problem("irig_ed is not built")
    return starter


def find_beside(name: str, need: str) -> str:
    """The path of another proved program: the one next to the editor, else the one of the repository, if it is built."""
    tools = os.path.dirname(os.path.dirname(os.path.realpath(__file__)))
    beside = os.path.join(os.path.dirname(shutil.which(find_editor()) or ""), name)
    found = shutil.which(beside) or shutil.which(os.path.join(tools, "../crates/%s/out/%s" % (name, name)))
    if not found:
        raise Problem("%s is not found next to irig_ed, and %s; in a clone ./build makes it" % (name, need))
    return found


@dataclass(frozen=True)
class Info:
    """An answer of the editor to `info`."""

    length: Microseconds
    pulses: int
    kind: str
    expression: int


def info_of(words: Sequence[bytes]) -> Info:
    """Reads the words of an answer to `info`; those of another release of the editor are refused."""
    try:
        if list(words[0:8:2]) != [b"length", b"pulses", b"frames", b"format"]:
            raise ValueError
        return Info(Microseconds(int(words[1])), int(words[3]), words[7].decode("ascii"), int(words[8]))
    except (ValueError, IndexError) as error:
        raise _other_release(words) from error


def _other_release(words: Sequence[bytes]) -> Problem:
    return other_release(find_editor(), b" ".join(words))


def other_release(program: str, line: bytes) -> Problem:
    """What is said of a program that prints a line of another form."""
    said = line.rstrip()[:60].decode(errors="replace")
    return Problem("%s is of another release: it answers '%s'; let IRIG_ED name the editor of these tools" % (program, said))


@dataclass
class _Asked:
    """A listing, and what was found in it, by what was looked for."""

    listing: Listing
    found: Dict[Tuple[object, ...], Any] = field(default_factory=dict)


def _edits_of(blocks: Sequence[Sequence[str]]) -> Tuple[str, ...]:
    """The lines on which a listing depends: no comments, and no groups."""
    return tuple(line for block in blocks for line in block if line not in ("begin", "end") and not line.startswith("#"))


class Editor:
    """One track, opened with the editor's options as often as needed; nothing is ever written."""

    def __init__(self, options: Sequence[str]) -> None:
        self.command = [find_editor(), *options]
        self._asked: Dict[Tuple[str, ...], _Asked] = {}  # by the edits: of the track as it is, and after the edits that came last

    def ask(self, blocks: Sequence[Sequence[str]]) -> Listing:
        """The listing of the track after these blocks of lines."""
        edits = _edits_of(blocks)
        if edits in self._asked:
            return self._asked[edits].listing
        if edits:
            self._asked = {each: asked for each, asked in self._asked.items() if not each}
        found = self._ask(blocks)
        if not found.refused:
            self._asked[edits] = _Asked(found)
        return found

    def judged(self, listing: Listing, judge: Callable[..., Judgement], *how: object) -> Judgement:
        """What is found in a listing; what was found in the same way is not looked for again."""
        asked = next((each for each in self._asked.values() if each.listing is listing), _Asked(listing))
        if how not in asked.found:
            asked.found[how] = judge(listing, *how)
        return cast(Judgement, asked.found[how])

    def knows_listing(self, listing: Listing, expression: int) -> None:
        """The track has these pulses, as they were listed under another expression."""
        listing.expression = expression
        self._asked[()] = _Asked(listing)

    def knows(self, other: Editor, blocks: Sequence[Sequence[str]], info: Info) -> None:
        """The track is that of another editor after these lines, if that was asked for and all that `info` says is the same."""
        asked = other._asked.get(_edits_of(blocks))
        if asked and asked.listing.info == info:
            self._asked[()] = asked

    def _ask(self, blocks: Sequence[Sequence[str]]) -> Listing:
        lines = [line for block in blocks for line in (*block, "info")]
        with temporary_script("\n".join([*lines, "info", ",list", ""])) as script:
            return self._run(script, len(blocks))

    def _run(self, script: IO[bytes], blocks: int) -> Listing:
        listing = Listing()
        with tempfile.TemporaryFile() as complaints:
            try:
                pipe = subprocess.PIPE
                program = subprocess.Popen(self.command, stdin=script, stdout=pipe, stderr=complaints)
            except OSError as error:
                raise Problem("%s cannot be run: %s" % (self.command[0], error.strerror)) from error
            with program:
                assert program.stdout is not None
                said = _read_answers(program.stdout, listing, blocks)
                if said is None:
                    said = _read_pulses(program.stdout, listing)
                status = program.wait()
            complaints.seek(0)
            told = " ".join(complaints.read().decode(errors="replace").split())
        if said is not None:
            raise Problem(told or said or "irig_ed ended with status %d" % status)
        return listing


def _read_answers(answers: IO[bytes], listing: Listing, blocks: int) -> Optional[str]:
    """Reads up to the last `info`; returns what the editor said if it ended before that."""
    done, last = 0, ""
    while done <= blocks:
        line = answers.readline()
        words = line.split()
        if not words:
            return last
        if words[0] == b"?":
            listing.refused.add(done)
            last = line.decode(errors="replace").strip()
        elif words[0] == b"length":
            info = info_of(words)
            listing.length, listing.pulses = info.length, info.pulses
            listing.kind, listing.expression = info.kind, info.expression
            done += 1
    return None


def _read_pulses(answers: IO[bytes], listing: Listing) -> Optional[str]:
    """Reads the list; returns what is said if the editor ended before that."""
    blocks = []
    while True:
        words = (answers.read(ANSWER_BLOCK) + answers.readline()).split()
        if not words or words[0] == b"?":
            break
        try:
            listing.rises += cast(Iterable[Microseconds], map(int, words[1::4]))
            listing.falls += cast(Iterable[Microseconds], map(int, words[2::4]))
            blocks.append(_letters(words[3::4]))
        except ValueError as error:
            raise _other_release(words[:4]) from error
    listing.classes = "".join(blocks)
    return None if len(listing.classes) == listing.pulses else CUT_OFF


def _letters(names: Sequence[bytes]) -> str:
    """The letters of some classes; a ValueError if one is none."""
    found = b"".join(names)
    for name, letter in CLASSES.items():
        found = found.replace(name, letter)
    if len(found) != len(names) or found.translate(None, b"".join(CLASSES.values())):
        raise ValueError
    return found.decode("ascii")


def progress_to(stream: IO[str]) -> Progress:
    """What shows a line of progress on a terminal, and nothing elsewhere."""

    def show(text: str) -> None:
        print("\r%-70s" % text, end="\r" if text else "\r\033[K", file=stream, flush=True)

    return show if stream.isatty() else lambda text: None
