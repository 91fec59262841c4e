"""The declarations of a dump: its unit and its wires."""
from __future__ import annotations

import re
from dataclasses import dataclass, field
from typing import Dict, Iterator, List, NamedTuple, Optional, Tuple

from . import limits
from .dump_offset import Offset, read_offset
from .dump_source import Source
from .editor import Problem
from .ending import EMPTY_FILE

HEADS = {b"$date", b"$version", b"$timescale", b"$scope", b"$upscope", b"$var", b"$enddefinitions",
         b"$attrbegin", b"$attrend"}
READ = {b"$timescale", b"$scope", b"$var"}  # of which each word counts
BODY = {b"$dumpvars", b"$dumpall", b"$dumpon", b"$dumpoff", b"$dumpports", b"$dumpportsall", b"$dumpportson",
        b"$dumpportsoff"}
NO_BITS = {"real", "realtime", "event", "parameter", "string", "shortreal"}
PORT_RANGE = re.compile(rb"\[([0-9]{1,9}):([0-9]{1,9})\]")
MOST_BEFORE = 10000  # words before the header
SHOWN_OF_A_WORD = 60  # bytes, in a message
REPLACED = "\ufffd"  # what is shown of a letter that cannot be printed
NO_HEAD = "is no dump: no declaration is found; samples and tables are for irig_demodulate"
ENDLESS = ": is no dump: the declarations do not end; the file is cut off, or it has no $enddefinitions"


def shown(word: bytes) -> str:
    """A word of a dump for people."""
    text = word.decode("utf-8", "replace")
    return "".join(letter if letter.isprintable() else REPLACED for letter in text)


Shape = Tuple[int, int, int, bool, int, int]  # of a wire: all but its code and its path


class Wire(NamedTuple):
    """A variable of a dump, of one bit or more."""

    code: bytes
    path: str  # with its scopes, separated by dots
    size: int
    first: int  # the number of its leftmost bit
    last: int  # that of its rightmost
    bits: bool  # whether it is made of bits
    begin: int  # its reference is the path from here on
    end: int  # and up to here; nothing if the path does not have it

    @property
    def single(self) -> bool:
        return self.size == 1 and self.bits

    @property
    def reference(self) -> str:
        """Its name without scopes, as irig_ed reads it; nothing if that cannot be typed."""
        return self.path[self.begin:self.end]


class Wires:
    """The wires of a dump in their order, in columns: so one takes a third less memory, and wires of one shape share it."""

    def __init__(self) -> None:
        self.codes: List[bytes] = []
        self.paths: List[str] = []
        self.shapes: List[Shape] = []
        self.known: Dict[Shape, Shape] = {}

    def append(self, wire: Wire) -> None:
        shape = wire[2:]
        self.codes.append(wire.code)
        self.paths.append(wire.path)
        self.shapes.append(self.known.setdefault(shape, shape))

    def __len__(self) -> int:
        return len(self.codes)

    def __getitem__(self, place: int) -> Wire:
        return Wire(self.codes[place], self.paths[place], *self.shapes[place])

    def __iter__(self) -> Iterator[Wire]:
        return map(self.__getitem__, range(len(self)))


@dataclass
class Header:
    """What is declared."""

    unit: Optional[str] = None
    wires: Wires = field(default_factory=Wires)
    notes: List[str] = field(default_factory=list)
    offset: Optional[Offset] = None  # what was subtracted when it was cut out


class Reader:
    """Reads one header, up to the first word of the changes."""

    def __init__(self, source: Source) -> None:
        self.source = source
        self.header = Header()
        self.scopes: List[str] = []
        self.letters = 0  # of all paths

    def read(self) -> Header:
        self._skip_before()
        for word in self.source:
            if word == b"$enddefinitions":
                self._section()
                return self.header
            if not word.startswith(b"$") or word in BODY:
                if word[:1] == b"#" or word in BODY:
                    self.source.give_back(word)
                    self._note("the declarations have no end; the changes begin at '%s'" % shown(word))
                    return self.header
                self._note("words between the declarations were left out, the first '%s'" % shown(word[:40]))
            elif word != b"$end":
                self._declare(word, self._section(word in READ))
        raise Problem(self.source.path + ENDLESS)

    def _note(self, text: str) -> None:
        if text not in self.header.notes and len(self.header.notes) < 5:
            self.header.notes.append(text)

    def _refuse(self, what: str, limit: int, unit: str) -> None:
        """Says that the dump breaks a limit."""
        raise Problem("%s: %s %s %s, which is the limit" % (self.source.path, what, format(limit, ","), unit))

    def _skip_before(self) -> None:
        before: List[bytes] = []
        for word in self.source:
            if word in HEADS or word == b"$comment":
                self.source.give_back(word)
                if before:
                    text = shown(b" ".join(before)[:SHOWN_OF_A_WORD])
                    self._note("'%s' before the header was left out" % text)
                return
            before.append(word[:SHOWN_OF_A_WORD])
            if len(before) > MOST_BEFORE:
                break
        raise Problem("%s: %s" % (self.source.path, NO_HEAD if before else EMPTY_FILE))

    def _section(self, is_read: bool = False) -> List[bytes]:
        """The words up to `$end`; a declaration that is not closed ends at the next one. Of one that is not read there are the first."""
        words: List[bytes] = []
        size = 0
        for word in self.source:
            if word == b"$end":
                return words
            if word in HEADS:
                self.source.give_back(word)
                self._note("a declaration has no $end, and was ended at the next one")
                return words
            size += len(word)
            if size <= limits.LONGEST_DECLARATION and len(words) < MOST_BEFORE:
                words.append(word)
            elif is_read:
                self._refuse("a declaration has more than", limits.LONGEST_DECLARATION, "bytes")
        raise Problem(self.source.path + ENDLESS)

    def _declare(self, section: bytes, words: List[bytes]) -> None:
        if section == b"$timescale":
            text = b"".join(words)
            greek = b"\xb5" in text and b"\xc2" not in text  # in Latin-1
            self.header.unit = text.decode("latin-1") if greek else shown(text)
        elif section == b"$scope":
            self.scopes.append(shown(words[1] if len(words) > 1 else b"?"))
            if len(self.scopes) > limits.MOST_SCOPES:
                self._refuse("has more than", limits.MOST_SCOPES, "scopes, one within the other")
        elif section == b"$upscope" and self.scopes:
            self.scopes.pop()
        elif section == b"$var":
            self._wire(words)
        elif section == b"$comment":
            self.header.offset = self.header.offset or read_offset(words)

    def _wire(self, words: List[bytes]) -> None:
        words = _with_size(words)
        if len(words) < 4 or not words[1].isdigit() or len(words[1]) > 9:
            self._note("a $var that is not of the standard was left out: '%s'" % shown(b" ".join(words)[:60]))
            return
        kind, size, code = shown(words[0]), int(words[1]), words[2]
        name, ends = _range(shown(b"".join(words[3:])), size)
        reference, begin = shown(words[3]), sum(len(scope) + 1 for scope in self.scopes)
        end = begin + len(reference) if name.startswith(reference) and REPLACED not in reference else begin
        path = ".".join([*self.scopes, name])
        self._count(path)
        self.header.wires.append(Wire(code, path, size, *ends, kind not in NO_BITS and size > 0, begin, end))

    def _count(self, path: str) -> None:
        """Refuses paths that take too much memory."""
        self.letters += len(path)
        if len(path) > limits.LONGEST_PATH:
            self._refuse("the path of a wire has more than", limits.LONGEST_PATH, "letters")
        if self.letters > limits.MOST_LETTERS:
            self._refuse("the paths of all wires have more than", limits.MOST_LETTERS, "letters")


def _with_size(words: List[bytes]) -> List[bytes]:
    """A port of an extended dump has its range instead of its size: `port [7:0] <0 bus`."""
    found = PORT_RANGE.fullmatch(words[1]) if len(words) == 4 else None
    if not found:
        return words
    size = abs(int(found[1]) - int(found[2])) + 1
    return [words[0], b"%d" % size, words[2], words[3] + found[0]]


def _range(reference: str, size: int) -> Tuple[str, Tuple[int, int]]:
    """The name without the range of a vector, and the numbers of its outer bits."""
    name, bracket, inside = reference.rpartition("[")
    left, colon, right = inside.rstrip("]").partition(":")
    number = "".join(left.split("-", 1)), "".join(right.split("-", 1))
    if bracket and name and colon and all(re.fullmatch("[0-9]{1,9}", part) for part in number):
        return name, (int(left), int(right))
    return reference, (size - 1, 0)
