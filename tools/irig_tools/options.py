"""What a program can be given: one declaration for the parser, the help, and the tests of the pages."""
from __future__ import annotations

import argparse
from dataclasses import dataclass, field
from functools import partial
from typing import Any, Callable, Dict, List, Optional, Sequence, Tuple

from .digits import FRACTION, WHOLE
from .ending import Usage

FILE_VALUES = "FILE", "ORIGINAL", "OTHER"  # how the value of an option is called that is a file
NO_VALUE = "expected"  # how a complaint of argparse begins if a value is not there
MORE = "..."  # how an operand ends that can be given several times


@dataclass(frozen=True)
class Option:
    """An option. `value` is how its value is called in the help; without one it is a flag."""

    name: str
    value: str = ""
    about: str = ""
    read: Optional[Callable[[str], object]] = None
    choices: Tuple[str, ...] = ()
    is_list: bool = False  # it can be given several times, and each counts

    def reader(self) -> Callable[[str], object]:
        """What makes a value of a word, or refuses it."""
        if self.choices:
            return partial(_one_of, self.choices)
        return self.read or a_word


def a_word(word: str) -> str:
    """Reads a word; an empty one is as bad as none."""
    if not word:
        raise argparse.ArgumentTypeError(NO_VALUE)
    return word


def _one_of(choices: Sequence[str], word: str) -> str:
    if word not in choices:
        listed = "%s or %s" % (", ".join(choices[:-1]), choices[-1])
        raise argparse.ArgumentTypeError("is %s, not '%s'" % (listed, word))
    return word


def whole(least: int) -> Callable[[str], int]:
    """Reads a whole number."""

    def read(word: str) -> int:
        if not WHOLE.fullmatch(word) or int(word) < least:
            raise argparse.ArgumentTypeError("needs a whole number, at least %d, not '%s'" % (least, word))
        return int(word)

    return read


def a_number(word: str) -> float:
    """Reads a number, perhaps with a point."""
    if not FRACTION.fullmatch(word):
        raise argparse.ArgumentTypeError("needs a number, at least 0, not '%s'" % word)
    return float(word)


HELP = Option("--help", about="prints this text")
VERSION = Option("--version", about="prints the version")
WIRE = Option("--wire", "NAME", "the wire of the dump, as irig_ed has it")
FORMAT = Option("--format", "A|B|E|G", "the format; B if only the expression is given; if neither is, both are found",
                choices=("A", "B", "E", "G"))
EXPRESSION = Option("--expression", "0..7", "the coded expression; 2 if only the format is given",
                    choices=tuple("01234567"))
EDITOR = (WIRE, FORMAT, EXPRESSION)  # those of irig_ed
TIMESCALE = Option("--timescale", "UNIT", "the unit of time, as 1ns, instead of the one in the dump")
JSON = Option("--json", about="prints an object in JSON for each, one a line")
QUIET = Option("--quiet", about="prints nothing; the status says it")
OUTPUT = Option("--out", "FILE", "the file to write, whole or not at all, instead of standard output")
DUMP = Option("--dump", "N", "of several dumps in the file, the one with this number", whole(1))


@dataclass
class Given:
    """What a program was given: its operands, and its options by their names."""

    names: List[str] = field(default_factory=list)
    values: Dict[str, Any] = field(default_factory=dict)

    def has(self, option: Option) -> bool:
        return self.values.get(option.name) not in (None, False)

    def text(self, option: Option) -> Optional[str]:
        value: Optional[str] = self.values.get(option.name)
        return value

    def texts(self, option: Option) -> List[str]:
        """The values of an option that can be given several times."""
        return self.values.get(option.name) or []

    def number(self, option: Option) -> Optional[int]:
        value: Optional[int] = self.values.get(option.name)
        return value


@dataclass(frozen=True)
class Command:
    """A program's name, its operands (one in brackets can be left out, and the last one can have others after it), what it does, its
    options, and how it ends."""

    name: str
    operands: Tuple[str, ...]
    about: str
    options: Tuple[Option, ...]
    ends: str

    def all_options(self) -> Tuple[Option, ...]:
        return (*self.options, VERSION, HELP)

    def parser(self) -> argparse.ArgumentParser:
        """The parser of the options. It has no operands, so that options can be anywhere between them."""
        parser = argparse.ArgumentParser(
            self.name, "%s [options] %s" % (self.name, " ".join(self.operands)), self.about, self.ends,
            formatter_class=partial(argparse.RawDescriptionHelpFormatter, max_help_position=22, width=82),
            add_help=False, allow_abbrev=False, exit_on_error=False)
        group = parser.add_argument_group("options")
        for option in self.all_options():
            names = ("-h", option.name) if option is HELP else (option.name,)
            if option.value:
                group.add_argument(*names, dest=option.name, metavar=option.value, help=option.about,
                                   type=option.reader(), action="append" if option.is_list else "store")
            else:
                group.add_argument(*names, dest=option.name, action="store_true", help=option.about)
        return parser

    def help(self) -> str:
        return self.parser().format_help()

    def parse(self, words: Sequence[str]) -> Given:
        """Parts the words of a command line. After a word `--` all are operands; `-` is one, too."""
        end = list(words).index("--") if "--" in words else len(words)
        for option in self.options:
            if option.name + "=--" in words[:end]:  # which argparse takes for no value, in some versions of Python
                raise Usage("%s needs a value" % option.name)
        try:
            values, names = self.parser().parse_known_args(list(words[:end]))
        except argparse.ArgumentError as error:
            raise Usage(self._complaint(error)) from error
        for name in names:
            if name.startswith("-") and name != "-":
                raise Usage("'%s' is no option" % name.partition("=")[0])
        given = Given([*names, *words[end + 1:]], vars(values))
        if not (given.has(HELP) or given.has(VERSION)):
            self._check(given.names)
        return given

    def _check(self, names: Sequence[str]) -> None:
        """Checks the number of operands."""
        needed = [operand for operand in self.operands if not operand.startswith("[")]
        for place, operand in enumerate(needed):
            if not any(names[place:place + 1]):
                raise Usage("no %s%s is given" % ("second " * operand.endswith(MORE), operand.replace(MORE, "")))
        if len(names) > len(self.operands) and not self.operands[-1].endswith(MORE):
            raise Usage("'%s' is one too many; the operands are %s" % (
                names[len(self.operands)], " ".join(self.operands)))

    def _complaint(self, error: argparse.ArgumentError) -> str:
        """The words of argparse differ from version to version; these do not."""
        name = str(error.argument_name).rpartition("/")[2]
        option = next(option for option in self.all_options() if option.name == name)
        if not option.value:
            return "%s has no value" % name
        if error.message.startswith(NO_VALUE):
            return "%s needs a %s: %s %s" % (name, "file" if option.value in FILE_VALUES else "value", name, option.value)
        return "%s %s" % (name, error.message)
