"""Text that is not the tools' own, as it enters a line, a script, a command or a table: the name of a file or a wire, and what a
recording has. A letter of it can end the line, command a terminal, or turn the order of what is shown."""
from __future__ import annotations

import os
import shlex
from typing import Dict, Iterable

CONTROLS = (*range(32), *range(127, 160))  # C0, DEL and C1
LINE_ENDS = (0x2028, 0x2029)
DIRECTIONS = (0x061c, 0x200e, 0x200f, *range(0x202a, 0x202f), *range(0x2066, 0x206a))  # of the bidirectional algorithm of Unicode
BYTE = 0xdc00  # and a byte of a name that is no UTF-8: so Python has it
CONTROL_BYTES, BYTES = range(128, 160), range(128, 256)
FORMULA = ("=", "+", "-", "@")  # how a cell begins that a spreadsheet computes
AS_IT_IS = frozenset("/._,:@=+-ABCDEFGHIJKLMNOPQRSTUVWXYZabcdefghijklmnopqrstuvwxyz0123456789")  # in a text of printf
NEWLINE = "${IFS#??}"  # of sh: it takes those away that are last in what a command prints


def _escaped(codes: Iterable[int], numbers: Iterable[int]) -> Dict[int, str]:
    """What is written instead of these letters and bytes."""
    return {**{code: repr(chr(code))[1:-1] for code in codes}, **{BYTE + number: "\\x%02x" % number for number in numbers}}


OF_LINE = _escaped((*CONTROLS, *LINE_ENDS, *DIRECTIONS), CONTROL_BYTES)
OF_SCRIPT = _escaped((*CONTROLS, *LINE_ENDS, *DIRECTIONS), BYTES)


def in_line(text: str) -> str:
    """A text in a message, in a table or elsewhere on a terminal. Other bytes of a name are printed as they are, so that it can be used
    again."""
    return text.translate(OF_LINE)


def in_script(text: str) -> str:
    """A text in a comment of a script, which is UTF-8."""
    return text.translate(OF_SCRIPT)


def in_command(word: str) -> str:
    """A word of a command for sh that is proposed, in one line; `printf` makes what cannot be in it."""
    if word == in_script(word):
        return shlex.quote(word)
    body = word.rstrip("\n")
    return '"$(printf \'%s\')%s"' % ("".join(map(_of_printf, range(len(body)), body)), NEWLINE * (len(word) - len(body)))


def _of_printf(place: int, letter: str) -> str:
    """A letter in the first text of printf; one that begins with - would be an option."""
    if letter in AS_IT_IS and (place, letter) != (0, "-"):
        return letter
    return "%%" if letter == "%" else "".join("\\%03o" % byte for byte in os.fsencode(letter))


def in_cell(text: str) -> str:
    """A text in a cell of a CSV file. A spreadsheet computes nothing of what begins with an apostrophe."""
    return "'" * text.startswith(FORMULA) + in_line(text)
