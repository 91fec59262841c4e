"""Lines of a script, as docs/SCRIPT.md has them: what a line asks for in a state."""
import re

from reference import timecode
from reference.machine import need

SPACE = b" \t\r"
UNSET = 2**64 - 1  # what an unset mark is as a time: past every track

ADDRESS = rb"(?:(?:[0-9]{1,18}|\.|\$|'[a-z])(?:[+-](?:[0-9]{1,18})?)?|[+-](?:[0-9]{1,18})?)"
LINE = re.compile(rb"(,|%s(?:,%s)?)?(.*)" % (ADDRESS, ADDRESS), re.DOTALL)


def time_of(state, text):
    return state.marks.get(text[1:].decode(), UNSET) if text[:1] == b"'" else int(text)


# Each kind of argument: what it looks like, and what it means in a state.
TIME = (rb"[0-9]{1,18}|'[a-z]", time_of)
COUNT = (rb"[0-9]{1,18}", lambda state, text: int(text))
DISTANCE = (rb"[+-]?[0-9]{1,18}", lambda state, text: int(text))
CONTROL = (rb"[0-9A-Fa-f]{1,12}", lambda state, text: int(text, 16))
MOMENT = (rb"[0-9T:.-]+", lambda state, text: timecode.moment(text))  # None if it is no moment
LETTER = (rb"[a-z]", lambda state, text: text.decode())
KIND = (rb"[ABEG]", lambda state, text: text.decode())
EXPRESSION = (rb"[0-7]", lambda state, text: int(text))
ELEMENT = (rb"zero|one|position", lambda state, text: text.decode())

# For each word how many addresses it takes at most, and its arguments.
WORDS = {
    b"list": (2, []), b"delete": (2, []), b"shift": (2, [DISTANCE]), b"join": (2, []),
    b"split": (1, [TIME, TIME]), b"force": (1, [ELEMENT]),
    b"insert": (0, [TIME, TIME]), b"invert": (0, [TIME, TIME]), b"regen": (0, [TIME, COUNT, MOMENT, CONTROL]),
    b"format": (0, [KIND, EXPRESSION]), b"mark": (0, [LETTER, TIME]), b"unmark": (0, [LETTER]),
    b"undo": (0, []), b"redo": (0, []), b"frames": (0, []), b"marks": (0, []), b"info": (0, []),
    b"begin": (0, []), b"end": (0, []), b"abort": (0, []), b"write": (0, []), b"save": (0, []), b"quit": (0, []),
}


def parse(state, line):
    """The word of a line and what follows from it: the pulses that its addresses stand for, and its arguments.

    The word of a line that is one address is `go`. An empty line and a comment have none.
    """
    line = line.strip(SPACE)
    if line[:1] in (b"", b"#"):
        return None, []
    before, behind = LINE.fullmatch(line).groups()
    written = addresses_of(before)
    words = re.findall(rb"[^ \t\r]+", behind)
    if not words:
        need(len(written) == 1, "S1")
        return "go", [pulse_of(state, written[0])]
    need(words[0] in WORDS, "S1")
    most, kinds = WORDS[words[0]]
    need(len(written) <= most, "S1")
    word = words[0].decode()
    return word, places(state, written, most, word) + values(state, word, words[1:], kinds)


def addresses_of(before):
    if before is None:
        return []
    return [b"1", b"$"] if before == b"," else before.split(b",")


def values(state, word, arguments, kinds):
    if word == "regen" and len(arguments) == 3:
        arguments = [*arguments, b"0"]
    need(len(arguments) == len(kinds), "S1")
    need(all(re.fullmatch(looks, argument) for (looks, _), argument in zip(kinds, arguments)), "S1")
    found = [meaning(state, argument) for (_, meaning), argument in zip(kinds, arguments)]
    need(None not in found, "S1")
    return found


def places(state, written, most, word):
    """The pulses that a line speaks of: by default that at the cursor, and for a join that one and the next."""
    if most == 0:
        return []
    first = pulse_of(state, written[0] if written else b".")
    if most == 1:
        return [first]
    if len(written) == 2:
        return [first, pulse_of(state, written[1])]
    return [first, first + 1 if word == "join" else first]


def pulse_of(state, address):
    """The pulse that an address stands for, from 1; 0 if there is none."""
    base, sign, offset = re.fullmatch(rb"([^+-]*)([+-]?)([0-9]*)", address).groups()
    value = base_of(state, base)
    if value is None:
        return 0
    if sign:
        value += int(offset or 1) * (-1 if sign == b"-" else 1)
    return value if 1 <= value <= len(state.pulses()) else 0


def base_of(state, base):
    """What an address counts from; None if a mark is not set. A mark counts the pulses that rise by then."""
    if base in (b"", b"."):
        return state.cursor
    if base == b"$":
        return len(state.pulses())
    if base[:1] == b"'":
        letter = base[1:].decode()
        return state.rising_by(state.marks[letter]) if letter in state.marks else None
    return int(base)
