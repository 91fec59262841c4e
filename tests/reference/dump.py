"""A value change dump read and written, as docs/FORMATS.md has it: the length and the edges of one wire."""
import bisect
import re
import sys

sys.set_int_max_str_digits(0)  # a time may have thousands of digits

LONGEST = 2**40  # microseconds
MOST_EDGES = 2**23
MOST_BYTES = 2**28

FAULTS = {
    1: "Unclosed", 2: "NoTimescale", 3: "BadTimescale", 4: "BadVar", 5: "NoSuchWire", 6: "ManyWires",
    7: "NotOneBit", 8: "NoEndDefinitions", 9: "BadToken", 10: "Backward", 11: "TimeTooLarge", 12: "TooManyPulses",
    13: "BadJournal",
}
MORE = "; irig_what FILE says more"  # what to do next about a fault of MORE_OF
MORE_OF = (5, 6, 8, 9)
FEMTOSECONDS = {b"s": 10**15, b"ms": 10**12, b"us": 10**9, b"ns": 10**6, b"ps": 10**3, b"fs": 1}
DUMP_WORDS = (b"$dumpvars", b"$dumpall", b"$dumpon", b"$dumpoff", b"$end")
WIDE_KINDS = (b"real", b"realtime", b"event", b"parameter", b"string")


class Fault(Exception):
    """Why a dump is not read."""

    def __init__(self, number, offset=None, line=None):
        at = "" if offset is None else " at %d" % offset
        super().__init__("V%d %s%s%s" % (number, FAULTS[number], at, MORE if number in MORE_OF else ""))
        self.line = line  # of the journal, from 1: it is not printed


def read_parts(source, wire=None):
    """The length and the edges, a frozenset, of the wire with this name in a dump, and its journal; or a Fault."""
    tokens = [(token.start(), token.group()) for token in re.finditer(rb"[^\t-\r ]+", source)]
    unit, code, start = declarations(tokens, wire)
    levels, length = changes(tokens, start, unit, code)
    edges = edges_of(levels, length)
    if len(edges) > MOST_EDGES:
        raise Fault(12)
    journals = journals_in(source, tokens, start)
    if len(journals) > 1:
        raise Fault(13, line=1)
    return length, frozenset(edges), journals[0] if journals else None


def journals_in(source, tokens, at):
    """The comments after the declarations that are journals: from the first word up to the `$end`."""
    found = []
    while at < len(tokens):
        behind = section(tokens, at)[1] if tokens[at][1] == b"$comment" else None
        if behind and tokens[at + 1][1] == b"irig-journal-1":
            found.append(source[tokens[at + 1][0]:tokens[behind - 1][0]])
        at = behind or at + (2 if tokens[at][1][:1] in b"bBrRsS" else 1)
    return found


def declarations(tokens, wire):
    """The unit in femtoseconds, the code of the wire, and the number of the first token after the declarations."""
    unit, variables, at = None, [], 0
    while at < len(tokens):
        offset, head = tokens[at]
        if head[:1] != b"$" or head in DUMP_WORDS:
            raise Fault(9, offset)
        words, at = section(tokens, at)
        if head == b"$timescale":
            unit = timescale(words)
        elif head == b"$var":
            variables.append(variable(words))
        elif head == b"$enddefinitions":
            if unit is None:
                raise Fault(2)
            return unit, code_of(variables, wire), at
    raise Fault(8)


def section(tokens, at):
    """The words of the section that begins with this token, and the number of the token after its `$end`."""
    words = []
    for place in range(at + 1, len(tokens)):
        if tokens[place][1] == b"$end":
            return words, place + 1
        words.append(tokens[place][1])
    raise Fault(1)


def timescale(words):
    parts = re.fullmatch(rb"(1|10|100)(s|ms|us|ns|ps|fs)", b"".join(words))
    if not parts:
        raise Fault(3)
    return int(parts[1]) * FEMTOSECONDS[parts[2]]


def variable(words):
    """Whether it is of one bit, its code and its reference."""
    if len(words) < 4 or not re.fullmatch(rb"[0-9]+", words[1]) or not re.fullmatch(rb"[!-~]+", words[2]):
        raise Fault(4)
    return int(words[1]) == 1 and words[0] not in WIDE_KINDS, words[2], words[3]


def code_of(variables, wire):
    """The one code of the variables that the name chooses: by reference, else by code; without a name, of one bit."""
    if wire is None:
        chosen = [v for v in variables if v[0]]
    else:
        chosen = [v for v in variables if v[2] == wire] or [v for v in variables if v[1] == wire]
    if not chosen:
        raise Fault(5)
    if len({code for _, code, _ in chosen}) > 1:
        raise Fault(6)
    if not all(one_bit for one_bit, _, _ in chosen):
        raise Fault(7)
    return chosen[0][1]


def changes(tokens, at, unit, code):
    """The last level that is given at each microsecond that has one, and the last microsecond."""
    levels, units, time = {}, 0, 0
    while at < len(tokens):
        offset, token = tokens[at]
        at += 1
        if token[:1] == b"#":
            units, time = moved(token, offset, unit, units)
        elif token[:1] in (b"0", b"1", b"x", b"X", b"z", b"Z"):
            if len(token) == 1:
                raise Fault(9, offset)
            if token[1:] == code:
                levels[time] = token[:1] == b"1"
        elif token[:1] in (b"b", b"B", b"r", b"R", b"s", b"S"):
            if at == len(tokens):
                raise Fault(9, offset)
            if tokens[at][1] == code and token[:1] in (b"b", b"B"):
                levels[time] = last_digit(token, offset) == b"1"
            at += 1
        elif token == b"$comment":
            at = section(tokens, at - 1)[1]
        elif token not in DUMP_WORDS:
            raise Fault(9, offset)
    return levels, time


def moved(token, offset, unit, before):
    """The time that a token sets: as it is written, and in whole microseconds."""
    if not re.fullmatch(rb"#[0-9]+", token):
        raise Fault(9, offset)
    units = int(token[1:])
    if units < before:
        raise Fault(10, offset)
    time = units * unit // FEMTOSECONDS[b"us"]
    if time > LONGEST:
        raise Fault(11, offset)
    return units, time


def last_digit(vector, offset):
    if not re.fullmatch(rb".+[01xXzZ]", vector, re.DOTALL):
        raise Fault(9, offset)
    return vector[-1:]


def edges_of(levels, length):
    """The times at which the level differs from that of the microsecond before. A pulse that is high at the end ends there."""
    edges, high = [], False
    for time in sorted(levels):
        if time < length and levels[time] != high:
            high = levels[time]
            edges.append(time)
    return edges + [length] if high else edges


def window(length, edges, first, end):
    """The length and the edges of a window of a recording: at each microsecond of it the level that the recording has there."""
    inside, edges = max(0, min(length, end) - first), sorted(edges)

    def is_high(micro):
        return bisect.bisect_right(edges, micro) % 2 == 1

    places = sorted({0, *(edge - first for edge in edges)})
    return inside, edges_of({place: is_high(first + place) for place in places if place >= 0}, inside)


def text(length, edges):
    """The canonical dump."""
    lines = ["$timescale 1 us $end", "$scope module irig $end", "$var wire 1 ! code $end", "$upscope $end"]
    lines += ["$enddefinitions $end", "#0", "$dumpvars", "1!" if 0 in edges else "0!", "$end"]
    for place, edge in enumerate(sorted(edges)):
        if edge > 0:
            lines += ["#%d" % edge, "0!" if place % 2 else "1!"]
    if length > 0 and length not in edges:
        lines.append("#%d" % length)
    return "".join(line + "\n" for line in lines).encode()
