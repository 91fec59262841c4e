"""Sessions saved with their journal, and dumps with a journal."""
from typing import NamedTuple

from rows.tracks import G, HEADER, TWO_PULSES, FaultRow, Row

HEAD = (
    "$timescale 1 us $end\n$scope module irig $end\n$var wire 1 ! code $end\n$upscope $end\n$enddefinitions $end\n"
    "#0\n$dumpvars\n0!\n$end\n"
)
SECOND_PULSE = HEAD + "#200\n1!\n#280\n0!\n#1000\n"
JOURNAL = (
    "$comment\nirig-journal-1\nformat G 2\ncursor 1\npast 1\nat 2\nsplice 1 0 1\n100 120\nfuture 1\nat 1\nsetmark a 110\n"
    "$end\n"
)
SAVED = SECOND_PULSE + JOURNAL


class TextRow(NamedTuple):
    """A script on two pulses in format G, and the text that its last line writes."""

    name: str
    script: str
    text: str


TEXT_ROWS = [
    TextRow("a step back and a step on", "1 delete; mark a 110; undo; save", SAVED),
    TextRow(
        "each kind of change, and a group",
        "begin; 1 delete; insert 300 350; end; mark b 300; 2 shift 10; format A 0; invert 400 450; undo; save",
        HEAD + "#200\n1!\n#280\n0!\n#310\n1!\n#360\n0!\n#1000\n$comment\nirig-journal-1\nformat A 0\ncursor 2\n"
        "mark b 310\npast 4\nat 2\ngroup 2\nsplice 2 1 0\nsplice 1 0 1\n100 120\nat 2\nsetmark b -\nat 2\n"
        "shift 2 2 -10 b\nat 2\nsetformat G 2\nfuture 1\nat 3\ntoggle 400 450\n$end\n",
    ),
    TextRow(
        "the steps of an open group, each for itself", "begin; 1 delete; 1 delete; save",
        HEAD + "#1000\n$comment\nirig-journal-1\nformat G 2\ncursor 0\npast 2\nat 2\nsplice 1 0 1\n100 120\nat 1\n"
        "splice 1 0 1\n200 280\nfuture 0\n$end\n",
    ),
    TextRow(
        "a group to be made again, the oldest change first", "begin; 1 delete; mark a 0; end; undo; save",
        HEAD + "#100\n1!\n#120\n0!\n#200\n1!\n#280\n0!\n#1000\n$comment\nirig-journal-1\nformat G 2\ncursor 2\npast 0\n"
        "future 1\nat 1\ngroup 2\nsplice 1 1 0\nsetmark a 0\n$end\n",
    ),
]


def changed(old, new, text=SAVED):
    """The saved text with one place changed, the last of its like."""
    before, found, behind = text.rpartition(old)
    assert found
    return before + new + behind


# What is changed in the saved text, and the number of the line of the journal that is then at fault.
FAULTY = [
    ("\ncursor 1", "\ncursor 2", 3), ("100 120", "100 220", 5), ("at 1\n", "at 9\n", 9), ("a 110", "a 0110", 10),
    ("future 1", "future 2", 11), (JOURNAL, JOURNAL * 2, 1),
    ("journal-1", "journal-1 ", 1), ("format G 2", "format G 0", 2), ("format G 2", "format C 2", 2),
    ("format G 2", "format G 02", 2), ("format G 2", "format  G 2", 2), ("format G 2\n", "", 2),
    ("\ncursor 1", "\ncursor +1", 3), ("\ncursor 1", "\ncursor 18446744073709551616", 3),
    ("past", "mark a 1001\npast", 4), ("past", "mark b 5\nmark a 5\npast", 5), ("past", "mark a 5\nmark a 5\npast", 5),
    ("past 1", "past 0", 5), ("past 1", "past 2", 8), ("past 1", "past 18446744073709551615", 8),
    ("past 1", "past 18446744073709551616", 4), ("at 2", "at 3", 5), ("splice 1", "splice 0", 5),
    ("splice 1", "splice 3", 5), ("splice 1", "splice 2", 5), ("splice 1 0 1", "splice 1 2 1", 5),
    ("100 120", "120 100", 5), ("100 120", "100 200", 5), ("100 120", "100 120 ", 7), ("0 1\n100", "0 2\n100", 8),
    ("setmark a 110", "setmark a 1001", 9), ("setmark a", "setmark A", 10), ("setmark a 110", "setmark a", 10),
    ("setmark a 110", "setformat E 4", 9), ("setmark a 110", "setformat E 8", 10),
    ("setmark a 110", "toggle 5 5", 9), ("setmark a 110", "toggle 5 1001", 9), ("setmark a 110", "shift 0 1 5 -", 9),
    ("setmark a 110", "shift 1 2 5 -", 9), ("setmark a 110", "shift 1 1 -201 -", 9),
    ("setmark a 110", "shift 1 1 721 -", 9), ("setmark a 110", "shift 1 1 5 a", 9),
    ("setmark a 110", "shift 1 1 5 ba", 10), ("setmark a 110", "shift 1 1 -0 -", 10),
    ("setmark a 110", "shift 1 1 5", 10), ("setmark a 110", "shift 1 1 9223372036854775808 -", 10),
    ("setmark a 110", "group 1\ngroup 1\ntoggle 5 6", 11), ("setmark a 110", "group 2\ntoggle 5 6", 12),
    ("setmark a 110", "group 2\ntoggle 5 6\ntoggle 6 1001", 9), ("setmark", "mark", 10), ("future 1", "future 0", 9),
    ("future", "past", 8), ("110\n$end", "110\n\n$end", 11), ("110\n$end", "110\n $end", 11),
    ("110\n$end", "110 $end", 10), ("\nformat", " \nformat", 1), ("\n$end\n", "\r\n$end\n", 10),
    # what is of wrong form comes first, then the present, then the past, then the future
    ("1\npast 1\nat 2", "2\npast 1\nat 02", 5), ("2\ncursor 1\npast 1\nat 2", "0\ncursor 2\npast 1\nat 3", 2),
    ("2\nsplice 1 0 1\n100 120\nfuture 1\nat 1", "3\nsplice 1 0 1\n100 120\nfuture 1\nat 9", 5),
]

ROWS = [
    Row("a session saved with its journal", G, TWO_PULSES, "1 delete; mark a 110; undo; save; write", "257; 147"),
    Row(
        "a saved session, opened again", "", SAVED,
        "info; redo; marks; undo; undo; ,list",
        "length 1000 pulses 1 frames 0 format G 2 cursor 1 past 1 future 1; a 110; 1 100 120 zero; 2 200 280 position",
    ),
    Row(
        "the format of a journal goes before that of the command line", "--format A --expression 5", SAVED,
        "info; undo; redo; redo; undo; save",
        "length 1000 pulses 1 frames 0 format G 2 cursor 1 past 1 future 1; 257",
    ),
    Row(
        "groups of no change and of one", "",
        changed("future 1\nat 1\nsetmark a 110", "future 2\nat 0\ngroup 0\nat 1\ngroup 1\nsetmark a 110"),
        "redo; info; redo; marks; undo; undo; .; info",
        "length 1000 pulses 1 frames 0 format G 2 cursor 0 past 2 future 1; a 110; 1 200 280 position; "
        "length 1000 pulses 1 frames 0 format G 2 cursor 1 past 1 future 2",
    ),
    Row(
        "no group is open in what was saved of an open one", "", TEXT_ROWS[2].text,
        "end; undo; undo; ,list; undo",
        "? E13 NoGroup; 1 100 120 zero; 2 200 280 position; ? E9 NothingToUndo",
    ),
    Row(
        "a saved group is one step", "", TEXT_ROWS[1].text,
        "undo; undo; undo; info; undo; ,list; redo; ,list",
        "length 1000 pulses 2 frames 0 format G 2 cursor 2 past 1 future 4; "
        "1 100 120 zero; 2 200 280 position; 1 200 280 position; 2 300 350 one",
    ),
    Row(
        "comments that are no journal", G, HEADER + "$comment irig-journal-10 $end $comment x irig-journal-1 $end #9",
        "info; save",
        "length 9 pulses 0 frames 0 format G 2 cursor 0 past 0 future 0; 193",
    ),
    Row(
        "a journal in the declarations is none", G, JOURNAL + HEADER + "#9",
        "info",
        "length 9 pulses 0 frames 0 format G 2 cursor 0 past 0 future 0",
    ),
    Row(
        "a journal before the changes", "", HEADER + JOURNAL + "#200 1! #280 0! #1000",
        "redo; marks; undo; undo; 1",
        "a 110; 1 100 120 zero",
    ),
    Row("a word too many, and an address", G, TWO_PULSES, "save x; 1 save; Save", "? S1 BadLine; ? S1 BadLine; ? S1 BadLine"),
]
FAULT_ROWS = [
    FaultRow("line %d of a journal: %r for %r" % (line, new, old), "", changed(old, new), "V13 BadJournal")
    for old, new, line in FAULTY
] + [FaultRow("two journals and too late a time", "", SAVED + JOURNAL + "#1099511627777", "V11 TimeTooLarge at 367")]
