"""Formats, frames and generated frames."""
from rows.tracks import A_MOMENT, B_4, G, ONES_OF_A_MOMENT, TWO_FRAMES, Row, empty, frame, listed, of_pulses

WIDTHS = (499, 500, 3499, 3500, 6499, 6500, 9499, 9500)  # the bounds of the classes of format B

ROWS = [
    Row("a frame of two", G, TWO_FRAMES, "frames", "1 101 10000 001 00:00:00.01 fine"),
    Row(
        "no marker without a position identifier before it", G, TWO_FRAMES,
        "invert 9950 9980; frames; undo; frames",
        "1 101 10000 001 00:00:00.01 fine",
    ),
    Row(
        "the last element of a wrong class", G, TWO_FRAMES,
        "invert 19920 19980; frames; undo; frames",
        "1 101 10000 broken 99 class; 1 101 10000 001 00:00:00.01 fine",
    ),
    Row(
        "a track that ends inside of a frame", G, TWO_FRAMES,
        "invert 19900 19980; frames; undo; frames",
        "1 101 10000 broken 99 ended; 1 101 10000 001 00:00:00.01 fine",
    ),
    Row(
        "three position identifiers in a row", G, TWO_FRAMES,
        "invert 10120 10180; frames; undo; frames",
        "1 101 10000 broken 1 class; 2 102 10100 broken 8 class; 1 101 10000 001 00:00:00.01 fine",
    ),
    Row(
        "generated frames of format G", G, empty(20000),
        "regen 0 2 2024-001T00:00:00; frames; 100 force one; frames; undo; frames; 200 force zero; frames",
        "1 101 10000 001 00:00:00.01 fine; 1 101 10000 001 00:00:00.01 fine; 1 101 10000 broken 99 class",
    ),
    Row(
        "generated frames of format B with the year", B_4, empty(2000000),
        "regen 0 2 2024-061T12:34:55; frames; 101,103 list",
        A_MOMENT + "; 101 1000000 1008000 position; 102 1010000 1012000 zero; 103 1020000 1025000 one",
    ),
    Row(
        "each element of a generated frame", B_4, empty(2000000),
        "regen 0 2 2024-03-01T12:34:55; frames; 101,$list",
        A_MOMENT + "; " + listed(101, frame(1000000, 10000, ONES_OF_A_MOMENT), 10000),
    ),
    Row(
        "a frame over the end of a year", B_4, empty(2000000),
        "regen 0 2 2023-365T23:59:59; frames",
        "1 101 1000000 001 00:00:00 year 24 sbs 0 control 0 fine",
    ),
    Row(
        "a format without the expression", B_4, empty(2000000),
        "regen 0 2 2024-061T12:34:55; frames; format E 4; format E 5; frames; undo; frames",
        A_MOMENT + "; ? E6 BadExpression; " + A_MOMENT,
    ),
    Row(
        "refused frames", B_4, empty(2000000),
        "regen 1 2 2024-061T12:34:55; regen 0 0 2024-061T12:34:55; regen 0 10001 2024-061T12:34:55; "
        "regen 0 2 2024-061T12:34:55.50; regen 0 2 2024-061T12:34:55 40000; regen 0 2 2023-366T00:00:00; "
        "regen 0 2 2024-061T12:34:55 3ffff; frames",
        "? E1 OutOfRange; ? E1 OutOfRange; ? E1 OutOfRange; ? E7 BadTime; ? E8 BadControl; ? S1 BadLine; "
        + A_MOMENT.replace("control 0", "control 3ffff"),
    ),
    Row(
        "frames beside and over other pulses", G, empty(20000),
        "regen 0 1 2024-001T00:00:00; insert 15000 15100; regen 5000 1 2024-001T00:00:00 0; info; "
        "regen 4950 1 2024-001T00:00:00; frames",
        "length 20000 pulses 151 frames 1 format G 2 cursor 150 past 3 future 0; ? E3 Touching; "
        "1 51 5000 001 00:00:00.00 fine",
    ),
    Row(
        "frames from the fall of a pulse, behind it, and from its rise", G, of_pulses(20000, [(100, 120)]),
        "regen 120 1 2024-001T00:00:00; regen 121 1 2024-001T00:00:00; info; undo; regen 100 1 2024-001T00:00:00; info",
        "? E3 Touching; length 20000 pulses 101 frames 0 format G 2 cursor 101 past 1 future 0; "
        "length 20000 pulses 100 frames 0 format G 2 cursor 100 past 1 future 0",
    ),
    Row(
        "a frame over the end of a century", B_4, empty(2000000),
        "regen 0 2 1999-365T23:59:59; frames",
        "1 101 1000000 001 00:00:00 year 00 sbs 0 control 0 fine",
    ),
    Row(
        "a frame of format E begins at tens of seconds", "--format E --expression 1", empty(20000000),
        "regen 0 1 2024-001T00:00:05; regen 0 1 2024-001T00:00:10; info",
        "? E7 BadTime; length 20000000 pulses 100 frames 0 format E 1 cursor 100 past 1 future 0",
    ),
    Row(
        "texts that are no moments", G, empty(10000),
        "regen 0 1 2023-02-29T00:00:00; regen 0 1 0000-001T00:00:00; regen 0 1 9999-001T00:00:00; "
        "regen 0 1 2024-367T00:00:00; regen 0 1 2024-366T24:00:00; regen 0 1 2024-12-31T23:59:60; "
        "regen 0 1 2024-12-31t23:59:59; regen 0 1 2024-366T23:59:59.99; info",
        "? S1 BadLine; " * 7 + "length 10000 pulses 100 frames 0 format G 2 cursor 100 past 1 future 0",
    ),
    Row(
        "notes of fields", "", empty(2000000),
        "regen 0 2 2024-001T00:00:00; frames; 102 force zero; 131 force zero; frames; 131 force one; "
        "103 force one; 105 force one; frames; 103 force zero; 105 force zero; 106 force one; frames; "
        "106 force zero; format B 3; 181 force one; frames",
        "1 101 1000000 001 00:00:01 fine; 1 101 1000000 000 00:00:00 field days; "
        "1 101 1000000 001 00:00:10 field seconds; 1 101 1000000 001 00:00:00 stray 5; "
        "1 101 1000000 001 00:00:00 sbs 1 sbs",
    ),
    Row(
        "the least of two stray elements", "", empty(2000000),
        "regen 0 2 2024-001T00:00:00; 115 force one; 106 force one; frames",
        "1 101 1000000 001 00:00:01 stray 5",
    ),
    Row(
        "the first of two fields that do not fit", "--format A", empty(200000),
        "regen 0 2 2024-001T00:00:00; frames; 147 force one; 149 force one; 102 force one; 108 force one; "
        "109 force one; frames",
        "1 101 100000 001 00:00:00.10 fine; 1 101 100000 001 00:00:61.110 field hundredths",
    ),
    Row(
        "the last second of a leap year", "", empty(2000000),
        "regen 0 2 2024-366T23:59:58; frames",
        "1 101 1000000 366 23:59:59 fine",
    ),
    Row(
        "second 60 is read and second 61 is not", "", empty(2000000),
        "regen 0 2 2024-001T00:00:19; 109 force one; frames; 102 force one; frames",
        "1 101 1000000 001 00:00:60 fine; 1 101 1000000 001 00:00:61 field seconds",
    ),
    Row(
        "classes at their bounds", "",
        of_pulses(200000, [(20000 * k, 20000 * k + w) for k, w in enumerate(WIDTHS)]),
        ",list",
        "1 0 499 bad; 2 20000 20500 zero; 3 40000 43499 zero; 4 60000 63500 one; 5 80000 86499 one; "
        "6 100000 106500 position; 7 120000 129499 position; 8 140000 149500 bad",
    ),
    Row("just too near to be in step", G, of_pulses(1000, [(0, 80), (89, 169)]), "frames", ""),
    Row(
        "as near as may be in step", G, of_pulses(1000, [(0, 80), (90, 170)]),
        "frames",
        "1 2 90 broken 1 ended",
    ),
    Row(
        "as far as may be in step", G, of_pulses(1000, [(0, 80), (110, 190)]),
        "frames",
        "1 2 110 broken 1 ended",
    ),
    Row("just too far to be in step", G, of_pulses(1000, [(0, 80), (111, 191)]), "frames", ""),
]
