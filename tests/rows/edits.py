"""Edits, undo and redo."""
from rows.tracks import G, TWO_PULSES, Row, of_pulses

ROWS = [
    Row(
        "a pulse turned low inside of two", G, TWO_PULSES,
        "invert 110 250; ,list; write; undo; ,list; write",
        "1 100 110 zero; 2 120 200 position; 3 250 280 zero; 179; 1 100 120 zero; 2 200 280 position; 163",
    ),
    Row(
        "a pulse inverted away", G, TWO_PULSES,
        "invert 100 120; ,list; info",
        "1 200 280 position; length 1000 pulses 1 frames 0 format G 2 cursor 0 past 1 future 0",
    ),
    Row(
        "the whole track inverted", G, TWO_PULSES,
        "invert 0 1000; ,list; write",
        "1 0 100 bad; 2 120 200 position; 3 280 1000 bad; 166",
    ),
    Row(
        "refused inverts keep what can be done again", G, TWO_PULSES,
        "invert 100 120; write; undo; invert 250 250; redo; write; redo",
        "147; ? E1 OutOfRange; 147; ? E10 NothingToRedo",
    ),
    Row(
        "inverts up to the length", G, TWO_PULSES,
        "invert 0 1000; write; undo; undo; invert 5 1001",
        "166; ? E9 NothingToUndo; ? E1 OutOfRange",
    ),
    Row(
        "a shift moves the marks of its pulses alone", G, TWO_PULSES,
        "mark a 110; mark b 130; 1 shift 20; marks; undo; marks",
        "a 130; b 130; a 110; b 130",
    ),
    Row(
        "marks at both ends of a shift", G, TWO_PULSES,
        "mark a 99; mark b 100; mark c 120; mark d 121; 1 shift -9; marks",
        "a 99; b 91; c 111; d 121",
    ),
    Row(
        "a redo gives the cursor that stood at the undo", G, TWO_PULSES,
        "insert 400 450; info; 1; undo; info; redo; info",
        "length 1000 pulses 3 frames 0 format G 2 cursor 3 past 1 future 0; 1 100 120 zero; "
        "length 1000 pulses 2 frames 0 format G 2 cursor 2 past 0 future 1; "
        "length 1000 pulses 3 frames 0 format G 2 cursor 1 past 1 future 0",
    ),
    Row(
        "a refused edit keeps what can be done again", G, TWO_PULSES,
        "insert 400 450; undo; insert 130 200; redo; 3",
        "? E3 Touching; 3 400 450 one",
    ),
    Row(
        "a pulse may not be put at an edge or into a pulse", G, TWO_PULSES,
        "insert 120 130; insert 90 100; insert 110 115; insert 90 130; insert 121 199; 2",
        "? E3 Touching; ? E3 Touching; ? E3 Touching; ? E3 Touching; 2 121 199 position",
    ),
    Row(
        "a pulse from one neighbour to the next, at a fall, and of no width", G, TWO_PULSES,
        "insert 121 199; write; insert 280 290; insert 290 290; undo; write",
        "179; ? E3 Touching; ? E1 OutOfRange; 163",
    ),
    Row(
        "an accepted edit empties what can be done again", G, TWO_PULSES,
        "invert 100 120; undo; invert 1 2; redo; undo; undo",
        "? E10 NothingToRedo; ? E9 NothingToUndo",
    ),
    Row(
        "undo and redo at their ends", G, TWO_PULSES,
        "undo; redo; 1 delete; undo; undo; redo; redo; info",
        "? E9 NothingToUndo; ? E10 NothingToRedo; ? E9 NothingToUndo; ? E10 NothingToRedo; "
        "length 1000 pulses 1 frames 0 format G 2 cursor 1 past 1 future 0",
    ),
    Row(
        "shifts up to a neighbour and to both ends", G, TWO_PULSES,
        "1 shift 80; 1 shift 79; undo; 2 shift 721; 2 shift 720; 2; 1 shift -100; 1; 1 shift -1",
        "? E3 Touching; ? E1 OutOfRange; 2 920 1000 position; 1 0 20 zero; ? E1 OutOfRange",
    ),
    Row(
        "split, join and force", G, TWO_PULSES,
        "2 split 220 230; ,list; 2,3 join; 2 split 200 230; 1 force position; 1; 9 split 5 5; 9 split 5 6",
        "1 100 120 zero; 2 200 220 zero; 3 230 280 one; ? E4 NotInside; 1 100 180 position; ? E1 OutOfRange; "
        "? E2 NoPulse",
    ),
    Row(
        "a join without a range, and with one address", G, TWO_PULSES,
        "join; 1; join; ,list; undo; 1join; .; 1 join",
        "? E2 NoPulse; 1 100 120 zero; 1 100 280 bad; 1 100 280 bad; ? E2 NoPulse",
    ),
    Row(
        "a forced pulse may not reach the next one or the end", G,
        of_pulses(1000, [(100, 120), (150, 170), (980, 990)]),
        "1 force one; 3 force one; 3 force zero; 3",
        "? E3 Touching; ? E1 OutOfRange; 3 980 1000 zero",
    ),
    Row("every pulse deleted", G, TWO_PULSES, ",delete; ,list; insert 0 1000; 1", "? E2 NoPulse; 1 0 1000 bad"),
    Row(
        "edits that change nothing are steps", G, TWO_PULSES,
        "1 shift 0; format G 2; unmark a; 1 force zero; undo; mark b 5; redo; info",
        "? E10 NothingToRedo; length 1000 pulses 2 frames 0 format G 2 cursor 1 past 4 future 0",
    ),
    Row(
        "the cursor behind each edit", G, TWO_PULSES,
        "invert 130 150; .; 1 delete; .; $ delete; .; undo; .; 2 split 220 230; .; 1,2 shift 5; .; 1,3 join; .; "
        "1 force zero; .; insert 160 170; .; format A 0; .; format G 2; 1; undo; .",
        "2 130 150 zero; 1 130 150 zero; 1 130 150 zero; 1 130 150 zero; 3 230 280 one; 2 205 225 zero; "
        "1 135 280 bad; 1 135 155 zero; 2 160 170 zero; 2 160 170 bad; 1 135 155 zero; 2 160 170 bad",
    ),
    Row(
        "as near to a neighbour as may be", G, TWO_PULSES,
        "2 shift -80; 2 shift -79; 2; 2 split 121 130; 2 split 190 201; 2 split 122 200; ,list",
        "? E3 Touching; 2 121 201 position; ? E4 NotInside; ? E4 NotInside; "
        "1 100 120 zero; 2 121 122 bad; 3 200 201 bad",
    ),
    Row(
        "marks at the length and behind it", G, TWO_PULSES,
        "mark a 1000; mark b 1001; marks",
        "? E1 OutOfRange; a 1000",
    ),
]
