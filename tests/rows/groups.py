"""Groups: several edits as one step."""
from rows.tracks import G, TWO_PULSES, Row

ROWS = [
    Row(
        "two edits made one step, taken back and done again", G, TWO_PULSES,
        "begin; 1 delete; insert 300 350; end; info; undo; info; redo; ,list",
        "length 1000 pulses 2 frames 0 format G 2 cursor 2 past 1 future 0; "
        "length 1000 pulses 2 frames 0 format G 2 cursor 2 past 0 future 1; "
        "1 200 280 position; 2 300 350 one",
    ),
    Row(
        "what no group, an open group and the floor refuse", G, TWO_PULSES,
        "end; abort; begin; undo; begin; 1 delete; undo; undo; abort; info",
        "? E13 NoGroup; ? E13 NoGroup; ? E9 NothingToUndo; ? E12 GroupOpen; ? E9 NothingToUndo; "
        "length 1000 pulses 2 frames 0 format G 2 cursor 2 past 0 future 0",
    ),
    Row(
        "an abort gives back the step before the group", G, TWO_PULSES,
        "1 delete; begin; undo; 1 delete; abort; ,list; undo; info",
        "? E14 GroupFloor; 1 200 280 position; length 1000 pulses 2 frames 0 format G 2 cursor 2 past 0 future 1",
    ),
    Row(
        "an empty group leaves what can be redone", G, TWO_PULSES,
        "1 delete; undo; begin; end; redo; ,list",
        "1 200 280 position",
    ),
    Row(
        "an abort gives back the cursor of its begin, and leaves nothing to redo", G, TWO_PULSES,
        "1; begin; 2; mark a 5; 1 shift 7; 2; undo; abort; .; marks; redo; undo",
        "1 100 120 zero; 2 200 280 position; 2 200 280 position; 1 100 120 zero; ? E10 NothingToRedo; "
        "? E9 NothingToUndo",
    ),
    Row(
        "a group redone inside of a group goes with its own edits", G, TWO_PULSES,
        "begin; 1 delete; insert 300 350; end; undo; begin; redo; insert 400 450; end; info; undo; info; redo; ,list",
        "length 1000 pulses 3 frames 0 format G 2 cursor 3 past 1 future 0; "
        "length 1000 pulses 2 frames 0 format G 2 cursor 2 past 0 future 1; "
        "1 200 280 position; 2 300 350 one; 3 400 450 one",
    ),
    Row(
        "a group of one edit is that edit", G, TWO_PULSES,
        "begin; 1; force position; 2; end; undo; .; redo; .",
        "1 100 120 zero; 2 200 280 position; 1 100 120 zero; 2 200 280 position",
    ),
    Row(
        "a refused edit stays out of the group", G, TWO_PULSES,
        "begin; 1 delete; 5 delete; insert 0 2000; end; undo; ,list; info",
        "? E2 NoPulse; ? E1 OutOfRange; 1 100 120 zero; 2 200 280 position; "
        "length 1000 pulses 2 frames 0 format G 2 cursor 2 past 0 future 1",
    ),
]
