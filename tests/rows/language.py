"""The forms of lines, addresses and arguments."""
from rows.tracks import G, TWO_PULSES, Row

LONGEST_LINE = 1000  # bytes, the newline not counted

ROWS = [
    Row(
        "a mark that is not set, a pulse that is not there, and lines of no form", G, TWO_PULSES,
        "'a list; insert 'a 5; 5 list; list 3; 1,2 split 1 2; ,",
        "? E2 NoPulse; ? E1 OutOfRange; ? E2 NoPulse; ? S1 BadLine; ? S1 BadLine; ? S1 BadLine",
    ),
    Row(
        "addresses from the cursor, the end and a mark", G, TWO_PULSES,
        "1; +; -; $-1; .+1; mark a 150; 'a; 'a+1; 'a+2; 'a+2-1",
        "1 100 120 zero; 2 200 280 position; 1 100 120 zero; 1 100 120 zero; 2 200 280 position; "
        "1 100 120 zero; 2 200 280 position; ? E2 NoPulse; ? S1 BadLine",
    ),
    Row(
        "addresses with commands, and ranges from marks", G, TWO_PULSES,
        "mark c 150; 'clist; 'c+list; $-list; $; .-1; .,+list;  'c , $; 'c,$list; -9",
        "1 100 120 zero; 2 200 280 position; 1 100 120 zero; 2 200 280 position; 1 100 120 zero; 1 100 120 zero; "
        "2 200 280 position; ? S1 BadLine; 1 100 120 zero; 2 200 280 position; ? E2 NoPulse",
    ),
    Row(
        "a mark before the first pulse, and one that is taken off", G, TWO_PULSES,
        "mark a 5; 'a; 'a+1; unmark a; 'a+1; marks",
        "? E2 NoPulse; 1 100 120 zero; ? E2 NoPulse",
    ),
    Row(
        "an address is judged by its whole value", G, TWO_PULSES,
        "mark a 50; 'a; 'a+1; 'b+1; 5-4; 0+2; 3-2list",
        "? E2 NoPulse; 1 100 120 zero; ? E2 NoPulse; 1 100 120 zero; 2 200 280 position; 1 100 120 zero",
    ),
    Row(
        "numbers of 18 and of 19 digits", G, TWO_PULSES,
        "000000000000000001; 0000000000000000001; 999999999999999999; .-999999999999999999; "
        "insert 1 1000000000000000000; insert 1 999999999999999999",
        "1 100 120 zero; ? S1 BadLine; ? E2 NoPulse; ? E2 NoPulse; ? S1 BadLine; ? E1 OutOfRange",
    ),
    Row(
        "white space of a line", G, TWO_PULSES,
        "\t1\tlist \r; 1 , 2 list; , list; 1,2list;   # 1; \t\r; 1 #; \v1",
        "1 100 120 zero; ? S1 BadLine; 1 100 120 zero; 2 200 280 position; 1 100 120 zero; "
        "2 200 280 position; ? S1 BadLine; ? S1 BadLine",
    ),
    Row("blank lines and comments", G, TWO_PULSES, "\n \t\r\n# write\n  #", ""),
    Row(
        "white space between and around words", G, TWO_PULSES,
        " \tinvert\t100  120 \r; write\r; \t1 , 2;  1 list ",
        "147; ? S1 BadLine; 1 200 280 position",
    ),
    Row(
        "ranges that are cut or turned round", G, TWO_PULSES,
        "2,1list; 1,list; ,2list; 1,1list; .,$list; 1; .,$list",
        "? E2 NoPulse; ? S1 BadLine; ? S1 BadLine; 1 100 120 zero; 2 200 280 position; 1 100 120 zero; "
        "1 100 120 zero; 2 200 280 position",
    ),
    Row(
        "words and arguments too many or too few", G, TWO_PULSES,
        "lst; List; undo 1; 1 undo; insert 1; insert 1 2 3; 1 frames; mark A 1; mark a; format H 1; "
        "format G 8; format G 02; 1 force Zero; shift; shift 1.5; shift --1; write x; quit now; begin 1; 1 end; saved",
        "; ".join(["? S1 BadLine"] * 21),
    ),
    Row(
        "words that are missing, and words of wrong form", G, TWO_PULSES,
        "invert; invert 1; invert 1 2 3; invert 1 b; quit 1; WRITE; format B; format C 2; format B 8; format B 12; "
        "mark A 5; unmark ab; 1 force two; 1 shift 5x; 1 shift --5; 1,list; ,1 list; regen 0 2; write",
        "? S1 BadLine; " * 18 + "163",
    ),
    Row(
        "bytes that are no text", G, TWO_PULSES,
        "\xff\xfe; \0; write \x80; write",
        "? S1 BadLine; ? S1 BadLine; ? S1 BadLine; 163",
    ),
    Row(
        "marks as times", G, TWO_PULSES,
        "mark a 300; mark b 320; insert 'a 'b; mark c 'a; 3 split 'a 'b; invert 'a 'b; marks; mark d 1001; "
        "mark d 'e; unmark a; marks",
        "? E4 NotInside; a 300; b 320; c 300; ? E1 OutOfRange; ? E1 OutOfRange; b 320; c 300",
    ),
    Row(
        "an edit from one mark to another", G, TWO_PULSES,
        "mark a 110; mark b 250; invert 'a 'b; ,list; mark c 'b; marks; mark d 1001; mark e 'z",
        "1 100 110 zero; 2 120 200 position; 3 250 280 zero; a 110; b 250; c 250; ? E1 OutOfRange; ? E1 OutOfRange",
    ),
    Row(
        "a line that is too long", G, TWO_PULSES,
        "1" + " " * LONGEST_LINE + "; 1; #" + "x" * LONGEST_LINE + "; 2" + " " * (LONGEST_LINE - 1),
        "? S2 LineTooLong; 1 100 120 zero; ? S2 LineTooLong; 2 200 280 position",
    ),
    Row("nothing is obeyed behind a quit", G, TWO_PULSES, "1; quit; 2; lst", "1 100 120 zero"),
    Row("nothing is obeyed after a quit with white space", G, TWO_PULSES, " quit\r; list", ""),
]
