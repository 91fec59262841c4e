"""Dumps that are read and written, and dumps that are not read."""
from reference.dump import MORE
from rows.tracks import G, HEADER, OF_A_SIMULATOR, FaultRow, Row

CUT = (
    "$timescale 1 us $end\n$var wire 1 ! code $end\n$enddefinitions $end\n"
    "#100 1!\n#120 0!\n#200 1!\n#280 0!\n#1000\n"
)

ROWS = [
    Row(
        "a dump of no length", "", "$timescale 1us $end $var wire 1 ! code $end $enddefinitions $end",
        "write; quit",
        "125",
    ),
    Row(
        "nanoseconds are floored", "", HEADER.replace("1 us", "1 ns") + "#1999 1! #2000 0! #2500 1! #9000 0!\n",
        ",list; write; info",
        "1 1 9 bad; 137; length 9 pulses 1 frames 0 format B 2 cursor 1 past 0 future 0",
    ),
    Row(
        "a dump of a simulator", "", OF_A_SIMULATOR,
        ",list; write; info",
        "1 2 4 bad; 140; length 5 pulses 1 frames 0 format B 2 cursor 1 past 0 future 0",
    ),
    Row("a rise at the end is no pulse", "", HEADER + "#5 1! #7 0! #9 1!", ",list; write", "1 5 7 bad; 140"),
    Row("a pulse that is high at the end", "", HEADER + "#5 1! #9", ",list; write", "1 5 9 bad; 137"),
    Row("a value before the first time", "", HEADER + "1! #5 0! #9", ",list; write", "1 0 5 bad; 134"),
    Row(
        "a wire chosen among two by its name", "--wire d",
        HEADER.replace("$enddef", '$var wire 1 " d $end $enddef') + '#3 1" 1! #5 0" #9',
        ",list",
        "1 3 5 bad",
    ),
    Row(
        "the longest track", "", HEADER + "#1099511627776",
        "info",
        "length 1099511627776 pulses 0 frames 0 format B 2 cursor 0 past 0 future 0",
    ),
    Row(
        "the longest track in femtoseconds", "", HEADER.replace("1 us", "1fs") + "#1099511627776999999999",
        "info",
        "length 1099511627776 pulses 0 frames 0 format B 2 cursor 0 past 0 future 0",
    ),
    Row(
        "hundreds of seconds", "", HEADER.replace("1 us", "100 s") + "#10995",
        "info",
        "length 1099500000000 pulses 0 frames 0 format B 2 cursor 0 past 0 future 0",
    ),
    Row(
        "a dump that is cut behind a time", G, CUT[:90],
        ",list; info",
        "1 100 120 zero; length 200 pulses 1 frames 0 format G 2 cursor 1 past 0 future 0",
    ),
    Row(
        "a dump that is cut within a time", G, CUT[:94],
        ",list; info",
        "1 100 120 zero; 2 200 280 position; length 280 pulses 2 frames 0 format G 2 cursor 2 past 0 future 0",
    ),
]

FAULT_ROWS = [
    FaultRow("an empty dump", "", "", "V8 NoEndDefinitions" + MORE),
    FaultRow("a dump that is cut within its timescale", "", CUT[:15], "V1 Unclosed"),
    FaultRow("a dump that is cut within its declarations", "", CUT[:45], "V8 NoEndDefinitions" + MORE),
    FaultRow("a dump that is cut within a value", "", CUT[:91], "V9 BadToken at 90" + MORE),
    FaultRow("a dump that is cut within a time that then falls", "", CUT[:93], "V10 Backward at 90"),
    FaultRow("a declaration without an end", "", "$timescale 1 us $end $var wire 1", "V1 Unclosed"),
    FaultRow("no timescale", "", "$var wire 1 ! c $end $enddefinitions $end", "V2 NoTimescale"),
    FaultRow("five microseconds", "", "$timescale 5 us $end", "V3 BadTimescale"),
    FaultRow("a size that is no number", "", "$var wire one ! c $end", "V4 BadVar"),
    FaultRow("no wire of that name", "--wire q", HEADER, "V5 NoSuchWire" + MORE),
    FaultRow("declarations without an end", "", "$timescale 1 us $end $enddefinitions", "V1 Unclosed"),
    FaultRow("a comment without an end", "", HEADER + "$comment 1!", "V1 Unclosed"),
    FaultRow("a variable without a reference", "", "$var wire 1 ! $end", "V4 BadVar"),
    FaultRow("no wire at all", "", "$timescale 1 us $end $enddefinitions $end", "V5 NoSuchWire" + MORE),
    FaultRow("a real value is of no bit", "", HEADER.replace("wire", "real"), "V5 NoSuchWire" + MORE),
    FaultRow("a real value by its name", "--wire c", HEADER.replace("wire", "real"), "V7 NotOneBit"),
    FaultRow("a time in the declarations", "", "#0", "V9 BadToken at 0" + MORE),
    FaultRow("an end that ends nothing", "", "  $end", "V9 BadToken at 2" + MORE),
    FaultRow("a word that is no change", "", HEADER + "?", "V9 BadToken at 63" + MORE),
    FaultRow("a vector without a code", "", HEADER + "b1", "V9 BadToken at 63" + MORE),
    FaultRow("a vector without a digit", "", HEADER + "b !", "V9 BadToken at 63" + MORE),
    FaultRow("a vector of an unknown digit", "", HEADER + "b12 !", "V9 BadToken at 63" + MORE),
    FaultRow("a real value without a code", "", HEADER + "r1.5", "V9 BadToken at 63" + MORE),
    FaultRow("a time without a number", "", HEADER + "#5 #", "V9 BadToken at 66" + MORE),
    FaultRow("two wires", "", HEADER.replace("$enddef", '$var wire 1 " d $end $enddef'), "V6 ManyWires" + MORE),
    FaultRow("a wire of eight bits", "--wire n", OF_A_SIMULATOR, "V7 NotOneBit"),
    FaultRow("a value without a code", "", HEADER + "1", "V9 BadToken at 63" + MORE),
    FaultRow("a time before the last one", "", HEADER + "#5 1! #4 0!", "V10 Backward at 69"),
    FaultRow("time 0 behind another", "", HEADER + "#5 #0", "V10 Backward at 66"),
    FaultRow("one microsecond too long", "", HEADER + "#1099511627777", "V11 TimeTooLarge at 63"),
    FaultRow("thirty nines", "", HEADER + "#" + "9" * 30, "V11 TimeTooLarge at 63"),
    FaultRow(
        "one microsecond too long in femtoseconds", "",
        HEADER.replace("1 us", "1fs") + "#1099511627777000000000",
        "V11 TimeTooLarge at 62",
    ),
    FaultRow(
        "one hundred of seconds too long", "", HEADER.replace("1 us", "100 s") + "#10996",
        "V11 TimeTooLarge at 64",
    ),
]
