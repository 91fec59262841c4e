"""Worked rows for irig_wire: dumps of every kind, and the edges that are in them."""
import bz2
import gzip
import lzma
import os
import random
import subprocess
import tempfile
from unittest import mock

from cases import case
from irig_tools import wire
from reference import dump
from rows.in_process import run
from rows.tools_apply import in_folder, same, text_of

HEAD = "$timescale 1 us $end $var wire 1 ! a $end $enddefinitions $end "
TWO = """$timescale 1 ns $end $scope module tb $end $var reg 8 # bus [7:0] $end $var wire 1 " clock $end
$scope module g $end $var wire 1 ! irig $end $upscope $end $scope module h $end $var wire 1 % irig $end $upscope $end
$upscope $end $enddefinitions $end
#0 0! 1" 0% b00000000 # #1000 1! #2000 b1010 # #3000 0! 1% #4000 0" bx #
"""
UP = "#0 0! #5 1! #7 0! #9"
EDGES = [(5000, 1), (7000, 0), (9000, None)]  # of UP, in nanoseconds
# name, dump, arguments, edges in nanoseconds, then the length; status, a part of what is said
ROWS = [
    ("one wire", HEAD + UP, [], EDGES, 0, "the wire is a (code !)"),
    ("a path of scopes", TWO, ["tb.g.irig"], [(1000, 1), (3000, 0), (4000, None)], 0, "3 other wires were left out"),
    ("the end of a path", TWO, ["h.irig"], [(3000, 1), (4000, None)], 0, "tb.h.irig"),
    ("a code", TWO, ["%"], [(3000, 1), (4000, None)], 0, "tb.h.irig"),
    ("a bit of a vector", TWO, ["bus[3]"], [(2000, 1), (4000, 0), (4000, None)], 0, "tb.bus[3]"),
    ("a bit of a vector by its path", TWO, ["tb.bus[1]"], [(2000, 1), (4000, 0), (4000, None)], 0, "bus[1]"),
    ("a vector that counts upward", TWO.replace("[7:0]", "[0:7]"), ["bus[4]"], [(2000, 1), (4000, 0), (4000, None)],
     0, ""),
    ("a name that two wires have", TWO, ["irig"], None, 2, "several wires are named 'irig'"),
    ("a vector without a bit", TWO, ["bus"], None, 2, "as 'tb.bus[0]'"),
    ("a bit that is not there", TWO, ["bus[8]"], None, 2, "no wire is named"),
    ("a wire that is not there", TWO, ["none"], None, 2, "! (path tb.g.irig), 1 bit"),
    ("no name and several wires", TWO, [], None, 2, "several wires of one bit"),
    ("letters of VHDL", HEAD + "#0 U! #5 H! #6 1! #7 L! #8 W! #9", [], EDGES, 0, "letters other than 0 1 x z were read 4 times: H as 1"),
    ("letters on another wire", TWO.replace('1"', 'U"'), ["%"], [(3000, 1), (4000, None)], 0, ""),
    ("a vector of one bit", HEAD + "#0 b0 ! #5 b1 ! #7 bU ! #9", [], EDGES, 0, ""),
    ("a code that looks like a time", HEAD.replace("!", "#5") + "#0 0#5 b1 #5 #7 0#5 #9", [],
     [(0, 1), (7000, 0), (9000, None)], 0, ""),
    ("a code that looks like a change", HEAD + "#0 b1 1! s1 1! #5 1! #7 0! #9", [], EDGES, 0, ""),
    ("a unit of ten million", (HEAD + UP).replace("1 us", "10000000ps"), [],
     [(50000, 1), (70000, 0), (90000, None)], 0, "10000000ps is written as 10 us"),
    ("a unit of 25", (HEAD + UP).replace("1 us", "25 ns"), [], [(125, 1), (175, 0), (225, None)], 0, "by 25"),
    ("a unit with a point", (HEAD + UP).replace("1 us", "0.5 us"), [], [(2500, 1), (3500, 0), (4500, None)], 0, ""),
    ("a unit with a Greek letter", (HEAD + UP).replace("1 us", "1 \u00b5s"), [], EDGES, 0, "written as 1 us"),
    ("no unit", (HEAD + UP).replace("$timescale 1 us $end", ""), [], None, 2, "give one, as --timescale 1ns"),
    ("a unit in other digits", HEAD + UP, ["--timescale", "\u0661us"], None, 2, "is no unit of time"),
    ("no unit, but an option", (HEAD + UP).replace("$timescale 1 us $end", ""), ["--timescale", "1us"], EDGES, 0, ""),
    ("a unit that is none", (HEAD + UP).replace("1 us", "1 fortnight"), [], None, 2, "is no unit of time"),
    ("sigrok's first line", "META samplerate: 1 MHz\n" + HEAD + UP, [], EDGES, 0, "before the header"),
    ("sections of other tools", "$attrbegin misc 02 $end " + HEAD + "$comment x 1! $end " + UP, [], EDGES, 0, ""),
    ("words that mean nothing", HEAD + "#0 0! y! #5 1! ? #7 0! #9", [], EDGES, 1,
     "words that mean no change were left out, 2 of them; the first is 'y!', after time 0"),
    ("a comment that is not closed", HEAD + UP + " $comment #10 1!", [], EDGES, 1, "a comment has no $end"),
    ("a saved session", HEAD + UP + " $comment irig-journal-1 spoilt\r\n $end", [], EDGES, 0, "history of a saved"),
    ("a declaration that is not closed", (HEAD + UP).replace("a $end", "a"), [], EDGES, 0, "has no $end"),
    ("declarations that do not end", (HEAD + UP).replace("$enddefinitions $end", ""), [], EDGES, 0, "have no end"),
    ("two dumps", HEAD + UP + " " + HEAD + "#0 1! #1", [], EDGES, 1, "the file has 2 dumps"),
    ("a file that ends within a time", HEAD + "#0 0! #5 1! #7 0! #9 #1", [], EDGES, 1, "the file ends within a time, so it is cut"),
    ("a file that ends within a sign of time", HEAD + "#0 0! #5 1! #7 0! #9 #", [], EDGES, 1, "the file ends within a time, so it is cut"),
    ("a file that ends within a value", HEAD + "#0 0! #5 1! #7 0! #9 1", [], EDGES, 1, "the file ends within a value, so it is cut"),
    ("a file that ends within a code", HEAD.replace("$end", "$end $var wire 1 ab b $end", 1) + "#0 0! #5 1! #7 0! #9 1a", ["a"], EDGES, 1,
     "the file ends within a value, so it is cut"),
    ("a file that ends within a vector", HEAD + "#0 0! #5 1! #7 0! #9 b01", [], EDGES, 1, "the file ends within a value, so it is cut"),
    ("a file that ends with a value", HEAD + "#0 0! #5 1! #7 0! #9 0!", [], EDGES, 0, ""),
    ("a last time that goes back, whole", HEAD + UP + " #1\n", [], EDGES, 1, "the last time of the file is before the one before it"),
    ("two times that go back", HEAD + UP + " #1 #2 ", [], EDGES, 1, "the file has 2 dumps"),
    ("the second of two dumps", HEAD + UP + " " + HEAD + "#0 1! #1", ["--dump", "2"], [(0, 1), (1000, None)], 1, "never changes"),
    ("two recordings under one header", HEAD + UP + " #0 1! #1", ["--dump=2"], [(0, 1), (1000, None)], 1, ""),
    ("two dumps, and the first is named", HEAD + UP + " " + HEAD + "#0 1! #1", ["--dump=1"], EDGES, 0, "has 2 dumps"),
    ("a dump that is not there", HEAD + UP, ["--dump=3"], None, 2, "has no dump 3; it has 1"),
    ("nanoseconds since 1970", (HEAD + "#0 x! #1700000000123456789 0! #1700000000123461789 1! #1700000000123463789 0! "
                                "#1700000000123465789").replace("1 us", "1 ns"), [], EDGES[:0] + [
        (5000, 1), (7000, 0), (9000, None)], 0, "1700000000123456789 of the dump's unit was subtracted"),
    ("a part", HEAD + "#0 0! #2 1! #8 0! #12 1! #20 0!", ["--from=4", "--to", "14"],
     [(0, 1), (4000, 0), (8000, 1), (10000, None)], 0, "4 of the dump's unit"),
    ("an end before the start", HEAD + UP, ["--from", "9", "--to=3"], None, 2, "--to 3 is before --from 9"),
    ("a part that is one moment", HEAD + UP, ["--from", "6", "--to=6"], [(0, 1), (0, None)], 1, "never changes"),
    ("upside down", HEAD + "#0 1! #5 0! #7 1! #9", ["--invert"], EDGES, 0, "swapped"),
    ("an extended dump", HEAD.replace("wire", "port").replace("!", "<0") + "#0 pD 6 0 <0 #5 pU 0 6 <0 #7 pN 0 0 <0 #9",
     [], EDGES, 0, "the states of ports were read as levels"),
    ("a port with a range", HEAD.replace("wire 1 ! a", "port [0:1] <0 bus") + "#0 pDD 66 00 <0 #5 pDU 66 00 <0 #7 pDD 66 00 <0 #9",
     ["bus[1]"], EDGES, 0, "the wire is bus[1] (code <0)"),
    ("a wire that never changes", HEAD + "#0 0! #9", [], [(9000, None)], 1, "never changes; irig_what finds the wires"),
    ("--wire without --into", HEAD + UP, ["--wire=a"], None, 2, "--wire is only for --into; without it WIRE comes after DUMP"),
    ("a track that is too long", HEAD + "#0 0! #5 1! #9000000000000 0!", [], None, 1, "reads at most"),
    ("a wire that only becomes known", HEAD + "#0 x! #5 0! #9", [], [(9000, None)], 1, "never changes"),
    ("a first time of 2^40 microseconds", HEAD + "#%d 1!" % 2**40, [], [(1000 * 2**40, 1), (1000 * 2**40, None)], 0, ""),
    ("a first time one later", HEAD + "#%d 0! #%d 1! #%d 0!" % (2**40 + 1, 2**40 + 6, 2**40 + 8), [],
     [(5000, 1), (7000, 0), (7000, None)], 0, "1099511627777 of the dump's unit was subtracted"),
    ("a length of 2^40 microseconds", HEAD + "#0 0! #5 1! #%d 0!" % 2**40, [],
     [(5000, 1), (1000 * 2**40, 0), (1000 * 2**40, None)], 0, ""),
    ("a length one more", HEAD + "#0 0! #5 1! #%d 0!" % (2**40 + 1), [], None, 1, "irig_ed reads at most 1099511627776"),
    ("a change at the end", HEAD + "#0 0! #2 1! #8 0! #12", ["--to=8"], [(2000, 1), (8000, 0), (8000, None)], 0, ""),
    ("times of 40 digits", HEAD + "#0 x! #{0}0 0! #{0}5 1! #{0}7 0! #{0}9".format("9" * 39), [], EDGES, 0, "was subtracted"),
    ("times of 61 digits", HEAD + "#0 0! #5 1! #{0}7 0! #9".format("9" * 60), [], [(5000, 1), (5000, 0), (9000, None)], 1,
     "left out, 1 of them; the first is '#99"),
    ("an unknown state of a port", HEAD.replace("wire", "port").replace("!", "<0")
     + "#0 pD 6 0 <0 #5 pU 0 6 <0 #7 pF 0 0 <0 #9", [], EDGES, 0, ""),
    ("a port that nothing drives", HEAD.replace("wire", "port").replace("!", "<0")
     + "#0 pT 0 0 <0 #5 pU 0 6 <0 #7 pT 0 0 <0 #9", [], EDGES, 0, ""),
    ("a bit left of a short vector", TWO.replace("#1000", "#1000 b1 #"), ["bus[7]"], [(4000, None)], 1, "never changes"),
    ("a bit left of a vector of x", TWO.replace("bx #", "b1 # #5000 b0 #"), ["bus[0]"], [(4000, 1), (5000, 0), (5000, None)],
     0, ""),
    ("thirty words before the header", "word " * 30 + HEAD + UP, [], EDGES, 0, "before the header was left out"),
    ("too many words before the header", "word " * 10001 + HEAD + UP, [], None, 2, "no declaration is found"),
    ("a unit of 200", (HEAD + UP).replace("1 us", "200 ns"), [], [(1000, 1), (1400, 0), (1800, None)], 0,
     "200ns is written as 100 ns, and every time is multiplied by 2"),
    ("much white space", HEAD + "$comment x" + " " * 18000000 + "\n$end " + UP, [], EDGES, 0, ""),
    ("a long word", HEAD + "$comment " + "x" * 3000000 + " $end " + UP, [], EDGES, 0, ""),
    ("a word without end", HEAD + "x" * 18000000, [], None, 2, "a word has more than 16777216 bytes"),
    ("a whole path that another path ends with", HEAD.replace("$enddefinitions",
     "$scope module m $end $var wire 1 % a $end $upscope $end $enddefinitions") + "#0 0! 1% #5 1! #7 0! #9", ["a"],
     EDGES, 0, "the wire is ! (path a)"),
    ("no dump", "hello world\n", [], None, 2, "irig_wire: standard input: is no dump: no declaration is found; samples and"),
    ("an empty file", "", [], None, 2, "irig_wire: standard input: is empty"),
    ("declarations alone", "$timescale 1 us $end", [], None, 2, "do not end; the file is cut off"),
    ("digits without end", HEAD + "#" + "9" * 5000 + " #0 0! #5 1! #7 0! #9", [], EDGES, 1, "mean no change"),
    ("an option that is none", HEAD, ["--what"], None, 2, "is no option"),
    ("a number that is none", HEAD, ["--dump", "x"], None, 2, "a whole number"),
]


def edges_of(dump):
    """The edges of a dump as irig_wire writes it, in nanoseconds, and its length; read by its own simple rules."""
    lines = dump.decode().split("\n")
    number, unit = lines[0].split()[1:3]
    scale = int(number) * {"ms": 10**12, "us": 10**9, "ns": 10**6, "ps": 1000, "fs": 1}[unit]
    time, level, found = 0, "0", []
    for line in lines[5:]:
        if line.startswith("#"):
            time = int(line[1:]) * scale // 10**6
        elif line.endswith("!"):
            new = "1" if line[0] == "1" else "0"
            if new != level:
                found.append((time, int(new)))
            level = new
    return found + [(time, None)]


def row_holds(name, dump, words, edges, status, text):
    got, printed, said = run("irig_wire", ["-", *words], dump.encode("latin-1"))
    found = edges_of(printed) if edges is not None and got < 2 else None
    if (got, found) == (status, edges) and text in said and "Traceback" not in said:
        return True
    print("FAILED irig_wire, %s: status %d, %s\n%s" % (name, got, found, said))
    return False


# dumps that simulators and a logic analyser wrote, and whose edges other tools read
REAL = {"icarus": "icarus", "ghdl": "ghdl", "gtkwave": "gtkwave", "verilator": "verilator", "sigrok": "sigrok",
        "sigrok_with_meta": "sigrok"}


def written():
    """What is written, letter by letter: a time once, and the level before the first change."""
    wanted = ("$timescale 1 us $end\n$scope module irig $end\n$var wire 1 ! a $end\n$upscope $end\n"
              "$enddefinitions $end\n#0\n$dumpvars\n0!\n$end\n#5\n1!\n#7\n0!\n")
    results = []
    for words, end in (("#0 0! #5 1! #7 0!", ""), ("#0 0! #5 1! 1! #7 0! #7", ""), (UP, "#9\n")):
        printed = run("irig_wire", ["-"], (HEAD + words).encode())[1].decode()
        results.append(printed == wanted + end)
        results[-1] or print("FAILED irig_wire, what is written of %s: %s" % (words, printed))
    return results


def limits():
    """The limits are those of the editor's reader, and what reaches one is not above it."""
    known = wire.LONGEST_TIME == dump.LONGEST, wire.MOST_BYTES == dump.MOST_BYTES, wire.MOST_EDGES == dump.MOST_EDGES
    results = list(known)
    for name, limit, good in (("MOST_EDGES", 2, True), ("MOST_EDGES", 1, False), ("MOST_BYTES", 137, True),
                              ("MOST_BYTES", 136, False)):
        with mock.patch.object(wire, name, limit):
            status, _, said = run("irig_wire", ["-"], (HEAD + UP).encode())
        results.append((status, "reads at most %d: take a part" % limit in said) == ((0, False) if good else (1, True)))
        results[-1] or print("FAILED irig_wire, %s of %d: %d %s" % (name, limit, status, said))
    return results


def real(top):
    """The edges in microseconds; the file of edges ends with the length."""
    results = []
    for name, edges in REAL.items():
        folder = os.path.join(top, "examples", "dumps")
        with open(os.path.join(folder, edges + ".edges"), encoding="ascii") as file:
            wanted = [int(line.split()[-1]) for line in file]
        with open(os.path.join(folder, name + ".vcd"), "rb") as dump:
            status, printed, said = run("irig_wire", ["-"], dump.read())
        results.append(status == 0 and [time // 1000 for time, _ in edges_of(printed)] == wanted)
        results[-1] or print("FAILED irig_wire, the dump of %s: %d %s" % (name, status, said))
    return results


def packed():
    """The same dump in other bytes."""
    plain = (HEAD + UP).encode()
    texts = {"gzip": gzip.compress(plain), "bzip2": bz2.compress(plain), "xz": lzma.compress(plain),
             "a byte order mark": b"\xef\xbb\xbf" + plain, "UTF-16": plain.decode().encode("utf-16"),
             "CR LF": plain.replace(b" ", b"\r\n")}
    results = []
    for name, data in texts.items():
        status, printed, said = run("irig_wire", ["-"], data)
        good = status == 0 and edges_of(printed) == EDGES
        good or print("FAILED irig_wire, %s: %d %s" % (name, status, said))
        results.append(good)
    heads = {b"\0" * 7 + b"\1I": "fst2vcd", b"\x13\x80": "lxt2vcd", b"PK\3\4": "cannot be read", b"RIFF": "WAV", b"fLaC": "flac -dc",
             b"\x25\xeb": "IRIG 106 Chapter 10"}
    for head, text in heads.items():
        status, _, said = run("irig_wire", ["-"], head + plain)
        results.append(status == 2 and text in said)
    cut, _, said = run("irig_wire", ["-"], gzip.compress(plain)[:-9])
    results.append(cut == 2 and "cannot be unpacked" in said)
    return results


def packed_by_parts():
    """Several packed streams are one dump; what follows a stream has to be a stream, too, up to its end, or padding."""
    first, rest = (HEAD + UP[:8]).encode(), UP[8:].encode()
    for pack, padding, no_padding in ((gzip.compress, b"\0" * 3, b"\0more"), (bz2.compress, b"", b"\0"),
                                      (lzma.compress, b"\0" * 4, b"\0more")):
        one, two = pack(first), pack(rest)
        for data in (one + two + padding, one + pack(b"") + two, pack(first + rest) + padding * 5000):
            yield unpacked(pack, data, True)
        for after in (b"more", no_padding, two[3:], two[:2], two[:-9], two[:20] + b"more" + two[24:]):
            yield unpacked(pack, one + after, False)
    yield unpacked(lzma.compress, lzma.compress(first) + b"\0" * 4 + lzma.compress(rest), True)


def unpacked(pack, data, is_whole):
    """Whether a file, and standard input, are read as the whole dump, or refused in one line."""
    results = []
    with tempfile.NamedTemporaryFile() as file:
        file.write(data)
        file.flush()
        for name, given in ((file.name, b""), ("-", data)):
            status, printed, said = run("irig_wire", [name], given)
            good = status == 0 and edges_of(printed) == EDGES
            if not is_whole:
                start = "irig_wire: %s: cannot be unpacked: " % name.replace("-", "standard input")
                good = status == 2 and said.startswith(start) and said.count("\n") == 1
            good or print("FAILED irig_wire, %s of %s and %r: %d %s" % (name, pack.__module__, data[-20:], status, said))
            results.append(good)
    return all(results)


def long_file(top):
    """A file of 300 million bytes through a pipe with little memory."""
    maker = "import sys\nw=sys.stdout.write\nw(%r)\nfor i in range(%d):w('#%%d 1!\\n' %% (2*i))\nw('#9999999 0!\\n')"
    code = maker % (HEAD, 400000) + "\nfor i in range(60):w('$comment '+'x'*5000000+' $end ')"
    command = "ulimit -v 200000; %s -c \"$CODE\" | %s/tools/irig_wire - | tail -n 2" % ("python3", top)
    done = subprocess.run(["bash", "-c", command], env=dict(os.environ, CODE=code), stdout=subprocess.PIPE,
                          stderr=subprocess.DEVNULL, check=False)
    return done.stdout == b"#9999999\n0!\n"


def random_dump(rng):
    """A dump of some wires and vectors, and the edges of one bit."""
    size, place = rng.choice(((1, 0), (8, rng.randrange(8)))), 0
    width, place = size
    name = "a" if width == 1 else "a[%d]" % place
    lines = ["$timescale 1 ns $end $scope module m $end $var wire 1 0 z $end",
             "$var wire %d ! a %s $end $upscope $end $enddefinitions $end #0" % (width, "[7:0]" * (width > 1))]
    time, level, edges = 0, 0, []
    for _ in range(rng.randrange(40)):
        time += 1 + rng.randrange(3) * rng.randrange(50)
        lines.append("#%d" % time)
        number = rng.getrandbits(width)
        lines.append(rng.choice(("%d!" % number, "b%d !" % number)) if width == 1 else "b{:b} !".format(number))
        lines.append(rng.choice(("00", "10", "b1 0", "$comment 1! #9 $end", "s1! 0")))
        new = number >> place & 1
        if new != level:
            edges.append((time, new))
        level = new
    return "\n".join(lines), name, edges + [(time, None)]


def random_rows():
    results = []
    for seed in range(30):
        text, name, edges = random_dump(random.Random(seed))
        status, printed, said = run("irig_wire", ["-", name], text.encode())
        good = status < 2 and edges_of(printed) == edges
        good or print("FAILED irig_wire, random dump %d: %s" % (seed, said))
        results.append(good)
    return results


def hostile():
    """Spoilt dumps: an answer, a status, and no trace of Python."""
    good, plain = True, TWO.encode()
    for seed in range(40):
        rng = random.Random(seed)
        data = bytearray(plain)
        for _ in range(rng.randrange(1, 30)):
            data[rng.randrange(len(data))] = rng.randrange(256)
        status, _, said = run("irig_wire", ["-", "tb.g.irig"], bytes(data[:rng.randrange(len(data))]))
        if status not in (0, 1, 2) or "Traceback" in said:
            print("FAILED irig_wire, spoilt dump %d: %d %s" % (seed, status, said))
            good = False
    return good


def ends(top):
    """Help, folders, files that are not there, a reader that goes away."""
    with tempfile.TemporaryDirectory() as folder:
        whole = subprocess.run([top + "/tools/irig_wire"], stderr=subprocess.DEVNULL, check=False)
        unread = subprocess.run(["bash", "-c", "%s/tools/irig_wire --help | true" % top], check=False)
        full = subprocess.run(
            ["bash", "-c", "%s/tools/irig_wire --help > /dev/full" % top], capture_output=True, check=False)
        return [whole.returncode == 2, run("irig_wire", ["--help"])[0] == 0,
                run("irig_wire", [])[0] == 2, run("irig_wire", [folder])[0] == 2,
                run("irig_wire", [folder + "/none"])[0] == 2,
                unread.returncode == 0,
                (full.returncode, full.stderr) == (2, b"irig_wire: standard output: No space left on device\n")]


def listed():
    """Each wire that can be meant has a line of its own below the message."""
    text = "$timescale 1 us $end $scope module m $end %s $upscope $end $enddefinitions $end #0 0! 0? #9" % " ".join(
        "$var wire 1 %s %s $end" % pair for pair in (("!", "a"), ("?", "b")))
    for words, said in (([], "the dump has several wires of one bit; name one by its path or its code, or let irig_what find it:"),
                        (["c"], "no wire is named 'c'; there are:")):
        bits = ", 1 bit" * bool(words)
        wanted = "irig_wire: %s\n  a (code !, path m.a)%s\n  b (code ?, path m.b)%s\n" % (said, bits, bits)
        done = run("irig_wire", ["-", *words], text.encode())
        done == (2, b"", wanted) or print("FAILED irig_wire %s: %s" % (words, done))
        yield done == (2, b"", wanted)


BESIDE = "$timescale 10 ns $end $var wire 1 ! code $end $var wire 1 \" d $end $var wire 1 % e $end $var reg 8 # bus [7:0] $end " \
    "$enddefinitions $end #0 $dumpvars 0! x\" 1% b0 # $end #100 1! 1\" #150 1\" b1 # #200 0! 0\" #333 z\" 0% #400 0!\n"
ALL_CHANGES = "0\td\tx\n0\te\t1\n1\td\t1\n2\td\t0\n3.33\td\tz\n3.33\te\t0\n"
# options, and the changes of the other wires
CHANGES = (
    ([], ALL_CHANGES), (["--from=150"], "0.5\td\t0\n1.83\td\tz\n1.83\te\t0\n"), (["--to=300"], "".join(ALL_CHANGES.splitlines(True)[:4])),
    (["--from=100", "--to=200"], "0\td\t1\n1\td\t0\n"), (["--timescale=10us"], ALL_CHANGES.replace("1\td", "1000\td").replace(
        "2\td", "2000\td").replace("3.33", "3330")))
# a command line, and what is said
NO_CHANGES = (
    ("--changes new one.vcd", "one.vcd: has no other wire of one bit; --changes writes what they do"),
    ("--changes new --into rec.vcd one.vcd", "--changes is for a dump that is read"),
    ("--changes new --windows rec.vcd code", "--windows and --changes exclude each other"),
    ("--changes rec.vcd rec.vcd code", "--changes rec.vcd would write over the file that is read"),
    ("--changes - rec.vcd code", "are one file"), ("--changes x --out ./x rec.vcd code", "are one file"))


def changes_beside():
    """A line for each change of another wire of one bit; the dump is the same as without them."""
    def holds():
        for words, wanted in CHANGES:
            status, text, said = run("irig_wire", ["--changes", "data.txt", *words, "rec.vcd", "code"])
            yield same("changes %s" % words, (status, text_of("data.txt")), (0, wanted))
            yield same("the dump %s" % words, (status, text), run("irig_wire", [*words, "rec.vcd", "code"])[:2])
            yield same("how many %s" % words, "data.txt has %d lines: microseconds, wire and level" % wanted.count("\n") in said, True)
        os.unlink("data.txt")
        for line, text in NO_CHANGES:
            status, _, said = run("irig_wire", line.split())
            yield same(line, (status, text in said), (2, True))
        yield same("what is there then", (sorted(os.listdir(".")), text_of("rec.vcd")), (["one.vcd", "rec.vcd"], BESIDE))

    return in_folder(lambda: list(holds()), rec=BESIDE, one=HEAD + UP)


def cases(top):
    """Each row by its name."""
    return [
        *(case("wire: " + row[0], row_holds, *row) for row in ROWS), case("wire: dumps of other tools", real, top),
        case("wire: what is written", written), case("wire: changes of the others", changes_beside),
        case("wire: limits", limits), case("wire: packed files", packed), case("wire: files of several packed streams", packed_by_parts),
        case("wire: a long file", long_file, top), case("wire: hostile", hostile),
        case("wire: random dumps", random_rows), case("wire: ends", ends, top), case("wire: a list of wires", listed)]
