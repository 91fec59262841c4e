"""Rows of small files that ask for seconds or memory without end: each ends within some of both, or is refused with the limit that it
breaks."""
import bz2
import io
import lzma
import os
import resource
import subprocess
import tempfile
import zipfile

from cases import case

BUSY, MEMORY, LONGEST = 10, 300000000, 300  # seconds of the processor, bytes, and seconds on a busy machine
UNIT, END = "$timescale 1 us $end\n", "$enddefinitions $end #0 0!0 #5 1!0 #9 0!0\n"
REPAIRED = UNIT + "$var wire 1 ! c $end $enddefinitions $end\n#0 0! #4 1! #9 0! #99\n"
ROWS_OF_TABLE = "0,1\n1,2\n"
WORD = b"a" * 15000000


def within(scopes, wires, named="c%d", scope="a"):
    """A dump of that many wires within that many scopes."""
    return "".join([UNIT, "$scope module %s $end\n" % scope * scopes,
                    *("$var wire 1 !%d %s $end\n" % (number, named.replace("%d", str(number))) for number in range(wires)), END])


def apart(scopes, wires):
    """The same, each wire in a scope of its own below the others."""
    own = "$scope module s%d $end $var wire 1 !%d c $end $upscope $end\n"
    return "".join([UNIT, "$scope module a $end\n" * (scopes - 1), *(own % (number, number) for number in range(wires)), END])


def vector(size):
    return "%s$var reg %d ! bus [%d:0] $end $enddefinitions $end #0 b0 ! #5 b1 ! #9 b0 ! #99\n" % (UNIT, size, size - 1)


def packed(maker, parts):
    """These parts, packed without all of them in memory."""
    return b"".join([*map(maker.compress, parts), maker.flush()])


def in_xz(parts):
    return packed(lzma.LZMACompressor(preset=0), parts)


def sigrok(size, parts):
    """A file of sigrok with that many bytes of one level in each part."""
    made = io.BytesIO()
    with zipfile.ZipFile(made, "w", zipfile.ZIP_DEFLATED, compresslevel=1) as folder:
        folder.writestr("version", "2")
        folder.writestr("metadata", "[device 1]\ncapturefile=logic-1\nsamplerate=1 MHz\nprobe1=irig\nunitsize=1\n")
        for part in range(1, parts + 1):
            folder.writestr("logic-1-%d" % part, bytes(size))
    return made.getvalue()


INTO = ["irig_wire", "--wire", "bus[0]", "--into", "x", "--out", "n.vcd", "r"]
TABLE = ["irig_demodulate", "--table", "--level", "x"]
WIRE = ["irig_wire", "x"]
UNPACKED = "x: has more than 1000 bytes for each packed one, which is the limit"
SCOPES = "x: has more than 100 scopes, one within the other, which is the limit"
NO_TIMES = "has no column of times"
# what, a command line, what makes the file x, the status, and what is said
ROWS = (
    ("1,000 wires in 2,000 scopes", WIRE, lambda: within(2000, 1000), 2, SCOPES),
    ("4,000 wires in 8,000 scopes", WIRE, lambda: within(8000, 4000), 2, SCOPES),
    ("10,000 wires in 100,000 scopes", WIRE, lambda: within(100000, 10000), 2, SCOPES),
    ("10,000 wires in 100 scopes", WIRE, lambda: within(100, 10000), 2, "and 9980 more"),
    ("10,000 wires of one path in 100 scopes", WIRE, lambda: within(100, 10000, "c"), 2, "and 9980 more"),
    ("10,000 wires, each in the last of 100 scopes", WIRE, lambda: apart(100, 10000), 2, "and 9980 more"),
    ("10,000 wires with long paths", WIRE, lambda: within(99, 10000, scope="a" * 160), 2,
     "x: the paths of all wires have more than 134,217,728 letters, which is the limit"),
    ("a longer path", WIRE, lambda: within(1, 2, scope="a" * 20000), 2, "x: the path of a wire has more than 16,384 letters"),
    ("a scope of many bytes", WIRE, lambda: within(1, 2, scope="a" * 15000000), 2, "x: a declaration has more than 65,536 bytes"),
    ("a vector of a million bits that is written", INTO, lambda: vector(10 ** 6), 2,
     "bus[0]: no track is put back into a vector of more than 65,536 bits"),
    ("a vector of 10^9 bits that is written", INTO, lambda: vector(10 ** 9 - 1), 2,
     "bus[0]: no track is put back into a vector of more than 65,536 bits"),
    ("a vector of 10^9 bits that is read", ["irig_wire", "x", "bus[0]"], lambda: vector(10 ** 9 - 1), 0, "the wire is bus[0]"),
    ("brackets in a head", TABLE, lambda: "time " + "(a" * 4900 + ",V\n" + ROWS_OF_TABLE, 0, "1 pulses in 2.000 seconds"),
    ("points in a rate", TABLE, lambda: "samplerate" + "." * 9900 + "x\n" + ROWS_OF_TABLE, 2, NO_TIMES),
    ("points after a rate", TABLE, lambda: "samplerate1" + "." * 9900 + "x\n" + ROWS_OF_TABLE, 2, NO_TIMES),
    ("spaces after a rate", TABLE, lambda: "samplerate1" + " " * 9900 + "x\n" + ROWS_OF_TABLE, 2, NO_TIMES),
    ("digits in 900 heads", TABLE, lambda: ("1" * 9990 + "x\n") * 900 + ROWS_OF_TABLE, 2, NO_TIMES),
    ("words in a comment, by xz", WIRE, lambda: in_xz([b"$comment ", *[WORD + b" "] * 6]), 2, UNPACKED),
    ("words before the declarations, by xz", WIRE, lambda: in_xz([b"x ", *[WORD + b" "] * 6]), 2, UNPACKED),
    ("words in a comment, by bzip2", WIRE, lambda: packed(bz2.BZ2Compressor(), [b"$comment ", *[WORD + b" "] * 6]), 2, UNPACKED),
    ("white space, by xz", WIRE, lambda: in_xz([b"$comment ", *[b" " * 15000000] * 6]), 2, UNPACKED),
    ("words of 60 megabytes in a comment, by xz", WIRE, lambda: in_xz([b"$comment ", *[WORD + b" "] * 4, b"$end " + REPAIRED.encode()]),
     0, "the wire is c"),
    ("white space of 60 megabytes in a comment, by xz", WIRE,
     lambda: in_xz([b"$comment ", *[b" " * 15000000] * 4, b"$end " + REPAIRED.encode()]), 0, "the wire is c"),
    ("one level for 600 million samples", WIRE, lambda: sigrok(100000000, 6), 1, "the wire never changes"),
)


def limited():
    resource.setrlimit(resource.RLIMIT_CPU, (BUSY, BUSY))
    resource.setrlimit(resource.RLIMIT_AS, (MEMORY, MEMORY))


def bounded(top, name, words, made, status, text):
    """Whether a tool ends so, in that much time and memory."""
    with tempfile.TemporaryDirectory() as folder:
        for path, data in (("x", made()), ("r", REPAIRED)):
            with open(os.path.join(folder, path), "wb") as file:
                file.write(data if isinstance(data, bytes) else data.encode())
        tool = os.path.join(top, "tools", words[0])
        done = subprocess.run([tool, *words[1:]], stdin=subprocess.DEVNULL, capture_output=True, cwd=folder, preexec_fn=limited,
                              timeout=LONGEST, check=False)
    said = done.stderr.decode(errors="replace")
    good = done.returncode == status and text in said
    good or print("FAILED %s of %s: %d %s" % (words[0], name, done.returncode, said[-300:]))
    return good


def cases(top):
    """Each file by its name."""
    return [case("bounds: " + row[0], bounded, top, *row) for row in ROWS]
