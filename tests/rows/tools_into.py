"""Rows for `irig_wire --into`: a track is put back into the dump that it was made of."""
import gzip
import os
import random
import subprocess
import tempfile

from built import DIFF
from cases import case
from rows.in_process import run

UNITS = {"1 ps": 1, "10 ps": 10, "1 ns": 1000, "100 ns": 100000, "1 us": 10**6, "10 us": 10**7}  # in picoseconds


def events(text):
    """The changes of a dump in their order, by its own simple rules: a time, a code and a value."""
    words, found, now, at = text.split(), [], 0, 0
    at = words.index(b"$enddefinitions") + 2
    while at < len(words):
        word = words[at]
        if word == b"$comment":
            at = words.index(b"$end", at)
        elif word[:1] == b"#":
            assert int(word[1:]) >= now, "times go backward"
            now = int(word[1:])
        elif word[:1] in (b"b", b"B", b"r", b"s"):
            at += 1
            found.append((now, words[at], word[1:].decode()))
        elif word[:1] != b"$":
            found.append((now, word[1:], chr(word[0])))
        at += 1
    return found, now


def bit_of(value, size, place):
    """A bit of a value, which is extended on its left as the standard has it."""
    left = value[0] if value[0] in "xz" else "0"
    return value.rjust(size, left)[size - 1 - place]


def levels(found, code, size, place, scale, start, length):
    """The level at each microsecond, as a list."""
    level, result, at = "x", [], 0
    own = [(time, value) for time, other, value in found if other == code]
    for micro in range(length):
        beyond = start * scale + (micro + 1) * 10**6
        while at < len(own) and own[at][0] * scale < beyond:
            level, at = bit_of(own[at][1], size, place), at + 1
        result.append(level == "1")
    return result


class Made:
    """A dump of several wires at random, one of them a wire or a bit of a vector, and a track that differs from it."""

    def __init__(self, seed):
        rng = self.rng = random.Random("into %s" % seed)
        unit = rng.choice(list(UNITS))
        self.scale = UNITS[unit]
        self.size = rng.choice((1, 1, 1, 8))
        self.place = rng.randrange(self.size)
        self.name = "t.irig" if self.size == 1 else "t.irig[%d]" % self.place
        self.invert = rng.random() < 0.2
        self.base = rng.choice((0, 0, 0, (1 << 41) * 10**6 // self.scale + 7))
        self.text, last = self.dump(unit)
        self.start, self.end, self.words = self.base, last, ["--invert"] * self.invert
        if rng.random() < 0.3:
            self.start, self.end = sorted((rng.randint(self.base, last), rng.randint(self.base, last)))
            self.words += ["--from=%d" % self.start, "--to=%d" % self.end]
        self.length = (self.end - self.start) * self.scale // 10**6
        self.before = self.levels(self.text)
        self.after = self.changed()

    def dump(self, unit):
        """The bytes of the dump, and its last time."""
        rng, kind = self.rng, "[7:0] " * (self.size > 1)
        lines = ["$timescale %s $end $scope module t $end $var wire %d ! irig %s$end" % (unit, self.size, kind),
                 '$var wire 1 # clk $end $var reg 4 #5 bus [3:0] $end $var real 64 r volts $end $var wire 1 " d $end',
                 "$upscope $end $comment 1! #9 $end $enddefinitions $end"]
        if rng.random() < 0.8:
            lines.append("#0 $dumpvars %s 1# b0 #5 $end" % self.change())
        time = self.base
        for _ in range(rng.randrange(40)):
            lines.append("#%d" % time)
            lines += rng.sample((self.change(), "1#", "0#", "b101 #5", "r1.5 r", "s1! #", '1"', "$comment 0! $end", ""),
                                rng.randrange(4))
            time += rng.choice((1, rng.randrange(1, 4 * 10**6 // self.scale + 2)))
        lines.append("#%d" % time)
        return ("".join(line + rng.choice("\n \t") for line in lines)).encode(), time

    def change(self):
        if self.size > 1:
            return "b%s !" % "".join(self.rng.choice("01x") for _ in range(self.rng.randrange(1, 9)))
        return self.rng.choice(("0!", "1!", "1!", "x!", "b1 !", "b0 !"))

    def levels(self, text):
        """The level at each microsecond of the track."""
        level, found, at = "x", [], 0
        own = [(time, value) for time, code, value in events(text)[0] if code == b"!"]
        for micro in range(self.length):
            while at < len(own) and (own[at][0] - self.start) * self.scale < (micro + 1) * 10**6:
                level, at = bit_of(own[at][1], self.size, self.place), at + 1
            found.append(level == "01"[not self.invert])
        return found

    def changed(self):
        """The level of the track: it differs in some stretches, which end where the unit of the dump has a time."""
        step, found = max(1, self.scale // 10**6), list(self.before)
        for _ in range(self.rng.randrange(5)):
            ends = sorted(self.rng.randrange(0, self.length + 1, step) for _ in range(2))
            found[ends[0]:ends[1]] = [not level for level in found[ends[0]:ends[1]]]
        return found

    def track(self):
        """The repaired track, as the editor writes it."""
        lines, level = ["$timescale 1 us $end $var wire 1 ! code $end $enddefinitions $end #0 0!"], False
        for micro, each in enumerate(self.after):
            if each != level:
                lines += ["#%d" % micro, "%d!" % each]
            level = each
        return "\n".join([*lines, "#%d" % self.length]).encode() + b"\n"


def others_of(text, size, place):
    """The declarations, and the changes of all other wires; of a vector those of its other bits, a value once."""
    found, last, rest = [], ["x"] * (size - 1), events(text)
    for time, code, value in rest[0]:
        if code != b"!":
            found.append((time, code, value))
        elif size > 1:
            bits = [bit_of(value, size, each) for each in range(size) if each != place]
            if bits != last:
                found.append((time, code, bits))
            last = bits
    return text.partition(b"$enddefinitions")[0], found, rest[1], text.count(b"$comment")


def own_of(made, text):
    """The letters of the wire, each with its time in the unit of the dump, a letter once; None before the first."""
    found = [(None, "x")]
    for time, code, value in events(text)[0]:
        if code == b"!" and bit_of(value, made.size, made.place) != found[-1][1]:
            found.append((time, bit_of(value, made.size, made.place)))
    return found


def kept(made, text):
    """Whether the wire is as it was in each microsecond that is no end of a stretch, and has no glitch in the others."""
    def by_micro(found):
        times = {}
        for time, letter in own_of(made, found)[1:]:
            times.setdefault((time - made.start) * made.scale // 10**6, []).append((time, letter))
        return times

    old, new = by_micro(made.text), by_micro(text)
    differ = [a != b for a, b in zip(made.before, made.after)]
    for micro in sorted({*old, *new}):
        inside = 0 <= micro < made.length and differ[micro]
        after = 0 < micro <= made.length and differ[micro - 1]
        if inside and len(new.get(micro, ())) > 1:
            return False
        if not inside and not after and old.get(micro) != new.get(micro):
            return False
    return True


def put_back(made, folder):
    """The status, the merged dump and what is said."""
    path = os.path.join(folder, "original.vcd")
    with open(path, "wb") as file:
        file.write(made.text)
    return run("irig_wire", ["--into", path, "--wire", made.name, *made.words, "-"], made.track())


def is_same(made, folder, merged):
    """What irig_diff says of the merged dump's wire and the track: 0 if they are the same."""
    paths = [os.path.join(folder, name) for name in ("merged.vcd", "wire.vcd", "track.vcd")]
    status, wire, _ = run("irig_wire", ["-", made.name, *made.words], merged)
    for path, text in zip(paths, (merged, wire, made.track())):
        with open(path, "wb") as file:
            file.write(text)
    done = subprocess.run([DIFF, *paths[1:]], stdout=subprocess.PIPE, stderr=subprocess.STDOUT, check=False)
    return status < 2 and done.returncode == 0


def random_rows():
    """The wire is that of the track, all other wires are as they were, and so is the wire where both do not differ."""
    for seed in range(100):
        made = Made(seed)
        with tempfile.TemporaryDirectory() as folder:
            status, merged, said = put_back(made, folder)
            good = status < 2 and made.levels(merged) == made.after and is_same(made, folder, merged)
        good = good and others_of(merged, made.size, made.place) == others_of(made.text, made.size, made.place)
        good = good and kept(made, merged) and (made.before != made.after or merged == made.text)
        good or print("FAILED irig_wire --into, random %d: %d %s" % (seed, status, said))
        yield good


DECLARED = "$timescale %s $end $var wire 1 ! irig $end $var wire 1 # clk $end $enddefinitions $end "
NANO, TENS = DECLARED % "1 ns", DECLARED % "10 us"
BUS = '$timescale 1 us $end $var wire 4 ! bus [3:0] $end $enddefinitions $end '
OWN = "#0 $dumpvars x! 1# $end #5300 1! 0# #7300 0! #9000 1! #12700 0! #20400 1#"
CUT = "$comment irig_wire: offset %s $end "
TRACK = "$timescale 1 us $end %s$var wire 1 ! code $end $enddefinitions $end #0 0! "
LATE = 1 << 61  # nanoseconds
# name, original, words, track, a comment of it, the changes of the original then, or a part of what is complained of
ROWS = (
    ("nothing differs", NANO + OWN, ["--wire=irig"], "#5 1! #7 0! #9 1! #12 0! #20", "", OWN),
    ("a pulse is longer", NANO + OWN, ["--wire=!"], "#3 1! #8 0! #9 1! #12 0! #20", "",
     "#0 $dumpvars x! 1# $end #3000 1! #5300 0# #7300 #8000 0! #9000 1! #12700 0! #20400 1#"),
    ("a pulse is not there", NANO + OWN, ["--wire=irig"], "#5 1! #7 0! #20", "",
     "#0 $dumpvars x! 1# $end #5300 1! 0# #7300 0! #9000 #12700 #20400 1#"),
    ("the level at the beginning", NANO + OWN, ["--wire=irig"], "1! #2 0! #5 1! #7 0! #9 1! #12 0! #20", "",
     "#0 $dumpvars 1! 1# $end #2000 x! #5300 1! 0# #7300 0! #9000 1! #12700 0! #20400 1#"),
    ("a glitch goes", NANO + OWN.replace("#7300", "#6000 0! #6400 1! #7300"), ["--wire=irig"],
     "#5 1! #7 0! #9 1! #12 0! #20", "", OWN.replace("#7300", "#6000 0! #6400 1! #7300")),
    ("a glitch of a microsecond goes", NANO + OWN.replace("#7300", "#6000 0! #7000 1! #7300"), ["--wire=irig"],
     "#5 1! #7 0! #9 1! #12 0! #20", "", OWN.replace("#7300", "#6000 #7000 1! #7300")),
    ("upside down", NANO + OWN, ["--wire=irig", "--invert"], "1! #5 0! #7 1! #20", "",
     "#0 $dumpvars 0! 1# $end #5000 x! #5300 1! 0# #7300 0! #9000 #12700 #20400 1#"),
    ("a bit of a vector", BUS + "#0 b0 ! #5 b101 ! #7 b1 ! #9 b0 !", ["--wire=bus[0]"], "#5 1! #6 0! #8 1! #9", "",
     "#0 b0 ! #5 b101 ! #6 b0100 ! #7 b0000 ! #8 b0001 ! #9 b0 !"),
    ("a part", NANO + OWN, ["--wire=irig"], "#2 1! #6 0! #8", "4000 ns",
     "#0 $dumpvars x! 1# $end #5300 0# #6000 1! #7300 #9000 #10000 0! #12700 #20400 1#"),
    ("a part, by --from and --to", NANO + OWN, ["--wire=irig", "--from=4000", "--to=12100"], "#2 1! #6 0! #8", "",
     "#0 $dumpvars x! 1# $end #5300 0# #6000 1! #7300 #9000 #10000 0! #12700 #20400 1#"),
    ("times from 1970", NANO + "#0 x! #%d 1# #%d 1! #%d 0! #%d" % (LATE, LATE + 1500, LATE + 3500, LATE + 9000),
     ["--wire=irig"], "#1 1! #4 0! #9", "",
     "#0 x! #%d 1# #%d 1! #%d #%d 0! #%d" % (LATE, LATE + 1500, LATE + 3500, LATE + 4000, LATE + 9000)),
    ("an original that was cut out", (NANO + OWN).replace("$var", CUT % "3 us" + "$var", 1), ["--wire=irig"],
     "#5 1! #7 0! #20", "3000 ns", "#0 $dumpvars x! 1# $end #5300 1! 0# #7300 0! #9000 #12700 #20400 1#"),
    ("the second dump", NANO + OWN + " " + NANO + OWN, ["--wire=irig", "--dump=2"], "#5 1! #7 0! #20", "",
     OWN + " " + NANO + "#0 $dumpvars x! 1# $end #5300 1! 0# #7300 0! #9000 #12700 #20400 1#"),
    ("words that look like changes", NANO + "$comment 1! #3 $end s1! # #1000 r1! # #9000 0#", ["--wire=irig"], "#2 1! #9", "",
     "$comment 1! #3 $end s1! # #1000 r1! # #2000 1! #9000 0#"),
    ("a coarse unit", TENS + "#0 0! #1 1! #2 0! #3", ["--wire=irig"], "#10 1! #30", "", "#0 0! #1 1! #2 #3"),
    ("an edge that the unit has not", TENS + "#0 0! #1 1! #2 0! #3", ["--wire=irig"], "#10 1! #25 0! #30", "",
     "the unit 10 us of the dump is too coarse for an edge at 25 microseconds: move the edge"),
    ("a track that is too short", NANO + OWN, ["--wire=irig"], "#5 1! #7 0! #19", "", "19 microseconds long, and the dump is longer"),
    ("a track that is too long", NANO + OWN, ["--wire=irig"], "#5 1! #7 0! #21", "", "the dump is shorter"),
    ("another part", NANO + OWN, ["--wire=irig", "--from=4000", "--to=12100"], "#2 1! #6 0! #9", "", "8 in that part"),
    ("another --from", NANO + OWN, ["--wire=irig", "--from=4001"], "#2 1! #6 0! #8", "4000 ns", "and not at --from 4001; leave out --from"),
    ("another original", (NANO + OWN).replace("$var", CUT % "3 us" + "$var", 1), ["--wire=irig"], "#5 1! #9", "2999 ns",
     "the track was cut out at 2999 ns, and this dump has no such time"),
    ("a file that ends within a time", NANO + "#0 0! #5000 1! #9000 #1", ["--wire=irig"], "#5 1! #7 0! #9", "",
     "#0 0! #5000 1! #7000 0! #9000"),
    ("a file that ends within a value", NANO + "#0 0! #5000 1! #9000 1", ["--wire=irig"], "#5 1! #7 0! #9", "",
     "#0 0! #5000 1! #7000 0! #9000"),
    ("a file that ends within a vector", NANO + "#0 0! #5000 1! #9000 b01 x", ["--wire=irig"], "#5 1! #7 0! #9", "",
     "#0 0! #5000 1! #7000 0! #9000"),
    ("a last time that goes back", NANO + "#0 0! #5000 1! #9000 #8000\n", ["--wire=irig"], "#5 1! #7 0! #9", "",
     "#0 0! #5000 1! #7000 0! #9000"),
    ("a recording after it under one header", NANO + "#0 0! #5000 1! #9000 #8000 0!", ["--wire=irig"], "#5 1! #7 0! #9", "",
     "#0 0! #5000 1! #7000 0! #9000 #8000 0!"),
    ("words that no program reads", NANO + "#0 0! junk #5000 1! #-17 #7000 0! #9000 #12.5\n", ["--wire=irig"], "#5 1! #8 0! #9", "",
     "#0 0! #5000 1! #7000 #8000 0! #9000"),
    ("several wires", NANO + OWN, [], "#5 1! #20", "", "the dump has several wires of one bit"),
    ("a port", NANO.replace("wire", "port") + "#0 pD 6 0 ! #9000", ["--wire=irig"], "#5 1! #9", "", "is a port of an extended dump"),
    ("no wire to choose", NANO + OWN, None, "#5 1! #9", "", "--wire is only for --into"),
)


def row_holds(original, words, track, comment, wanted):
    """The words of the original are there, with those changes; or one line complains."""
    with tempfile.TemporaryDirectory() as folder:
        path = os.path.join(folder, "original.vcd")
        with open(path, "w", encoding="ascii") as file:
            file.write(original)
        options = ["--into", path, *words] if words is not None else ["--wire=irig"]
        status, merged, said = run("irig_wire", [*options, "-"], (TRACK % (CUT % comment if comment else "") + track).encode())
    found = merged.decode().split()
    declared = original.partition("$enddefinitions $end ")[0].split()
    good = status < 2 and found == [*declared, "$enddefinitions", "$end", *wanted.split()]
    good = good or (status == 2 and wanted in said)
    good or print("FAILED irig_wire --into: %d %s\n%s" % (status, said, merged.decode()))
    return good


def others_are_left(top):
    """Dumps of simulators with several wires: bytes that are not of the wire stay, packed or not. Of a dump that is cut, or whose last
    time goes back, that word is not written, since no program would read the file with it, and neither is a time that is no number; the
    status is 1."""
    with open(os.path.join(top, "examples", "dumps", "irig_b.vcd"), "rb") as file:
        text = file.read()
    results = []
    lines = text.replace(b"\n", b"\r\n")
    for data, wanted, ended in ((text, text, 0), (gzip.compress(text), text, 0), (b"\xef\xbb\xbf" + text, text, 0), (lines, lines, 0),
                                (text + b"#-17\n", text, 1), (text + b"#1", text, 1), (text + b"1", text, 1), (text + b"#1\n", text, 1)):
        with tempfile.TemporaryDirectory() as folder:
            path = os.path.join(folder, "original.vcd")
            with open(path, "wb") as file:
                file.write(data)
            track = run("irig_wire", [path, "irig"])[1]
            status, merged, said = run("irig_wire", ["--into", path, "--wire=irig", "-"], track)
        results.append((status, merged, " not written again" in said) == (ended, wanted, bool(ended)))
        results[-1] or print("FAILED irig_wire --into, bytes: %d %s" % (status, said))
    return results


def doubts():
    """A track that has little in common with the wire is written, and doubted; a repair that doubles what is high is not."""
    results = []
    with tempfile.TemporaryDirectory() as folder:
        path = os.path.join(folder, "original.vcd")
        with open(path, "w", encoding="ascii") as file:
            file.write(NANO + OWN)
        for wire, track, status in (
                ("irig", "#5 1! #7 0! #9 1! #12 0! #20", 0), ("irig", "#5 1! #15 0! #20", 0),
                ("clk", "#5 1! #7 0! #9 1! #12 0! #20", 1), ("irig", "#13 1! #15 0! #20", 1), ("irig", "#20", 1)):
            ended, _, said = run("irig_wire", ["--into", path, "--wire", wire, "-"], (TRACK % "" + track).encode())
            results.append(ended == status and ("little in common" in said) == bool(status))
            results[-1] or print("FAILED irig_wire --into, a doubt about %s, %s: %d %s" % (wire, track, ended, said))
    return results


def offsets():
    """What is subtracted is in the dump that is written, and on standard error; of a part of a part both are."""
    results = []
    for text, words, wanted in (
        (NANO + OWN, ["--from=4000"], "4000 ns"), (TENS + "#0 0! #1 1! #2 0! #3", ["--from=2"], "20 us"),
        (NANO + OWN, ["--to=9000"], "0 ns"), (NANO + OWN, [], None),
        ((NANO + OWN).replace("$var", CUT % "3 us" + "$var", 1), ["--from=70"], "3070 ns"),
        ((NANO + OWN).replace("$var", CUT % "3 ps" + "$var", 1), ["--from=70"], "70003 ps"),
        ((NANO + OWN).replace("$var", CUT % "3 us" + "$var", 1), [], "3000 ns"),
        ((NANO + OWN).replace("$var", CUT % "3 days" + "$var", 1), [], None),
        ((NANO + OWN).replace("1 ns", "25 ns"), ["--from=4"], "100 ns"),
        (NANO + "#%d 1! #%d 0!" % (LATE, LATE + 9000), [], "%d ns" % LATE),
    ):
        printed = run("irig_wire", ["-", "irig", *words], text.encode())[1].decode().split("\n")
        has = [line for line in printed if line.startswith("$comment")]
        results.append(has == ([CUT.strip() % wanted] if wanted else []))
        results[-1] or print("FAILED irig_wire, the offset of %s: %s" % (words, has))
    return results


def cases(top):
    """Each part by its name."""
    return [*(case("into: " + row[0], row_holds, *row[1:]) for row in ROWS), case("into: bytes", others_are_left, top),
            case("into: offsets", offsets), case("into: doubts", doubts), case("into: random dumps", random_rows)]
