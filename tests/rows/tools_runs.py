"""Parts of a dump that are read at once: what irig_wire writes and says is the same if each is read word by word."""
import os
import random
import tempfile
from unittest import mock

from cases import case
from irig_tools import dump_run, dump_source, search
from reference import timecode
from rows.in_process import run

CODES = ("!", '"', "#", "$x", "1!", "0", "ab", "#1")
STRANGE = ("$comment hello #5 1! $end", "strange", "#", "#12a", "b1", "r1.5 zz", "$dumpoff", "$end", "x!", "bx v",
           "$date x $end $timescale 1 us $end $var wire 1 ! q $end $enddefinitions $end #0")
RECORDINGS = 500
SEARCHES = 60


def head(chance, codes):
    unit = chance.choice(("1 us", "1 us", "100 ns", "10 ns", "10 ns", "1 ns", "10 us", "1 ps"))
    wires = ("$var wire 1 %s w%d $end\n" % (code, number) for number, code in enumerate(codes))
    return "$timescale %s $end\n$var wire 4 v bus [3:0] $end\n%s$enddefinitions $end\n" % (unit, "".join(wires))


def body(chance, codes):
    """Words of changes; those of the first wire are most often edges. Now and then all times have zeros before them."""
    time, levels = chance.choice((0, 5, 98, 1000, 1 << 50)), dict.fromkeys(codes, 0)
    form = "#%017d" if chance.getrandbits(2) == 0 else "#%d"
    yield from ["#0", *(chance.choice("01x") + code for code in codes)][:chance.choice((0, 9))]
    for _ in range(chance.randrange(60)):
        time += chance.choice((0, 1, 1, 2, 3, 7, 10, 100, 1000))
        yield form % time
        for code in codes:
            if chance.random() < (0.6 if code == codes[0] else 0.3):
                levels[code] ^= 1
                yield (chance.choice("01xzH") if chance.random() < 0.03 else str(levels[code])) + code
        if chance.random() < 0.02:
            yield chance.choice(STRANGE)


def is_apart(before, after):
    """Whether both lines are times, with room for a pulse between them."""
    return before[:1] == after[:1] == "#" and (before + after)[1:].replace("#", "", 1).isdigit() and int(after[1:]) > int(before[1:]) + 2


def changed(chance, track):
    """A track with another level in some places, without a change, or with a pulse more."""
    lines = track.decode().split("\n")
    for _ in range(chance.randrange(4)):
        at = chance.randrange(len(lines))
        if lines[at][:1] in ("0", "1"):
            lines[at] = chance.choice(("", "%d%s" % (lines[at][0] == "0", lines[at][1:])))
        elif is_apart(lines[at - 2], lines[at]):
            time, level = int(lines[at][1:]), lines[at - 1][:1] == "0"
            lines[at] = "#%d\n%d!\n#%d\n%d!\n%s" % (time - 2, level, time - 1, not level, lines[at])
    return "\n".join(lines).encode()


def both(words, data, block):
    """What is written and said with parts read at once, and without; and whether a part was."""
    seen, read = [], dump_run.RunReader.read

    def noted(self, part, now):
        found = read(self, part, now)
        seen.append(found is not None)
        return found

    with mock.patch.object(dump_source, "DUMP_BLOCK", block):
        with mock.patch.object(dump_run.RunReader, "read", noted):
            fast = run("irig_wire", words, data)
        with mock.patch.object(dump_run.RunReader, "read", lambda self, part, now: None):
            slow = run("irig_wire", words, data)
    return fast, slow, any(seen)


def same_as_by_words():
    """A wire that is taken out of a dump, and a track that is put back into it."""
    results, at_once = [], 0
    with tempfile.TemporaryDirectory() as folder:
        path = os.path.join(folder, "dump.vcd")
        for seed in range(RECORDINGS):
            chance = random.Random("runs %d" % seed)
            codes = chance.sample(CODES, chance.choice((1, 1, 2, 3)))
            text = head(chance, codes) + chance.choice(("\n", "\n", "\n", " ", "\r\n")).join(body(chance, codes))
            with open(path, "wb") as file:
                file.write(text.encode())
            begin, block = chance.randrange(900), chance.choice((7, 30, 64, 200, 1 << 17))
            cut = chance.choice(([], [], ["--from=%d" % begin], ["--from=%d" % begin, "--to=%d" % (2 * begin)]))
            fast, slow, was = both([path, "w0", *cut], b"", block)
            back, slow_back, was_back = both(["--into", path, "--wire=w0", "-"], changed(chance, slow[1]), block)
            results.append(fast == slow and back == slow_back)
            at_once += was + was_back
            results[-1] or print("FAILED irig_wire, parts at once: seed %d\n%s\n%s\n%s\n%s" % (seed, fast, slow, back, slow_back))
    results.append(at_once > RECORDINGS // 2)
    results[-1] or print("FAILED irig_wire: only %d recordings have parts that are read at once" % at_once)
    return results


def one_wire(chance):
    """A dump of one wire: time code, noise, or noise before time code; now and then a level that stays, an unknown one, or a word."""
    step, time, text = timecode.INTERVAL["A"], chance.randrange(3), []
    noise = chance.choice((0, 0, 40, 400)) if chance.random() < 0.8 else 2000
    gaps = [chance.randrange(1, 900) for _ in range(2 * noise)]
    for at in range(0 if noise == 2000 else 250):
        width = step * (8 if at % 10 == 9 else chance.choice((2, 5))) // 10
        gaps += [width, step - width]
    for number, gap in enumerate(gaps):
        text += ["#%d" % time, (chance.choice("01x") if chance.random() < 0.01 else str(1 - number % 2)) + "!"]
        if chance.random() < 0.004:
            text.append(chance.choice(STRANGE))
        time += gap
    return "$timescale 1 us $end $var wire 1 ! w $end $enddefinitions $end\n#0 %d!\n%s\n#%d\n" % (
        chance.randrange(2), chance.choice(("\n", " ")).join(text).replace(" #", "\n#"), time)


def looked_for(path, by_words):
    """What a search finds, and whether parts were read at once."""
    seen, read = [], dump_run.RunReader.read

    def noted(self, part, now):
        found = None if by_words else read(self, part, now)
        seen.append(found is not None)
        return found

    with mock.patch.object(dump_run.RunReader, "read", noted), mock.patch.multiple(search, WINDOW=32, HOPELESS=4):
        found = search.search(path, "", 1)
    probes = [(probe.votes, probe.windows, probe.kept, probe.room.left) for probe in found.probes]
    return (found.dumps, found.is_cut, found.hopeless, found.body.now, found.body.begun, found.body.counts, probes), any(seen)


def same_search():
    """What irig_what looks for is found in parts that are read at once, too."""
    results, at_once = [], 0
    with tempfile.TemporaryDirectory() as folder:
        path = os.path.join(folder, "dump.vcd")
        for seed in range(SEARCHES):
            chance = random.Random("search %d" % seed)
            with open(path, "w", encoding="ascii") as file:
                file.write(one_wire(chance))
            with mock.patch.object(dump_source, "DUMP_BLOCK", chance.choice((200, 900, 5000, 1 << 17))):
                (fast, was), (slow, _) = looked_for(path, False), looked_for(path, True)
            results.append(fast == slow)
            at_once += was
            results[-1] or print("FAILED search, parts at once: seed %d\n%s\n%s" % (seed, fast, slow))
    results.append(at_once > SEARCHES // 2)
    results[-1] or print("FAILED search: only %d dumps have parts that are read at once" % at_once)
    return results


def cases(top):
    return [case("runs: same as by words", same_as_by_words), case("runs: same search", same_search)]
