"""Rows for the page of a repair that was made: what it says was changed is what irig_diff prints of the two files."""
import json
import os
import random
import re
import shutil
import subprocess
import tempfile
from unittest import mock

import mending
from built import DIFF, TIME
from cases import case
from irig_tools import changes, damage
from irig_tools.editor import Listing
from irig_tools.overview import sheet_of
from irig_tools.sheet import Changes
from random_input import damages
from rows.in_process import run
from rows.tools_apply import END, both, glitch, in_folder, nanoseconds, recorded, same, text_of
from rows.tools_outputs import contents, filled, shell
from rows.tools_sent import Draft, Recording
from recordings import make  # which tools_sent has put on the path
from rows.tools_with import Track

RANDOM = 20  # damaged recordings
SEEDS, KINDS_OF_PAGES = 12, ("many", "slip", "noise", "buffer", "twice", "set")  # of the generator of bench/shares
PAGE = ["--page", "page.html", "--apply", "new.vcd"]


def held(name="page.html"):
    """The data of a page."""
    with open(name, encoding="utf-8") as file:
        return json.loads(file.read().split('id="data">')[1].split("</script>")[0])


def printed(*words):
    """The lines of irig_diff."""
    return subprocess.run([DIFF, *words], stdout=subprocess.PIPE, text=True, check=False).stdout.splitlines()


def edges_of(name):
    """The times at which the one wire of a dump in microseconds changes, and its length."""
    found, now, level = [], 0, "0"
    for word in text_of(name).partition("$enddefinitions $end")[2].replace("$dumpvars", "").split():
        if word[0] == "#":
            now = int(word[1:])
        elif word[0] in "01" and word[0] != level:
            level = word[0]
            found.append(now)
    return found + [now] * (level == "1")


def stretches(before, after):
    """The lines that turn over what differs, and the level of each stretch with twice the edges in it, by sets."""
    apart = sorted({*before} ^ {*after})
    ends = list(zip(apart[::2], apart[1::2]))
    levels = [sum(edge <= start for edge in before) % 2 + 2 * sum(start < edge < end for edge in before) for start, end in ends]
    return ["invert %d %d" % each for each in ends], levels


def is_as_printed(name, page, top, options=()):
    """Whether the page has the lines of irig_diff on rec.vcd and new.vcd, and its command prints them."""
    kept = page["changes"]
    lines = printed("--frames", *options, "rec.vcd", "new.vcd")
    yield same(name + ", lines", kept["lines"], lines)
    plain = [line for line in kept["lines"] if line[0] != "#"]
    yield same(name + ", without frames", plain, printed("rec.vcd", "new.vcd"))
    yield same(name + ", by sets", (plain, kept["levels"]), stretches(edges_of("rec.vcd"), edges_of("new.vcd")))
    yield obeyed(name, page, top)


def obeyed(name, page, top, replaced=()):
    """Whether the command of a page prints the lines of its list."""
    command = page["changes"]["command"]
    for old, new in replaced:
        command = command.replace(old, new)
    places = "%s/tools:%s:%s" % (top, os.path.dirname(DIFF), os.environ["PATH"])
    done = subprocess.run(["bash", "-c", command], env=dict(os.environ, PATH=places), stdin=subprocess.DEVNULL,
                          stdout=subprocess.PIPE, stderr=subprocess.DEVNULL, text=True, check=False)
    return same(name + ": " + command, done.stdout.splitlines(), page["changes"]["lines"])


# what is done to the recording, options, and the lines that turn over, with their levels
WORKED = (
    ("nothing", lambda pulses: None, "", [], []),
    ("a glitch", glitch, "", ["invert 3010900 3010940"], [0]),
    ("a glitch, and a step that stays", both, "", ["invert 3010900 3010940"], [0]),
    ("a pulse is lost", lambda pulses: pulses.pop(450), "", ["invert 4500000 4502000"], [0]),
    ("a pulse too many", lambda pulses: pulses.insert(451, [4503000, 4503500]), "", ["invert 4503000 4503500"], [1]),
    ("a pulse is late by its width", lambda pulses: pulses.__setitem__(450, [4502000, 4504000]), "", ["invert 4500000 4504000"], [2]),
)


def worked(top, name, change, words, lines, levels):
    """A repair of one damage."""
    def holds():
        run("irig_mend", ["--expression=4", *words.split(), *PAGE, "rec.vcd"])
        page = held()
        plain = [line for line in page["changes"]["lines"] if line[0] != "#"]
        yield same(name, (plain, page["changes"]["levels"]), (lines, levels))
        yield from is_as_printed(name, page, top, ["--expression=4"])

    return in_folder(lambda: list(holds()), rec=damages.dump(recorded(change), END + 3300))


def damaged(top, seed):
    """A recording that is damaged at random."""
    found = mending.Case(random.Random("changes %d" % seed), 8 + seed)
    found.damage(damages.TWELVE, 1 + seed % 5)
    move = ["--move"] * found.move

    def holds():
        run("irig_mend", [*found.recording.options(), *move, *PAGE, "rec.vcd"])
        yield from is_as_printed("damaged %d" % seed, held(), top, found.recording.options())

    return in_folder(lambda: list(holds()), rec=damages.dump(found.pulses, found.damaged_length))


# words of irig_mend, what is written for the files that have no name, and the beginning of the command
COMMANDS = (
    ("--wire=code --expression=4 --apply new.vcd pair.vcd", (), "irig_diff --wire=code --frames"),
    ("--wire=code --expression=4 --apply new.vcd --into pair.vcd pair.vcd", (), "irig_diff --wire=code --wire-after=code --frames"),
    ("--wire=rx.irig --expression=4 --apply new.vcd two.vcd", (), "irig_diff --"),
    ("--wire=rx.irig --expression=4 --apply new.vcd --into two.vcd two.vcd", (), "irig_diff --"),
    ("--apply new.vcd rec.vcd", (), "irig_diff '--wire=!' --frames --format=B --expression="),
    ("--apply new.vcd --save rec.vcd", (), "irig_diff '--wire=!' --frames"),
    ("--apply new.vcd --dump 1 rec.vcd", (), "irig_diff --frames"),
    ("--apply new.vcd --timescale 1us us.vcd", (), "irig_diff --frames"),
    ("--apply new.vcd late.vcd", (), "irig_diff --frames"),
    ("--apply new.vcd --into late.vcd late.vcd", (), "irig_diff --frames"),
    ("--apply new.vcd --into late.vcd --wire rx.irig --expression=4 one.vcd", (), "irig_diff --frames"),
    ("--expression=4 --apply new.vcd - < us.vcd", (("BEFORE", "us.vcd"),), "irig_diff --frames --format=B --expression=4 BEFORE new.vcd"),
    ("--expression=4 --apply - us.vcd > to.vcd", (("AFTER", "to.vcd"),), "irig_diff --frames --format=B --expression=4 us.vcd AFTER"),
    ("--expression=4 --apply=-new.vcd ./-us.vcd", (), "irig_diff --frames --format=B --expression=4 ./-us.vcd ./-new.vcd"),
)


def paired(text):
    """The dump with another wire."""
    head, end, body = text.partition("$enddefinitions $end")
    return head + '$var wire 1 " data $end\n' + end + body.replace(" 1!", ' 1! 1"')


def commanded(top, words, replaced, begin):
    """The command that a page shows prints its list, whatever irig_mend was given."""
    with tempfile.TemporaryDirectory() as folder:
        filled(folder)
        begun = 1700000000 * 10**9
        pulses = recorded(glitch)
        texts = {"rec": nanoseconds(pulses), "two": nanoseconds(pulses, two=True), "us": damages.dump(pulses, END),
                 "-us": damages.dump(pulses, END), "pair": paired(damages.dump(pulses, END)),
                 "late": nanoseconds(pulses, begun).replace("#%d $dumpvars" % begun, "#0 $dumpvars", 1)}
        os.unlink(os.path.join(folder, "rec.vcd"))
        before = os.getcwd()
        os.chdir(folder)
        try:
            for name, text in texts.items():
                with open(name + ".vcd", "w", encoding="ascii") as file:
                    file.write(text)
            shell(top, folder, "irig_wire late.vcd rx.irig > one.vcd")
            status, _, said = shell(top, folder, "irig_mend --page page.html " + words)
            yield same(words, (status, os.path.exists("page.html")), (0, True)) or print(said)
            page = held()
            yield same(words + ", stretches", len(page["changes"]["levels"]), 1)
            yield same(words + ", command", page["changes"]["command"][:len(begin)], begin)
            yield obeyed(words, page, top, replaced)
        finally:
            os.chdir(before)


# a program instead of irig_diff, and what is said
TROUBLE = (
    ("", "irig_diff is not found next to irig_ed, and --page with --apply shows what it prints; in a clone ./build makes it"),
    ("echo 'irig_diff: no room' >&2; exit 2", "irig_diff: no room"),
    ("echo invert 1 2; exit 2", "irig_diff ended with status 2"),
    ("kill -9 $$", "irig_diff ended with status -9"),
    ("echo invert 1; exit 1", "bin/irig_diff is of another release: it answers 'invert 1'; let IRIG_ED name the editor of these tools"),
    ("echo what; exit 1", "bin/irig_diff is of another release: it answers 'what'; let IRIG_ED name the editor of these tools"),
)


def troubled(top):
    """Without what irig_diff prints nothing is written, and one line says why."""
    for code, text in TROUBLE:
        with tempfile.TemporaryDirectory() as folder:
            filled(folder)
            shutil.copytree(top + "/tools", folder + "/share/irig_ed/tools")
            os.unlink(folder + "/bin/irig_ed")
            shutil.copy(os.environ["IRIG_ED"], folder + "/bin/irig_ed")
            for name in ("irig_guard", "irig_time"):
                shutil.copy(top + "/crates/%s/out/%s" % (name, name), folder + "/bin")
            if code:
                with open(folder + "/bin/irig_diff", "w", encoding="ascii") as file:
                    file.write("#!/bin/sh\n%s\n" % code)
                os.chmod(folder + "/bin/irig_diff", 0o755)
            with open(folder + "/page.html", "w", encoding="ascii") as file:
                file.write("an older page")
            before = contents(folder)
            tool = "unset IRIG_ED; python3 share/irig_ed/tools/irig_mend --expression 2 %srec.vcd"
            status, out, said = shell(top, folder, tool % "--page page.html --apply new.vcd ")
            good = (status, out, said.count("\n"), contents(folder)) == (2, "", 1, before) and said.endswith(text + "\n")
            good or print("FAILED irig_diff that does '%s': %d %r %r" % (code, status, out, said))
            yield good
            yield same("without a page: " + code, shell(top, folder, tool % "--apply new.vcd ")[0] in (0, 1), True)


def unguarded(top):
    """Without irig_guard nothing is written, also if frames are moved, and without irig_time if they are not; one line says why."""
    with tempfile.TemporaryDirectory() as folder:
        filled(folder)
        shutil.copytree(top + "/tools", folder + "/share/irig_ed/tools")
        os.unlink(folder + "/bin/irig_ed")
        shutil.copy(os.environ["IRIG_ED"], folder + "/bin/irig_ed")
        before = contents(folder)
        tool = "unset IRIG_ED; python3 share/irig_ed/tools/irig_mend --expression 2 --apply new.vcd %srec.vcd"
        text = "irig_guard is not found next to irig_ed, and --apply tries each repair in it; in a clone ./build makes it\n"
        for words in ("", "--move "):
            status, out, said = shell(top, folder, tool % words)
            yield same("no irig_guard " + words, (status, out, said.count("\n"), said.endswith(text)), (2, "", 1, True))
            yield same("no irig_guard, the files", contents(folder), before)
        shutil.copy(top + "/crates/irig_guard/out/irig_guard", folder + "/bin")
        before = contents(folder)
        status, out, said = shell(top, folder, tool % "")
        text = "irig_time is not found next to irig_ed, and --apply looks by it whether each sample keeps its time"
        yield same("no irig_time", (status, out, said.count("\n"), text in said), (2, "", 1, True))
        yield same("no irig_time, the files", contents(folder), before)


def unwritten(top):
    """If the recording cannot be written there is no page, and if the page cannot, no recording."""
    with tempfile.TemporaryDirectory() as folder:
        filled(folder)
        before = contents(folder)
        for words in ("--page none/page.html --apply new.vcd", "--page page.html --apply none/new.vcd"):
            ended = shell(top, folder, "irig_mend %s rec.vcd" % words)
            good = ended[0] == 2 and ended[2].endswith("No such file or directory\n") and contents(folder) == before
            good or print("FAILED irig_mend %s: %s" % (words, ended))
            yield good


def proposed():
    """The page of a script that is not run says nothing of changes."""
    def holds():
        run("irig_mend", ["--expression=4", "--page", "page.html", "rec.vcd"])
        with open("page.html", encoding="utf-8") as file:
            return same("a proposal", "changes" in held() or "What was changed</h2>" in file.read(), False)

    return in_folder(holds, rec=damages.dump(recorded(glitch), END))


def dropped(top):
    """What the guard refuses is not shown as repaired."""
    def holds():
        os.mkdir("bin")
        os.symlink(os.path.abspath(os.environ["IRIG_ED"]), "bin/irig_ed")
        os.symlink(DIFF, "bin/irig_diff")
        with open("bin/irig_guard", "w", encoding="ascii") as file:
            file.write('#!/bin/sh\nwhile [ "$1" != --out ]; do shift; done; cp "$3" "$2"; sed "/^#/!s/^/# /"; exit 1\n')
        os.chmod("bin/irig_guard", 0o755)
        shell(top, ".", "irig_mend --expression 4 --page page.html --apply new.vcd rec.vcd", IRIG_ED=os.path.abspath("bin/irig_ed"))
        page = held()
        yield same("nothing was changed", page["changes"]["lines"], [])
        yield same("no place is repaired", ["after" in place for place in page["places"]], [False])

    return in_folder(lambda: list(holds()), rec=damages.dump(recorded(glitch), END))


def gone():
    """A place at which nothing was changed is left on the page of a repair only if something is damaged there now."""
    seen = damage.look(Track(recorded(glitch)), lambda text: None)
    for name, there, wanted in (("still damaged", seen.damages, [True]), ("no longer damaged", [], [False])):
        sheet = sheet_of("rec.vcd", "irig", seen, (), seen.listing, Changes(), there)
        yield same("a place without a repair, " + name, [place.is_left for place in sheet.places], wanted)


SUMS = re.compile(r"(\d+) places? found, (\d+) repaired.*?, (\d+) undecided, (\d+) left, (\d+) steps? that stays?")


def spoilt(seed):
    """Fifteen minutes with damage in more than 150 places, many of them next to each other, and four slips."""
    draft = Draft("spoilt", seed, "B")
    draft.frames, draft.length = 900, 900 * draft.format.frame
    draft.sent = draft.first + 1.1 * draft.length
    draft.send()
    for many in (150, *[10] * 8):
        draft.some_damage(many, many, None if many > 10 else draft.any_place())
    for _ in range(4):
        draft.event("lose", draft.any_place(), draft.random.choice((7300, 41000, 370000)))
    draft.play()
    return Recording("spoilt", seed, draft)


def summed():
    """The first line of a page is the one that is printed. Its list has as many repaired places and as many that are left as that says,
    and irig_damage counts as many places as are found."""
    def holds():
        for seed in range(SEEDS):
            made = make(KINDS_OF_PAGES[seed % len(KINDS_OF_PAGES)], seed) if seed < SEEDS - 2 else spoilt(seed)
            with open("made.vcd", "w", encoding="ascii") as file:
                file.write(made.text)
            words = ["--format=" + made.format, "--expression=%d" % made.expression]
            printed = run("irig_mend", [*words, *PAGE, "made.vcd"])[1].decode().splitlines()[0]
            found, repaired, *left = map(int, SUMS.search(printed).groups())
            page = held()
            places = page["places"]
            rows = len(places), sum("left" in place for place in places), page["left"]
            yield same("%s %d: %s" % (made.kind, seed, printed), rows, (repaired + sum(left), sum(left), sum(left)))
            with open("page.html", encoding="utf-8") as file:
                yield same("%s %d, the first line" % (made.kind, seed), "<h1>%s</h1>" % printed in file.read(), True)
            counted = run("irig_damage", ["--count", *words, "made.vcd"])[1]
            yield same("%s %d, irig_damage" % (made.kind, seed), int(counted), found)

    return in_folder(lambda: list(holds()), rec="")


def counted():
    """Of more stretches than are listed it is known where they are, and what they are now; of very many, those near each other
    are one."""
    listing = Listing(length=20_000_000, rises=[0, 1000], falls=[500, 1500])
    lines = [b"# length 1 2\n"]
    for start in range(0, 10 * changes.LISTED, 10):
        lines += [b"# frame 1 at 0: a, then b\n", b"invert %d %d\n" % (start, start + 3)]
    lines += [b"invert 1000000 1000001\n", b"invert 1002001 1002002\n", b"invert 1020003 1020004\n"]
    found = changes.read_changes(lines, listing, "irig_diff")
    yield same("what is listed", (len(found.lines), len(found.levels)), (2 * changes.LISTED + 1, changes.LISTED))
    yield same("what is not", found.rest, [(1000000, 1000001, 1, 0), (1002001, 1002002, 1, 0), (1020003, 1020004, 1, 0)])
    with mock.patch.object(changes, "DRAWN", changes.LISTED):
        many = changes.read_changes(lines, Listing(length=20_000_000, rises=[0, 1001000], falls=[500, 1003000]), "irig_diff")
    yield same("of very many", many.rest, [(1000000, 1002002, 1, 1), (1020003, 1020004, 1, 0)])
    yield same("all", (found.stretches, found.time), (changes.LISTED + 3, 3 * changes.LISTED + 3))
    for start, end, level in ((0, 3, 1), (0, 500, 1), (0, 501, 3), (500, 1000, 0), (499, 1500, 5), (500, 1001, 2), (1500, 1600, 0)):
        yield same("the level from %d to %d" % (start, end), changes.level_in(listing, start, end), level)


TIMED = "<p>irig_time gives ([0-9.]+) s of ([0-9.]+) s their time of day, ([0-9.]+) %</p>"
APART = 700  # microseconds between two samples


def timed():
    """The share of the recording that has its time, and the stretches without one, are those of samples at other moments. The list has
    what was repaired, also in a browser without JavaScript."""
    def holds(change):
        run("irig_mend", ["--expression=4", *PAGE, "rec.vcd"])
        with open("page.html", encoding="utf-8") as file:
            page = file.read()
        share, length = re.search(TIMED, page)[3], re.search(TIMED, page)[2]
        named = re.search("<p>without a time: (.*?)</p>", page)[1]
        stretches = [(float(begin), float(end), why) for begin, end, why in re.findall(r"([0-9.]+) s to ([0-9.]+) s \((\w+)\)", named)]
        moments = range(APART // 2, round(1e6 * float(length)), APART)
        lines = subprocess.run([TIME, "--why", "--expression=4", "new.vcd"], input="".join("%d\n" % each for each in moments),
                               stdout=subprocess.PIPE, text=True, check=False).stdout.splitlines()
        found = [line.partition("\t")[0] for line in lines]
        wrong = [at for at, word in zip(moments, found)
                 if [why for begin, end, why in stretches if begin <= at / 1e6 < end] != [word] * (not word[0].isdigit())]
        yield same("%s: where there is no time" % change.__name__, wrong, [])
        alike = abs(float(share) - 100 * sum(word[0].isdigit() for word in found) / len(found)) < 0.05
        yield same("%s: the share" % change.__name__, alike, True)
        listed = re.findall("<li>(.*?)</li>", page.partition("<noscript>")[2].partition("</noscript>")[0])
        yield same("%s: the list" % change.__name__, [text.rpartition(": ")[2] for text in listed],
                   ["repaired", "left to you"][:1 + (change is both)])

    for change in (glitch, both):
        yield from in_folder(lambda change=change: list(holds(change)), rec=damages.dump(recorded(change), END + 3300))


def cases(top):
    """Each part by its name."""
    found = [case("mend: changes: " + row[0], worked, top, *row) for row in WORKED]
    found += [case("mend: changes: damaged %d" % seed, damaged, top, seed) for seed in range(RANDOM)]
    found += [case("mend: changes: irig_mend " + row[0], commanded, top, *row) for row in COMMANDS]
    found += [case("mend: changes: " + part.__name__, part, top) for part in (troubled, unguarded, unwritten, dropped)]
    return found + [case("mend: changes: " + part.__name__, part) for part in (proposed, gone, summed, counted, timed)]
