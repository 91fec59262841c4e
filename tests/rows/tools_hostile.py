"""Rows of names that end a line, command a terminal or a shell, begin a formula or are no UTF-8: of files in all tools, and of wires."""
import csv
import os
import re
import subprocess
import tempfile

from built import DIFF, TIME
from cases import case
from irig_tools import damage_program, demodulate_program, escapes, join_program, mend_program, what_program, wire_program
from random_input import damages
from rows import in_process
from rows.tools_apply import END, recorded, same
from rows.tools_outputs import DAMAGED
from rows.tools_what import dump

PROGRAMS = what_program, wire_program, damage_program, mend_program, demodulate_program, join_program
in_process.MAINS.update({each.COMMAND.name: each.main for each in PROGRAMS})
FILES = "FILE", "ORIGINAL", "OTHER", "FOLDER"  # how the value of an option is called that is a file
PLAIN = "plain.vcd"
NAMES = (
    ("lines and words of a script and of a shell", "o\n1,$ delete\n touch pwned #$(touch pwned)`touch pwned`;touch pwned;'\"&|<i>\r.vcd"),
    ("letters for a terminal, and an option", "--out=pwned\x1b[31m\x7f\x9b1m\u202e\u2028\u061c.vcd\n"),
    ("a formula, and bytes that are no UTF-8", os.fsdecode(b"=1+1\xff\x9b.vcd")),
)
# of IEEE 1364: any letters but white space
WIRES = "$(touch${IFS}pwned)", "';touch${IFS}pwned;#", "--out=pwned", "-", "\x1b[31m\u202e", "=1+1", "a\\nb", "%s!*"
RAW = re.compile("[\x00-\x08\x0b-\x1f\x7f-\x9f\u061c\u200e\u200f\u2028-\u202e\u2066-\u2069\udc80-\udc9f]")
TIMED = "time,t\n061T12:34:56.000000,1\n"
TABLE = "time,%s,value\n" + "".join("%d,%d,%d\n" % (number, number % 3, number % 2) for number in range(9))


def started(name):
    """Each tool with a file that is not there, started as a program: its first lines are a script of sh."""
    return [(each.COMMAND.name, ["--", "none" + name, *[name] * (each is join_program)]) for each in PROGRAMS]


def commands(name):
    """Each tool with each of its options that names a file."""
    new, other, folder = "new/" + name, "other" + name, "in" + name
    yield from (("irig_what", [*words, "--", name]) for words in ([], ["--json"]))
    yield "irig_wire", ["--out=" + new, "--", name]
    yield "irig_wire", ["--", name, name]
    yield "irig_wire", ["--", "two" + name]
    yield "irig_wire", ["--into=" + name, "--", name]
    yield "irig_wire", ["--changes=%s.4" % new, "--out=%s.5" % new, "--", "two" + name, "irig"]
    yield "irig_damage", ["--page=%s.html" % new, "--picture=%s.svg" % new, "--", name]
    yield "irig_damage", ["--json", "--wire=" + name, "--", name]
    yield from (("irig_mend", [*words, "--", name]) for words in ([], ["--json"], ["--wire=" + name]))
    yield from (("irig_mend", [*words, "--with=" + other, "--", PLAIN]) for words in ([], ["--explain"], ["--json"]))
    yield "irig_mend", ["--apply=" + new, "--out=%s.ed" % new, "--with=" + other, "--", name]
    yield "irig_mend", ["--apply=" + new, "--page=%s.html" % new, "--", name]
    yield "irig_mend", ["--apply=" + new, "--into=" + name, "--", name]
    to = ["--apply-to=%s.d" % new, "--", folder]
    yield "irig_mend", ["--report=%s.csv" % new, "--page=%s.html" % new, *to]
    yield from (("irig_mend", [*words, *to]) for words in ([], ["--json"]))
    yield "irig_demodulate", ["--table", "--samples=" + new, "--column=value", "--out=%s.2" % new, "--", "table" + name]
    yield "irig_demodulate", ["--table", "--column=" + name, "--", "table" + name]
    yield "irig_join", ["--comma=,", "--header=1", "--out=%s.3" % new, "--", "timed" + name, "timed" + name]
    yield "irig_join", ["--", "timed" + name, "timed" + name]


def filled(name):
    """A folder with recordings of this name, and what is next to them."""
    os.makedirs("new")
    os.makedirs("in" + name)
    track = dump(*DAMAGED)
    files = {name: track, PLAIN: track, "in%s/%s" % (name, name): track, "in%s/junk%s" % (name, name): "$none",
             "in%s/none%s.txt" % (name, name): "none",
             "two" + name: track.replace("$enddefinitions", "$var wire 1 ? d $end $enddefinitions"),
             "other" + name: damages.dump(recorded(), END), "timed" + name: TIMED, "table" + name: TABLE % re.sub("[,;\"\r\n]", "", name)}
    for path, text in files.items():
        with open(path, "w", encoding="utf-8", errors="surrogateescape") as file:
            file.write(text)


def ran(top, tool, words):
    """The status, what is printed and what is said, as lines, of a tool that is started as a program."""
    done = subprocess.run([os.path.join(top, "tools", tool), *words], input=b"1000 1\n", capture_output=True, check=False)
    return as_lines(done.returncode, done.stdout, done.stderr)


def as_lines(status, *texts):
    return [status, *(text.decode("utf-8", "surrogateescape").split("\n") for text in texts)]


def ran_apart(tool, words):
    return as_lines(*in_process.run_apart(tool, words, b"1000 1\n"))


def written():
    """The files that were written, by their endings: a script without its comments, the cells of a table, and the letters of others."""
    for name in sorted(os.listdir("new")):
        path = os.path.join("new", name)
        if not os.path.isfile(path):
            continue
        with open(path, "r", encoding="utf-8", errors="surrogateescape", newline="") as file:
            text = file.read()
        if name.endswith(".ed"):
            yield "script", [line for line in text.split("\n") if not line.startswith("# ")]
        elif name.endswith(".csv"):
            rows = list(csv.reader(text.splitlines(True)))
            yield "cells", (len(rows), [cell for row in rows for cell in row if cell.startswith(("=", "+", "-", "@"))])
        yield "letters", RAW.findall(text.replace("\r\n", "\n"))


def continued(top, line):
    """What the proposed command leaves, run by two shells."""
    path = os.pathsep.join([os.path.join(top, "tools"), *map(os.path.dirname, (os.environ["IRIG_ED"], DIFF, TIME)), os.environ["PATH"]])
    for shell in ("sh", "bash"):
        done = subprocess.run([shell, "-c", os.fsencode(line)], env=dict(os.environ, PATH=path), stdin=subprocess.DEVNULL,
                              capture_output=True, check=False)
        yield done.returncode, os.path.exists("new.vcd") and os.path.getsize("new.vcd"), done.stderr.count(b"\n")
        for name in ("new.vcd", "one.vcd"):
            if os.path.exists(name):
                os.remove(name)


def each_command(top, name):
    """What comes of all commands: of each the status, how many lines there are, and letters that command a terminal; what was
    written; the files; and what comes of the proposed command."""
    with tempfile.TemporaryDirectory() as folder:
        before = os.getcwd()
        os.chdir(folder)
        try:
            filled(name)
            found = []
            runs = [(each, ran(top, *each)) for each in started(name)] + [(each, ran_apart(*each)) for each in commands(name)]
            for (tool, words), (status, printed, said) in runs:
                raw = RAW.findall("".join(printed + said))
                found.append(((tool, *words), (status, len(printed), len(said), raw)))
            found.append((("the files",), list(written())))
            line = ran_apart("irig_what", ["--", name])[1][-2]
            found.append((("the command", line), list(continued(top, line))))
            found.append((("what was made",), len(set(os.listdir(".")) - {PLAIN, name})))
        finally:
            os.chdir(before)
        return found


def named(top):
    """A file of each of these names is like one of a plain name: no line more, no letter that commands a terminal, and no file besides."""
    plain = each_command(top, PLAIN)
    for _, name in NAMES:
        for (words, got), (_, wanted) in zip(each_command(top, name), plain):
            yield same(ascii(words), got, wanted)


def walked(top):
    """No tool and no option that names a file is forgotten."""
    tools = {name for name in os.listdir(os.path.join(top, "tools")) if name != "irig_tools"}
    yield same("the tools that are started", {tool for tool, _ in started("name")}, tools)
    used = {(tool, word.partition("=")[0]) for tool, words in commands("name") for word in words if word.startswith("--")}
    wanted = {(each.COMMAND.name, option.name) for each in PROGRAMS for option in each.COMMAND.options if option.value in FILES}
    yield same("the tools", {tool for tool, _ in commands("name")}, tools)
    yield same("the options", wanted - used, set())


def wire(top, name):
    """A wire of this name puts nothing into a command."""
    with tempfile.TemporaryDirectory() as folder:
        before = os.getcwd()
        os.chdir(folder)
        try:
            with open("rec.vcd", "w", encoding="utf-8") as file:
                other = "$var wire 1 ? other $end $enddefinitions"
                file.write(re.sub(r"(\$var wire 1 \S+) \S+", lambda found: found[1] + " " + name, dump(*DAMAGED), 1).replace(
                    "$enddefinitions", other, 1))
            done = [ran_apart(tool, ["rec.vcd"]) for tool in ("irig_what", "irig_damage", "irig_mend", "irig_wire")]
            raw = RAW.findall("".join(line for _, *texts in done for text in texts for line in text))
            yield same("the statuses, and letters", ([status for status, _, _ in done], raw), ([0, 1, 1, 2], []))
            yield same("the command", [each[:1] for each in continued(top, done[0][1][-2])], [(0,), (0,)])
            yield same("the files", os.listdir("."), ["rec.vcd"])
        finally:
            os.chdir(before)


# a text; in a line, in a script and in a cell
TEXTS = (
    *((text, text, text, text) for text in ("rec.vcd", "\u00e4 1", "", "a = -1 \\")),
    *((text, shown, shown, shown) for text, shown in (
        ("a\nb\tc", r"a\nb\tc"), ("\x1b[1m\x7f", r"\x1b[1m\x7f"), ("\x85\x9b\u2028", r"\x85\x9b\u2028"),
        ("\u202e\u2066", r"\u202e\u2066"))),
    *((text, text, text, "'" + text) for text in ("=1", "+1", "-1", "@a")),
    (os.fsdecode(b"\xff\x9b"), os.fsdecode(b"\xff") + r"\x9b", r"\xff\x9b", os.fsdecode(b"\xff") + r"\x9b"),
)


def texts():
    for text, *wanted in TEXTS:
        yield same(ascii(text), [each(text) for each in (escapes.in_line, escapes.in_script, escapes.in_cell)], wanted)


def words():
    """A word of a command is one line, and to two shells the same word."""
    for word in (*(name for _, name in NAMES), "\n", "-\n\n", "%s%%\n", "\\\n\\n", "!x\n", os.fsdecode(b"\x81\x82\x88\xff"), "~\n*"):
        made = escapes.in_command(word)
        for shell in ("sh", "bash"):
            done = subprocess.run([shell, "-c", "printf '%s|' " + made], stdout=subprocess.PIPE, check=False)
            yield same("%s in %s" % (ascii(word), shell), (done.stdout, "\n" in made), (os.fsencode(word) + b"|", False))


def cases(top):
    """Each part by its name."""
    return [case("names: of a file", named, top),
            *(case("names: of a wire: " + ascii(name), wire, top, name) for name in WIRES),
            case("names: all tools and options", walked, top), case("names: texts", texts), case("names: words of a command", words)]
