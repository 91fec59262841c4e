"""Rows of the names of wires: what a tool prints as a wire is taken by all commands."""
import json
import os
import re
import subprocess
import tempfile

from built import DIFF, GUARD, TIME
from cases import case
from irig_tools import damage_program, mend_program
from rows import in_process
from rows.in_process import run
from rows.tools_what import dump, track

in_process.MAINS.update(irig_damage=damage_program.main, irig_mend=mend_program.main)
CODE = "--format=B", "--expression=7"
TEXT = re.compile(r"wire (?:is )?(\S+) \(")
RX = "$scope module rx $end $var wire 1 ! irig $end $upscope $end"
# name, declarations, names that a user can give
ROWS = (
    ("a scope", "$scope module irig $end $var wire 1 ! code $end $upscope $end", ("irig.code", "code", "!")),
    ("other wires", '$scope module top $end $var wire 1 ! code $end $var wire 1 " clk $end $upscope $end', ("top.code", "code", "!")),
    ("two of one reference", "$scope module top $end %s $var wire 1 %% irig $end $upscope $end" % RX, ("top.rx.irig", "rx.irig", "!")),
    ("one wire in two scopes", "$scope module top $end %s $var wire 1 ! irig $end $var wire 1 c clk $end $upscope $end" % RX,
     ("irig", "!")),
    ("a reference with a dot", "$scope module top $end $var wire 1 ! rx.code $end $var wire 1 c clk $end $upscope $end",
     ("rx.code", "code", "!")),
    ("a bit of a bus", "$scope module top $end $var wire 1 ! bus [2] $end $var wire 1 \" bus [3] $end $upscope $end", ("bus[2]", "!")),
    ("a code that is a reference", "$scope module top $end $var wire 1 ! code $end $var wire 1 c ! $end $upscope $end",
     ("code", "top.code")),
    ("the end of another path", '$var wire 1 ! a $end $scope module m $end $var wire 1 " a $end $upscope $end', ("a", "!")),
)


def printed_names(path, given):
    """What the tools print as the wire: of a dump whose wire they find, and of one that the user names in a way."""
    shown = run("irig_what", [path])[1].decode()
    objects = run("irig_what", ["--json", path])[1].decode().splitlines()
    found = TEXT.findall(shown) + [json.loads(each)["wire"] for each in objects]
    for name in ((), *(["--wire=" + each] for each in given)):
        said = run("irig_damage", [*name, path])[2]
        done = json.loads(run("irig_mend", [*name, *CODE, "--json", "--apply", path + ".new", path])[1])
        into = run("irig_mend", [*name, *CODE, "--apply", path + ".new", "--into", path, path])[2]
        wire = run("irig_wire", [path, *(each.partition("=")[2] for each in name), "--out", path + ".one"])
        found += [*TEXT.findall(said), done["wire"], *TEXT.findall(into), *TEXT.findall(wire[2])]
    return found


def commands(name, path):
    """Each command that takes a wire, with this one: all is sound."""
    wire, words = "--wire=" + name, [*CODE, path]
    for program, arguments in ((os.environ["IRIG_ED"], ["--out", "/dev/null", *words]), (TIME, ["--quiet", *words]), (GUARD, words),
                               (DIFF, [path, path + ".one"])):
        done = subprocess.run([program, wire, *arguments], stdin=subprocess.DEVNULL, capture_output=True, check=False)
        yield os.path.basename(program), done.returncode, done.stderr.decode()
    for tool, quiet in (("irig_damage", []), ("irig_mend", [])):
        status, _, said = run(tool, [wire, *quiet, *words])
        yield tool, status, said
    status, _, said = run("irig_wire", [path, name, "--out", path + ".again"])
    yield "irig_wire", status, "" if status == 0 else said


def all_take(name, declared, given):
    """Whether each command takes each name that is printed."""
    text = dump(*track("B", 4, expression=7), declared=declared)
    with tempfile.TemporaryDirectory() as folder:
        path = os.path.join(folder, "some.vcd")
        with open(path, "w", encoding="ascii") as file:
            file.write(text)
        found = printed_names(path, given)
        bad = [(each, *ended) for each in sorted(set(found)) for ended in commands(each, path) if ended[1:] != (0, "")]
    if bad or len(found) < 4 * (1 + len(given)):
        print("FAILED names, %s: %s of %s" % (name, bad, found))
        return False
    return True


def several():
    """The wires that a complaint names can be given to each command as they are."""
    declared = '$scope module a $end $var wire 1 ! irig $end $upscope $end $scope module b $end $var wire 1 " irig $end $upscope $end'
    edges, length = track("B", 4, expression=7)
    text = dump(edges, length, declared=declared).replace("0!", '0! 0"').replace("1!", '1! 1"')
    with tempfile.TemporaryDirectory() as folder:
        path = os.path.join(folder, "some.vcd")
        with open(path, "w", encoding="ascii") as file:
            file.write(text)
        said = run("irig_mend", [path])[2]
        named = re.findall(r"[:,] (\S+) \(path [ab]\.irig\)", said)
        listed = re.findall(r"\n  (\S+) \(", run("irig_wire", [path, "irig"])[2])
        run("irig_wire", [path, "!", "--out", path + ".one"])
        bad = [(each, *ended) for each in named + listed for ended in commands(each, path) if ended[1:] != (0, "")]
    good = not bad and len(named) == len(listed) == 2
    good or print("FAILED names of several wires: %s, %s, %s" % (named, listed, bad))
    return good


def cases(top):
    """Each row by its name."""
    return [*(case("names: " + row[0], all_take, *row) for row in ROWS), case("names: several wires", several)]
