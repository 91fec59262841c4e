"""The tools and the editor that they run: which one, what it complains of, and how files are named."""
import json
import os
import shutil
import tempfile

from built import GUARD
from cases import case
from rows import tools
from rows.tools_outputs import contents, filled, shell
from rows.tools_what import B, dump


def other_release(top):
    """An editor that answers in another way is named, and is no crash."""
    for answer in ("length 5 steps 6 format B 2", "length five pulses 1 frames 0 format B 2 cursor 1", "length 5"):
        with tempfile.TemporaryDirectory() as folder:
            filled(folder)
            path = os.path.join(folder, "other")
            with open(path, "w", encoding="ascii") as file:
                file.write("#!/bin/sh\necho '%s'\n" % answer)
            os.chmod(path, 0o755)
            for tool in ("irig_damage", "irig_mend", "irig_what"):
                status, printed, said = shell(top, folder, tool + " rec.vcd", IRIG_ED=path)
                good = (status, printed, said.count("\n")) == (2, "", 1)
                good = good and "%s is of another release: it answers '%s'" % (path, answer) in said
                good or print("FAILED %s and an editor that says %s: %d %s" % (tool, answer, status, said))
                yield good


def killed(top):
    """An editor that is killed while it answers leads to no result."""
    with tempfile.TemporaryDirectory() as folder:
        filled(folder)
        path = os.path.join(folder, "killed")
        with open(path, "w", encoding="ascii") as file:
            file.write('#!/bin/sh\nscript=$(cat)\ncase $script in *"$KILLED"*)\n'
                       'printf "%s\\n" "$script" | bin/irig_ed "$@" | sed -n 1,20p; kill -9 $$;;\nesac\n'
                       'printf "%s\\n" "$script" | bin/irig_ed "$@"\n')
        os.chmod(path, 0o755)
        for command, word in (("irig_damage --format B rec.vcd", "list"), ("irig_mend --format B rec.vcd", "list"),
                              ("irig_mend --format B --apply new rec.vcd", "list"), ("irig_what rec.vcd", "list"),
                              ("irig_what rec.vcd", "frames")):
            before = contents(folder)
            ended = shell(top, folder, command, IRIG_ED=path, KILLED=word)
            good = ended == (2, "", "%s: irig_ed ended before its answer did\n" % command.split()[0]) and contents(folder) == before
            good or print("FAILED %s and an editor that is killed: %s" % (command, ended))
            yield good


def broken_off(top):
    """An editor that breaks off, or a guard that is killed once it has written its file, leads to no result."""
    with tempfile.TemporaryDirectory() as folder:
        filled(folder)
        programs = {"broken": 'script=$(cat)\nprintf "%s\\n" "$script" | bin/irig_ed "$@" | sed -n 1,3p\n'
                              'case $script in *frames*) exit 4;; esac\nprintf "%s\\n" "$script" | bin/irig_ed "$@" | sed 1,3d\n',
                    "irig_guard": '"%s" "$@" | sed -n 1p\n[ -z "$KILLED" ] || kill -9 $$\n' % GUARD}
        for name, text in programs.items():
            with open(os.path.join(folder, name), "w", encoding="ascii") as file:
                file.write("#!/bin/sh\n" + text)
            os.chmod(os.path.join(folder, name), 0o755)
        apply, cut = "irig_mend --format B --apply new rec.vcd", "irig_ed ended before its answer did"
        for command, killed_one, text in (("irig_what rec.vcd", "", cut), (apply, "", cut), (apply, "1", "ended with status -9")):
            before = contents(folder)
            status, printed, said = shell(top, folder, command, IRIG_ED=os.path.join(folder, "broken"), KILLED=killed_one)
            good = (status, printed, said.count("\n"), text in said) == (2, "", 1, True) and contents(folder) == before
            good or print("FAILED %s and a program that breaks off: %d %s" % (command, status, said))
            yield good


def which(top):
    """The editor that was installed with the tools comes before the one on the path."""
    with tempfile.TemporaryDirectory() as folder:
        filled(folder)
        shutil.copytree(top + "/tools", folder + "/prefix/share/irig_ed/tools")
        os.mkdir(folder + "/prefix/bin")
        for name, text in (("prefix/bin/irig_ed", "own"), ("bin/irig_ed", "path")):
            path = os.path.join(folder, name)
            if os.path.islink(path):
                os.unlink(path)
            with open(path, "w", encoding="ascii") as file:
                file.write("#!/bin/sh\necho %s >&2\n" % text)
            os.chmod(path, 0o755)
        tool = "unset IRIG_ED; python3 prefix/share/irig_ed/tools/irig_damage rec.vcd"
        own = shell(top, folder, tool)[2]
        os.unlink(folder + "/prefix/bin/irig_ed")
        other = shell(top, folder, tool)[2]
        good = (own, other) == ("irig_damage: own\n", "irig_damage: path\n")
        good or print("FAILED which editor runs: %r %r" % (own, other))
        yield good


def started(top):
    """What the editor of a clone says while it is proved again is seen; without it the tool ends."""
    with tempfile.TemporaryDirectory() as folder:
        filled(folder)
        shutil.copytree(top + "/tools", folder + "/clone/tools")
        os.makedirs(folder + "/clone/crates/irig_ed/out")
        os.unlink(folder + "/bin/irig_ed")
        shutil.copy(os.environ["IRIG_ED"], folder + "/clone/crates/irig_ed/out/irig_ed")
        proved = "it is proved and built now\n"
        line = "unset IRIG_ED; python3 clone/tools/irig_damage --format B rec.vcd"
        for text, wanted in (('exec "${0%/*}/crates/irig_ed/out/irig_ed" "$@"', (1, proved)),
                             ("exit 125", (2, proved + "irig_damage: irig_ed is not built\n"))):
            with open(folder + "/clone/irig_ed", "w", encoding="ascii") as file:
                file.write("#!/bin/sh\n[ \"$1\" != --help ] || echo it is proved and built now >&2\n%s\n" % text)
            os.chmod(folder + "/clone/irig_ed", 0o755)
            status, _, said = shell(top, folder, line)
            good = (status, said) == wanted
            good or print("FAILED the editor of a clone: %s %r" % (status, said))
            yield good


def complaints(top):
    """What the editor complains of is one line, with the name that the user knows."""
    with tempfile.TemporaryDirectory() as folder:
        filled(folder)
        with open(os.path.join(folder, "junk"), "w", encoding="ascii") as file:
            file.write("hello world")
        text = "%s: is no dump: no declaration is found; samples and tables are for irig_demodulate"
        for tool in ("irig_damage", "irig_mend"):
            for words, name in (("junk", "junk"), ("- < junk", "standard input"), ("/dev/stdin < junk", "/dev/stdin"),
                                ("/dev/fd/5 5< junk", "/dev/fd/5")):
                ended = shell(top, folder, "%s %s" % (tool, words))
                good = ended == (2, "", "%s: %s\n" % (tool, text % name))
                good or print("FAILED %s %s: %s" % (tool, words, ended))
                yield good
        for words in ("- < junk", "/dev/fd/5 5< junk"):
            status, printed, said = shell(top, folder, "irig_what " + words)
            name = "standard input" if words[0] == "-" else "/dev/fd/5"
            good = (status, printed) == (2, "") and said.startswith("irig_what: %s: is no dump" % name)
            good or print("FAILED irig_what %s: %s" % (words, said))
            yield good
        said = shell(top, folder, "irig_damage --timescale %ds --format B rec.vcd" % 10**20)[2]
        good = said.splitlines()[-1].startswith("irig_damage: irig_ed: rec.vcd: V11 TimeTooLarge at ")
        good or print("FAILED irig_damage of a dump that is too long: %s" % said)
        yield good


def names(top):
    """A file name with a byte that is no letter is printed as sh makes it. The editor takes no such name, so a dump is made first."""
    with tempfile.TemporaryDirectory() as folder:
        filled(folder)
        path = os.path.join(os.fsencode(folder), b"n\xff.vcd")
        with open(path, "wb") as file:
            file.write(dump(*B).encode())
        status, printed, said = shell(top, folder, 'python3 "$(command -v irig_what)" n\udcff.vcd', PYTHONIOENCODING="utf-8:strict")
        last = printed.splitlines()[-1:]
        good = (status, said) == (0, "") and last == [
            "irig_wire \"$(printf 'n\\377.vcd')\" > one.vcd && irig_ed --format B --expression 2 --out new.vcd one.vcd"]
        good or print("FAILED a name that is no UTF-8: %d %s %s" % (status, last, said))
        yield good


def steady(top):
    """With --steady the page has the place that is repaired."""
    lone = tools.recording()
    lone[364][1] = 3645000  # a control function
    told = []
    with tempfile.TemporaryDirectory() as folder:
        path = tools.written(folder, lone, 8000000)
        for words in ("", "--steady"):
            shell(top, folder, "irig_mend --expression 4 %s --page page %s" % (words, path))
            with open(os.path.join(folder, "page"), encoding="utf-8") as file:
                places = json.loads(file.read().split('id="data">')[1].split("</script>")[0])["places"]
            told.append("5000 wide, a one" in [place["title"] for place in places])
    told == [False, True] or print("FAILED --steady --page: %s" % told)
    yield told == [False, True]


def silent(top):
    """Many wires without a change take little memory."""
    with tempfile.TemporaryDirectory() as folder:
        with open(os.path.join(folder, "silent.vcd"), "w", encoding="ascii") as file:
            file.writelines("$var wire 1 c%d w%d $end\n" % (number, number) for number in range(40000))
            file.write("$timescale 1 us $end $enddefinitions $end #0\n")
            file.writelines("0c%d\n" % number for number in range(40000))
            file.write("#1000000\n")
        ended = shell(top, folder, "ulimit -v 110000; irig_what silent.vcd")
        good = ended == (1, "no wire of 40000 carries time code of format A, B, E or G; the unit of time is 1us "
                         "(--timescale UNIT takes another)\n", "")
        good or print("FAILED 40,000 silent wires: %s" % (ended,))
        yield good


def cases(top):
    """Each part by its name."""
    return [case("editor: " + part.__name__, part, top)
            for part in (other_release, killed, broken_off, which, started, complaints, names, steady, silent)]
