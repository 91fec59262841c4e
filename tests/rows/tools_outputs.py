"""No option and no proposed command of a tool writes over the file that is read, and a file is written as a whole."""
import os
import shutil
import stat
import subprocess
import tempfile
from unittest import mock

from cases import case
from irig_tools import output
from rows.tools_carrier import wav
from rows.tools_what import B, SCOPES, bus, dump

DAMAGED = (B[0][:60] + B[0][62:], B[1])  # one pulse is missing


def shell(top, folder, command, **more):
    """Status, standard output and standard error of a command line in a folder, with the tools on the path."""
    places = os.path.join(top, "tools") + ":" + os.path.join(folder, "bin") + ":" + os.environ["PATH"]
    done = subprocess.run(["bash", "-c", command], cwd=folder, env=dict(os.environ, PATH=places, **more),
                          stdin=subprocess.DEVNULL, stdout=subprocess.PIPE, stderr=subprocess.PIPE, text=True,
                          errors="surrogateescape", check=False)
    return done.returncode, done.stdout, done.stderr


def filled(folder):
    """A folder with a damaged track under several names, and samples."""
    os.mkdir(os.path.join(folder, "bin"))
    os.symlink(os.environ["IRIG_ED"], os.path.join(folder, "bin", "irig_ed"))
    with open(os.path.join(folder, "rec.vcd"), "w", encoding="ascii") as file:
        file.write(dump(*DAMAGED))
    os.symlink("rec.vcd", os.path.join(folder, "link.vcd"))
    os.link(os.path.join(folder, "rec.vcd"), os.path.join(folder, "hard.vcd"))
    with open(os.path.join(folder, "rec.wav"), "wb") as file:
        file.write(wav(b"\0\1" * 4000, 8000))


def contents(folder):
    found = {}
    for name in sorted(os.listdir(folder)):
        path = os.path.join(folder, name)
        if os.path.isfile(path):
            with open(path, "rb") as file:
                found[name] = file.read()
    return found


# a command line, and what would write over the file
REFUSED = (
    ("irig_damage --page rec.vcd rec.vcd", "--page rec.vcd"),
    ("irig_damage --page link.vcd rec.vcd", "--page link.vcd"),
    ("irig_damage --page rec.vcd link.vcd", "--page rec.vcd"),
    ("irig_damage --page hard.vcd rec.vcd", "--page hard.vcd"),
    ("irig_damage --page new.html --picture ./rec.vcd rec.vcd", "--picture ./rec.vcd"),
    ("irig_damage --page rec.vcd /dev/stdin < rec.vcd", "--page rec.vcd"),
    ("irig_mend --page rec.vcd rec.vcd", "--page rec.vcd"),
    ("irig_damage rec.vcd >> rec.vcd", "the standard output"),
    ("irig_mend rec.vcd >> hard.vcd", "the standard output"),
    ("irig_what rec.vcd >> rec.vcd", "the standard output"),
    ("irig_wire rec.vcd >> rec.vcd", "the standard output"),
    ("irig_wire --out /dev/stdout rec.vcd >> rec.vcd", "--out /dev/stdout"),
    ("irig_wire - < rec.vcd >> rec.vcd", "the standard output"),
    ("irig_wire --invert link.vcd 1<> rec.vcd", "the standard output"),
    ("irig_demodulate rec.wav 1<> rec.wav", "the standard output"),
    ("irig_demodulate --raw s16 --rate 8000 - < rec.wav >> rec.wav", "the standard output"),
)


def refused(top):
    """Nothing is read, nothing is written, and the status is 2."""
    for command, what in REFUSED:
        with tempfile.TemporaryDirectory() as folder:
            filled(folder)
            before = contents(folder)
            status, printed, said = shell(top, folder, command)
            good = (status, printed, said.count("\n")) == (2, "", 1) and contents(folder) == before
            good = good and said.startswith("%s: %s would write over the file" % (command.split()[0], what))
        good or print("FAILED %s: status %d, %s" % (command, status, said))
        yield good


# command lines with two outputs in one file, and both
ONE_FILE = (
    ("irig_damage --page list rec.vcd > list", "--page list and the standard output"),
    ("irig_damage --picture /dev/stdout rec.vcd", "--picture /dev/stdout and the standard output"),
    ("irig_damage --quiet --page - --picture /dev/stdout rec.vcd", "--page - and --picture /dev/stdout"),
    ("irig_damage --page list --picture ./list rec.vcd", "--page list and --picture ./list"),
    ("irig_mend --page list rec.vcd >> list", "--page list and the standard output"),
    ("irig_mend --apply list --out /dev/stdout rec.vcd > list", "--out /dev/stdout and --apply list"),
)


def apart(top):
    """Two outputs in one file: nothing is read, and one line says so."""
    for command, both in ONE_FILE:
        with tempfile.TemporaryDirectory() as folder:
            filled(folder)
            ended = shell(top, folder, command)
            good = ended == (2, "", "%s: %s are one file\n" % (command.split()[0], both))
            good or print("FAILED %s: %s" % (command, ended))
            yield good


# name of the file, its text, how the last line begins
PROPOSED = (
    ("one.vcd", dump(*B), "irig_ed --format B --expression 2 --out new.vcd one.vcd"),
    ("new.vcd", dump(*B), "irig_ed --format B --expression 2 --out new-2.vcd new.vcd"),
    ("one.vcd", dump(*B, upside=True), "irig_wire --invert one.vcd > one-2.vcd && irig_ed --format B"),
    ("one.vcd", dump(*B, unit="", scale=1000), "irig_wire --timescale=1ns one.vcd > one-2.vcd && irig_ed "),
    ("one.vcd", dump(*B) + dump(*B), "irig_wire --dump=1 one.vcd > one-2.vcd && irig_ed "),
)
MEND = "--format B --expression 2 --apply "
# the same for damaged recordings: the file that is written has no damage
MENDED = (
    ("one.vcd", dump(*DAMAGED), "irig_mend " + MEND + "new.vcd one.vcd"),
    ("new.vcd", dump(*DAMAGED), "irig_mend " + MEND + "new-2.vcd new.vcd"),
    ("one.vcd", dump(*DAMAGED, upside=True), "irig_wire --invert one.vcd > one-2.vcd && irig_mend " + MEND + "new.vcd one-2.vcd"),
    ("one.vcd", dump(*DAMAGED, unit="", scale=1000), "irig_mend --timescale=1ns " + MEND + "new.vcd one.vcd"),
    ("one.vcd", dump(*DAMAGED) + dump(*B), "irig_mend --dump=1 " + MEND + "new.vcd one.vcd"),
    ("one.vcd", dump(*DAMAGED, declared=SCOPES).replace("#0 0!", "#0 0! Uc"), "irig_mend --wire=irig " + MEND + "new.vcd one.vcd"),
    ("one.vcd", bus(DAMAGED[0]), "irig_mend --wire='bus[2]' " + MEND + "new.vcd one.vcd"),
)


def continued(top, name, text):
    """What irig_what prints of a file, how its last line ends, and whether the files that were there are as they were;
    and the status of irig_damage for the new file, if there is one."""
    with tempfile.TemporaryDirectory() as folder:
        filled(folder)
        with open(os.path.join(folder, name), "w", encoding="ascii") as file:
            file.write(text)
        before = contents(folder)
        lines = shell(top, folder, "irig_what " + name)[1].splitlines()
        status, printed, _ = shell(top, folder, lines[-1])
        new = sorted(path for path in contents(folder) if path not in before and path.startswith("new"))
        sound = [shell(top, folder, "irig_damage --expression 2 " + path)[0] for path in new]
        return lines, status, printed, {path: contents(folder).get(path) for path in before} == before, sound


def proposed(top):
    """The last line of irig_what leaves each file that is there, and leads to a track that can be edited."""
    for name, text, begin in PROPOSED:
        lines, status, _, is_left, _ = continued(top, name, text)
        good = lines[-1].startswith(begin) and status < 2 and is_left and not any(line.startswith("damaged: ") for line in lines)
        good or print("FAILED irig_what %s: %s %s" % (name, lines[-2:], status))
        yield good


def mended(top):
    """For a damaged recording it is one command, which writes the repaired one as a new file; the line before says so."""
    for name, text, command in MENDED:
        lines, status, printed, is_left, sound = continued(top, name, text)
        good = lines[-1] == command and (status, is_left, sound) == (0, True, [0]) and "1 place found, 1 repaired" in printed
        new = command.split("--apply ")[1].split()[0]
        told = "damaged in 1 place: irig_mend has 1 repair; the next line writes the repaired recording as %s (without --apply" % new
        good = good and lines[-2].startswith(told) and ("--into one.vcd" in lines[-2]) == ("--wire" in command)
        good or print("FAILED irig_what %s: %s %s %s" % (name, lines[-2:], status, printed))
        yield good


def whole(top):
    """A file that cannot be written whole is not there, and what had its name stays."""
    with tempfile.TemporaryDirectory() as folder:
        filled(folder)
        os.mkdir(os.path.join(folder, "dir"))
        before = contents(folder)
        os.symlink("circle", os.path.join(folder, "circle"))
        for command, text in (("irig_damage --page dir rec.vcd", "irig_damage: dir: is a folder\n"),
                              ("irig_damage --page none/a rec.vcd", "irig_damage: none/a: No such file or directory\n"),
                              ("irig_damage --page circle rec.vcd", "irig_damage: circle: Too many levels of symbolic links\n"),
                              ("irig_damage --page %s rec.vcd" % ("p" * 256), "irig_damage: %s: File name too long\n" % ("p" * 256)),
                              ("irig_damage --page /dev/full rec.vcd", "irig_damage: /dev/full: No space left on device\n")):
            status, printed, said = shell(top, folder, command)
            good = (status, printed) == (2, "") and said.endswith(text) and contents(folder) == before
            good or print("FAILED %s: %d %s" % (command, status, said))
            yield good
        shutil.copy(os.path.join(folder, "rec.vcd"), os.path.join(folder, "page"))
        os.symlink("page", os.path.join(folder, "to_page"))
        status = shell(top, folder, "umask 027; irig_damage --page fresh --picture to_page rec.vcd")[0]
        heads = [contents(folder)[name][:5] for name in ("fresh", "page")]
        good = (status, heads, mode_of(folder, "fresh")) == (1, [b"<!DOC", b"<svg "], 0o640)
        good = good and os.path.islink(os.path.join(folder, "to_page"))
        good or print("FAILED a page, and a picture through a link: %d %s" % (status, heads))
        yield good


# a command line whose standard output has all of a track, and nothing else
DIRECT = (
    "irig_wire rec.vcd --out /dev/stdout | cat", "irig_wire rec.vcd --out /dev/fd/1 | cat",
    "irig_wire rec.vcd --out /dev/stderr 2>&1 > fresh | grep -v ^irig_wire:", "irig_wire rec.vcd --out /dev/fd/3 3>&1 > fresh | cat",
    "mkfifo pipe; irig_wire rec.vcd --out pipe & cat pipe", "echo old > log; irig_wire rec.vcd --out /dev/stdout >> log; sed 1d log",
    "echo old > log; irig_wire rec.vcd --out log >> log; sed 1d log",
    "exec 3<> log; rm log; irig_wire rec.vcd --out /dev/fd/3; cat /dev/fd/3; ls log* 2>&-",
    "ln -s log link; echo old > log; irig_wire rec.vcd --out link; cat log; [ -L link ]",
    "irig_wire rec.vcd --out " + "p" * 255 + "; cat p*")


def direct(top):
    """A pipe, a device, the standard output, and a file without a name are written directly, all others as a whole."""
    for command in DIRECT:
        with tempfile.TemporaryDirectory() as folder:
            filled(folder)
            status, printed, _ = shell(top, folder, command)
            edges = [int(word[1:]) for word in printed.split() if word[0] == "#"]
            good = printed.startswith("$timescale 1 us $end\n") and edges == [0, *(time for time, _ in DAMAGED[0]), DAMAGED[1]]
            good or print("FAILED %s: %d %s" % (command, status, printed[:200]))
            yield good


def mode_of(folder, name):
    return os.stat(os.path.join(folder, name)).st_mode & 0o777


def called(name, begin):
    """Until it is whole, a new file is called as the editor calls its own, so that what a killed run leaves can be found."""
    with tempfile.TemporaryDirectory() as folder:
        with output.new_file(os.path.join(folder, name)) as new:
            new.write(b"text")
            seen = os.listdir(folder)
        good = len(seen) == 1 and seen[0].startswith(begin) and contents(folder) == {name: b"text"}
        good or print("FAILED the new file of %s: %s" % (name, seen))
        return good


def long_path():
    """A path of 4,095 bytes, the longest there is, has a file, although the path of the new one would be longer."""
    with tempfile.TemporaryDirectory() as folder:
        path = os.path.realpath(folder)
        while len(path) < 4095 - 300:
            path = os.path.join(path, "d" * 200)
        path = os.path.join(path, "d" * (4095 - len(path) - 102))
        os.makedirs(path)
        path = os.path.join(path, "p" * 100)
        output.write(path, "text")
        return len(path) == 4095 and os.stat(path).st_size == 4


def replaced():
    """A file that is replaced keeps its mode, but not what runs it as its owner; and one that may not be written stays."""
    with tempfile.TemporaryDirectory() as folder:
        path, said = os.path.join(folder, "page"), ""
        output.write(path, "first")
        os.chmod(path, 0o604)
        output.write(path, "second")
        yield (mode_of(folder, "page"), contents(folder)) == (0o604, {"page": b"second"})
        os.chmod(path, 0o4604)  # whoever runs it would be the owner of the new file
        output.write(path, "second")
        yield stat.S_IMODE(os.stat(path).st_mode) == 0o604
        with mock.patch("os.access", lambda *_: False):  # root may write all
            try:
                output.write(path, "third")
            except OSError as error:
                said = "%s: %s" % (error.filename, error.strerror)
        yield (said, contents(folder)) == (path + ": Permission denied", {"page": b"second"})
        with mock.patch("os.replace", lambda name, _: os.rmdir(name)):
            try:
                output.write(path, "fourth")
            except OSError as error:
                said = "%s: %s" % (error.filename, error.strerror)
        yield (said, contents(folder)) == (path + ": Not a directory", {"page": b"second"})


def interrupted():
    """A signal that comes just when a file gets its name is the end that is seen, and the file is whole."""
    def named(path, name, rename=os.replace):
        rename(path, name)
        raise KeyboardInterrupt

    with tempfile.TemporaryDirectory() as folder, mock.patch("os.replace", named):
        try:
            output.write(os.path.join(folder, "page"), "text")
            found = "none"
        except (KeyboardInterrupt, OSError) as error:
            found = type(error).__name__
        good = (found, contents(folder)) == ("KeyboardInterrupt", {"page": b"text"})
        good or print("FAILED a signal when a file gets its name: %s" % found)
        return good


def cases(top):
    """Each part by its name."""
    return [case("outputs: refused", refused, top), case("outputs: proposed commands", proposed, top),
            case("outputs: proposed repairs", mended, top),
            case("outputs: whole files", whole, top), case("outputs: no regular files", direct, top),
            case("outputs: two in one", apart, top),
            case("outputs: a long path", long_path),
            case("outputs: a file that is replaced", replaced), case("outputs: a signal at the end", interrupted),
            *(case("outputs: a new file of %d letters" % len(name), called, name, begin) for name, begin in (
                ("page", ".page.irig_ed-new-"), ("p" * 233, "." + "p" * 233 + ".irig_ed-new-"), ("p" * 234, ".irig_ed-new-"),
                ("\u00e4" * 120, ".irig_ed-new-")))]
