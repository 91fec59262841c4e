"""How the tools end: closed streams, full devices, readers that go away, too little memory, and defects."""
import gzip
import os
import shutil
import tempfile
from unittest import mock

from cases import case
from irig_tools import command, ending, options, temporary
from rows import in_process
from rows.tools_outputs import contents, filled, shell
from rows.tools_tables import packed
from rows.tools_what import dump

TOOLS = {"irig_damage": "rec.vcd", "irig_mend": "rec.vcd", "irig_what": "rec.vcd", "irig_wire": "rec.vcd",
         "irig_demodulate": "rec.wav"}
# a redirection, and what is said; a tool that cannot say it just ends
CLOSED = ((">&-", "stdout is closed"), ("<&-", "stdin is closed"), ("2>&-", ""), ("<&- >&- 2>&-", ""),
          ("< bin", "standard input: is a folder"))


def closed(top):
    """A closed stream, or a folder as standard input: status 2, one line, and nothing else."""
    with tempfile.TemporaryDirectory() as folder:
        filled(folder)
        before = contents(folder)
        for tool, name in TOOLS.items():
            for words in (name, "--help"):
                for closing, text in CLOSED:
                    ended = shell(top, folder, "%s %s %s" % (tool, words, closing))
                    good = ended == (2, "", "%s: %s\n" % (tool, text) if text else "")
                    good = good and contents(folder) == before
                    good or print("FAILED %s %s %s: %s" % (tool, words, closing, ended))
                    yield good


def unwritten(top):
    """A full device is a failure, whatever is written to it; a pipe that breaks ends the tool quietly."""
    with tempfile.TemporaryDirectory() as folder:
        filled(folder)
        for tool, name in TOOLS.items():
            full = shell(top, folder, "%s %s > /dev/full 2> said; s=$?; tail -n 1 said; exit $s" % (tool, name))
            deaf = shell(top, folder, "%s none.vcd 2> /dev/full" % tool)
            broken = shell(top, folder, "%s %s 2>/dev/null | true; echo ${PIPESTATUS[0]}" % (tool, name))
            mute = shell(top, folder, "%s %s >&- 2> /dev/full" % (tool, name))
            good = full == (2, "%s: standard output: No space left on device\n" % tool, "") and deaf == mute == (2, "", "")
            good = good and broken[1:] == ("141\n", "")
            good or print("FAILED %s: %s %s %s %s" % (tool, full, deaf, broken, mute))
            yield good


def nothing_there(top):
    """An empty file is called empty, packed or not, and a folder a folder, also if the file that has to be there is another one."""
    with tempfile.TemporaryDirectory() as folder:
        filled(folder)
        for name, data in (("empty", b""), ("empty.gz", gzip.compress(b""))):
            with open(os.path.join(folder, name), "wb") as file:
                file.write(data)
        lines = ["%s %s" % (tool, words) for tool in TOOLS for words in ("empty", "- < empty")]
        lines += ["irig_wire empty.gz", "irig_wire --into empty rec.vcd", "irig_wire --windows empty", "irig_mend --format B empty",
                  "irig_mend --format B --apply new --into empty rec.vcd",
                  "irig_demodulate --table empty", "irig_demodulate --raw s16 --rate 9 empty"]
        for line in lines:
            name = "standard input" if "<" in line else "empty.gz" if ".gz" in line else "empty"
            done = shell(top, folder, line)
            good = done == (2, "", "%s: %s: is empty\n" % (line.split()[0], name))
            good or print("FAILED %s: %s" % (line, done))
            yield good
        for line in (*("%s files" % tool for tool in TOOLS), "irig_wire --into files rec.vcd", "irig_mend --apply new --into files rec.vcd",
                     "irig_demodulate --table files", "irig_wire --out files rec.vcd"):
            os.makedirs(os.path.join(folder, "files"), exist_ok=True)
            status, _, said = shell(top, folder, line)
            good = status == 2 and said.startswith("%s: files: is a folder" % line.split()[0])
            good or print("FAILED %s: %s %s" % (line, status, said))
            yield good


def stopped(top):
    """A hang-up or a signal TERM ends a tool with a status of its own, and its files are removed; `nohup` still works."""
    wait = ("mkfifo pipe; %sirig_mend --format B --out new pipe & exec 3>pipe; "
            "until [ -n \"$(ls files)\" ] || ! kill -0 $!; do sleep 0.02; done; kill -%s $!; cat rec.vcd >&3 2>&-; exec 3>&-; wait $!")
    with tempfile.TemporaryDirectory() as folder:
        filled(folder)
        os.mkdir(os.path.join(folder, "files"))
        before = contents(folder)
        # the test can run under `nohup` itself
        heeded = "env --default-signal=HUP,TERM "
        for before_it, name, status, files in ((heeded, "HUP", 129, []), (heeded, "TERM", 143, []), ("trap '' HUP; ", "HUP", 1, ["new"])):
            done = shell(top, folder, wait % (before_it, name), TMPDIR=os.path.join(folder, "files"))
            left = os.listdir(os.path.join(folder, "files")), sorted(set(contents(folder)) - set(before))
            good = done == (status, "", "") and left == ([], files)
            good or print("FAILED irig_mend and a signal %s: %s %s" % (name, done, left))
            yield good
            os.unlink(os.path.join(folder, "pipe"))


def early_and_late(top):
    """A signal while a tool is loaded, or once its work is done, is no result and leaves no trace of Python."""
    for line, status in (("os.kill(os.getpid(), signal.SIGINT)", 130), ("atexit.register(os.kill, os.getpid(), signal.SIGTERM)", -15),
                         ("atexit.register(os.kill, os.getpid(), signal.SIGINT)", -2)):
        with tempfile.TemporaryDirectory() as folder:
            shutil.copytree(os.path.join(top, "tools"), os.path.join(folder, "tools"), ignore=shutil.ignore_patterns("__pycache__"))
            path = os.path.join(folder, "tools", "irig_tools", "what_program.py")
            os.chmod(path, 0o644)
            with open(path, "a", encoding="utf-8") as file:
                file.write("\nimport atexit, os, signal\n%s\n" % line)
            done = shell(top, folder, "exec env --default-signal=INT,TERM tools/irig_what --version")
            good = (done[0], done[2]) == (status, "")
            good or print("FAILED irig_what with %s: %s" % (line, done))
            yield good


def without_room(top):
    """If there is no room for a file, it is named: that of the user, or the folder for temporary files."""
    with tempfile.TemporaryDirectory() as folder:
        filled(folder)
        os.mkdir(os.path.join(folder, "files"))
        before = contents(folder)
        with open(os.path.join(folder, "rec.sr"), "wb") as file:
            file.write(packed())
        before = contents(folder)
        for line, name in (("irig_wire rec.vcd --out new", "new"), ("irig_what rec.vcd", "files"), ("irig_damage rec.vcd", "files"),
                           ("irig_mend --format B - < rec.vcd", "files"), ("irig_damage --dump 1 --format B rec.vcd", "files"),
                           ("irig_wire rec.sr code", "files")):
            done = shell(top, folder, "ulimit -f 1; %s | cat; exit ${PIPESTATUS[0]}" % line, TMPDIR=os.path.join(folder, "files"))
            path = os.path.join(folder, name) if name == "files" else name
            good = done == (2, "", "%s: %s: File too large\n" % (line.split()[0], path))
            good = good and contents(folder) == before and not os.listdir(os.path.join(folder, "files"))
            good or print("FAILED %s without room: %s" % (line, done))
            yield good


def without_any_room(top):
    """If nothing can be written at all, it is not the editor that is complained of, but the folder for temporary files."""
    with tempfile.TemporaryDirectory() as folder:
        filled(folder)
        done = shell(top, folder, "ulimit -f 0; irig_damage --format B rec.vcd")
        yield done[:2] == (2, "") and done[2].startswith("irig_damage: No usable temporary directory found in ")
    for work in (lambda: temporary.temporary_script("info\n"), temporary.temporary_track):
        full = mock.patch.multiple("tempfile", TemporaryFile=full_device, NamedTemporaryFile=full_device, gettempdir=lambda: "there")
        try:
            with full, work() as file, temporary.named_if_no_room():
                file.write(b"1")
                file.flush()
            said = ""
        except OSError as error:
            said = "%s: %s" % (error.filename, error.strerror)
        said == "there: No space left on device" or print("FAILED a temporary file without room: %s" % said)
        yield said == "there: No space left on device"


def full_device(**_):
    return open("/dev/full", "w+b")  # pylint: disable=consider-using-with


def without_memory(top):
    """With ever less memory a tool does its work, or ends with 70 and one line, also if Python itself cannot start."""
    with tempfile.TemporaryDirectory() as folder:
        filled(folder)
        with open(os.path.join(folder, "long.vcd"), "w", encoding="ascii") as file:
            file.write(dump([(5 * place, place % 2) for place in range(60000)], 300000))
        for tool in ("irig_what", "irig_wire"):
            ends = [shell(top, folder, "ulimit -v %d; %s long.vcd > said" % (kilobytes, tool))
                    for kilobytes in range(16000, 34000, 2000)]
            lines = {said.count("\n") for status, _, said in ends if status == 70}
            good = {status for status, _, _ in ends} <= {0, 1, 70} and lines == {1}
            good = good and not any("Traceback" in said for _, _, said in ends)
            good or print("FAILED %s with little memory: %s" % (tool, ends))
            yield good
        for tool, name in TOOLS.items():
            for limit in ("-v 9000", "-v 11600", "-v 23000", "-d 3000", "-d 6500"):
                ended = shell(top, folder, "ulimit %s; %s %s" % (limit, tool, name))
                good = ended == (70, "", "%s: memory ran out\n" % tool)
                good or print("FAILED %s with ulimit %s: %s" % (tool, limit, ended))
                yield good


VARIABLES = {"PYTHONIOENCODING": "none", "PYTHONHOME": "/none", "PYTHONUTF8": "5", "PYTHONHASHSEED": "none", "PYTHONMALLOC": "none",
             "PYTHONINSPECT": "1", "PYTHONPATH": "own"}


def variables(top):
    """What is wrong in the variables of Python, or in a module that the user has, is nothing to a tool."""
    with tempfile.TemporaryDirectory() as folder:
        filled(folder)
        os.mkdir(os.path.join(folder, "own"))
        with open(os.path.join(folder, "own", "sitecustomize.py"), "w", encoding="ascii") as file:
            file.write("raise SystemExit(1)\n")
        for tool in TOOLS:
            wanted = shell(top, folder, tool + " --version")
            for name, value in VARIABLES.items():
                ended = shell(top, folder, tool + " --version", **{name: value})
                good = ended == wanted and not wanted[0]
                good or print("FAILED %s with %s=%s: %s" % (tool, name, value, ended))
                yield good


def raised(error, text, status, **more):
    """A work that raises an error: its status and the one line; where it was is shown only if that is asked for."""

    def work(given):
        raise error

    program = options.Command("irig_x", (), "", (), "")
    with mock.patch.dict(in_process.MAINS, irig_x=lambda: command.run(program, work)):
        with mock.patch.dict(os.environ, more):
            got, printed, said = in_process.run("irig_x", [])
    traced = said.startswith("Traceback") and said.count("\n") > 2
    good = (got, printed, said.splitlines()[-1:]) == (status, b"", ["irig_x: " + text])
    good = good and (traced if more else said.count("\n") == 1)
    good or print("FAILED a work that raises %r: %d %s" % (error, got, said))
    return good


def raising():
    defect = "a defect of this tool: %s (with IRIG_DEBUG=1 it shows where)"
    yield raised(ZeroDivisionError("a\nb"), defect % "ZeroDivisionError: a b", 70)
    yield raised(AssertionError(), defect % "AssertionError:", 70)
    yield raised(KeyError("a"), defect % "KeyError: 'a'", 70, IRIG_DEBUG="1")
    yield raised(RecursionError("deep"), defect % "RecursionError: deep", 70)
    yield raised(MemoryError(), "memory ran out", 70)
    yield raised(OSError(12, "Cannot allocate memory"), "memory ran out", 70)
    yield raised(OSError(28, "No space left on device"), "standard output: No space left on device", 2)
    yield raised(OSError(2, "No such file", "a"), "a: No such file", 2)
    yield raised(OSError(2, "No such file", "a\nb\x1b[1m\x7f"), r"a\nb\x1b[1m\x7f: No such file", 2)
    yield raised(ending.Usage("wrong"), "wrong (irig_x --help says more)", 2)
    yield raised(ending.Problem("bad"), "bad", 2)


def cases(top):
    """Each part by its name."""
    return [case("ending: closed streams", closed, top), case("ending: empty files and folders", nothing_there, top),
            case("ending: full devices and readers", unwritten, top),
            case("ending: signals", stopped, top), case("ending: no room", without_room, top),
            case("ending: no room at all", without_any_room, top),
            case("ending: early and late signals", early_and_late, top),
            case("ending: too little memory", without_memory, top), case("ending: errors", raising),
            case("ending: variables of Python", variables, top)]
