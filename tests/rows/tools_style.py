"""flake8, mypy --strict and shellcheck find nothing in the tools and their tests, each name is defined in one module, and the hundred
elements of a frame are never a bare number.

A checker that is missing is left out by name. The versions whose findings count are in VERSIONS: another version can
know more, so its findings are printed, and are no failure.
"""
import ast
import contextlib
import glob
import io
import os
import re
import shutil
import subprocess
from collections import defaultdict

from cases import LEFT_OUT, case

SHELL = ("install", "irig_ed", "package", "completions/irig_ed")  # what a user runs that is no Python
TESTS = ("tests/tools", "tests/tools_wire", "tests/tools_planted", "tests/page")  # whose names do not end in .py
TYPED_TESTS = ("tests/page", "tests/browser.py", "tests/page_look.py", "tests/page_rows.py")
VERSIONS = {"flake8": "5.0.4", "mypy": "1.0.1", "shellcheck": "0.9.0"}  # those of Debian 12

EVERYWHERE = {"COMMAND", "main", "work"}  # what each program has

# What each bare 100 of a module counts; it is none of the elements of a frame, which are ELEMENTS. In `limits` each number has its unit.
HUNDREDS = {
    "carrier": ("hertz", "cycles in an element"), "damage": ("percent", "percent"), "dump_units": ("units of time",),
    "layout": ("microseconds", "hundredths of a second", "of a day's number", "of a day's number", "of a day's number"),
    "moments": ("hundredths of a second", "years", "years"), "page": ("waveforms",), "picture": ("letters",), "progress": ("percent",),
    "svg": ("of the width",), "threshold": ("of an interval",) * 4, "units": ("ELEMENTS itself",), "untimed": ("percent",),
    "windows": ("frames",),
}
UNIT_AT_EACH_NUMBER = ("limits",)


def defined(tree):
    """The functions, classes and constants of a module."""
    for node in tree.body:
        if isinstance(node, (ast.FunctionDef, ast.ClassDef)):
            yield node.name
        if isinstance(node, (ast.Assign, ast.AnnAssign)):
            targets = node.targets if isinstance(node, ast.Assign) else [node.target]
            yield from (each.id for target in targets for each in ast.walk(target) if isinstance(each, ast.Name))


def one_name(top):
    """Whether no name means two things in the tools; a name with _ at its beginning counts, too."""
    found = defaultdict(set)
    for path in glob.glob(os.path.join(top, "tools", "irig_tools", "*.py")):
        module = os.path.basename(path)[:-3]
        with open(path, encoding="utf-8") as file:
            names = set(defined(ast.parse(file.read()))) - EVERYWHERE
        for name in names:
            found[name].add(module)
    twice = sorted("%s (%s)" % (name, ", ".join(sorted(modules))) for name, modules in found.items() if len(modules) > 1)
    if twice:
        print("FAILED names of several modules: " + ", ".join(twice))
    return not twice


def hundreds_in(text):
    """How many numbers of a module are 100."""
    found = [node.value for node in ast.walk(ast.parse(text)) if isinstance(node, ast.Constant)]
    return sum(type(value) in (int, float) and value == 100 for value in found)


def elements_have_a_name(top):
    """Whether each bare 100 of the tools is known to be something else than the elements of a frame."""
    bare = {}
    for path in glob.glob(os.path.join(top, "tools", "irig_tools", "*.py")):
        with open(path, encoding="utf-8") as file:
            bare[os.path.basename(path)[:-3]] = hundreds_in(file.read())
    unknown = sorted(module for module, many in bare.items()
                     if module not in UNIT_AT_EACH_NUMBER and many != len(HUNDREDS.get(module, ())))
    if unknown or not bare:
        print("FAILED a bare 100 that is not in HUNDREDS, or no longer there; of elements it is ELEMENTS: " + ", ".join(unknown))
    return bool(bare) and not unknown


def hundreds_are_seen():
    """Whether a 100 is found in each form, and none in a text or in another number."""
    return [hundreds_in("place % 100, 100 * frame, 1e2, range(0x64)") == 4, hundreds_in("'100', 1000, 10, \"% 100\"  # 100") == 0]


def commands(top):
    """Each checker with its command."""
    programs = sorted(path for path in glob.glob(os.path.join(top, "tools", "irig_*")) if os.path.isfile(path))
    return (
        ("flake8", ["flake8", "build", "tools", "tests", *TESTS, *programs]),
        ("mypy", ["mypy", "--strict", "--cache-dir=/dev/null", "--scripts-are-modules", "build", "tools/irig_tools", *TYPED_TESTS]),
        ("shellcheck", ["shellcheck", "-s", "bash", *SHELL]),
    )


def version_of(name):
    done = subprocess.run([name, "--version"], stdout=subprocess.PIPE, text=True, check=False)
    found = re.search(r"\d+(\.\d+)+", done.stdout)
    return found.group() if found else ""


def finds_nothing(top, name, command):
    """Whether a checker finds nothing, if it is there and its version is the one that counts."""
    if not shutil.which(name):
        print("left out: tests/tools_wire, the style of the tools: it needs %s %s" % (name, VERSIONS[name]))
        return LEFT_OUT
    paths = dict(os.environ, MYPYPATH="tools:tests")
    done = subprocess.run(command, cwd=top, env=paths, stdout=subprocess.PIPE, stderr=subprocess.STDOUT, text=True,
                          check=False)
    if not done.returncode:
        return [True]
    counts = version_of(name) == VERSIONS[name]
    print("%s %s\n%s" % ("FAILED" if counts else "another version finds", " ".join(command), done.stdout[:2000]))
    return [not counts]


def no_answer_is_a_no():
    """Whether a case without an answer does not hold, and one that is left out has none."""
    with contextlib.redirect_stdout(io.StringIO()):
        answers = list(case("empty", list).results())
    return answers == [False] and not list(case("left out", lambda: LEFT_OUT).results())


def cases(top):
    """The names, and each checker by its name."""
    checkers = (case("style: " + " ".join(command[:4]), finds_nothing, top, name, command) for name, command in commands(top))
    return [case("style: names", one_name, top), case("style: no answer", no_answer_is_a_no),
            case("style: a hundred elements", elements_have_a_name, top), case("style: a hundred is seen", hundreds_are_seen), *checkers]
