"""Named cases: all, those whose name has a word (-k WORD), and with a line for each (-v)."""
import argparse
import contextlib
import io
import multiprocessing
import os
import sys
import time
from concurrent.futures import ProcessPoolExecutor
from dataclasses import dataclass
from functools import partial
from typing import Callable

from built import BUILT

WORKERS = len(os.sched_getaffinity(0))  # rows that run at once
CHOSEN = []  # the cases that are run
LEFT_OUT = object()  # the answer of a case that cannot be tried here; it prints what is missing


@dataclass(frozen=True)
class Case:
    """A name, and what says whether it holds; that can be several answers."""

    name: str
    holds: Callable

    def results(self):
        """Its answers, one after the other. A case without an answer does not hold; one that is left out has none."""
        found = self.holds()
        if found is LEFT_OUT:
            return
        number = 0
        for number, each in enumerate([found] if isinstance(found, (bool, int)) else found, 1):
            yield each
        if not number:
            print("FAILED %s: no answer" % self.name)
            yield False


def case(name, holds, *values):
    return Case(name, lambda: holds(*values))


def chosen(about, *flags):
    """The command line: -k WORD, -v, --first, these flags and the program."""
    parser = argparse.ArgumentParser(description=about)
    parser.add_argument("-k", metavar="WORD", action="append", default=[], dest="words",
                        help="runs the cases whose name has the word, or one of several")
    parser.add_argument("-v", action="store_true", dest="lists", help="has a line for each case")
    parser.add_argument("--first", action="store_true", help="ends with the first answer that is no")
    for flag in flags:
        parser.add_argument(flag, action="store_true")
    parser.add_argument("program", nargs="?", default=BUILT)
    found = parser.parse_args()
    os.environ["IRIG_ED"] = os.path.abspath(found.program)
    os.environ["PATH"] = os.path.dirname(sys.executable) + os.pathsep + os.environ["PATH"]  # the tools run in this Python, too
    return found


def is_asked(asked, *names):
    """Whether one of these names has one of the words."""
    return not asked.words or any(word in name for word in asked.words for name in names)


def tried(first, number):
    """What the case with a number answers, up to the first no if that is asked for; what it prints, and its seconds."""
    begun, said, results = time.time(), io.StringIO(), []
    with contextlib.redirect_stdout(said):
        for each in CHOSEN[number].results():
            results.append(bool(each))
            if first and not each:
                break
    return results, said.getvalue(), time.time() - begun


def all_tried(first):
    """The same of all cases, in their order; as many are tried at once as there are processors."""
    work = partial(tried, first)
    if first or len(CHOSEN) < 2:
        yield from map(work, range(len(CHOSEN)))
        return
    with ProcessPoolExecutor(WORKERS, multiprocessing.get_context("fork")) as pool:
        yield from pool.map(work, range(len(CHOSEN)))


def run(cases, asked):
    """Runs the cases that are asked for and prints the sum; the status."""
    CHOSEN[:] = [each for each in cases if is_asked(asked, each.name)]
    passed = failed = 0
    for each, (results, said, seconds) in zip(CHOSEN, all_tried(asked.first)):
        print(said, end="", flush=True)
        passed, failed = passed + sum(results), failed + len(results) - sum(results)
        if asked.lists:
            what = ("holds" if all(results) else "FAILED") if results else "left out"
            print("%-6s %s (%d, %.1f s)" % (what, each.name, len(results), seconds), flush=True)
        if failed and asked.first:
            break
    print("%d passed, %d failed" % (passed, failed))
    sys.exit(1 if failed or not passed else 0)
