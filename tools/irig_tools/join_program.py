"""The program irig_join."""
from __future__ import annotations

from collections import Counter
from contextlib import ExitStack
from heapq import merge
from operator import itemgetter
from typing import Iterator, List, Optional, Sequence, Tuple

from .command import kept, run, unchanged
from .editor import Problem
from .ending import ALL_RIGHT, FOUND, Usage, complain, name_of
from .options import OUTPUT, Command, Given, Option, whole
from .output import check_apart, output
from .texts import counted
from .timed_file import FORMS, TAB, TimedLine, TimedFile

COMMA = Option("--comma", "CHARACTER", "what parts columns; white space, if it is not given")
HEADER = Option("--header", "N", "that many lines are the header", whole(0))
JOIN_QUIET = Option("--quiet", about="no line at the end says what was done")
COMMAND = Command("irig_join", ("FILE", "FILE..."), """\
Joins files of samples to which irig_time has given their times: all lines in the
order of time. With --header there is one head with the columns of all files, and
each line has its values below their names. Lines without a time come last.

  irig_join --comma , --header 1 first.csv second.csv third.csv > all.csv
""", (COMMA, HEADER, OUTPUT, JOIN_QUIET), """\
Give --comma and --header as to irig_time. The status is 0, or 1 if the times of a
file go back somewhere, 2 if a file was not read or its times do not fit those of
the others, and 70 if memory ran out or the tool has a defect.
""")
DAYS_OF_AN_END = 300  # between the days of a year from which on irig_time takes the second one for one of the next year
OTHER_FORM = "%s: its times have %s, and those of %s have %s; give irig_time the same --form and --year"
END_OF_A_YEAR = "the times have no year, and go from day %d to day %d: over the end of a year give irig_time --year"
GO_BACK = "%s: at line %d the times go back; its lines are in the order of time, too"


def work(given: Given) -> int:
    comma, outputs = comma_of(given), [(OUTPUT.name, given.text(OUTPUT))]
    if given.names.count("-") > 1:
        raise Usage("- is given twice")
    for name in given.names:
        check_apart(name, outputs)
    with ExitStack() as stack:
        paths = [stack.enter_context(kept(name)) for name in given.names]
        for path in paths:
            stack.enter_context(unchanged(path))
        files = [TimedFile(path, name_of(name), comma, given.number(HEADER) or 0) for path, name in zip(paths, given.names)]
        for each in files:
            each.look()
        check_forms(files)
        with output(given.text(OUTPUT)) as out:
            out.writelines(one_table(files))
    return said(files, given.has(JOIN_QUIET))


def comma_of(given: Given) -> Optional[bytes]:
    text = given.text(COMMA)
    if text is not None and len(text.encode("utf-8", "replace")) != 1:
        raise Usage("%s is one character, as irig_time has it" % COMMA.name)
    return None if text is None else text.encode()


def check_forms(files: Sequence[TimedFile]) -> None:
    """Refuses times whose order is not that of their letters."""
    with_times = [each for each in files if each.form is not None]
    for each in with_times:
        first = with_times[0]
        if each.form != first.form:
            raise Problem(OTHER_FORM % (each.name, FORMS[each.form or 0][0], first.name, FORMS[first.form or 0][0]))
    days = [day for each in files for day in each.days]
    if days and max(days) - min(days) >= DAYS_OF_AN_END:
        raise Problem(END_OF_A_YEAR % (min(days), max(days)))


def one_table(files: Sequence[TimedFile]) -> Iterator[bytes]:
    """The lines of the result."""
    heads = [each.head for each in files]
    parts = columns_of(files) if any(heads) else [(b"", b"")] * len(files)
    between = files[0].comma or TAB
    if any(heads):
        yield between.join([heads[0][0], *names_of(heads)]) + b"\n"
    in_order = merge(*(placed(each, each.in_order(), part) for each, part in zip(files, parts)), key=itemgetter(0))
    yield from (between.join(each) + b"\n" for each in in_order)
    for each, part in zip(files, parts):
        yield from (between.join(line) + b"\n" for line in placed(each, each.without_time(), part))


def columns_of(files: Sequence[TimedFile]) -> List[Tuple[bytes, bytes]]:
    """What is before the columns of each file, and after them: empty ones."""
    between, sizes = files[0].comma or TAB, [len(each.head) - 1 for each in files]
    return [(between * sum(sizes[:number]), between * sum(sizes[number + 1:])) for number in range(len(files))]


def placed(file: TimedFile, lines: Iterator[TimedLine], part: Tuple[bytes, bytes]) -> Iterator[TimedLine]:
    """These lines of a file with empty columns before and after their own."""
    if not file.header:
        return lines
    between, (before, after) = file.comma or TAB, part
    return ((time, before + between.join(file.cells(rest)) + after) for time, rest in lines)


def names_of(heads: Sequence[Sequence[bytes]]) -> Iterator[bytes]:
    """The names of all columns; one that several files have with the number of the file after it."""
    many = Counter(name for head in heads for name in set(head[1:]))
    for number, head in enumerate(heads, 1):
        yield from (name if many[name] < 2 else b"%s_%d" % (name, number) for name in head[1:])


def said(files: Sequence[TimedFile], is_quiet: bool) -> int:
    """Says what was done; the status."""
    back = [each for each in files if each.back]
    for each in back:
        complain(GO_BACK % (each.name, each.back), COMMAND.name)
    timed, untimed = sum(each.timed for each in files), sum(each.untimed for each in files)
    if not is_quiet:
        complain("%s of %s, %d without a time, at the end" % (
            counted(timed + untimed, "line"), counted(len(files), "file"), untimed), COMMAND.name)
    return FOUND if back else ALL_RIGHT


def main() -> int:
    return run(COMMAND, work)
