"""The program irig_what."""
from __future__ import annotations

import sys
from contextlib import ExitStack, suppress
from typing import Optional

from .command import kept, run
from .editor import Problem, progress_to
from .ending import ALL_RIGHT, FOUND, name_of
from .escapes import in_line
from .facts import json_lines as objects
from .options import DUMP, JSON, TIMESCALE, Command, Given
from .output import check_apart
from .sampled import PLACES, can_be_long, is_packed_folder, sample
from .search import HOPELESS, WINDOW
from .texts import counted
from .what import What
from .what_samples import Lanes, lanes_at
from .with_code import lines_with_code

COMMAND = Command("irig_what", ("DUMP",), """\
Says which wires of a value change dump carry IRIG 200-04 time code, upright or
upside down, in which format, and for each coded expression how many frames are
fine, with the time of the first and of the last. The last line is the command to
continue with: irig_mend for a damaged recording, else irig_ed. It writes over no
file that is there. DUMP is any dump that irig_wire reads; - is standard input.
Of a table, a WAV file or a file of sigrok it says which column or channel has
time code, and the last line has all commands up to the time of day of the others.
""", (TIMESCALE, DUMP, JSON), """\
The editor is the program that IRIG_ED names, or irig_ed on the path.
The status is 0 if just one wire carries time code, 1 if none does or several,
if no frame is fine, or if the file has several dumps or ends within a time or
a value, 2 if the dump was not read, and 70 if memory ran out or the tool has a
defect.
""")


NO_LANE = "no column or channel of %d carries time code of format A, B, E or G"


def work(given: Given) -> int:
    name = given.names[0]
    check_apart(name)
    with kept(name) as path, ExitStack() as parts:
        lanes = lanes_at(path)
        if lanes:
            return say_lanes(lanes, name, given.has(JSON))
        unit, dump = given.text(TIMESCALE) or "", given.number(DUMP)
        part = what_of_a_part(path, name, unit, parts) if dump is None and can_be_long(path) else None
        what = part or What(path, name, unit, dump or 1, is_of_sigrok=is_packed_folder(path))
        sys.stdout.write(as_json(what) if given.has(JSON) else as_text(what))
    return ALL_RIGHT if what.carriers and what.sure() else FOUND


def say_lanes(lanes: Lanes, name: str, as_objects: bool) -> int:
    """Says what is in a table or in a sound file."""
    found = lanes.with_code()
    commands = [each.command(name, lanes.many > 1) for each in found]
    if as_objects:
        sys.stdout.write(objects([each.as_object(command) for each, command in zip(found, commands)]))
    else:
        lines = lines_with_code(found) + commands[:1] if found else [NO_LANE % lanes.many]
        sys.stdout.write("".join(line + "\n" for line in lines))
    return ALL_RIGHT if sum(each.has_frames for each in found) == 1 and found[0].carrier.fine else FOUND


def what_of_a_part(path: str, name: str, unit: str, parts: ExitStack) -> Optional[What]:
    """What the first part of a large file shows in which a frame is fine; nothing if none is."""
    progress = progress_to(sys.stderr)
    for place in PLACES:
        progress(in_line("looking at a part of %s" % name_of(name)))
        with suppress(Problem):
            what = What(parts.enter_context(sample(path, place)), name, unit, 1, True, is_packed_folder(path))
            if what.carriers and what.carriers[0].fine:
                progress("")
                return what
    return None


def as_text(what: What) -> str:
    lines = what.lines()
    if what.carriers:
        lines += what.proposal().lines()
    else:
        text = "no wire of %d carries time code of format A, B, E or G; %s (--timescale UNIT takes another)"
        lines.append(text % (what.found.looked_at, what.unit_text()))
        if what.found.hopeless:
            text = "%s changed %s times without time code, and what follows was not looked at; irig_wire --from TIME leaves out the "
            lines.append((text + "beginning") % (counted(what.found.hopeless, "wire"), format(HOPELESS * WINDOW, ",")))
    return "".join(line + "\n" for line in lines)


def as_json(what: What) -> str:
    """An object for each wire; that of the first also has the command to continue with."""
    found = [carrier.as_object() for carrier in what.carriers]
    for first in found[:1]:
        first["command"] = what.proposal().lines()[-1]
    return objects(found)


def main() -> int:
    return run(COMMAND, work)
