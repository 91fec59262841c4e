"""The recordings of a folder, and where each of them goes."""
from __future__ import annotations

import os
from contextlib import closing
from dataclasses import dataclass, field
from typing import Dict, List, Set, Tuple

from .dump_source import Source
from .editor import Problem

DUMP_ENDING = ".vcd"
ENDINGS = (DUMP_ENDING, ".sr")  # how recordings are called, also if they are packed
PACKINGS = (".gz", ".bz2", ".xz")


@dataclass(frozen=True)
class Recording:
    """A file with its name below its folder, and that of its result below the other one."""

    path: str
    name: str
    out: str


@dataclass
class Looked:
    """What is in a folder, by names below it: recordings, files that are none, and what cannot be looked at."""

    recordings: List[Recording] = field(default_factory=list)
    others: List[str] = field(default_factory=list)
    problems: List[Tuple[str, str]] = field(default_factory=list)  # with the reason


def look_into(folder: str, out: str) -> Looked:
    """All recordings below a folder, but for the folder of the results. Hidden files are not looked at, and links to folders
    are not followed."""
    found, names = Looked(), []  # type: Looked, List[str]

    def unseen(error: OSError) -> None:
        found.problems.append((os.path.relpath(error.filename, folder), error.strerror or str(error)))

    for place, folders, files in os.walk(folder, onerror=unseen):
        below = os.path.relpath(place, folder)
        found.others += [_joined(below, each) for each in sorted(folders) if os.path.islink(os.path.join(place, each))]
        folders[:] = sorted(each for each in folders if not each.startswith(".") and not _is_same(os.path.join(place, each), out))
        names += [_joined(below, each) for each in sorted(files) if not each.startswith(".")]
    taken = [name for name in names if is_recording(os.path.join(folder, name))]
    found.others += sorted(set(names) - set(taken))
    outs = _results(taken)
    found.recordings = [Recording(os.path.join(folder, name), name, outs[name]) for name in taken]
    return found


def _joined(folder: str, name: str) -> str:
    return name if folder == "." else os.path.join(folder, name)


def _is_same(path: str, other: str) -> bool:
    return os.path.realpath(path) == os.path.realpath(other)


def _unpacked(name: str) -> str:
    """The name of a file without that of its packing."""
    return next((name[:-len(end)] for end in PACKINGS if name.lower().endswith(end)), name)


def is_recording(path: str) -> bool:
    """Whether a file is called as a dump, or begins as one."""
    if not os.path.isfile(path):
        return False
    if _unpacked(path).lower().endswith(ENDINGS):
        return True
    try:
        with closing(Source(path).unpacked()) as blocks:  # type: ignore[type-var]
            return next(blocks, b"").lstrip().startswith(b"$")
    except (Problem, OSError):
        return False


def _results(names: List[str]) -> Dict[str, str]:
    """The name of each result: its own, but a result is not packed and no file of sigrok. If another one has that name, it has
    one more ending."""
    found = {name: name for name in names if _plain_name(name) == name}
    used: Set[str] = set(found)
    for name in names:
        if name not in found:
            out = _plain_name(name)
            while out in used:
                out = (name if out == _plain_name(name) else out) + DUMP_ENDING
            found[name] = out
            used.add(out)
    return found


def _plain_name(name: str) -> str:
    plain = _unpacked(name)
    return plain[:-len(ENDINGS[1])] + DUMP_ENDING if plain.lower().endswith(ENDINGS[1]) else plain
