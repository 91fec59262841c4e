"""What `planted` and `tools_planted` share of their records: whose turn it is to be tried again, and the code of a text."""
import contextlib
import os
import subprocess

COMMENTS = {".rt": "//", ".antt": "--"}  # what a line of comment begins with
TURNS = 30  # after as many commits each bug on record was tried again


def turn():
    """Whose turn it is, from 0: others with each commit."""
    words = ["git", "-C", os.path.dirname(os.path.realpath(__file__)), "rev-list", "--count", "HEAD"]
    with contextlib.suppress(OSError, ValueError):
        return int(subprocess.run(words, capture_output=True, check=False).stdout) % TURNS
    return 0


def code_in(path):
    """The lines of a text; of one of a crate those that are not a comment and nothing else."""
    mark = COMMENTS.get(os.path.splitext(path)[1])
    with open(path, encoding="utf-8", errors="surrogateescape") as file:
        return [line for line in file.read().split("\n") if not (mark and line.lstrip().startswith(mark))]
