"""The version of the tools: that of their package, or the commit of the repository that they are in."""
from __future__ import annotations

import os
import subprocess

TOP = os.path.dirname(os.path.dirname(os.path.dirname(os.path.realpath(__file__))))
COMMIT_FORM = "--date=format-local:%Y.%m.%d", "--abbrev=7", "--format=%cd-%h"  # as `package` and `install` have it


def version() -> str:
    """The version that `install` wrote next to the tools, else the commit."""
    try:
        with open(os.path.join(TOP, "version"), encoding="ascii") as file:
            return file.read().strip()
    except OSError:
        return _commit() or "of no known version"


def _commit() -> str:
    if not os.path.exists(os.path.join(TOP, ".git")):
        return ""
    command = ["git", "-C", TOP, "show", "-s", *COMMIT_FORM]
    try:
        done = subprocess.run(command, stdin=subprocess.DEVNULL, capture_output=True, text=True, check=False,
                              env=dict(os.environ, TZ="UTC0"))
    except OSError:
        return ""
    return done.stdout.strip()
