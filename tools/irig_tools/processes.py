"""Processes that do a part of the work, and how they are ended."""
from __future__ import annotations

import os
import subprocess
import time
from contextlib import suppress
from typing import Sequence

TOOLS = os.path.dirname(os.path.dirname(os.path.realpath(__file__)))
LOOK_AGAIN = 0.02  # seconds
PATIENCE = 10.0  # seconds for a process to remove its files


def end_all(processes: "Sequence[subprocess.Popen[bytes]]") -> None:
    """Lets those that run remove their files, and waits for them."""
    for process in processes:
        with suppress(OSError):
            process.terminate()
    until = time.monotonic() + PATIENCE
    for process in processes:
        try:
            process.wait(max(0.0, until - time.monotonic()))
        except subprocess.TimeoutExpired:
            process.kill()
