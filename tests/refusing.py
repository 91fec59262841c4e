"""Runs of a command with growths of memory refused, by a library that is preloaded."""
import os
import shutil
import subprocess

from talk import Talk

SOURCE = os.path.join(os.path.dirname(os.path.abspath(__file__)), "refusing.c")


def library_in(folder):
    """The library, made in a folder by the C compiler (CC, or cc), or None if there is none."""
    compiler = os.environ.get("CC", "cc")
    if shutil.which(compiler) is None:
        return None
    library = os.path.join(folder, "refusing.so")
    subprocess.run([compiler, "-O1", "-shared", "-fPIC", "-o", library, SOURCE], check=True)
    return library


class Refusing(Talk):
    """A command that runs with that many growths refused from that of a number on, and none if the number is 0."""

    def __init__(self, library, command, number, folder, count=1):
        self.heard, told = os.pipe()
        os.set_blocking(self.heard, False)
        names = {"LD_PRELOAD": library, "REFUSED": str(number), "COUNT": str(count), "TOLD": str(told)}
        super().__init__(command, folder, env={**os.environ, **names}, pass_fds=[told])
        os.close(told)

    def has_refused(self):
        """Whether a growth was refused since this was last asked."""
        try:
            return os.read(self.heard, 10000) != b""
        except BlockingIOError:
            return False

    def end(self):
        """What ends a talk, and whether a growth was refused."""
        ended = super().end()
        refused = self.has_refused()
        os.close(self.heard)
        return *ended, refused
