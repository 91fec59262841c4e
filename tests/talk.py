"""A run of the program to which lines are given one at a time."""
import subprocess

from rows.language import LONGEST_LINE

LAST = b"#" * (LONGEST_LINE + 1) + b"\n"  # too long: its answer comes after those of the lines before it
LAST_ANSWER = b"? S2 LineTooLong\n"


class Talk:
    """A run of a command in a folder, with further arguments for Popen."""

    def __init__(self, command, folder, **how):
        self.run = subprocess.Popen(
            command, cwd=folder, stdin=subprocess.PIPE, stdout=subprocess.PIPE, stderr=subprocess.PIPE, **how)

    def say(self, line):
        """The lines that one line prints, and whether the run goes on."""
        try:
            self.run.stdin.write(line + b"\n" + LAST)
            self.run.stdin.flush()
        except BrokenPipeError:
            pass
        last = 2 if len(line) > LONGEST_LINE else 1
        printed = []
        while printed.count(LAST_ANSWER) < last:
            printed.append(self.run.stdout.readline())
            if printed[-1] == b"":
                return printed[:-1], False
        return printed[:-1], True

    def end(self):
        """Status, what was printed and not heard yet, and what was said."""
        printed, said = self.run.communicate()
        return self.run.returncode, printed, said
