"""Where this repository is, and the programs that a test runs."""
import os

TOP = os.path.dirname(os.path.dirname(os.path.abspath(__file__)))
BUILT = os.path.join(TOP, "crates/irig_ed/out/irig_ed")
DIFF = os.path.join(TOP, "crates/irig_diff/out/irig_diff")
GUARD = os.path.join(TOP, "crates/irig_guard/out/irig_guard")
EXPLAIN = os.path.join(TOP, "crates/irig_explain/out/irig_explain")
TIME = os.path.join(TOP, "crates/irig_time/out/irig_time")


def program_of(words):
    """The program that the first word of a command line names, else what the gate built."""
    return os.path.abspath(words[0]) if words else BUILT
