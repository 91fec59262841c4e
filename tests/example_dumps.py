"""The dumps of examples/, and the wire that is read of one."""
import glob
import os
import re

from built import TOP


def dumps(pattern):
    """Path and bytes of each dump of examples/ whose path there is so."""
    for path in sorted(glob.glob(os.path.join(TOP, "examples", pattern))):
        with open(path, "rb") as file:
            yield path, file.read()


def wire_of(source):
    """The name of the first variable of one bit if there are several, else none."""
    found = re.findall(rb"\$var\s+(?:wire|reg|logic)\s+1\s+\S+\s+(\S+)", source)
    return found[0] if len(found) > 1 else None
