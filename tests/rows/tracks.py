"""What a row of the worked scripts is, and the dumps that many rows begin with."""
from typing import NamedTuple

from reference.timecode import PLACES_OF_POSITIONS

HEADER = "$timescale 1 us $end $var wire 1 ! c $end $enddefinitions $end "
G = "--format G"
B_4 = "--expression 4"


class Row(NamedTuple):
    """A script, and what it prints. The lines of both are separated by "; "."""

    name: str
    options: str
    dump: str
    script: str
    printed: str


class FaultRow(NamedTuple):
    """A dump that is not read, and what is said of it."""

    name: str
    options: str
    dump: str
    said: str


def empty(length):
    return HEADER + "#%d\n" % length


def of_pulses(length, pulses):
    return HEADER + " ".join("#%d 1! #%d 0!" % pulse for pulse in pulses) + " #%d\n" % length


def frame(start, interval, ones):
    """The pulses of a frame with these elements One."""
    tenths = [8 if e in PLACES_OF_POSITIONS else 5 if e in ones else 2 for e in range(100)]
    return [(start + e * interval, start + e * interval + tenths[e] * interval // 10) for e in range(100)]


def listed(first, pulses, interval):
    """What `list` prints of nominal pulses, numbered from the first."""
    names = {2: "zero", 5: "one", 8: "position"}
    return "; ".join(
        "%d %d %d %s" % (number, rise, fall, names[(fall - rise) * 10 // interval])
        for number, (rise, fall) in enumerate(pulses, first)
    )


TWO_PULSES = of_pulses(1000, [(100, 120), (200, 280)])
# Format G, day 1: 00:00:00.00 and 00:00:00.01.
TWO_FRAMES = of_pulses(20000, frame(0, 100, {30}) + frame(10000, 100, {30, 50}))
# Format B 4, day 61, 12:34:56, year 24, second 45,296 of the day.
ONES_OF_A_MOMENT = {2, 3, 6, 8, 12, 15, 16, 21, 25, 30, 36, 37, 52, 56, 84, 85, 86, 87, 93, 94, 96}
A_MOMENT = "1 101 1000000 061 12:34:56 year 24 sbs 45296 control 0 fine"
# A pulse from 2 to 4 microseconds, in picoseconds, next to a vector that is no concern of ours.
OF_A_SIMULATOR = """$date today $end $version none $end $timescale
 1ps $end $scope module top $end $var wire 1 ! irig $end $var reg 8 " n [7:0] $end $upscope $end $enddefinitions $end
#0 $dumpvars bU " x! $end #2000000 1! b1 " #4000000 0! #5000000
"""
