"""A track as irig_ed writes it."""
from __future__ import annotations

from typing import Sequence

EDGES_AT_ONCE = 1 << 16  # edges


def head(is_high: bool, comment: str = "") -> bytes:
    """What comes before the first edge after 0."""
    lines = ["$timescale 1 us $end", *[comment] * bool(comment), "$scope module irig $end", "$var wire 1 ! code $end",
             "$upscope $end", "$enddefinitions $end", "#0", "$dumpvars", "%d!" % is_high, "$end"]
    return "".join(line + "\n" for line in lines).encode("ascii")


def edges_text(edges: Sequence[int], is_rise: bool) -> bytes:
    """Edges after 0; whether the first one is a rise."""
    pair = b"#%%d\n%d!\n#%%d\n%d!\n" % (is_rise, not is_rise)
    half = len(pair) // 2
    parts = []
    for first in range(0, len(edges), EDGES_AT_ONCE):
        times = tuple(edges[first:first + EDGES_AT_ONCE])
        parts.append((pair * (len(times) // 2) + pair[:half] * (len(times) % 2)) % times)
    return b"".join(parts)
