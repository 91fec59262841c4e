"""Every signal of a dump that can carry time code, without a list of them."""
from __future__ import annotations

from typing import Any, Dict, List, Optional, Tuple

from .dump_choice import Signal, bit_of
from .dump_header import Header, Wire

WIDEST_VECTOR = 64  # bits of a vector that is looked at
WIRES = 1 << 40  # more than a dump has

Numbered = Tuple[int, Signal]


def numbered(wire: Wire, place: int) -> List[Numbered]:
    """The signals of a wire with this place in the header. Those of one bit come first, then those of vectors."""
    if wire.single:
        return [(place * WIDEST_VECTOR, Signal(wire.code, 0, wire.path))]
    first = min(wire.first, wire.last)
    bits = [(number, bit_of(wire, first + number)) for number in range(abs(wire.first - wire.last) + 1)]
    return [((WIRES + place) * WIDEST_VECTOR + number, signal) for number, signal in bits if signal]


def is_looked_at(wire: Wire) -> bool:
    return wire.single or wire.bits and 1 < wire.size <= WIDEST_VECTOR and abs(wire.first - wire.last) < WIDEST_VECTOR


class Every(Dict[bytes, List[Tuple[int, int]]]):
    """By code, each signal with its place from the right: as `Wanted` has them, but made when they are asked for. So a wire
    takes no memory here but its code. What is set stays."""

    def __init__(self, header: Header) -> None:
        super().__init__()
        self.all = header.wires
        self.wires: Dict[bytes, int] = {}  # the first wire of a code
        self.others: Dict[bytes, List[int]] = {}  # more of it, if one of them is a vector
        for place, wire in enumerate(self.all):
            if is_looked_at(wire):
                first = self.wires.setdefault(wire.code, place)
                if first != place and not (wire.single and self.all[first].single):
                    self.others.setdefault(wire.code, []).append(place)

    def __contains__(self, code: object) -> bool:
        return code in self.wires

    def __missing__(self, code: bytes) -> List[Tuple[int, int]]:
        """Of several names of one bit the first is taken, and that of one bit before a part of a vector."""
        places = sorted([self.wires[code], *self.others.get(code, ())], key=lambda place: not self.all[place].single)
        found: Dict[int, int] = {}
        for place in places:
            for number, signal in numbered(self.all[place], place):
                found.setdefault(signal.place, number)
        return [(number, bit) for bit, number in found.items()]

    def get(self, code: bytes, default: Any = None) -> Any:
        return self[code] if code in self.wires else default

    def __delitem__(self, code: bytes) -> None:
        self.pop(code, None)
        del self.wires[code]

    def signal(self, number: int) -> Signal:
        place = number // WIDEST_VECTOR % WIRES
        return dict(numbered(self.all[place], place))[number]

    def only(self) -> Optional[int]:
        """The number of the signal, if there is one alone, and it is a wire of one bit."""
        places = list(self.wires.values()) if len(self.wires) == 1 and not self.others else []
        return next((numbered(self.all[place], place)[0][0] for place in places if self.all[place].single), None)

    def count(self) -> int:
        """How many signals there are."""
        wide = [code for code, place in self.wires.items() if code in self.others or not self.all[place].single]
        return len(self.wires) - len(wide) + sum(len(self[code]) for code in wide)
