"""Kinds of recordings with damage in most frames, or in most elements. Each has what is done after the code was sent."""
from __future__ import annotations

from typing import TYPE_CHECKING, Callable, Dict, List

from sent import WIDTHS, Pulse

if TYPE_CHECKING:
    from recordings import Draft

HURT = 0.3  # of the pulses
LATE, OFF, LOST = 0.06, 0.1, 0.05  # of a bad slicer: rises and falls, in intervals; of the pulses


def dense(draft: Draft) -> None:
    """Damage in 20 to 60 places."""
    draft.some_damage(20, 60)


def places(draft: Draft) -> None:
    """Damage in 50 places."""
    draft.some_damage(50, 50)


def instead(draft: Draft, pulse: Callable[[Pulse], List[Pulse]]) -> None:
    """Another one, or none, instead of each pulse."""
    draft.wire.pulses = [pulse(sent) for each in draft.wire.pulses for sent in each]


def half(draft: Draft) -> None:
    """Half of the pulses are lost."""
    instead(draft, lambda sent: [sent] if draft.random.random() < 0.5 else [])


def hurt(draft: Draft) -> None:
    """30 % of the pulses are lost, or of another class, or of any width."""
    def other(sent: Pulse) -> List[Pulse]:
        if draft.random.random() >= HURT:
            return [sent]
        wide = draft.random.choice((0.0, draft.random.choice(WIDTHS), draft.random.uniform(0.02, 0.98)))
        return [(sent[0], sent[0] + wide * draft.format.interval)] if wide else []

    instead(draft, other)


def slicer(draft: Draft) -> None:
    """Rises come late by up to 6 % of an interval, falls are off by up to a tenth, and 5 % of the pulses are lost."""
    def read(sent: Pulse) -> List[Pulse]:
        late, off = draft.random.uniform(0, LATE), draft.random.uniform(-OFF, OFF)
        kept = (sent[0] + late * draft.format.interval, sent[1] + off * draft.format.interval)
        return [kept] if draft.random.random() >= LOST else []

    instead(draft, read)


KINDS: Dict[str, Callable[[Draft], None]] = {each.__name__: each for each in (dense, places, half, hurt, slicer)}
