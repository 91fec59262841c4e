"""What is found and proposed, for programs: an object for each place, as JSON."""
from __future__ import annotations

import json
from typing import Dict, Optional, Sequence

from .concern import Concern
from .damage import Damage
from .dump_offset import Offset
from .script import Repair
from .units import number_of

Object = Dict[str, object]


def _ends(concern: Concern) -> Object:
    """The frames, elements and pulses; pulses count from 1."""
    return {"frames": list(concern.frames) or None, "elements": list(concern.elements) or None,
            "pulses": list(map(number_of, concern.pulses)) or None}


def of_damage(damage: Damage, offset: Optional[Offset]) -> Object:
    """A place of damage, or a remark."""
    return {"time": damage.at, "until": max(damage.at, damage.until), **_original(damage.at, offset), "kind": damage.kind,
            "damage": not damage.is_remark, **_ends(damage.concern), "seen": damage.seen, "step": damage.concern.step}


def of_repair(repair: Repair, offset: Optional[Offset]) -> Object:
    """A repair that is proposed, or what is left to the user."""
    return {"time": repair.at, "until": max(repair.at, repair.until), **_original(repair.at, offset),
            "kind": repair.kind, "repair": bool(repair.edits), "undecided": bool(repair.undecided or repair.guesses),
            **_ends(repair.concern),
            "why": list(repair.comments), "script": list(repair.edits), "step": repair.concern.step, "off": repair.off}


def _original(at: int, offset: Optional[Offset]) -> Object:
    """The time in what the track was cut out of, in microseconds, with all digits."""
    if offset is None:
        return {}
    whole, rest = divmod(offset.femtoseconds, 10 ** 9)
    digits = ("%09d" % rest).rstrip("0")
    return {"original": "%d%s" % (at + whole, "." + digits if digits else "")}


def json_lines(objects: Sequence[Object]) -> str:
    """An object a line."""
    return "".join(json.dumps(each, ensure_ascii=True) + "\n" for each in objects)


def damages_as_json(found: Sequence[Damage], offset: Optional[Offset]) -> str:
    return json_lines([of_damage(each, offset) for each in found])


def repairs_as_json(script: Sequence[Repair], offset: Optional[Offset]) -> str:
    return json_lines([of_repair(each, offset) for each in script])
