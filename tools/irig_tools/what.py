"""Says which wires of a dump carry time code, and how to continue."""
from __future__ import annotations

import tempfile
from contextlib import ExitStack
from dataclasses import dataclass, field
from typing import IO, Dict, List, Optional, cast

from .analysis import Findings
from .damage import look
from .dump_choice import Signal, singles, wire_name, wire_text, wire_texts
from .dump_header import shown
from .editor import Editor
from .kept_wire import write_kept
from .mend import of_no_time, propose
from .opening import MOST_READ, needed_name
from .overview import lasting_of
from .proposal import Proposal, no_option
from .readings import Reading, Readings, is_read, read
from .script import Repair
from .sheet import STATES
from .search import TRIED, Found, Probe, search
from .temporary import named_if_no_room, temporary_track
from .wire import Extract, Wish, extract_all
from .with_code import lines_with_code


@dataclass
class CodeWire:
    """A wire with time code, as it was read."""

    signal: Signal
    name: str  # that all programs take
    text: str  # with its code and its path
    inverted: bool
    kind: str
    readings: Readings
    doubtful: List[str]
    places: Optional[int] = None  # of damage, if they were looked for
    script: List[Repair] = field(default_factory=list)  # that irig_mend proposes
    lasting: Dict[str, int] = field(default_factory=dict)  # for how many microseconds it is sound, damaged or lost

    @property
    def best(self) -> Optional[Reading]:
        return self.readings.best

    @property
    def fine(self) -> int:
        return self.best.fine if self.best else 0

    @property
    def led(self) -> int:
        """Frames that lead to a time together, if none is fine."""
        return self.best.led if self.best else 0

    @property
    def has_frames(self) -> bool:
        return self.fine > 0 or self.led > 0

    @property
    def expression(self) -> int:
        return self.best.expression if self.best else 2

    def first_line(self) -> str:
        return "wire %s, %s, format %s" % (self.text, "upside down" if self.inverted else "upright", self.kind)

    def lines(self) -> List[str]:
        lines = [self.first_line()]
        if not self.readings.rows:
            lines.append("  irig_ed does not read it: " + (self.readings.refused or "no answer"))
        else:
            seconds = self.readings.length / 1000000
            lines.append("  %d pulses in %.6f seconds" % (self.readings.pulses, seconds))
            lines += self._lasting_line()
        return lines + ["  " + text for text in self._rows() + self.doubtful]

    def _lasting_line(self) -> List[str]:
        """For how long it is sound; the rest is before the first frame or after the last."""
        if not self.lasting:
            return []
        rest = max(0, self.readings.length - sum(self.lasting.values()))
        parts = ["%s %.6f" % (state, self.lasting[state] / 1000000) for state in STATES]
        return ["  in seconds: %s, without frames %.6f" % (", ".join(parts), rest / 1000000)]

    def as_object(self) -> Dict[str, object]:
        """The same for a program."""
        return {
            "wire": self.name, "code": shown(self.signal.code), "path": self.signal.path, "inverted": self.inverted,
            "format": self.kind, "pulses": self.readings.pulses, "length": self.readings.length, "expression": self.expression,
            "frames": self.best.frames if self.best else 0, "fine": self.fine,
            "readings": [row.as_object() for row in self.readings.rows],
            "places": self.places, "repairs": sum(1 for repair in self.script if repair.edits),
            "remarks": sum(1 for repair in self.script if not repair.edits),
            **{state: self.lasting.get(state) for state in STATES},
            "refused": self.readings.refused or None, "notes": self.doubtful}

    def _rows(self) -> List[str]:
        """The expressions under which a frame is fine, the best first, and the others in one line."""
        chosen, rows = self.best, self.readings.rows
        fine = [row for row in rows if row.fine]
        fine.sort(key=lambda row: (row is not chosen, -row.fine, row.expression))
        texts = [row.text() for row in fine]
        others = " ".join(str(row.expression) for row in rows if not row.fine)
        if rows and not fine:
            if self.led:
                return ["no frame is fine; under expression %d %d lead to a time together" % (self.expression, self.led)]
            return ["no frame is fine under any expression; %d is only a guess" % self.expression]
        if others:
            texts.append("other expressions (%s): no frame is fine" % others)
        alike = [str(row.expression) for row in fine if row.fine == fine[0].fine]
        if len(alike) > 1:
            text = "expressions %s and %s fit equally; %s is first, because "
            text += "damaged frames have control functions" if self.readings.has_events else "it has no unused fields"
            texts.append(text % (", ".join(alike[:-1]), alike[-1], alike[0]))
        return texts


def _lasting(editor: Editor, first: Findings) -> Dict[str, int]:
    """For how long it is in each state. If some of it is upside down, the rest is seen once that is turned over."""
    if not first.partly:
        return lasting_of(first, editor.ask([]))
    inverts = [line.split() for repair in first.whole for line in repair.edits]  # `invert START END`
    turned = [(int(start), int(end)) for _, start, end in inverts]
    return lasting_of(look(editor, lambda text: None).findings, editor.ask([repair.lines() for repair in first.whole]), turned)


class What:
    """One dump of a file."""

    def __init__(self, path: str, shown_path: str, unit: str, dump: int, is_part: bool = False, is_of_sigrok: bool = False) -> None:
        """The path can be that of a part of the dump, or of a file of sigrok."""
        self.path, self.shown_path, self.unit, self.dump = path, shown_path, unit, dump
        self.is_part, self.is_of_sigrok = is_part, is_of_sigrok
        self.found: Found = search(path, unit, dump)
        self.carriers = self._read_all(self.found.probes[:MOST_READ])
        self.carriers = sorted(self.carriers, key=lambda carrier: (-carrier.fine, -carrier.led))

    def _read_all(self, probes: List[Probe]) -> List[CodeWire]:
        """What is on these wires, as they were seen in the search; those that were not kept are read again."""
        with ExitStack() as stack:
            tracks = [stack.enter_context(temporary_track()) for _ in probes]
            extracts = [self._extract(probe, track) for probe, track in zip(probes, tracks)]
            with named_if_no_room():
                left = [at for at, probe in enumerate(probes) if not write_kept(self.found, probe, extracts[at])]
                for at in left:
                    tracks[at].seek(0)
                    tracks[at].truncate()
                    extracts[at] = self._extract(probes[at], tracks[at])
                if left:
                    extract_all(self.path, self.dump, [extracts[at] for at in left])
                for track in tracks:
                    track.flush()
                for probe in self.found.probes:
                    probe.forget()
            found = [self._read(probe, track.name, extract) for probe, track, extract in zip(probes, tracks, extracts)]
        return found

    def _extract(self, probe: Probe, track: "tempfile._TemporaryFileWrapper[bytes]") -> Extract:
        return Extract(self.path, self._wish(probe), cast(IO[bytes], track))

    def _wish(self, probe: Probe) -> Wish:
        return Wish(wire_name(self.found.header, probe.signal), self.found.unit, self.dump, invert=probe.kind[1])

    def _read(self, probe: Probe, track: str, extract: Extract) -> CodeWire:
        kind, inverted = probe.kind
        texts = wire_name(self.found.header, probe.signal), wire_text(self.found.header, probe.signal)
        carrier = CodeWire(probe.signal, *texts, inverted, kind, read(track, kind), extract.report.doubtful)
        listing, carrier.readings.listing = carrier.readings.listing, None
        if carrier.fine or carrier.led:
            editor = Editor(["--format", kind, "--expression", str(carrier.expression), track])
            if listing:
                editor.knows_listing(listing, carrier.expression)
            seen: List[Findings] = []
            carrier.script = propose(editor, lambda text: None, seen=seen)
            carrier.script[:0] = of_no_time(editor, carrier.script)
            carrier.places = sum(not each.is_remark for each in look(editor, lambda text: None).damages)
            carrier.lasting = _lasting(editor, seen[0])
        return carrier

    def lines(self) -> List[str]:
        found = self.found
        lines = lines_with_code(self.carriers)
        lines += ["wire %s may carry time code, too; only %d wires are read" % (text, MOST_READ)
                  for text in wire_texts(found.header, [probe.signal for probe in found.probes[MOST_READ:]])]
        if not found.header.unit and not self.unit and found.probes:
            lines.append("the dump names no unit of time; %s makes time code of it" % found.unit)
        if found.dumps > 1:
            lines.append("the file has %d dumps, one after the other; this is number %d (--dump N reads another)" % (
                found.dumps, self.dump))
        return lines

    def unit_text(self) -> str:
        """In what unit time code was looked for."""
        named = self.unit or self.found.header.unit
        return "the unit of time is %s" % named if named else "no unit of time is named, and these were tried: " + ", ".join(TRIED)

    def sure(self) -> bool:
        """Whether just one wire of a whole file carries time code, and some frame is fine."""
        is_one = sum(each.has_frames for each in self.carriers) == 1 and len(self.found.probes) == len(self.carriers)
        return is_one and self.found.dumps == 1 and not self.found.is_cut and self.carriers[0].fine > 0

    def proposal(self) -> Proposal:
        """How to continue, for the wire with the most fine frames."""
        carrier = self.carriers[0]
        name, edits = self._wire_option(), sum(1 for repair in carrier.script if repair.edits)
        has_beside = self.is_of_sigrok and len(singles(self.found.header)) > 1
        is_read = not has_beside and (self.is_part or (not carrier.inverted if carrier.script else self._is_read(carrier, name)))
        return Proposal(self.shown_path, name, carrier.kind, carrier.expression, None if is_read else self._extraction(carrier, name),
                        carrier.places or 0, edits, len(carrier.script) - edits, self._choice(), self.is_part, has_beside)

    def _is_read(self, carrier: CodeWire, name: Optional[str]) -> bool:
        """Whether the editor reads the wire of the dump as it is; irig_mend does, if it is upright."""
        whole = not carrier.inverted and self.found.dumps == 1 and not self.unit
        return whole and self.shown_path != "-" and is_read(self.path, name, carrier.readings.pulses)

    def _choice(self) -> List[str]:
        """The options for the unit and the dump, if those of the dump do not say it."""
        words = []
        if self.unit or not self.found.header.unit:
            words.append("--timescale=" + self.found.unit.replace(" ", ""))
        if self.found.dumps > 1:
            words.append("--dump=%d" % self.dump)
        return words

    def _extraction(self, carrier: CodeWire, name: Optional[str]) -> List[str]:
        words = ["--invert"] * carrier.inverted + self._choice()
        if (name or "").startswith("--"):
            words.append("--")
        words.append(no_option(self.shown_path))
        return words + ([] if name is None else [name])

    def _wire_option(self) -> Optional[str]:
        return needed_name(self.found.header, self.carriers[0].signal)
