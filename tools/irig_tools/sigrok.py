"""sigrok's files (.sr): a packed folder with samples of logic channels, and what they are. They are made a dump."""
from __future__ import annotations

import configparser
import re
import zipfile
import zlib
from typing import IO, Dict, Iterator, List, NamedTuple, Tuple

from .digits import WHOLE
from .editor import Problem
from .heads import hertz

SAMPLE_BLOCK = 1 << 20  # bytes that are read at once
PIECE = 1 << 10  # samples that are looked at together: between two edges most of them are equal
LONGEST_METADATA = 1 << 16  # bytes of what describes the samples
SAMPLERATE = re.compile(r"([0-9.]+)\s*([kMG]?)(?:Hz)?")
TIME_UNITS = (("1 us", 10 ** 6), ("1 ns", 10 ** 9), ("1 ps", 10 ** 12))
WIDEST_SAMPLE = 8  # bytes of a sample


class Capture(NamedTuple):
    """The files of samples, the bytes of each, the samples in a second, and the names of the bits."""

    files: List[str]
    size: int
    rate: int
    names: Dict[int, str]


def dump_of(stream: IO[bytes], path: str) -> Iterator[bytes]:
    """The text of a dump of a file that can be read at any place."""
    try:
        with zipfile.ZipFile(stream) as folder:
            capture = _capture(folder, path)
            unit, many = next((unit for unit in TIME_UNITS if unit[1] % capture.rate == 0), TIME_UNITS[-1])
            yield _head(capture, unit)
            yield from _changes(folder, capture, many)
    except (zipfile.BadZipFile, zlib.error, EOFError, NotImplementedError, RuntimeError, UnicodeError, configparser.Error) as error:
        raise Problem("%s: is a ZIP archive that cannot be read: %s" % (path, error)) from error


def _capture(folder: zipfile.ZipFile, path: str) -> Capture:
    names = folder.namelist()
    if "metadata" not in names:
        raise Problem("%s: is a ZIP archive that sigrok did not write; unpack it" % path)
    with folder.open("metadata") as file:
        told = configparser.ConfigParser(interpolation=None)
        told.read_string(file.read(LONGEST_METADATA).decode())
    devices = [told[name] for name in told.sections() if name.startswith("device") and "capturefile" in told[name]]
    if not devices:
        raise Problem("%s: has no logic channels; sigrok-cli writes analog ones as CSV, for irig_demodulate --table" % path)
    device = devices[0]
    found, size = SAMPLERATE.fullmatch(device.get("samplerate", "").strip()), device.get("unitsize", "1")
    rate = hertz(*found.groups()) if found else 0
    bits = {int(key[5:]) - 1: value for key, value in device.items() if re.fullmatch("probe[1-9][0-9]?", key)}
    files = [name for name in names if re.fullmatch(re.escape(device["capturefile"]) + r"(-\d+)?", name)]
    if not rate or not WHOLE.fullmatch(size) or not 1 <= int(size) <= WIDEST_SAMPLE or not bits or not files:
        raise Problem("%s: sigrok's description of the samples lacks a rate, a size or channels" % path)
    files.sort(key=lambda name: int("0" + name[len(device["capturefile"]) + 1:]))
    bits = {bit: name for bit, name in bits.items() if bit < 8 * int(size)}
    return Capture(files, int(size), rate, bits)


def _head(capture: Capture, unit: str) -> bytes:
    lines = ["$timescale %s $end" % unit, "$scope module sigrok $end"]
    lines += ["$var wire 1 %s %s $end" % (_code_of(bit), re.sub(r"[\s$]", "_", name) or "D%d" % bit)
              for bit, name in sorted(capture.names.items())]
    return "\n".join([*lines, "$upscope $end", "$enddefinitions $end", ""]).encode()


def _code_of(bit: int) -> str:
    return chr(ord("!") + bit)


def _changes(folder: zipfile.ZipFile, capture: Capture, many: int) -> Iterator[bytes]:
    """The changes; each run of equal samples begins with one."""
    last, number = -1, 0
    bits = sorted(capture.names)
    for data in _samples(folder, capture):
        lines = []
        for place, sample in _runs(data, capture.size):
            value = int.from_bytes(sample, "little")
            if value != last:
                changed = ~0 if last < 0 else value ^ last
                lines.append("#%d " % ((number + place) * many // capture.rate) + " ".join(
                    "%d%s" % (value >> bit & 1, _code_of(bit)) for bit in bits if changed >> bit & 1))
                last = value
        number += len(data) // capture.size
        yield "\n".join([*lines, ""]).encode() or b"\n"
    yield b"#%d\n" % (number * many // capture.rate)


def _runs(data: bytes, size: int) -> Iterator[Tuple[int, bytes]]:
    """Where samples begin that are equal up to the next place, and such a sample."""
    form = re.compile(rb"(.{%d})\1*" % size, re.S)
    for begin in range(0, len(data), PIECE * size):
        piece = data[begin:begin + PIECE * size]
        first = piece[:size]
        if piece == first * (len(piece) // size):
            yield begin // size, first
        else:
            yield from (((begin + run.start()) // size, run[1]) for run in form.finditer(piece))


def _samples(folder: zipfile.ZipFile, capture: Capture) -> Iterator[bytes]:
    """The samples in whole ones."""
    rest = b""
    for name in capture.files:
        with folder.open(name) as file:
            for data in iter(lambda: file.read(SAMPLE_BLOCK), b""):
                data = rest + data
                over = len(data) % capture.size
                rest = data[len(data) - over:]
                if over < len(data):
                    yield data[:len(data) - over]
