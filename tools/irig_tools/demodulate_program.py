"""The program irig_demodulate."""
from __future__ import annotations

from contextlib import ExitStack
from dataclasses import replace
from typing import IO, Callable, Optional, Union

from .aside import Aside
from .carrier import CARRIERS, Carrier
from .command import kept, run
from .dump_offset import Offset
from .ending import ALL_RIGHT, FOUND, Usage, complain
from .layout import INTERVAL
from .levels import Levels
from .options import OUTPUT, Command, Given, Option, a_number, whole
from .output import check_apart, output
from .samples import MICROSECONDS, RAW, Samples
from .table import Steps, Table
from .texts import counted
from .which_column import AUTO, which_column


CARRIER_FORMAT = Option("--format", "A|B|E", "the format of code on a carrier (10 kHz, 1 kHz, 100 Hz); B if it is not given",
                        choices=("A", "B", "E", "G"))
CARRIER = Option("--carrier", "HERTZ", "another carrier: 1000 for format E", whole(1))
LEVEL = Option("--level", about="the code is not on a carrier: the samples are its level")
THRESHOLD = Option("--threshold", "N", "with --level: low and high that are no further apart are noise; if it is not "
                   "given, a thousandth of the whole range of integers of 16 bits or more, and else 0", a_number)
CHANNEL = Option("--channel", "N", "the channel of the WAV file, from 1", whole(1))
SWAP = Option("--swap", about="the recorder swapped plus and minus; code on a carrier shows it if neither this nor "
              "--no-swap is given")
NO_SWAP = Option("--no-swap", about="the recorder did not swap plus and minus")
KIND = Option("--raw", "KIND", "u8, s8, s16, s24, s32: integers; f32, f64: floats; with be at the end, as s16be, the "
              "highest byte is first; text: a number a line", choices=(*RAW, "text"))
RATE = Option("--rate", "HERTZ", "the samples in a second, with --raw or --table", whole(1))
TABLE = Option("--table", about="SAMPLES is a table of an oscilloscope or a logic analyser, as CSV")
TIME_COLUMN = Option("--time-column", "NAME", "the column of the times, by its head or its number, from 1")
COLUMN = Option("--column", "NAME", "the column of the levels or volts; auto looks for the one that has time code")
SAMPLES = Option("--samples", "FILE", "also writes what was recorded next to the code, for irig_time: a line for each sample of the other "
                 "channels, or of the other columns, with its time in the dump in microseconds, and a tab before each value")
COMMAND = Command("irig_demodulate", ("SAMPLES",), """\
Makes a dump of recorded samples of IRIG 200-04 time code. SAMPLES is a WAV file
(also WAVE_FORMAT_EXTENSIBLE, RF64 and W64) of integers or floats, or with --raw
numbers without a head, or one a line, or with --table rows of numbers; - is
standard input. What was recorded next to the code gets its time of day by

  irig_demodulate --samples data.txt rec.wav > track.vcd
  irig_time track.vcd < data.txt        once irig_mend has repaired the track
""", (CARRIER_FORMAT, CARRIER, LEVEL, THRESHOLD, CHANNEL, SWAP, NO_SWAP, KIND, RATE, TABLE, TIME_COLUMN,
      COLUMN, SAMPLES, OUTPUT), """\
The status is 0 if pulses were found, 1 if there are none, 2 if the samples were
not read, and 70 if memory ran out or the tool has a defect.
""")
DUMP_HEAD = "$timescale 1 us $end\n%s$scope module irig $end\n$var wire 1 ! irig $end\n$upscope $end\n$enddefinitions $end\n" \
            "#0\n$dumpvars\n0!\n$end\n"
MOST_GAPS = 20  # that are named
Demodulator = Union[Levels, Carrier, Steps]
ENOUGH = 0.9  # of the pulses that a format has in that time
# what to do if no pulse is found
ADVICE = {Carrier: "if the code is not on a carrier but a level, use --level",
          Levels: "if the code is on a carrier, leave out --level; low and high have to be further apart than --threshold",
          Steps: "the column has no 1; --column names another"}


def check_options(given: Given) -> None:
    """Refuses options that exclude each other, and those that another one needs: none is left out in silence."""
    for one, other in ((SWAP, NO_SWAP), (LEVEL, CARRIER), (RATE, TIME_COLUMN)):
        if given.has(one) and given.has(other):
            raise Usage("%s and %s exclude each other" % (one.name, other.name))
    if given.has(TABLE) and (given.has(KIND) or given.has(CHANNEL)):
        raise Usage("--table has no --raw and no --channel; --column names a column")
    if given.has(KIND) and given.has(SAMPLES):
        raise Usage("--samples is for sound files and tables; --raw has one channel")
    if given.has(KIND) and given.has(CHANNEL):
        raise Usage("--channel is for sound files; --raw has one channel")
    if not given.has(TABLE) and (given.has(TIME_COLUMN) or given.has(COLUMN)):
        raise Usage("--time-column and --column need --table")
    if given.has(RATE) and not given.has(KIND) and not given.has(TABLE):
        raise Usage("--rate needs --raw or --table; a sound file has its own")
    if given.values.get(THRESHOLD.name) is not None and not given.has(LEVEL):
        raise Usage("--threshold needs --level")


def table_of(given: Given, aside: Optional[Aside]) -> Table:
    swapped, volts = given.has(SWAP) and given.has(LEVEL), any(map(given.has, (LEVEL, CARRIER_FORMAT, CARRIER)))
    return Table(given.names[0], given.text(TIME_COLUMN), given.text(COLUMN), given.number(RATE) or 0, swapped, volts, aside)


def reader_of(given: Given, aside: Optional[Aside] = None) -> Demodulator:
    if not given.has(TABLE):
        values = given.names[0], given.number(CHANNEL) or 1, given.text(KIND) or "", given.number(RATE) or 0
        return reader_of_samples(given, lambda swapped: Samples(*values, swapped, aside))
    table = table_of(given, aside)
    return Steps(table, given.has(SWAP)) if table.is_levels else reader_of_samples(given, lambda _: table)


def reader_of_samples(given: Given, samples: Callable[[bool], Samples]) -> Demodulator:
    name = given.text(CARRIER_FORMAT) or "B"
    if given.has(LEVEL):
        threshold = given.values.get(THRESHOLD.name)
        return Levels(samples(given.has(SWAP)), threshold)
    if name not in CARRIERS:
        raise Usage("--format G is read as a level, with --level; on a carrier it is A, B or E")
    known = given.has(SWAP) or given.has(NO_SWAP)
    hertz = given.number(CARRIER) or CARRIERS[name][0]
    return Carrier(samples(False), hertz, name, given.has(SWAP) if known else None)


def say_gaps(reader: Demodulator) -> None:
    """Names the stretches without a signal."""
    what = "carrier" if isinstance(reader, Carrier) else "signal"
    for gap in reader.gaps[:MOST_GAPS]:
        start, end = (reader.samples.at(place) / MICROSECONDS for place in gap)
        say("no %s from %.3f to %.3f seconds: no pulse is there" % (what, start, end))
    if len(reader.gaps) > MOST_GAPS:
        say("and %d such stretches more" % (len(reader.gaps) - MOST_GAPS))


def remark(reader: Demodulator) -> None:
    """Says what was found out about plus and minus."""
    if isinstance(reader, Carrier) and reader.asked:
        way = reader.ways[0]
        if not reader.chosen:
            say("nothing shows whether plus and minus are swapped; if they are, use --swap")
        elif way.swapped:
            text = "plus and minus are swapped, as %d of %d amplitude steps show; this is corrected"
            say(text % (way.sharp, way.steps))


def say_few(name: str, pulses: int, seconds: float) -> None:
    """Says so if there are far fewer pulses than a format has in that time."""
    wanted = round(seconds * 1000000 / INTERVAL[name])
    if pulses < ENOUGH * wanted:
        text = "format %s has %d pulses in that time, so %d are missing: silence, noise, another format (--format), or a carrier "
        say((text + "that is off by more than 8 %% (--carrier HERTZ sets another)") % (name, wanted, wanted - pulses))


def say(text: str) -> None:
    complain(text, COMMAND.name)


def write_dump(reader: Demodulator, out: IO[bytes]) -> int:
    """Writes the edges as a dump: the number of pulses. It has the times of the table, if they begin as a dump can."""
    samples = reader.samples
    out.write((DUMP_HEAD % ("" if samples.begun == samples.start else subtracted(round(samples.start)))).encode())
    pulses = 0
    for place, level in reader.edges():
        pulses += level
        out.write(b"#%d\n%d!\n" % (round(samples.at(place)), level))
    out.write(b"#%d\n" % round(samples.at(reader.length)))
    return pulses


def subtracted(first: int) -> str:
    """Says that the first time of a table is the 0 of the dump; the comment that says it there, if it is one after 0."""
    if first < 0:
        say("the times begin %d microseconds before 0, and the dump at 0: add that to the times of data that goes with it" % -first)
        return ""
    say("%d microseconds were subtracted from all times; a comment in the new dump has it" % first)
    return Offset(first, "us").comment() + "\n"


def work(given: Given) -> int:
    check_apart(given.names[0], [(each.name, given.text(each)) for each in (OUTPUT, SAMPLES)], not given.has(OUTPUT))
    check_options(given)
    if not given.has(TABLE) or given.text(COLUMN) != AUTO:
        return demodulate(given)
    with kept(given.names[0]) as path:
        return demodulate(with_column(replace(given, names=[path])))


def with_column(given: Given) -> Given:
    """What is given, with the column that has time code, and how it is read if that is not given."""
    found = which_column(given.names[0], given.text(TIME_COLUMN), given.number(RATE) or 0)
    say(found.text)
    values = COMMAND.parse([*found.words, given.names[0]]).values
    known = {name: value for name, value in given.values.items() if value not in (None, False) and name != COLUMN.name}
    is_told = any(map(given.has, (LEVEL, CARRIER, CARRIER_FORMAT)))
    return replace(given, values={**given.values, **({COLUMN.name: values[COLUMN.name]} if is_told else values), **known})


def demodulate(given: Given) -> int:
    with ExitStack() as outputs:
        aside = Aside(outputs.enter_context(output(given.text(SAMPLES)))) if given.has(SAMPLES) else None
        reader = reader_of(given, aside)
        pulses = write_dump(reader, outputs.enter_context(output(given.text(OUTPUT))))
    if aside:
        say("%s has %s: microseconds, then %s" % (given.text(SAMPLES), counted(aside.count, "line"), ", ".join(aside.names)))
    if pulses:
        remark(reader)
    say_gaps(reader)
    for note in reader.samples.notes:
        say(note)
    seconds = (reader.samples.at(reader.length) - reader.samples.begun) / MICROSECONDS
    say("%d pulses in %.3f seconds" % (pulses, seconds))
    if isinstance(reader, Carrier):
        say_few(given.text(CARRIER_FORMAT) or "B", pulses, seconds)
    if not pulses:
        say(ADVICE[type(reader)])
    return ALL_RIGHT if pulses else FOUND


def main() -> int:
    return run(COMMAND, work)
