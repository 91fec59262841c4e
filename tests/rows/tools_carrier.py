"""Signals on a carrier, made at random with a seed: the frames and the rises that irig_demodulate finds."""
import io
import math
import os
import random
import re
import statistics
import struct
import subprocess
import wave
from array import array

from cases import case
from irig_tools import carrier
from reference import timecode
from rows.in_process import run
from rows.tools_what import track

CARRIER = {"A": 10000, "B": 1000, "E": 100}


def signal(kind, rng, rate, hertz, ratio, noise, drift, fade, frames):
    """16-bit samples of some frames, and the true rises in microseconds."""
    edges, length = track(kind, frames)
    clock, start = 1 + drift, rng.random() * timecode.INTERVAL[kind]
    rises, values, place, level = [start + time for time, up in edges if up], array("h"), 0, 0
    count = int((length + start) * rate / 1000000)
    for number in range(count):
        time = number * 1000000 / rate * clock - start
        while place < len(edges) and edges[place][0] <= time:
            level = edges[place][1]
            place += 1
        height = 10000 * (1 if level else 1 / ratio) * (1 - fade * number / count)
        wave_value = height * math.sin(2 * math.pi * hertz * time / 1000000)
        values.append(int(wave_value + rng.gauss(0, noise * 10000) + 700))
    return values, [time / clock for time in rises]


def wav(values, rate, size=2, channels=1):
    file = io.BytesIO()
    with wave.open(file, "wb") as sound:
        sound.setnchannels(channels)
        sound.setsampwidth(size)
        sound.setframerate(rate)
        sound.writeframes(values if isinstance(values, bytes) else values.tobytes())
    return file.getvalue()


def rises_of(dump):
    time, found = 0, []
    for line in dump.decode().split("\n"):
        if line.startswith("#"):
            time = int(line[1:])
        elif line == "1!":
            found.append(time)
    return found


def fine_lines(dump, kind):
    """The words of each frame that the editor reads as fine."""
    path = os.path.join("/proc/self/fd", str(memory(dump)))
    done = subprocess.run([os.environ["IRIG_ED"], "--format", kind, "--out", "/dev/null", path], input=b"frames\n",
                          stdout=subprocess.PIPE, check=False, close_fds=False)
    os.close(int(path.rpartition("/")[2]))
    return [line.split() for line in done.stdout.decode().splitlines() if line.endswith(" fine")]


def fine(dump, kind):
    """How many frames the editor reads as fine."""
    return len(fine_lines(dump, kind))


def memory(data):
    number = os.memfd_create("dump", 0)
    os.write(number, data)
    os.lseek(number, 0, 0)
    return number


def error_of(dump, rises, hertz):
    """The middle error of the first rises in cycles of the carrier."""
    found = rises_of(dump)
    errors = [min(abs(rise - other) for other in found) for rise in rises[:200]] if found else [1e9]
    return statistics.median(errors) * hertz / 1000000


def measured(kind, seed, frames, rate, hertz=0):
    """Fine frames and the error of a signal, and of the same one with plus and minus swapped; whether that was seen."""
    rng = random.Random("%s %d" % (kind, seed))
    hertz = hertz or CARRIER[kind]
    values, rises = signal(kind, rng, rate, hertz, rng.uniform(3, 6), rng.uniform(0, 0.07), rng.uniform(-2e-4, 2e-4),
                           rng.uniform(0, 0.4), frames)
    words, results = ["--format", kind, "--carrier", str(hertz), "-"], []
    for swapped in (False, True):
        data = array("h", [-value for value in values]) if swapped else values
        _, dump, said = run("irig_demodulate", words, wav(data, rate))
        seen = "plus and minus are swapped, as" in said if swapped else "swapped" not in said
        results.append((fine(dump, kind), error_of(dump, rises, hertz), seen))
    return results


# format, samples a second, carrier, frames, signals
RATES = (("B", 8000, 0, 3, 6), ("B", 44100, 0, 3, 1), ("B", 48000, 0, 3, 1), ("A", 48000, 0, 6, 5),
         ("A", 96000, 0, 6, 2), ("E", 8000, 0, 1, 3), ("E", 8000, 1000, 1, 2))


def rates():
    """At least 99 of 100 frames are right, and the middle error of the rises is at most a fiftieth of a cycle.
    Plus and minus are seen in every signal."""
    frames = good = signals = known = 0
    errors = []
    for kind, rate, hertz, many, count in RATES:
        for seed in range(count):
            for right, error, seen in measured(kind, seed, many, rate, hertz):
                frames, good, signals, known = frames + many, good + right, signals + 1, known + seen
                errors.append(error)
    held = good >= 0.99 * frames and max(errors) <= 0.02 and known == signals
    if not held:
        print("FAILED irig_demodulate: %d of %d frames, worst middle error %.4f, plus and minus seen in %d of %d"
              % (good, frames, max(errors), known, signals))
    return held


def filtered(values, rate, hertz):
    """A signal after a filter that takes out what is below a frequency: 12 decibels an octave."""
    turn = 2 * math.pi * hertz / rate
    wide, middle = math.sin(turn) / math.sqrt(2), math.cos(turn)
    past, result = (0.0, 0.0, 0.0, 0.0), array("h")
    for value in values:
        one, two, last, before = past
        new = ((1 + middle) * (value - 2 * one + two) / 2 + 2 * middle * last - (1 - wide) * before) / (1 + wide)
        past = value, one, new, last
        result.append(round(new))
    return result


def polarity():
    """The options, a filter that hides plus and minus or does not, and a recording that is too short to show them."""
    values, rises = signal("B", random.Random(4), 8000, 1000, 3, 0.02, 1e-4, 0.1, 2)
    other = array("h", [-value for value in values])
    seen, hidden, none = "plus and minus are swapped, as", "nothing shows whether plus and minus", ""
    results = []
    # name, options, samples, what is said, error of the rises in cycles
    for name, words, data, text, wanted in (
            ("seen", [], other, seen, 0), ("--swap", ["--swap"], other, none, 0),
            ("--no-swap", ["--no-swap"], other, none, 0.5), ("not swapped, --no-swap", ["--no-swap"], values, none, 0),
            ("not swapped, --swap", ["--swap"], values, none, 0.5),
            ("after silence", [], array("h", [700] * 99999) + other, seen, None),
            ("a filter at 50 Hz", [], filtered(other, 8000, 50), seen, 0),
            ("a filter at 300 Hz", [], filtered(values, 8000, 300), hidden, None),
            ("a filter at 300 Hz, swapped", [], filtered(other, 8000, 300), hidden, None),
            ("5 pulses", [], values[:500], hidden, None)):
        status, dump, said = run("irig_demodulate", [*words, "-"], wav(data, 8000))
        error = error_of(dump, rises, 1000)
        held = status == 0 and (text in said if text else "swapped" not in said)
        held = held and (wanted is None or abs(error - wanted) < 0.02)
        results.append(held)
        if not held:
            print("FAILED irig_demodulate, %s: status %d, error %.3f %s" % (name, status, error, said))
    return results


def cycles_of(heights, start=0):
    """Samples of a carrier of 1 kHz, eight in a cycle, with a height for each cycle."""
    return array("h", [round(height * math.sin(math.pi / 4 * (place + start))) for height in heights
                       for place in range(8)])


USUAL = [18000, 18000, 6000]
# name, the cycle before a pulse and the pulse, in each or in one of them; its first cycle and its length in cycles
STEPS = (
    ("above the middle", 6000, [12600, 18000, 18000, 18000, 18000], True, 0, 5),
    ("below the middle", 6000, [11400, 18000, 18000, 6000, 6000], True, 1, 2),
    ("an end at its place, above the middle", 6000, [18000, 12600, 6000], True, 0, 2),
    ("an end a cycle late, above five eighths", 6000, [18000, 18000, 13800], True, 0, 3),
    ("an end a cycle late, below that", 6000, [18000, 18000, 13200], True, 0, 2),
    ("a rise a cycle early, above three quarters", 15600, USUAL, False, -1, 3),
    ("a rise a cycle early, below that", 14400, USUAL, False, 0, 2),
    ("a rise a cycle late, below a quarter", 6000, [8400, 18000, 6000], False, 1, 1),
    ("a rise a cycle late, above that", 6000, [9600, 18000, 6000], False, 0, 2),
    ("a dip in a pulse", 6000, [18000, 11000, 18000, 18000, 18000], True, 0, 5),
)


def steps():
    """Where pulses begin and end by the heights of the cycles; low is 6,000, high 18,000, in twenty pulses. The place of
    most rises is where a pulse begins, and 2, 5 and 8 tenths of an element later it ends."""
    results = []
    for name, before, pulse, each, first, length in STEPS:
        heights = []
        for number in range(20):
            here = (before, pulse) if each or number == 10 else (6000, USUAL)
            heights += [6000] * 4 + [here[0], *here[1]] + [6000] * (5 - len(here[1]))
        status, dump, said = run("irig_demodulate", ["--no-swap", "-"], wav(cycles_of(heights), 8000))
        begun, wide = 105000 + 1000 * first, 1000 * length
        found = edges_of(dump)
        good = status == 0 and len(found) == 40 and abs(found[20][0] - begun) < 60 and abs(found[21][0] - begun - wide) < 60
        good or print("FAILED irig_demodulate, %s: %s, not %s: %s" % (name, found[20:22], (begun, begun + wide), said))
        results.append(good)
    return results


def edges_of(dump):
    time, found = 0, []
    for line in dump.decode().partition("0!\n$end\n")[2].splitlines():
        if line.startswith("#"):
            time = int(line[1:])
        else:
            found.append((time, int(line[0])))
    return found


def beginning():
    """A pulse that begins with the recording begins at 0; if a sample of its first cycle is missing, with the next."""
    heights = ([18000] * 8 + [6000] * 2 + [18000] * 5 + [6000] * 5) * 10
    results = []
    for start in (0, 1):
        _, dump, said = run("irig_demodulate", ["--no-swap", "-"], wav(cycles_of(heights)[start:], 8000))
        first = edges_of(dump)[:2]
        wanted = [(0, 1), (8000, 0)] if not start else [(875, 1), (7875, 0)]
        results.append(first == wanted)
        results[-1] or print("FAILED irig_demodulate, the beginning without %d samples: %s %s" % (start, first, said))
    return results


def ratios():
    """A high amplitude of less than 1.6 times the low one is no code, one of more is; a carrier alone is none."""
    results = []
    for ratio, good in ((1.0, False), (1.5, False), (1.7, True), (2.4, True)):
        heights = [8000 * (ratio if place % 10 < 4 else 1) for place in range(1000)]
        status, dump, _ = run("irig_demodulate", ["--no-swap", "-"], wav(cycles_of(heights), 8000))
        results.append((status, bool(rises_of(dump))) == (0 if good else 1, good))
        results[-1] or print("FAILED irig_demodulate, a ratio of %.1f: status %d" % (ratio, status))
    return results


def shares():
    """Three quarters of the steps have to be sharp, and there have to be 20."""
    results = []
    for steps_seen, sharp, known in ((60, 45, True), (60, 44, False), (60, 36, False), (20, 15, True), (19, 19, False)):
        reader = carrier.Carrier(_Raw(8000), 1000)
        for way in reader.ways:
            way.steps, way.sharp = steps_seen, sharp if way.swapped else 0
        list(reader._choose(0, 0))
        results.append(reader.chosen == known and reader.ways[0].swapped == known)
        results[-1] or print("FAILED irig_demodulate, %d of %d steps are sharp" % (sharp, steps_seen))
    return results


class _Raw:
    """Samples with a rate and nothing in them."""

    def __init__(self, rate):
        self.rate = rate


def slope():
    """If the clock is off by 200 parts in a million, no rise is off by more than a fiftieth of a cycle."""
    values, rises = signal("B", random.Random(7), 8000, 1000, 4, 0, 2e-4, 0, 3)
    found = rises_of(run("irig_demodulate", ["--no-swap", "-"], wav(values, 8000))[1])
    worst = max(min(abs(rise - other) for other in found) for rise in rises[5:-5])
    good = len(found) == len(rises) and worst <= 20
    good or print("FAILED irig_demodulate, a clock that is off: %d of %d rises, worst %d" % (
        len(found), len(rises), worst))
    return good


def no_carrier():
    """Noise, hum and silence have no pulse, and a line for each gap; a tone without code has no pulse."""
    rng, (code, rises) = random.Random(8), signal("B", random.Random(6), 8000, 1000, 3.3, 0.05, 0.03, 0, 2)
    made = {"noise": [rng.gauss(0, 3000) for _ in range(16000)], "nothing": [0] * 16000,
            "hum": [4000 * math.sin(place / 25) + rng.gauss(0, 30) for place in range(16000)],
            "tone": [4000 * math.sin(0.8 * place) + rng.gauss(0, 400) for place in range(16000)]}
    results, wide = [], len(code) / 8000
    for parts, gaps, pulses in (
            (["noise"], [(0, 2)], 0), (["nothing"], [(0, 2)], 0), (["hum"], [(0, 2)], 0), (["tone"], [], 0),
            ([code, "noise"], [(wide, wide + 2)], 1), (["noise", code], [(0, 2)], 1), (["hum", code], [(0, 2)], 1),
            ([code, "nothing", code], [(wide, wide + 2)], 2)):
        values = array("h", [round(value) for part in parts for value in (made[part] if isinstance(part, str) else part)])
        status, dump, said = run("irig_demodulate", ["--no-swap", "-"], wav(values, 8000))
        told = [tuple(map(float, pair)) for pair in re.findall(r"no carrier from ([0-9.]+) to ([0-9.]+) seconds", said)]
        near = len(told) == len(gaps) and all(abs(a - b) < 0.05 for one, two in zip(told, gaps) for a, b in zip(one, two))
        found = len(rises_of(dump))
        good = near and status == (0 if pulses else 1) and abs(found - pulses * len(rises)) <= pulses
        good or print("FAILED irig_demodulate, %s: %d pulses, %s" % (parts if not pulses else "code", found, said))
        results.append(good)
    return results


def few():
    """Far fewer pulses than the format has are reported: a carrier that is off, or silence; a sound one has no such line."""
    results = []
    for name, drift, words, silence, missing in (("sound", 1e-4, [], 0, False), ("off", 5e-2, [], 0, False),
                                                 ("far off", 0.11, [], 0, True),
                                                 ("far off, and named", 0.11, ["--carrier=1110"], 0, False),
                                                 ("silence", 0, [], 9000, True)):
        values, _ = signal("B", random.Random(5), 8000, 1000, 3.3, 0.01, drift, 0, 3)
        said = run("irig_demodulate", [*words, "-"], wav(values + array("h", [0] * silence), 8000))[2]
        results.append(("are missing: silence, noise, another format (--format), or a carrier that is off" in said) == missing)
        results[-1] or print("FAILED irig_demodulate, few pulses, %s: %s" % (name, said))
    return results


def hysteresis():
    """A level that dips below its middle, and not below 0.4 of the way, keeps its pulse; so does one that overshoots."""
    results = []
    for name, dip, low in (("a dip", 4500, 0), ("a rise in a gap", 9000, 5000)):
        values = array("h", [0] * 8000)
        for place in range(10):
            values[800 * place + 80:800 * place + 240] = array("h", [9000] * 160)
            values[800 * place + 120] = dip
            values[800 * place + 400] = low
        status, dump, said = run("irig_demodulate", ["--level", "-"], wav(values, 8000))
        results.append(status == 0 and rises_of(dump) == [100000 * place + 9938 for place in range(10)])
        results[-1] or print("FAILED irig_demodulate --level, %s: %s %s" % (name, rises_of(dump)[:4], said))
    return results


def sharp():
    """Between a sample that is low and one that is high an edge is half-way, whatever the noise; else the two samples say where."""
    rng = random.Random(87)
    values = array("h", [0 if number % 800 < 80 or number % 800 >= 240 else 9000 for number in range(8000)])
    noisy = array("h", [value + round(rng.gauss(0, 200)) for value in values])
    slow = array("h", values)
    slow[80::800] = array("h", [6000] * 10)  # the middle is at three quarters of the way there
    results = []
    for name, samples, wanted in (("noise", noisy, 9938), ("a slow edge", slow, 9969)):
        status, dump, said = run("irig_demodulate", ["--level", "-"], wav(samples, 8000))
        results.append(status == 0 and rises_of(dump) == [100000 * place + wanted for place in range(10)])
        results[-1] or print("FAILED irig_demodulate --level, sharp edges, %s: %s %s" % (name, rises_of(dump)[:4], said))
    return results


def same(name, words, data, true):
    """Whether other samples of one signal give its rises, to 300 microseconds."""
    status, dump, said = run("irig_demodulate", [*words, "-"], data)
    found = rises_of(dump)
    held = status == 0 and len(found) == len(true) and all(abs(a - b) < 300 for a, b in zip(found, true))
    if not held:
        print("FAILED irig_demodulate, %s: status %d, %d rises of %d %s" % (name, status, len(found), len(true), said))
    return held


def forms():
    """The same signal in every form that is read."""
    values, rises = signal("B", random.Random(9), 8000, 1000, 3.3, 0.01, 0, 0, 2)
    whole = values.tobytes()
    small = bytes(value // 256 + 128 for value in values)
    wide = b"".join(b"\0" + whole[at:at + 2] for at in range(0, len(whole), 2))
    two = array("h", [part for value in values for part in (0, value)]).tobytes()
    swapped = array("h", [-value for value in values])
    level = array("h", [0] * 8000)
    for place in range(10):
        level[800 * place + 80:800 * place + 240] = array("h", [9000] * 160)
    text = "".join("%d\n" % value for value in values).encode()
    with_rate = ["--rate", "8000"]
    return [same("8 bits", [], wav(small, 8000, 1), rises), same("16 bits", [], wav(values, 8000), rises),
            same("24 bits", [], wav(wide, 8000, 3), rises),
            same("a second channel", ["--channel=2"], wav(two, 8000, 2, 2), rises),
            same("swapped", ["--swap"], wav(swapped, 8000), rises),
            same("raw", ["--raw=s16", *with_rate], whole, rises), same("raw 8", ["--raw=u8", *with_rate], small, rises),
            same("raw 24", ["--raw=s24", *with_rate], wide, rises),
            same("numbers", ["--raw=text", *with_rate], text, rises),
            same("a level", ["--level"], wav(level, 8000), [100000 * place + 10000 for place in range(10)])]


# name, the parts one after the other, the spread of the noise, options, the gaps in seconds, pulses
SILENCES = (
    ("code alone", ("code",), 30, [], [], 128),
    ("noise after code", ("code", "noise"), 30, [], [(12.8, 14.8)], 128),
    ("noise before code", ("noise", "code"), 30, [], [(0, 2)], 128),
    ("noise between", ("code", "noise", "code"), 300, [], [(12.8, 14.8)], 256),
    ("noise alone", ("noise",), 300, [], [(0, 2)], 0), ("hum alone", ("hum",), 0, [], [(0, 2)], 0),
    ("two values alone", ("bits",), 0, [], [(0, 2)], 0), ("one value alone", ("noise",), 0, [], [(0, 2)], 0),
    ("noise as high as code", ("code", "loud"), 30, [], [(12.8, 14.8)], 128),
    ("too near", ("code",), 30, ["--threshold=9500"], [(0, 12.8)], 0),
    ("far enough", ("code",), 30, ["--threshold", "8000"], [], 128),
)


def parts_of_silences(rng):
    """Samples of each part by its name: code in 25 stretches; of the others, 2 seconds."""
    code = []
    for place in range(128):
        code += [0] * 80 + [9000] * (160 if place % 3 else 400) + [0] * (560 if place % 3 else 320)
    places = range(16000)
    return {"code": code, "noise": [0 for _ in places], "hum": [3000 * math.sin(place / 25) for place in places],
            "bits": [rng.getrandbits(1) for _ in places], "loud": [rng.gauss(0, 4000) for _ in places]}


def silences():
    """Noise before, between and after code: the pulses of the code and no other, and a line for each gap."""
    rng, results = random.Random(3), []
    for name, parts, spread, words, gaps, pulses in SILENCES:
        made = parts_of_silences(rng)
        values = [value for part in parts for value in made[part]]
        data = array("h", [round(value + rng.gauss(0, spread)) for value in values])
        status, dump, said = run("irig_demodulate", ["--level", *words, "-"], wav(data, 8000))
        told = [tuple(map(float, pair)) for pair in re.findall(r"no signal from ([0-9.]+) to ([0-9.]+) seconds", said)]
        near = len(told) == len(gaps) and all(abs(a - b) <= 0.6 for one, two in zip(told, gaps) for a, b in zip(one, two))
        good = (status, len(rises_of(dump))) == (0 if pulses else 1, pulses) and near
        good or print("FAILED irig_demodulate --level, %s: %d pulses, %s" % (name, len(rises_of(dump)), said))
        results.append(good)
    return results


def stretches():
    """An edge whose middle is crossed at the end of a stretch has its time."""
    values = array("h", [0] * 12000)
    for place in range(20):
        values[500 * place + 95:500 * place + 296] = array("h", [9000] * 201)
        values[500 * place + 95] = 5200  # the middle is crossed before this sample, 0.6 after it
    status, dump, _ = run("irig_demodulate", ["--level", "-"], wav(values, 8000))
    wanted = [125 * (500 * place + 94 + 4500 / 5200) for place in range(20)]
    good = status == 0 and len(rises_of(dump)) == 20
    good = good and all(abs(one - two) <= 1 for one, two in zip(rises_of(dump), wanted))
    good or print("FAILED irig_demodulate --level, a crossing at the end of a stretch: %s" % rises_of(dump)[:9])
    return good


GUID = b"\x00\x00\x00\x00\x10\x00\x80\x00\x00\xaa\x00\x38\x9b\x71"
W64 = b"\xf3\xac\xd3\x11\x8c\xd1\x00\xc0\x4f\x8e\xdb\x8a"  # the end of the names of its chunks but the first


def riff(data, tag=1, size=2, channels=1, said=None, head=b"RIFF", extensible=False, before=b"", rate=8000):
    """A sound file of data; `said` is the size that its head has."""
    order = ">" if head == b"RIFX" else "<"
    form = struct.pack(order + "HHIIHH", 0xfffe if extensible else tag, channels, rate, rate * size * channels,
                       size * channels, 8 * size)
    form += struct.pack("<HHIH", 22, 8 * size, 4, tag) + GUID if extensible else b""
    size = len(data) if said is None else said
    chunks = before + b"fmt " + struct.pack(order + "I", len(form)) + form + b"data" + struct.pack(order + "I", size)
    return head + struct.pack(order + "I", min(4 + len(chunks) + size, 2**32 - 1)) + b"WAVE" + chunks + data


def w64(data, said=None):
    """A file of Sony's form with sizes of 64 bits; `said` is the size that its head has."""
    form = struct.pack("<HHIIHH", 1, 1, 8000, 16000, 2, 16)
    fact = b"fact" + W64 + struct.pack("<Q", 27) + b"abc" + b"\0" * 5
    chunks = fact + b"fmt " + W64 + struct.pack("<Q", 24 + 16) + form + b"data" + W64 + struct.pack(
        "<Q", 24 + len(data) if said is None else said)
    return (b"riff\x2e\x91\xcf\x11\xa5\xd6\x28\xdb\x04\xc1\0\0" + struct.pack("<Q", 40 + len(chunks) + len(data))
            + b"wave" + W64 + chunks + data)


def kinds_of_samples(values):
    """Files, and raw samples, of each kind of number."""
    whole, raw = values.tobytes(), ["--rate=8000", "--raw"]
    swapped = array("h", values)
    swapped.byteswap()
    wide = b"".join(b"\0" + whole[at:at + 2] for at in range(0, len(whole), 2))
    floats = array("f", [value / 32768 for value in values]).tobytes()
    double = array("d", [value / 32768 for value in values]).tobytes()
    long = array("i", [value << 16 for value in values]).tobytes()
    two = array("h", [part for value in values for part in (0, value)]).tobytes()
    return (
        ("32 bits", [], riff(long, size=4)), ("float 32", [], riff(floats, 3, 4)), ("float 64", [], riff(double, 3, 8)),
        ("extensible 16", [], riff(whole, extensible=True)), ("extensible 24", [], riff(wide, size=3, extensible=True)),
        ("extensible float", [], riff(floats, 3, 4, extensible=True)), ("the highest byte first", [], riff(
            swapped.tobytes(), head=b"RIFX")),
        ("two channels, extensible", ["--channel=2"], riff(two, channels=2, extensible=True)),
        ("raw f64be", [*raw, "f64be"], struct.pack(">%dd" % len(values), *(value / 32768 for value in values))),
        ("raw s32be", [*raw, "s32be"], struct.pack(">%di" % len(values), *(value << 16 for value in values))),
        ("raw f32", [*raw, "f32"], floats), ("raw f64", [*raw, "f64"], double), ("raw s32", [*raw, "s32"], long),
        ("raw s16be", [*raw, "s16be"], swapped.tobytes()),
        ("raw s24be", [*raw, "s24be"], b"".join(wide[at:at + 3][::-1] for at in range(0, len(wide), 3))))


def heads_and_chunks(whole):
    """Files whose heads have other sizes than the data, and files with other chunks."""
    ds64, ds_0, ds_large = (b"ds64" + struct.pack("<IQQQI", 28, 0, size, 0, 0) for size in (len(whole), 0, 10**12))
    notes = b"LIST" + struct.pack("<I", 3) + b"abc\0"
    after = b"LIST" + struct.pack("<I", 4000) + whole[:4000]  # more of the signal
    return (
        ("RF64", [], riff(whole, said=2**32 - 1, head=b"RF64", before=ds64) + after), ("W64", [], w64(whole)),
        ("W64, a size of 0", [], w64(whole, 0)), ("W64, too large", [], w64(whole, 10**12)),
        ("W64, not known", [], w64(whole, 2**64 - 1)), ("W64, an odd end", [], w64(whole + b"a", 0)),
        ("RF64, a size of 0", [], riff(whole, said=2**32 - 1, head=b"RF64", before=ds_0)),
        ("RF64, too large", [], riff(whole, said=2**32 - 1, head=b"RF64", before=ds_large)),
        ("a size of 0", [], riff(whole, said=0)), ("a size that is not known", [], riff(whole, said=2**32 - 1)),
        ("a size that is too large", [], riff(whole, said=len(whole) + 999)), ("chunks before", [], riff(whole, before=notes)),
        ("a chunk after", [], riff(whole) + after), ("an odd end", [], riff(whole + b"a", said=0)))


def sound_files():
    """The same signal in every form of a sound file."""
    values, rises = signal("B", random.Random(9), 8000, 1000, 3.3, 0.01, 0, 0, 2)
    return [same(name, words, data, rises) for name, words, data in (*kinds_of_samples(values), *heads_and_chunks(values.tobytes()))]


def no_sound():
    """What is no sound file that is read, and what is said of it."""
    results = []
    for data, status, text in (
            (b"fLaC\0\0", 2, "'flac -dc FILE | irig_demodulate -' reads it"), (b"OggS", 2, "'sox FILE -t wav - |"),
            (b"\x25\xeb\0\1", 2, "IRIG 106 Chapter 10"), (b"$date now $end", 2, "'irig_what FILE' finds"),
            (b"hello", 2, "--raw reads samples without a head, --table a table"), (riff(b"abcd", 2), 2, "in the form 2; 'sox FILE"),
            (riff(b"abcd", rate=0), 2, "says that it has 1 channel and 0 samples in a second; --raw"),
            (riff(b"")[:40], 2, "has no samples: its chunk of data is missing"),
            (riff(b"").replace(b"\x10\0\0\0", b"\4\0\0\0"), 2, "does not say how its samples are written"),
            (riff(b"", channels=0, size=0), 2, "says that it has 0 channels"), (riff(b"abcdefg", said=9), 1, "the file is cut off"),
            (riff(b"\0\0\1\0" * 9, said=8), 1, "has more after the samples that its head counts; 'sox --ignore-length"),
            (riff(struct.pack("<4f", 1, 2, math.nan, 3), 3, 4), 2, "is no number from -1e30 to 1e30"),
            (riff(struct.pack("<2d", 1e300, -1e300), 3, 8), 2, "is no number from -1e30 to 1e30")):
        got, _, said = run("irig_demodulate", ["-"], data)
        results.append(got == status and text in said and said.startswith("irig_demodulate: "))
        results[-1] or print("FAILED irig_demodulate of %r: %d %s" % (data[:12], got, said))
    for data in (riff(b"ab"), riff(b"abc\0", size=1, said=3), riff(b"ab") + b"LIST\4\0\0\0abcd", riff(b"a\0LIST", size=1, said=1),
                 w64(b"ab" + b"\0" * 6 + b"list", 26)):
        said = run("irig_demodulate", ["-"], data)[2]
        results.append("has more" not in said)
        results[-1] or print("FAILED irig_demodulate of %r: %s" % (data[:12], said))
    return results


def said_of():
    """What is said to do next: of options that do not fit, of several channels, and if no pulse is found."""
    silent, two = wav(array("h", [0] * 8000), 8000), wav(array("h", [0] * 16000), 8000, 2, 2)
    results = []
    for words, data, status, text in (
            (["--level", "--carrier=1000"], silent, 2, "--level and --carrier exclude each other"),
            (["--threshold=0"], silent, 2, "--threshold needs --level"),
            (["--rate=8000"], silent, 2, "--rate needs --raw or --table"),
            (["--raw=s16", "--rate=8000", "--channel=2"], b"", 2, "--channel is for sound files"),
            (["--format=G"], silent, 2, "--format G is read as a level, with --level"),
            (["--channel=3"], two, 2, "has 2 channels, and no channel 3"),
            ([], two, 1, "channel 1 of 2 was read (--channel N reads another)"),
            (["--channel=2"], two, 1, "channel 2 of 2 was read"), ([], silent, 1, "use --level"),
            (["--level"], silent, 1, "if the code is on a carrier, leave out --level; low and high have to be further apart"),
            (["--table"], b"Time [s],A\n0,0\n1,0\n", 1, "the column has no 1; --column names another"),
            (["--format=A"], silent, 2, "too few for a carrier of 10000 Hz: it needs at least 40000"),
            (["--raw=s16", "--rate=9000000"], b"\0\0", 2, "'sox FILE -r 48000 NEW.wav' makes fewer"),
            (["--raw=s16", "--rate=8000"], b"", 2, "standard input: is empty")):
        got, _, said = run("irig_demodulate", [*words, "-"], data)
        results.append((got, text in said) == (status, True))
        results[-1] or print("FAILED irig_demodulate %s: %d %s" % (words, got, said))
    return results


def refused():
    """Statuses and what is said of samples that are not read."""
    sound, silent = wav(array("h", [0] * 8000), 8000), wav(b"", 8000)
    rows = [([], sound, 1), ([], silent, 1), ([], b"", 2), ([], b"RIFF", 2), ([], sound[:30], 2),
            (["--raw=s16"], b"", 2), (["--raw=what"], b"", 2), (["--format=G"], sound, 2),
            (["--format=A"], sound, 2), (["--channel=2"], sound, 2), (["--channel=0"], sound, 2),
            (["--raw=text", "--rate=9"], b"a\n", 2), (["--raw=text", "--rate=8000"], b"1\nnan\n", 2),
            (["--raw=text", "--rate=8000", "--level"], b"1\n-inf\n", 2),
            (["--raw=text", "--rate=8000"], b"1e31\n", 2), (["--raw=text", "--rate=8000"], b"1_0\n", 2),
            (["--raw=text", "--rate=8000"], b" +1.5e0 \r\n", 1), (["--raw=text", "--rate=8000"], b"1" * 5000000, 2),
            (["--raw=text", "--rate=8000"], b"5" + b" " * 999 + b"6\n", 2),
            (["--raw=s16", "--rate=999999937"], b"0000", 2), (["--raw=s16", "--rate=8000"], b"0", 1),
            (["--raw=s16", "--rate=8000", "--level"], b"0", 1), (["--raw=s24", "--rate=8000"], b"0000", 1),
            ([], sound[:-1], 1), (["--level"], sound[:-1], 1), (["--what"], b"", 2), (["--swap", "--no-swap"], sound, 2),
            ([], wav(b"", 8000, 4), 1), (["--help"], b"", 0)]
    results = []
    for words, data, status in rows:
        got, _, said = run("irig_demodulate", [*words, "-"], data)
        results.append(got == status and "Traceback" not in said)
        if not results[-1]:
            print("FAILED irig_demodulate %s: status %d, not %d: %s" % (words, got, status, said))
    return results


def cases(_):
    """Each part by its name."""
    return [case("carrier: " + name, holds) for name, holds in (
        ("random signals", rates), ("plus and minus", polarity), ("thresholds", steps), ("the beginning", beginning),
        ("ratios", ratios), ("silence of a carrier", no_carrier), ("shares", shares),
        ("a clock that is off", slope), ("few pulses", few), ("a level that dips", hysteresis), ("sharp edges", sharp),
        ("forms of samples", forms), ("silence of a level", silences), ("stretches of a level", stretches),
        ("sound files", sound_files), ("no sound files", no_sound), ("what is said", said_of), ("what is refused", refused))]
