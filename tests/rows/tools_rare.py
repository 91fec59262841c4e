"""Rarer damage for irig_damage and irig_mend: noise in little time, clocks that were set, the end of a century, control functions
that never change or that have a rule. docs/METHOD.md has the words.

The recordings are those of the reference encoder, damaged by hand: what has to be repaired is what was damaged.
"""
import os
import random
import subprocess
import tempfile
from unittest import mock

from built import TOP
from cases import case
from irig_tools import analysis, damage, edits, mend, readings, search, spans, unread
from irig_tools.check import Check, Moved
from irig_tools.editor import Listing
from irig_tools.layout import Layout
from irig_tools.parity import rule_of
from irig_tools.script import Repair
from random_input import damages
from reference import timecode
from rows import tools
from rows.tools_parts import Said, same

WIDTHS = {"zero": 2, "one": 5, "position": 8}

MIDDAY = 43200 * 100  # hundredths of a second
LAST_OF_1999 = 730119  # day 365 of 1999
LAST_OF_2016 = 736329
OR_STOPPED = "the clock was set, or the recorder stopped"


def signal(frames, kind="B", expression=4, day=739000, begin=MIDDAY, control=lambda k: 0, parity=None):
    """Frames of time code. `control` says the control functions of each; if `parity` is (element, odd), that element makes the ones
    up to it odd in number, or even."""
    interval, pulses = timecode.INTERVAL[kind], []
    for k in range(frames):
        names = timecode.encode(kind, expression, timecode.generated(kind, (day, begin), k, control(k)))
        if parity:
            names[parity[0]] = "one" if (names[:parity[0]].count("one") + parity[1]) % 2 else "zero"
        for name in names:
            rise = interval * len(pulses)
            pulses.append([rise, rise + interval * WIDTHS[name] // 10])
    return pulses


def listed(pulses, kind="B", expression=4):
    """What the editor would print of them."""
    found, interval, layout = Listing(), timecode.INTERVAL[kind], Layout(kind, expression)
    found.length, found.kind, found.expression = pulses[-1][0] + interval, kind, expression
    found.rises, found.falls = [rise for rise, _ in pulses], [fall for _, fall in pulses]
    found.classes = "".join(layout.class_of(fall - rise) for rise, fall in pulses)
    return found


def looked_at(pulses, kind="B", expression=4, **more):
    return analysis.examine(listed(pulses, kind, expression), **more)


def wanted(findings):
    """What has to be where, in all parts."""
    return {place: name for part in findings.parts for place, name in part.faults.wanted.items()}


def said(findings):
    """All remarks, in the order of time."""
    found = findings.remarks + [each for part in findings.parts for each in part.remarks + part.faults.remarks]
    return [each.seen for each in sorted(found, key=lambda each: each.at)]


def flipped(pulses, *places):
    """A zero for each one there, and a one for each zero."""
    for place in places:
        rise, fall = pulses[place]
        pulses[place] = [rise, rise + (2000 if fall - rise == 5000 else 5000)]
    return pulses


def with_noise(rng, pulses, begin, long, many):
    """For a while the level changes at random, twice for each pulse of the noise."""
    edges = [edge for pulse in pulses for edge in pulse if not begin <= edge < begin + long]
    edges += rng.sample(range(begin, begin + long), 2 * many)
    edges = sorted(edges)
    return [list(pair) for pair in zip(edges[::2], edges[1::2])]


# noise


def slow_choice(faults, pulses, place, target):
    """Each stretch of the pulses is joined in turn: that with the fewest edits is chosen, of these the one that is off least."""
    due, width, stray = faults.track.rise_at(place), faults.width(target, place), faults.track.stray_at(place)
    found = []
    for first in range(len(pulses)):
        for last in range(first, len(pulses)):
            rise, fall = faults.rises[pulses[first]], faults.falls[pulses[last]]
            off, wrong = abs(rise - due) > stray, faults.layout.class_of(fall - rise) != target
            changes = (first > 0) + (last < len(pulses) - 1) + (first < last) + off + wrong
            found.append((changes, abs(rise - due) + abs(fall - rise - width), first, last, off, wrong))
    return min(found)[2:]


def of_noise():
    """Noise of 30 milliseconds: which pulses are kept, however many there are, and no other format."""
    rng = random.Random(730)
    for name, many in (("few", 6), ("some", 40), ("many", 90)):
        unlike = []
        for number in range(6):
            faults = looked_at(with_noise(rng, signal(6), 2432000 + 777 * number, 30000, many)).parts[0].faults
            for place, target in faults.wanted.items():
                pulses = faults.track.pulses_at(place)
                if pulses and edits._choose(faults, pulses, place, target) != slow_choice(faults, pulses, place, target):
                    unlike.append((number, place))
        yield same("%s pulses: as the slow choice" % name, unlike, [])
    noisy = with_noise(rng, signal(12), 4235000, 30000, 6000)
    found = looked_at(noisy)
    yield same("6,000 pulses of noise in 12 seconds", (set(wanted(found)), said(found)), ({423, 424, 425, 426}, []))
    script = [line for repair in mend.called_for(found) for line in repair.lines() if line[0] not in "#b" and line != "end"]
    yield same("they are written again", [line.split()[-1 if line[0] != "i" else 0] for line in script], ["delete", *["insert"] * 4])
    yield same("another format", said(looked_at(signal(40, "A", 0), "B", 4)),
               ["most pulses do not follow each other by 10000"])


# times


def of_centuries():
    """From 1999 to 2000 the year of two digits begins again, and time goes on."""
    for kind, expression, frames in (("B", 4, 12), ("B", 5, 12), ("A", 6, 90), ("E", 6, 8), ("G", 5, 12)):
        period = timecode.INTERVAL[kind] // 100
        pulses = signal(frames, kind, expression, LAST_OF_1999, timecode.DAY - period * (frames // 2))
        name = "format %s, expression %d" % (kind, expression)
        found = looked_at(pulses, kind, expression)
        yield same(name + ": nothing is wrong", (wanted(found), said(found)), ({}, []))
        lost = frames // 2 * 100  # the first frame of 2000
        found = looked_at(pulses[:lost] + pulses[lost + 100:], kind, expression)
        letters = listed(pulses, kind, expression).classes[lost:lost + 100]
        yield same(name + ": the first frame is lost", wanted(found), {lost + at: each for at, each in enumerate(letters)})
    before, after = signal(6, day=LAST_OF_1999 + 1, begin=0), signal(6, day=LAST_OF_1999, begin=timecode.DAY - 600)
    backward = before + [[rise + 6000000, fall + 6000000] for rise, fall in after]
    yield same("from 2000 to 1999", said(looked_at(backward)),
               ["from this frame on the times are 12.00 seconds earlier than the frames before lead to"])


def of_set_clocks():
    """A generator that begins again elsewhere, with another time, was set; nothing is missing."""
    for name, hours, way, why in (("later", 3, "later", OR_STOPPED), ("earlier", -2, "earlier", "the clock was set")):
        for move in (False, True):
            before, after = signal(8)[:730], signal(8, begin=MIDDAY + hours * 360000)
            pulses = before + [[a + 7300000, b + 7300000] for a, b in after]
            # at 7.3 s the time is 12:00:07.3, and then 3600 seconds an hour are added to 12:00:00
            apart = abs(3600 * hours - 7.3)
            found = said(looked_at(pulses, move=move))
            yield same("set to a time that is %s%s" % (name, ", --move" * move), found,
                       ["from this frame on the times are %.2f seconds %s than the frames before lead to: %s" % (apart, way, why)])
    cut = signal(24)
    cut = cut[:730] + [[a - 1450000, b - 1450000] for a, b in cut[875:]]
    yield same("elements that are missing", said(looked_at(cut)),
               ["145 elements are missing by the times of the frames, and the rest follows at once"])


def of_holes_with_a_set_clock():
    """If the clock was set in a hole, nothing says which frames were there, and still it is one place."""
    for name, seconds in (("later", 33), ("earlier", 23)):
        pulses = signal(24)[:2050] + [[a + 27000000, b + 27000000] for a, b in signal(30, begin=MIDDAY + 100 * seconds)[20:]]
        found = [each for part in looked_at(pulses).parts for each in damage._of_part(part)]
        yield same("set to a time that is " + name, [(each.at, each.until, each.seen) for each in found],
                   [(20500000, 27200000, "670 elements without a pulse")])


def of_several_elements():
    """Three damaged elements one after the other are one line, which counts those without a pulse, if there are some."""
    for name, seen in (("", "3 damaged elements"), (" and none", "3 damaged elements, 1 without a pulse")):
        pulses = signal(6)
        for place in (301, 302, 303):
            pulses[place][1] = pulses[place][0] + 8000
        if name:
            del pulses[302]
        found = [each.seen for part in looked_at(pulses).parts for each in damage._of_part(part)]
        yield same("position identifiers" + name, found, [seen])


def with_a_pause(kind, pause):
    """A recorder stops in frame 12 for that many seconds, and its clock with it."""
    frame, period = 100 * timecode.INTERVAL[kind], timecode.INTERVAL[kind] // 100
    stop = 12 * frame + 123456 * frame // 1000000
    start = stop + round(1000000 * pause)
    before, first = signal(13, kind), start // frame
    after = [[rise + first * frame, fall + first * frame] for rise, fall in signal(12, kind, begin=MIDDAY + first * period)]
    pulses = [pulse for pulse in before if pulse[1] < stop]
    return pulses + [[rise - start + stop, fall - start + stop] for rise, fall in after if rise >= start]


def of_recorders_that_stopped():
    """A recorder that stops makes the step that a clock makes that was set: the line says both."""
    later = "from this frame on the times are %.2f seconds later than the frames before lead to"
    for kind, pause in (("A", 20.0137), ("A", 61.0137), ("A", 605.25), ("B", 61.0137), ("B", 61.5), ("B", 605.25)):
        yield same("%s, %s seconds" % (kind, pause), said(looked_at(with_a_pause(kind, pause), kind)),
                   [later % pause + ": " + OR_STOPPED])
    for kind, pause in (("A", 1.3), ("B", 7)):  # whole frames
        found = [remark.comment() for part in looked_at(with_a_pause(kind, pause), kind).parts for remark in part.remarks]
        yield same("%s, %s seconds" % (kind, pause), [text.partition(": ")[2].partition(": ")[2] for text in found],
                   [later % pause + "; either a stretch was cut out and the rest moved, or " + OR_STOPPED])


def of_bases():
    """If frames read more times than are looked at, those that most of them read are."""
    own = {number: 100 * number for number in range(1, 21)}
    own.update(dict.fromkeys((5, 10, 15, 21, 22), 90000))
    against = {(number, base): 0 if base == own[number] else 8 for number in own for base in {50, *own.values()}}
    found = spans.fit(Said(own, against), sorted(own), 50, None)
    yield same("five of 22 read the highest", [found[number] for number in (5, 21, 22)], [90000] * 3)
    one = {number: 100 * number for number in range(1, 31)}
    against = {(number, base): 0 if base == one[number] else 8 for number in one for base in (50, *one.values())}
    against.update({(number, 2900): number not in (10, 29) for number in one})
    found = spans.fit(Said(one, against), sorted(one), 50, None)
    yield same("each reads another, and one has few against it", found[20], 2900)


def of_leap_seconds():
    """Second 60 is lost as a whole: it is generated again. The check of a script knows it."""
    whole, damaged = tools.recording(12, leap=True), tools.recording(12, leap=True)
    del damaged[400:500]
    findings = looked_at(damaged)
    yield same("what is lost", sorted(wanted(findings)), list(range(400, 500)))
    yield same("when it is", findings.leap, LAST_OF_2016 * timecode.DAY + timecode.DAY)
    late = [*whole[:450], *([rise + 3300, fall + 3300] for rise, fall in whole[450:])]
    moved = Moved([Repair(4503300, [], ["451,$ shift -3300"], moves=[(4503300, -3300, 0)])])
    harms = Check(findings.layout, 10000, [], (listed(late), listed(whole)), moved, leap=findings.leap).harms()
    yield same("a rest is moved within it", [harm.seen for harm in harms], [])


# control functions


def of_steady_control():
    """A control function that all frames have stays, whatever the damage looks like."""
    one = 1 << 3  # element 63
    for control, letter, parts_of in ((one, "1", ((0, 2000), (4600, 5000))), (one, "1", ((0, 1900), (1950, 2100))),
                                      (0, "0", ((0, 2000), (2100, 5000))), (0, "0", ((0, 2000), (2400, 4900)))):
        pulses = signal(60, control=lambda k: control)
        rise = pulses[3063][0]
        pulses[3063:3064] = [[rise + begin, rise + end] for begin, end in parts_of]
        yield same("%s in all frames, and %s" % (letter, parts_of), wanted(looked_at(pulses)), {3063: letter})


def quality(k):
    """Control functions as IEEE 1344 has them: the quality of the time, elements 71 to 74, changes now and then."""
    return (k // 7 % 3) << 10


def with_parity(*places):
    """Frames with a parity, element 75; in these places the pulse is another one."""
    return flipped(signal(40, control=quality, parity=(75, True)), *places)


def of_found_rules():
    """An element that is the parity of those before it is found, and no other one."""
    for element, odd in ((75, True), (75, False), (78, True), (62, False)):
        pulses = signal(40, control=quality, parity=(element, odd))
        texts = [listed(pulses).classes[at:at + 100] for at in range(0, 4000, 100)]
        control = Layout("B", 4).control
        yield same("the rule, %d" % element, rule_of(control, texts), (element, odd))
        yield same("in too few frames, %d" % element, rule_of(control, texts[:12]), None)
        yield same("a sound recording, %d" % element, (wanted(looked_at(pulses)), said(looked_at(pulses))), ({}, []))
        for name, damaged in (("lost", [element]), ("lost, and two of the time", [element, 11, 16])):
            missing = [each for at, each in enumerate(pulses) if at - 2000 not in damaged]
            letters = texts[20]
            yield same("%s, %d" % (name, element), wanted(looked_at(missing)), {2000 + each: letters[each] for each in damaged})
    plain = [listed(signal(60, control=lambda k: (k * 7 % 5 > 2) << 12)).classes[at:at + 100] for at in range(0, 6000, 100)]
    yield same("an element that changes by itself", rule_of(Layout("B", 4).control, plain), None)
    still = [listed(signal(1)).classes] * 40
    yield same("frames that are all alike", rule_of(Layout("B", 4).control, still), None)


def of_rules_and_one_frame():
    """With a parity a frame may have control functions that no other has."""
    sent = signal(40, control=lambda k: (k == 20) << 3, parity=(75, True))
    yield same("what one frame alone was sent with", (wanted(looked_at(sent)), said(looked_at(sent))), ({}, []))
    there = [each for at, each in enumerate(sent) if at != 2063]
    yield same("the same, and it is lost", wanted(looked_at(there)), {2063: "1"})


def of_damaged_frames():
    """What the parity says of frames with elements that are others, late or lost."""
    for element in (60, 63, 78):
        found = looked_at(with_parity(2000 + element))
        yield same("a fine frame with another element %d" % element, wanted(found), {2000 + element: "0"} if element < 75 else {})
    late = with_parity(2063)
    late[2066] = [time + 1200 for time in late[2066]]
    yield same("another one is late", wanted(looked_at(late)), {2063: "0", 2066: "0"})
    both = with_parity(2063)
    del both[2066]
    faults = looked_at(both).parts[0].faults
    yield same("another one is lost", (faults.wanted, faults.guesses), ({2066: "0"}, {2066: "0"}))
    several = with_parity(2060, 2062, 2063)
    del several[2029]
    yield same("several are others, and a position is lost", wanted(looked_at(several)), {2029: "P"})
    found = looked_at(with_parity(2075))
    yield same("the parity itself is another", len(wanted(found)) + sum("has to be a" in each for each in said(found)), 1)
    yield same("the last frame, one element of its time", wanted(looked_at(with_parity(3906))), {3906: listed(signal(40)).classes[3906]})


def of_rules():
    """An element that is the parity of those before it is found, and says what is lost or damaged."""
    for rows in (of_found_rules, of_rules_and_one_frame, of_damaged_frames):
        yield from rows()


# no frame is fine


def damaged_everywhere(rng, pulses, many):
    """Of each frame that many pulses are lost."""
    lost = {100 * number + element for number in range(len(pulses) // 100) for element in rng.sample(range(100), many)}
    return [pulse for at, pulse in enumerate(pulses) if at not in lost]


def of_unread():
    """The format and the expression of a wire on which no frame is fine, and what of a wire without time code."""
    rng = random.Random(81)
    for kind, expression, by, many in (("B", 2, 17, 0), ("B", 4, -17, 0), ("B", 0, 0, 3), ("A", 5, 16, 2), ("G", 6, 0, 4), ("E", 1, 17, 1)):
        interval, name = timecode.INTERVAL[kind], "format %s, expression %d, longer by %d, %d lost" % (kind, expression, by, many)
        whole = signal(10, kind, expression, begin=MIDDAY + 123000, control=lambda k: 5 + (k % 3 << 6))
        pulses = damaged_everywhere(rng, [[rise, fall + by * interval // 100] for rise, fall in whole], many)
        edges = [edge for pulse in pulses for edge in pulse]
        found = search.kinds_of(edges[:search.WINDOW], True, timecode.INTERVAL)
        yield same(name + ": the format", max(found, key=found.get, default=None), (kind, False))
        with tempfile.TemporaryDirectory() as folder:
            path = os.path.join(folder, "unread.vcd")
            with open(path, "w", encoding="utf-8") as file:
                file.write(damages.dump(pulses, whole[-1][0] + interval))
            read = readings.read(path, kind)
            yield same(name + ": the expression", (read.best.expression, read.best.fine, read.best.led >= 8), (expression, 0, True))
            printed = subprocess.run([os.path.join(TOP, "tools", "irig_damage"), path], capture_output=True, text=True, check=False)
            said = "format %s, expression %d: 0 of" % (kind, expression) in printed.stderr
            yield same(name + ": irig_damage", (printed.returncode, said), (1, True))
    steady = [[10000 * at, 10000 * at + rng.choice((1000, 3000, 6000, 9000))] for at in range(2000)]
    read = readings.Readings([readings.Reading("B", expression) for expression in range(8)])
    readings._choose_led(listed(steady), read)
    yield same("no time code", [row.led for row in read.rows], [0] * 8)
    yield from of_bursts()


def of_bursts():
    """A clock in bursts has no position identifier, so nothing is looked for on its wire."""
    bursts = [[1000 * at + 2984000 * (at // 16), 1000 * at + 2984000 * (at // 16) + 500] for at in range(320)]
    with mock.patch.object(unread, "examine") as examined:
        read = readings.Readings([readings.Reading("A", expression) for expression in range(8)])
        readings._choose_led(listed(bursts, "A"), read)
        yield same("a clock in bursts, without an identifier", ([row.led for row in read.rows], examined.call_count), ([0] * 8, 0))


def cases():
    """Each kind by its name."""
    return [case("mend: rare: " + name, holds) for name, holds in (
        ("noise", of_noise), ("centuries", of_centuries), ("clocks that were set", of_set_clocks),
        ("clocks that were set in a hole", of_holes_with_a_set_clock), ("several elements", of_several_elements),
        ("recorders that stopped", of_recorders_that_stopped), ("bases", of_bases),
        ("leap seconds", of_leap_seconds),
        ("steady control functions", of_steady_control), ("control functions with a rule", of_rules),
        ("no frame is fine", of_unread))]
