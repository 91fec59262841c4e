"""Rows for `irig_mend --with`: what another recording of the same code says of what is lost, and when it says nothing.

The recordings are those of the reference encoder, damaged by hand: what has to be repaired is what was damaged. docs/METHOD.md has
the words.
"""
import json
import random

from cases import case
from irig_tools import mend_program, others
from irig_tools.analysis import examine
from irig_tools.mend import called_for
from random_input import damages, pairs
from rows import in_process, tools, tools_rare
from rows.in_process import run
from rows.tools_apply import in_folder, text_of
from rows.tools_parts import same
from rows.tools_rare import MIDDAY, flipped, listed, signal

in_process.MAINS.update(irig_mend=mend_program.main)

FRAMES, DAY = 30, 739000
CHANCE = random.Random(88)
SENT = [CHANCE.getrandbits(18) for _ in range(FRAMES)]
LOST = 1063  # a control function of the frame of 12:00:10
ALONE = 1064  # one that neither of the frames next to it has so


def sent(k):
    """The control functions of a frame: others in each."""
    return SENT[k % FRAMES]


def code(shift=0, **more):
    """The signal; a clock that is later by `shift` seconds sends the same control functions."""
    return signal(FRAMES, begin=MIDDAY + 100 * shift, **{"control": sent, **more})


def slow(pulses, rate=0.0009, late=4321):
    """As another recorder has them."""
    return [[round((rise + late) * (1 + rate)), round((fall + late) * (1 + rate))] for rise, fall in pulses]


FILLED = " not in the recording"  # how the line ends that counts frames whose control functions were filled in


class Track:
    """A track that needs no editor."""

    def __init__(self, pulses, kind="B", expression=4):
        self.found = listed(pulses, kind, expression)

    def ask(self, _blocks):
        return self.found

    def judged(self, listing, judge, *how):
        return judge(listing, *how)


def read(pulses, *codes, trusts_most=False):
    """What other recordings say of one with these pulses."""
    def findings(each):
        return others.seen_in(Track(each), lambda text: None)

    named = [others.other_of("%s.vcd" % name, findings(each)) for name, each in zip("BCD", codes)]
    return others.others_of(findings(pulses), named, trusts_most)


def mended(pulses, *codes, **how):
    """What is wanted where, why, which are guesses, and the remarks; other recordings have these codes."""
    found = read(pulses, *codes, **how)
    findings = examine(listed(pulses), witnesses=found.witnesses)
    faults = [part.faults for part in findings.parts]
    wanted = tools_rare.wanted(findings)
    reasons = [each.reason(place) for each in faults for place in sorted(each.wanted)]
    guesses = {place for each in faults for place in each.guesses}
    return wanted, reasons, guesses, [each.comments[0] for each in found.remarks] + tools_rare.said(findings)


def without(pulses, *places):
    return [pulse for at, pulse in enumerate(pulses) if at not in places]


def class_at(pulses, place):
    return listed(pulses).classes[place]


def place_of(other, at):
    """When a pulse rises, as it is said."""
    return "%d.%06d s" % divmod(other[at][0], 1000000)


def of_lost():
    """What is lost here is as the other recording has it: its own time is named, the place is the one here."""
    pulses, other = code(), slow(code()[500:], late=77)
    for at in (1063, 1061, 1075):
        wanted, reasons, guesses, remarks = mended(without(pulses, at), other)
        name = {"0": "zero", "1": "one"}[class_at(pulses, at)]
        yield same("element %d" % (at % 100), (wanted, guesses, remarks), ({at: class_at(pulses, at)}, set(), []))
        yield same("its reason", reasons, ["a %s as recorded in B.vcd at %s" % (name, place_of(other, at - 500))])
        yield same("without it", mended(without(pulses, at))[2], {at})
    several = without(pulses, 1061, 1062, 1063)
    repair, = called_for(examine(listed(several), witnesses=read(several, other).witnesses))
    yield same("what is said of several", repair.comments, [
        "3 pulses are missing, from frame 2024-115T12:00:10, element 61, at 10610000 on; each follows from the frames around it, or is as "
        "recorded in B.vcd at %s and later" % place_of(other, 561)])
    gone = range(1010, 1290)
    wanted, _, guesses, _ = mended(without(pulses, *gone), other)
    yield same("a hole of several frames", (wanted, guesses), ({at: class_at(pulses, at) for at in gone}, set()))


def of_recorded():
    """What is recorded here stays, and a remark says so."""
    pulses, other = code(), slow(flipped(code(), LOST))
    names = {"0": "zero", "1": "one"}
    here = names[class_at(pulses, LOST)]
    there = names[class_at(flipped(code(), LOST), LOST)]
    seen = "frame 2024-%s, element 63: a %s is recorded here, and a %s in B.vcd at %s" % ("%s", here, there, place_of(other, LOST))
    wanted, _, guesses, remarks = mended(pulses, other)
    yield same("in a frame that is fine", (wanted, guesses, len(remarks)), ({}, set(), 1))
    yield same("what is said", remarks[0].partition("element")[2], seen.partition("element")[2])
    wanted, _, guesses, remarks = mended(without(pulses, 1020, 1065), other)
    yield same("next to what is lost", (wanted, guesses, len(remarks)),
               ({at: class_at(pulses, at) for at in (1020, 1065)}, set(), 1))
    split = [list(pulse) for pulse in pulses]
    rise, fall = split[LOST]
    split[LOST:LOST + 1] = [[rise, rise + 900], [rise + 940, fall]]
    wanted, reasons, guesses, _ = mended(split, other)
    yield same("with a glitch, which is seen through", (wanted, guesses), ({LOST: class_at(pulses, LOST)}, {LOST}))
    yield same("its reason", reasons, ["this %s is a guess: it looks like a %s here, and is a %s in B.vcd at %s" % (
        here, here, there, place_of(other, LOST))])
    moved = late([list(pulse) for pulse in pulses], LOST, 1500)
    yield same("late, and as wide as it was sent", mended(moved, other)[::2], ({LOST: class_at(pulses, LOST)}, {LOST}))
    yield same("the same, and the other has it, too", mended(moved, slow(code()))[::2], ({LOST: class_at(pulses, LOST)}, set()))
    noisy = [list(pulse) for pulse in without(pulses, LOST - 2, LOST - 1, LOST + 1)]
    noisy[LOST - 2] = [noisy[LOST - 2][0], noisy[LOST - 2][0] + (4600 if class_at(pulses, LOST) == "0" else 2400)]
    yield same("in a burst of damage", mended(noisy, slow(code()))[0][LOST], class_at(pulses, LOST))


def of_explained():
    """What one damage here explains is as a sound pulse of the other recording has it, whatever it looks like here."""
    at = next(at for at in range(1061, 1068) if class_at(code(), at) == "1")
    cut, noise, wide = reshaped(at, 3000, 2000), reshaped(at, 2200, 2000), reshaped(at, -900, 5800)
    zero = reshaped(at, 2200, 2000, sent_there=False)
    for name, pulses, other, wanted, guesses in (
        ("it begins late, and ends when it should", cut, code(), {at: "1"}, set()),
        ("and the other pulse is not as wide as others", cut, widened(code(), at), {at: "0"}, {at}),
        ("it is late, and not as wide as others", reshaped(at, 2200, 2300), code(), {at: "1"}, set()),
        ("it is late, and as wide as others", noise, code(), {at: "0"}, {at}),
        ("so is one that was sent so, and the other is damaged", zero, code(), {at: "0"}, {at}),
        ("it is late, and the one next to it is lost", without(noise, at + 1), code(), {at: "1", at + 1: class_at(code(), at + 1)}, set()),
        ("it is early and wide, and was a zero", wide, flipped(code(), at), {at: "0"}, set()),
    ):
        found = mended(pulses, slow(other))
        yield same(name, (found[0], found[2]), (wanted, guesses))
    yield same("its reason", [each.startswith("a one as recorded in B.vcd at ") for each in mended(cut, slow(code()))[1]], [True])


def reshaped(at, late_by, width, sent_there=True):
    """The code with a pulse that rises late by some microseconds, and has another width; it can be damaged in the other recording only."""
    pulses = [list(pulse) for pulse in (code() if sent_there else flipped(code(), at))]
    rise = pulses[at][0] + late_by
    pulses[at] = [rise, rise + width]
    return pulses


def of_votes():
    """Of several recordings most decide; if as many say the opposite, nothing does."""
    pulses, right, wrong = without(code(), LOST), slow(code()), slow(flipped(code(), LOST), -0.0008)
    told = class_at(code(), LOST)
    yield same("two against one", mended(pulses, right, wrong, slow(code(), 0.0001))[::2], ({LOST: told}, set()))
    yield same("one against two", mended(pulses, wrong, right, wrong)[0], {LOST: "10"[int(told)]})
    yield same("one against one", mended(pulses, right, wrong)[2], {LOST})
    reasons = mended(pulses, right, wrong, slow(code(), 0.0001))[1]
    yield same("all that have it are named", [each.count(".vcd at ") for each in reasons], [2])
    parted = " is a guess: it is a zero in %s, and a one in %s" % tuple(
        "%s.vcd at %s" % (name, place_of(other, LOST)) for name, other in sorted(zip("BC", (right, wrong)), key=lambda pair: (
            pair[0] == "B") == (told == "1")))
    yield same("what two say that differ", [parted in each for each in mended(pulses, right, wrong)[1]], [True])
    two = slow(code()), slow(code(), 0.0001)
    broken = without(flipped(code(), LOST), 1045)
    yield same("two against a frame that is damaged", mended(broken, *two)[0::2], ({LOST: told, 1045: class_at(code(), 1045)}, set()))
    yield same("both are named", [each.count(".vcd at ") for each in mended(broken, *two)[1]], [0, 2])
    yield same("one against it", (mended(broken, right)[0].keys(), len(mended(broken, right)[3])), ({1045}, 1))
    yield same("two against a frame that reads well", (mended(flipped(code(), LOST), *two)[0], len(mended(flipped(code(), LOST), *two)[3])),
               ({}, 1))
    split = [list(pulse) for pulse in flipped(code(), LOST)]
    rise, fall = split[LOST]
    split[LOST:LOST + 1] = [[rise, rise + 900], [rise + 940, fall]]
    yield same("two against what it looks like", mended(split, *two)[0::2], ({LOST: told}, set()))


def of_trusted():
    """A frame is used if it is fine and supported, and if no other one has its time."""
    pulses, told = without(code(), LOST), class_at(code(), LOST)
    for name, other, guesses in (
        ("a frame that is broken there", without(code(), 1000 + 45), {LOST}),
        ("a frame that is fine, and shows another time", flipped(code(), 1001), {LOST}),
        ("a frame next to four that show another time", shown_wrong(8, 9, 11, 12), {LOST}),
        ("a frame next to three of these", shown_wrong(8, 9, 11), set()),
        ("a frame of another time that shows this one", elsewhere(code()), set()),
        ("the same, and that of the time is broken", without(elsewhere(code()), 1045), {LOST}),
        ("two frames of this time, which differ", [*code(), *after(flipped(code(), LOST))], {LOST}),
        ("two frames of this time, which are alike", [*code(), *after(code())], set()),
        ("a frame with a pulse that is late by less than a tenth", late(code(), 1045, 800), set()),
        ("an end of the recording", code()[:1150], set()),
    ):
        yield same(name, mended(pulses, slow(other))[2], guesses)
        wanted = mended(pulses, slow(other))[0].get(LOST)
        yield same(name + ": its class", wanted == told or bool(guesses), True)
    twice = [*without(code(), LOST), *after(code())]
    yield same("two frames of this time here", mended(twice, slow(code()))[2], {LOST})


def late(pulses, at, by):
    """A pulse is late as a whole."""
    pulses[at] = [pulses[at][0] + by, pulses[at][1] + by]
    return pulses


def shown_wrong(*frames):
    """These frames show the day before theirs."""
    return flipped(code(), *(100 * frame + 30 for frame in frames))


def elsewhere(pulses):
    """The frame of 12:00:12 shows 12:00:10 with control functions of its own: the two of its seconds and its binary number are gone."""
    names = tools_rare.timecode.encode("B", 4, tools_rare.timecode.generated("B", (DAY, MIDDAY), 10, sent(12)))
    for element, name in enumerate(names):
        rise = pulses[1200 + element][0]
        pulses[1200 + element] = [rise, rise + 10000 * tools_rare.WIDTHS[name] // 10]
    return pulses


def after(pulses):
    """The same later in the recording: the clock was set back."""
    return [[rise + 10000 * 100 * FRAMES, fall + 10000 * 100 * FRAMES] for rise, fall in pulses]


# why another recording is not used
NO_TIME = "none of its frames has the time of one here: its first one is %s"
SET_OTHERWISE = "its control functions are those of this recording, and its times are %s: its clock was set otherwise"
UNLIKE = "%d of %d frames of the same time have other control functions: its clock was set otherwise, or it is another code"


def from_frame_24(strange):
    """Control functions that are strange from this frame on."""
    return [sent(k) if k < 24 else strange.getrandbits(18) for k in range(FRAMES)]


def strangers():
    """Recordings that say nothing, and why they are not used."""
    strange = random.Random(89)
    half = from_frame_24(strange)
    return (
        ("another day", signal(FRAMES, day=DAY + 1), NO_TIME % "86400.00 seconds later"),
        ("the same code, and another day", code(86400), SET_OTHERWISE % "86400.00 seconds later"),
        ("a clock that is three hours late", code(-10800), SET_OTHERWISE % "10800.00 seconds earlier"),
        ("a clock that is three seconds early", code(3), SET_OTHERWISE % "3.00 seconds later"),
        ("another code", code(control=lambda k: strange.getrandbits(18)), UNLIKE % (29, 29)),
        ("another code from a time on", code(control=half.__getitem__), UNLIKE % (6, 29)),
        ("one frame of the same time, as all others", code(28, control=lambda k: SENT[-1]), "too few frames of the same time are alike: 1"),
        ("no frame", code()[:80], "no frame of it is fine and supported"),
        ("one frame alone", code()[90:210], "no frame of it is fine and supported"),
    )


def of_changes_that_are_few():
    """Control functions that never change show no clock that was set; those that change seldom do."""
    constant, later = signal(FRAMES, control=lambda k: 0x155), signal(FRAMES, begin=MIDDAY + 300, control=lambda k: 0x155)
    yield same("control functions that never change show no clock", mended(constant, slow(later))[3], [])
    slowly = [k // 9 for k in range(2 * FRAMES)]
    early = signal(FRAMES, begin=MIDDAY + 200, control=slowly.__getitem__)
    yield same("those that change seldom do", mended(signal(FRAMES, control=slowly.__getitem__), slow(early))[3],
               ["B.vcd is not used: " + SET_OTHERWISE % "2.00 seconds later"])
    once, early = (signal(14, begin=MIDDAY + by, control=lambda k: SENT[k // 9]) for by in (0, 100))
    yield same("those that change once, in a clock that is a second off", mended(once, slow(early))[3][:1],
               ["B.vcd is not used: " + UNLIKE % (1, 12)])


def of_other_code():
    """Recordings that say nothing: no common time, a clock that was set otherwise, another code."""
    pulses = without(code(), LOST)
    for name, other, why in strangers():
        found = mended(pulses, slow(other))
        yield same(name, found[3][:1], ["B.vcd is not used: " + why])
        yield same(name + ": nothing is taken", (found[0].keys(), found[2]), ({LOST}, {LOST}))
    last = [0, SENT[-1], *from_frame_24(random.Random(89))[-6:]]
    alone = mended(without(code(), 2963), slow(code(28, control=lambda k: last[k % 8])[:800]))
    yield same("one frame of the same time, unlike all others", (alone[0], alone[2:]), ({2963: class_at(code(), 2963)}, (set(), [])))
    yield from of_changes_that_are_few()
    few = flipped(flipped(code(), 463), 1463)
    yield same("two frames that differ are damage", len(mended(pulses, slow(few))[3]), 2)
    yield same("and the rest is used", mended(pulses, slow(few))[2], set())


def of_another(frame, *places):
    """A frame has the control functions of another one, and pulses of its time are lost."""
    pulses = code()
    names = tools_rare.timecode.encode("B", 4, tools_rare.timecode.generated("B", (DAY, MIDDAY), frame, sent(frame + 12)))
    for element in range(50, 78):
        rise = pulses[100 * frame + element][0]
        pulses[100 * frame + element] = [rise, rise + 10000 * tools_rare.WIDTHS[names[element]] // 10]
    return without(pulses, *(100 * frame + each for each in places))


def of_contrary():
    """A frame that has too much otherwise is not used."""
    pulses = without(code(), LOST)
    wanted, _, guesses, remarks = mended(pulses, slow(flipped(code(), 1065, 1067, 1071)))
    yield same("three control functions", (wanted.keys(), guesses), ({LOST}, {LOST}))
    yield same("what is said", [each.partition(": ")[2].partition(" in ")[0] for each in remarks],
               ["3 control functions that are recorded here are others"])
    _, _, guesses, remarks = mended(pulses, slow(flipped(code(), 1065, 1067)))
    yield same("two", (guesses, len(remarks)), (set(), 2))
    for name, frame, filled in (("the last frame", FRAMES - 1, set()), ("a frame between", 7, {701, 706, 780})):
        wanted, _, _, remarks = mended(of_another(frame, 1, 6, 80), slow(code()))
        yield same("%s can be from before the clock was set" % name, wanted.keys(), filled)
        yield same("%s: what is said" % name, ["control functions that are recorded here are others" in each for each in remarks], [True])
    two = without(of_another(1, 1, 6, 80), 6, 7)
    yield same("one of the first two, and then both", mended(two, slow(code()))[0].keys(), set())


def of_rules():
    """With a parity the frame that fits it is right."""
    parity = (75, 1)
    pulses, other = code(parity=parity), slow(code(parity=parity))
    told = class_at(pulses, LOST)
    wanted, reasons, _, remarks = mended(flipped(code(parity=parity), LOST), other)
    yield same("one that is damaged in a frame that reads well", (wanted, remarks), ({LOST: told}, []))
    yield same("its reason", ["as recorded in B.vcd at " in each for each in reasons], [True])
    wanted, _, guesses, remarks = mended(pulses, slow(flipped(code(parity=parity), LOST)))
    yield same("one that is damaged there", (wanted, guesses, remarks), ({}, set(), []))
    wanted, _, guesses, _ = mended(without(flipped(code(parity=parity), 1065), LOST), other)
    yield same("one that is lost, and one that is damaged", wanted.get(LOST), told)
    wanted, _, guesses, _ = mended(without(flipped(code(parity=parity), 1065), 1075), other)
    yield same("the parity is lost, and one is damaged", (wanted[1075], guesses), (class_at(pulses, 1075), set()))
    wanted, _, guesses, _ = mended(without(pulses, LOST, 1075), slow(flipped(code(parity=parity), LOST)))
    yield same("lost, and the other one has a wrong parity", guesses, {LOST, 1075})


def of_few():
    """Neither recording is long enough to show that there is a parity; of both the frames do."""
    def few(*places, frames=11):
        return flipped(code(parity=(75, 1)), *places)[:100 * frames + 50]

    at, reason = 563, ", and as element 75 says"
    told = class_at(few(), at)
    for name, pulses, other, wanted in (
        ("eleven frames", few(at), few(), {at: told}),
        ("it is damaged there", few(), few(at), {}),
        ("seven frames", few(at, frames=7), few(frames=7), {}),
        ("another one is not as element 75 says", few(at, 963), few(963), {}),
        ("it differs in two", few(at, 564), few(), {}),
    ):
        found = mended(pulses, slow(other))
        yield same(name, (found[0], [each.endswith(reason) for each in found[1]], found[2]), (wanted, [True] * len(wanted), set()))
    yield same("what is said if it is not enough", len(mended(few(at, frames=7), slow(few(frames=7)))[3]), 1)
    both = mended(without(few(frames=14), at), slow(code(parity=(75, 1))[800:]))
    yield same("a parity that both together show", (both[0], both[2]), ({at: told}, set()))
    none = mended(flipped(code(), at)[:1150], slow(code()[:1150]))
    yield same("no parity", (none[0], len(none[3])), ({}, 1))


def of_beside():
    """What the frames next to it have, and another recording, too, is right."""
    def seldom(*places):
        return flipped(code(control=lambda k: 0x155 if k < 20 else 0x2aa), *places)

    def often(*places):
        return flipped(code(control=lambda k: 0x155 if k % 5 else 0x2aa), *places)

    told, at = class_at(seldom(), LOST), 1363
    wanted, reasons, guesses, remarks = mended(seldom(LOST), slow(seldom()))
    yield same("a steady one", (wanted, guesses, remarks), ({LOST: told}, set(), []))
    yield same("its reason", [each.endswith(" s and in the frames next to it") for each in reasons], [True])
    for name, pulses, other, many in (
        ("both recordings have it", seldom(LOST), seldom(LOST), 0),
        ("the other one alone has it", seldom(), seldom(LOST), 1),
        ("one that changes often", often(at), often(), 1),
        ("one that changed there", seldom(1963), seldom(), 1),
    ):
        wanted, _, _, remarks = mended(pulses, slow(other))
        yield same(name, (wanted, len(remarks)), ({}, many))


def of_widths(at, alone):
    """Pulses, those of the other recording, and what is wanted: the frames next to it have the same at the one place, not at the other."""
    told, exact = class_at(code(), at), flipped(code(), at)
    return (
        ("and the frames next to it have the same", odd(at), code(), {at: told}),
        ("they have not", odd(alone), code(), {alone: class_at(code(), alone)}),
        ("they have not, and another one of this class in the frame is off by half of that", beside(odd(alone), alone), code(), {}),
        ("they have not, and another control function there is not as wide as others", odd(alone), widened(code(), 1070), {}),
        ("nor have they, and the frame is damaged", without(odd(alone), 1045), code(), {1045: "0", alone: class_at(code(), alone)}),
        ("as wide as others", exact, code(), {}),
        ("as wide as others, which are all wider", [[rise, fall + 300] for rise, fall in exact], code(), {}),
        ("off by a hundredth of an interval, and all others are as wide as each other", odd(at, 110), code(), {at: told}),
        ("off by less than half of that", odd(at, 45), code(), {}),
        ("off by a hundredth of an interval, and others there are, too", odd(at, 110), shaky(code()), {at: told}),
        ("off by a hundredth of an interval, and others are, too", shaky(odd(at, 110)), code(), {}),
        ("some others are off, too", uneven(odd(at)), code(), {}),
        ("and so are some there", odd(at), uneven(code()), {}),
        ("the other one is off, too", odd(at), widened(code(), at), {}),
        ("the other one alone is off", exact, widened(code(), at), {}),
    )


def of_width():
    """A pulse that is not as wide as others of its class is damaged, if another recording has one of the other class that is as wide."""
    at = of_three(lambda before, told, after: before == told == after)
    alone = of_three(lambda before, told, after: told not in (before, after))
    words = {}
    for name, pulses, other, wanted in of_widths(at, alone):
        found = mended(pulses, slow(other))
        yield same(name, (found[0], found[2], len(found[3])), (wanted, set(), int(not wanted)))
        words[name] = found[1] + found[3]
    here = {"0": "one", "1": "zero"}
    for name, place in (("and the frames next to it have the same", at), ("they have not", alone)):
        said = ", and the %s here is not as wide as others" % here[class_at(code(), place)]
        yield same(name + ": what is said", [each.endswith(" s" + said) for each in words[name]], [True])
    yield same("as wide as others: what is said", ["as wide as" in each for each in words["as wide as others"]], [False])


def of_three(is_it):
    """The first control function of the frame of 12:00:10 of which something is true with those of the frames next to it."""
    return next(at for at in range(1060, 1069) if is_it(*(class_at(code(), at + by) for by in (-100, 0, 100))))


def of_meeting():
    """What is recorded here next to damage is damaged, too, if another recording has something else in a pulse as wide as others."""
    here, there = code(), flipped(code(), LOST)
    told = class_at(there, LOST)
    for name, lost, elsewhere, wanted in (
        ("before what is lost", [LOST + 1], there, told),
        ("after it", [LOST - 1], there, told),
        ("two elements from it", [LOST + 2], there, None),
        ("not as wide as others there", [LOST + 1], widened(flipped(code(), LOST), LOST), None),
        ("and the other recording has the same", [LOST + 1], here, None),
    ):
        found = mended(without(here, *lost), slow(elsewhere))
        yield same(name, (found[0].get(LOST), found[2], len(found[3])), (wanted, set(), int(wanted is None and elsewhere != here)))
    reasons = mended(without(here, LOST + 1), slow(there))[1]
    names = {"0": "zero", "1": "one"}
    yield same("its reason", reasons[0], "a %s as recorded in B.vcd at %s, and what is next to it here is damaged, too" % (
        names[told], place_of(slow(there), LOST)))
    parity = (75, 1)
    confirmed = mended(without(code(parity=parity), 1076), slow(flipped(code(parity=parity), 1071, 1075)))
    yield same("but not what a parity confirms", (confirmed[0].keys(), confirmed[2]), ({1076}, set()))
    yield same("nor in a frame that is fine", mended(late([list(each) for each in here], LOST + 1, 600), slow(there))[0].get(LOST), None)


def odd(at, by=700):
    """The code with a pulse of the other class that is off by some microseconds, towards what it was."""
    pulses = flipped(code(), at)
    pulses[at][1] += by if class_at(code(), at) == "1" else -by
    return pulses


def beside(pulses, at):
    """The first other pulse of this class in the frame is narrower by 350 microseconds."""
    found, classes = [list(each) for each in pulses], listed(pulses).classes
    found[next(place for place in range(1000, 1100) if place != at and classes[place] == classes[at])][1] -= 350
    return found


def widened(pulses, *places):
    """These pulses are 290 microseconds wider."""
    for at in places:
        pulses[at] = [pulses[at][0], pulses[at][1] + 290]
    return pulses


def uneven(pulses):
    """One pulse of six is wider."""
    return widened(pulses, *range(0, len(pulses), 6))


def shaky(pulses):
    """Widths are off by up to 100 microseconds."""
    return [[rise, fall + (37 * at) % 201 - 100] for at, (rise, fall) in enumerate(pulses)]


def of_inserted():
    """An inserted second is lost at an end: another recording shows it. Else the times after it would be a second early."""
    whole = tools.recording(12, leap=True)
    lost, rest = [*whole[:350], *whole[620:640]], 620
    for name, others_of_it, leap in (("shown elsewhere", [slow(whole)], True), ("shown by nobody", [], False),
                                     ("lost there, too", [slow(lost)], False), ("the other one ends before", [slow(whole[:390])], False)):
        part, = examine(listed(lost), witnesses=read(lost, *others_of_it).witnesses).parts
        shown = part.times.name(rest // 100)
        yield same(name, (part.times.calendar.leap is not None, shown), (leap, "frame 2017-001T00:00:0" + "21"[leap]))


# the program


def dump(pulses, unit=None):
    length = pulses[-1][1] + 1000
    return pairs.in_nanoseconds(pulses, length, unit) if unit else damages.dump(pulses, length)


def mend(*words, data=b""):
    """The status, what is printed line by line but the line of what was filled in, and what is said."""
    status, printed, said = run("irig_mend", ["--expression=4", *words, "rec.vcd"], data)
    return status, [line for line in printed.decode().splitlines() if not line.endswith(FILLED)], said


def edges(text):
    """The times of a dump after 0, each once."""
    return sorted({int(word[1:]) for word in text.split() if word[0] == "#"} - {0})


def page_of(name):
    with open(name, encoding="utf-8") as file:
        return file.read()


APPLY = ("--with", "other.vcd", "--apply", "new.vcd")
COUNTS = "rec.vcd: 2 places found, 2 repaired, 0 undecided, 0 left, 0 steps that stay; 27 frames sound before, 29 after"
WIRE = "irig_mend: %s: wire irig (code '), format B, expression 4: 29 of 29 frames fine\n"


def with_another(told, at, later):
    """What is written with the other recording, and why; and what without it."""
    status, printed, said = mend(*APPLY, "--out", "new.ed")
    yield same("--apply", (status, printed, said), (0, [COUNTS], WIRE % "other.vcd"))
    yield same("what is written", edges(text_of("new.vcd")) == edges(dump(code())), True)
    yield same("its reason", "no pulse; a %s as recorded in other.vcd at %s" % (told, at) in text_of("new.ed"), True)
    said = "; what no frame around them says is as recorded in other.vcd at %s and later" % later
    yield same("of a frame that is generated again", said in text_of("new.ed"), True)
    status, printed, _ = mend("--apply", "new.vcd")
    yield same("without it", ("2 repaired (2 by a guess)" in printed[0], len(printed)), (True, 3))


def as_printed(at):
    """The same for programs, on the page and explained."""
    status, printed, _ = mend(*APPLY, "--into", "rec.vcd", "--json", "--page", "new.html")
    found = json.loads(printed[0])
    yield same("--json", (status, found["summary"]["repaired"], found["summary"]["guessed"], found["reasons"]), (0, 2, 0, []))
    yield same("--page", "as recorded in other.vcd at " + at in page_of("new.html"), True)
    printed = mend("--with", "other.vcd", "--json")[1]
    yield same("the script as JSON", ["as recorded in other.vcd" in line for line in printed], [True, True])
    printed = mend("--with", "other.vcd", "--explain")[1]
    yield same("--explain", printed[1], "with other.vcd: 29 frames that count, 29 of a time that is here, 28 of these alike, 0 not; used")


def with_two(told, at):
    """The same recording in standard input, and upside down."""
    status, printed, said = mend("--with=-", "--with=down.vcd", "--apply", "new.vcd", data=text_of("other.vcd").encode())
    yield same("standard input, and a wire upside down", (status, printed, said), (0, [COUNTS], WIRE % "standard input"))
    printed = mend("--with=-", "--with=down.vcd", data=text_of("other.vcd").encode())[1]
    source = "a %s as recorded in standard input at %s and down.vcd at %s" % (told, at, at)
    yield same("both are named", any(source in line for line in printed), True)


def of_apply():
    """One command: the other recorder has another unit, another wire and a wire of data."""
    pulses, other = without(code(), *range(1030, 1090), 2263), slow(code())
    told, at, later = {"0": "zero", "1": "one"}[class_at(code(), 2263)], place_of(other, 2263), place_of(other, 1060)
    down = [[end + 1, begin] for (_, end), (begin, _) in zip(other, other[1:])]
    return in_folder(lambda: [*with_another(told, at, later), *as_printed(at), *with_two(told, at)],
                     rec=dump(pulses), other=dump(other, 100), down=dump(down))


def of_guarded():
    """irig_guard gets the other recording: a control function that damage made another one is as that has it."""
    at = next(1000 + each for each in range(62, 78) if class_at(code(), 900 + each) == class_at(code(), 1100 + each)
              != class_at(code(), 1000 + each))  # the frames next to it have the other one
    noisy = [list(pulse) for pulse in without(code(), at - 2, at - 1, at + 1)]
    noisy[at - 2][1] = noisy[at - 2][0] + (4600 if class_at(code(), at) == "0" else 2400)

    def holds():
        status, printed, _ = mend("--with", "other.vcd", "--apply", "new.vcd")
        yield same("--apply", (status, len(printed), " 0 undecided, 0 left" in printed[0]), (0, 1, True))
        yield same("what is written", edges(text_of("new.vcd")) == edges(dump(code())), True)
        printed = mend("--apply", "alone.vcd")[1]
        yield same("without it", edges(text_of("alone.vcd")) == edges(dump(code())), False)

    return in_folder(lambda: list(holds()), rec=dump(noisy), other=dump(slow(code()), 100))


def of_parity():
    """irig_guard gives a frame that was fine the control function that the other recording has, if the parity is right only with it."""
    def sent_with(parity):
        return code(parity=parity)

    parity, sound = (75, 1), sent_with((75, 1))
    alone = next(at for at in range(1060, 1069) if class_at(sound, at - 100) != class_at(sound, at) != class_at(sound, at + 100))
    for name, rule, places, there, is_mended in (
        ("a parity that is wrong here", parity, [alone], slice(3000), True),
        ("and with it a second one", parity, [alone, alone + 1], slice(3000), False),
        ("no parity", None, [alone], slice(3000), False),
        ("a parity, and only seven frames there", parity, [alone], slice(690, 1490), False),
        ("eight", parity, [alone], slice(590, 1490), True),
    ):
        def holds(name=name, rule=rule, is_mended=is_mended):
            mend("--with", "other.vcd", "--apply", "new.vcd")
            yield same(name, edges(text_of("new.vcd")) == edges(dump(sent_with(rule))), is_mended)

        rec, other = flipped(sent_with(rule), *places), slow(sent_with(rule)[there])
        yield from in_folder(lambda holds=holds: list(holds()), rec=dump(rec), other=dump(other))


def of_mended():
    """A frame that reads well gets a control function that another recording and the frames next to it have."""
    def seldom():
        return code(control=lambda k: 0x155 if k < 20 else 0x2aa)

    def holds():
        status, printed, _ = mend("--with", "other.vcd", "--apply", "new.vcd")
        yield same("--apply", (status, printed), (
            0, ["rec.vcd: 0 places found, 0 repaired, 0 undecided, 0 left, 0 steps that stay; 29 frames sound before, 29 after"]))
        yield same("what is written", edges(text_of("new.vcd")) == edges(dump(seldom())), True)

    return in_folder(lambda: list(holds()), rec=dump(flipped(seldom(), LOST)), other=dump(slow(seldom())))


def of_fine():
    """irig_guard gets the other recording for frames that were fine, too: a control function that both next to it have, though others
    change there, by a parity or by a width; and the day of the first frame."""
    def with_parity(*places):
        return flipped(code(parity=(75, 1)), *places)

    sent_there = with_parity()
    at = next(at for at in range(1062, 1068) if len({class_at(sent_there, at + frame) for frame in (-100, 0, 100)}) == 1)

    def holds():
        for name, other, whole, alone in (("function", "other.vcd", sent_there, 1), ("first", "other.vcd", sent_there, 1),
                                          ("width", "plain.vcd", code(), 0)):
            status, printed, _ = run_of("--with", other, "--apply", "new.vcd", name + ".vcd")
            yield same(name, (status, len(printed)), (0, 1))
            yield same(name + ": what is written", edges(text_of("new.vcd")) == edges(dump(whole)), True)
            status = run_of("--apply", "alone.vcd", name + ".vcd")[0]
            yield same(name + ": without it", (status, edges(text_of("alone.vcd")) == edges(dump(whole))), (alone, False))

    width = odd(of_three(lambda before, told, after: before == told == after))
    return in_folder(lambda: list(holds()), function=dump(with_parity(at)), first=dump(with_parity(130)), other=dump(slow(sent_there), 100),
                     width=dump(width), plain=dump(slow(code()), 100))


def run_of(*words):
    """As `mend`, of a recording that the words name."""
    status, printed, said = run("irig_mend", ["--expression=4", *words])
    return status, [line for line in printed.decode().splitlines() if not line.endswith(FILLED)], said


def of_two_wires(*signals):
    """A dump of two wires."""
    edges = sorted((time, "%d%s" % (1 - end, "!\""[wire])) for wire, pulses in enumerate(signals) for pulse in pulses
                   for end, time in enumerate(pulse))
    head = "$timescale 1 us $end $var wire 1 ! one $end $var wire 1 \" two $end $enddefinitions $end #0 0! 0\"\n"
    return head + "".join("#%d %s\n" % edge for edge in edges)


# a recording that is not used, and why
NOT_USED = (
    ("a", "it has format A and expression 4, and the track format B and expression 4"),
    ("day", NO_TIME % "86400.00 seconds later"),
    ("data", "no frame of it is fine and supported"),
)
ONE_FILE = " are one file; irig_wire makes one of each wire (irig_mend --help says more)"
# options that end with status 2, and what is said of them; None if that is not compared
REFUSED = (
    ("--with=no.vcd", "no.vcd: No such file or directory"),
    ("--with=text.vcd", None),
    ("--with=empty.vcd", None),
    ("--with=.", ".: is a folder"),
    ("--with=two.vcd", "two.vcd: several wires carry time code, and irig_wire makes a dump of one, which --with takes: "
     "one (code !), two (code \")"),
    ("--with=- --with=-", "standard input and standard input" + ONE_FILE),
    ("--with=-", None),
    ("--with=rec.vcd", "rec.vcd and rec.vcd" + ONE_FILE),
    ("--with=day.vcd --with=./day.vcd", "day.vcd and ./day.vcd" + ONE_FILE),
    ("--with=day.vcd --apply=day.vcd", "--apply day.vcd would write over the file that is read, day.vcd"),
    ("--with=day.vcd --apply-to=folder", "--apply-to and --with exclude each other (irig_mend --help says more)"),
    ("--with=", "--with needs a file: --with OTHER (irig_mend --help says more)"),
    ("--with=day.vcd --trust-most", "--trust-most needs --with twice: two of three recordings are the most (irig_mend --help says more)"),
)


def not_used():
    """Recordings that are not used: why, and that nothing else changes."""
    plain = mend()[1]
    for name, why in NOT_USED:
        said = "%s.vcd is not used: %s" % (name, why)
        status, printed, _ = mend("--with=%s.vcd" % name)
        yield same(name, (status, printed), (1, ["# " + said, *plain]))
        status, printed, _ = mend("--with=%s.vcd" % name, "--apply=new.vcd")
        yield same(name + ", --apply", (status, printed[0][:45], printed[-1]),
                   (1, "rec.vcd: 1 place found, 1 repaired (1 by a gu", "rec.vcd: " + said))


def that_differ():
    """A recording with a frame that differs, and two of which one says nothing."""
    status, printed, _ = mend("--with=wrong.vcd", "--apply=new.vcd")
    yield same("a frame that differs", (status, printed[0][:60], len(printed)),
               (1, "rec.vcd: 1 place found, 1 repaired, 0 undecided, 0 left, 0 s", 2))
    begins = printed[1].startswith("rec.vcd: differs: at ")
    yield same("what is said", (begins, " is recorded here, and a " in printed[1]), (True, True))
    status, printed, _ = mend("--with=wrong.vcd", "--with=right.vcd")
    yield same("two others that differ", (status, printed[0].partition(": it is ")[2].partition(" in ")[0], len(printed)),
               (1, "a zero", 2))
    status, printed, _ = mend("--with=right.vcd", "--with=day.vcd", "--apply=new.vcd")
    yield same("one of two is used", (status, "1 repaired, 0 undecided" in printed[0], printed[1:]),
               (1, True, ["rec.vcd: day.vcd is not used: " + NO_TIME % "86400.00 seconds later"]))


def of_most():
    """Two of three recordings agree against a frame that is fine here: with --trust-most they decide, and each rise stays, whatever the
    frames next to it have."""
    for place in (LOST, ALONE):
        pulses, two = flipped(code(), place), (slow(code()), slow(code(), -0.0004))
        here, there = class_at(pulses, place), class_at(code(), place)
        for name, others_have, wanted in (
                ("two", two, {place: there}), ("one", two[:1], {}), ("one of two", (two[0], slow(pulses, -0.0004)), {})):
            found = mended(pulses, *others_have, trusts_most=True)
            yield same(name + " have it otherwise", (found[0], len(found[3])), (wanted, int(name == "one")))
        yield same("without it", (mended(pulses, *two)[0], len(mended(pulses, *two)[3])), ({}, 1))
        reason, = mended(pulses, *two, trusts_most=True)[1]
        name = {"0": "zero", "1": "one"}
        yield same("its reason", reason, "a %s as recorded in B.vcd at %s and C.vcd at %s, as most recordings have it" % (
            name[there], place_of(two[0], place), place_of(two[1], place)))
        yield from of_most_applied(place, pulses, two, "%d wide, a %s; " % ({"0": 2000, "1": 5000}[here], name[here]) + reason)


def of_most_applied(place, pulses, two, reason):
    """The recording, with other damage that has to be repaired and a rise that is late, is written so, and a line says it."""
    late(pulses, LOST + 205, 600)
    lost = [pulse for at, pulse in enumerate(pulses) if at != 420]

    def holds():
        words = ["--with=b.vcd", "--with=c.vcd", "--apply=new.vcd"]
        status, printed, _ = mend(*words)
        yield same("without it", (status, [line.partition("rec.vcd: ")[2][:7] for line in printed[1:]]), (1, ["differs", "undecid"]))
        status, printed, _ = mend(*words, "--trust-most")
        line = "trusted: at %d: frame 2024-115T12:00:10, element %d, pulse %d: %s" % (10000 * place, place % 100, place + 1, reason)
        yield same("with it", (status, [each.partition("rec.vcd: ")[2] for each in printed[1:2]]),
                   (1, [line.replace("B", "b", 1).replace("C", "c", 1)]))
        wanted = [list(pulse) for pulse in code()]
        late(wanted, LOST + 205, 600)
        yield same("what is written", edges(text_of("new.vcd")) == edges(dump(wanted)), True)

    yield from in_folder(lambda: list(holds()), rec=dump(lost), b=dump(two[0]), c=dump(two[1]))


def wrong_words():
    """Options that end with status 2, and nothing is printed or written."""
    for words, said in REFUSED:
        status, printed, found = mend(*words.split())
        yield same(words, (status, printed, found), (2, [], "irig_mend: %s\n" % said if said else found))
    yield same("what is read stays", text_of("day.vcd"), dump(slow(signal(FRAMES, day=DAY + 1))))


def of_refused():
    """What is no such recording: why, the status, and that nothing changes."""
    pulses = without(code(), LOST)
    files = {"rec": dump(pulses), "a": dump(slow(signal(FRAMES, "A", control=sent))), "day": dump(slow(signal(FRAMES, day=DAY + 1))),
             "data": dump([[700 * at, 700 * at + 300] for at in range(1, 900)]), "wrong": dump(slow(flipped(code(), 2070, LOST))),
             "right": dump(slow(code())), "text": "no dump", "empty": "", "two": of_two_wires(slow(code()), slow(code(), -0.0004))}
    return in_folder(lambda: [*not_used(), *that_differ(), *wrong_words()], **files)


def cases(_top):
    parts = (of_lost, of_recorded, of_explained, of_votes, of_trusted, of_most, of_other_code, of_contrary, of_rules, of_few, of_beside,
             of_width, of_meeting, of_inserted, of_apply, of_guarded, of_parity, of_mended, of_fine, of_refused)
    return [case("mend: with: " + part.__name__[3:].replace("_", " "), lambda part=part: list(part())) for part in parts]
