"""The parts of the method of irig_damage and irig_mend, one by one: docs/METHOD.md has their words.

The recordings are those of the reference encoder; costs, places and times are worked out by hand.
"""
import glob
import math
import os
import random
import re
from unittest import mock

from built import TOP
from cases import case
from irig_tools import analysis, edit, guard_words, limits, mend, phases, polarity, slots, spans, steadiness, threshold, zones
from irig_tools.copies import take_out
from irig_tools.editor import Listing
from irig_tools.frames import Times
from irig_tools.interval import Clock, share_in_step
from irig_tools.layout import Layout
from irig_tools.moments import Calendar
from irig_tools.pieces import pieced
from irig_tools.track import Track
from irig_tools.votes import Votes
from reference import timecode
from rows import guard, tools

NOON = tools.DAY * timecode.DAY + tools.NOON  # of the first frame, in hundredths of a second


def same(name, got, wanted):
    if got != wanted:
        print("FAILED %s\n wanted %s\n got    %s" % (name, wanted, got))
    return got == wanted


def listing_of(pulses, length=0, expression=4, kind="B"):
    layout, listing = Layout(kind, expression), Listing()
    listing.length, listing.kind, listing.expression = length or pulses[-1][1] + 2000, kind, expression
    listing.rises, listing.falls = [rise for rise, _ in pulses], [fall for _, fall in pulses]
    listing.classes = "".join(layout.class_of(fall - rise) for rise, fall in pulses)
    return listing


def letters(frames=8, **more):
    """The classes of a sound recording."""
    return listing_of(tools.recording(frames, **more)).classes


def without(first, beyond, frames=8):
    """A recording without some pulses."""
    pulses = tools.recording(frames)
    del pulses[first:beyond]
    return pulses


def late(pulses, at, by):
    tools.moved(pulses, at, by)
    return pulses


# phases


def of_phases():
    """Where a frame begins, which phase fits, and where it changes."""
    text = letters(4)
    yield same("whole frames", phases.whole_frames(text), [100, 200, 300])
    yield same("a frame without an identifier", phases.whole_frames(changed(text, 119, "0")), [200, 300])
    part = text[115:165]
    yield same("no fault", phases.Marks(part).faults(15), 0)
    yield same("a lost position", phases.Marks(part[:4] + "0" + part[5:]).faults(15), 1)
    yield same("a position too many", phases.Marks("P" + part[1:]).faults(15), 1)
    yield same("ten phases fit", phases.Marks("0" * 8 + "P").best(0, 100), [1, 11, 21, 31, 41, 51, 61, 71, 81, 91])
    yield same("one phase fits", phases.tells_phase("0" * 8 + "PP"), True)
    # with phase 10 the first P of each marker is one too many, and one is missing: 2 faults a frame
    yield same("a phase against whole frames", [phases.Marks(text[:many]).faults(10) for many in (100, 400)], [2, 8 + 4])
    yield same("no turn", phases.turns(text), [])
    turns = phases.turns(text[:133] + text[157:])
    yield same("a turn", len(turns) == 1 and turns[0][0] <= 133 <= turns[0][1], True)
    yield same("an element that is not as usual", [phases.Usual([45]).unlike("1")(at) for at in (44, 45)], [0, 1])


# interval


def of_clock():
    """The interval and the noise."""
    yield same("two of three in step", share_in_step([0, 10000, 20000, 31500], 10000), 2 / 3)
    yield same("a tenth is in step", share_in_step([0, 11000, 20000], 10000), 1)
    slow = tools.recording()
    tools.slow(slow)
    yield same("a slow clock", Clock(listing_of(slow), 10000).interval, 10050)
    hardly = [[rise + rise // 20000, fall + rise // 20000] for rise, fall in tools.recording()]
    clock = Clock(listing_of(hardly), 10000)
    yield same("a clock that is hardly slow", (round(clock.interval, 1), clock.exact), (10000.5, False))
    yield same("how much it may change", [round(Clock(listing_of(each[:300]), 10000).doubt, 3) for each in (hardly, slow)], [0.2, 3])
    noisy = tools.recording()
    for at, pulse in enumerate(noisy):  # distances are off by 10, 40, -20, 50 and -80: by 0, 30, 30, 40 and 90 from 10010
        pulse[0] += (0, 10, 50, 30, 80)[at % 5]
    clock = Clock(listing_of(noisy), 10000)
    yield same("noise", (clock.noise, clock.exact, round(clock.interval)), (30, False, 10000))


def of_samples():
    """The grid of samples."""
    sampled = [[rise // 7 * 7, fall // 7 * 7] for rise, fall in tools.recording()]
    yield same("a grid of samples", Clock(listing_of(sampled), 10000).grid, 7)
    for name, size in (("48,000 samples in a second", 1e6 / 48000), ("16,000 samples in a second", 62.5)):
        rate = tools.recording()  # a clock that is off by 50 in a million, and pulses that were repaired
        rate[:] = [[int(-(-time * 1.00005 // size) * size) for time in pulse] for pulse in rate]
        rate[300:400] = [[rise + 7, rise + 2007] for rise, _ in rate[300:400]]
        clock = Clock(listing_of(rate), 10000)
        yield same(name, (abs(clock.grid - size) < 1, clock.least_step < 2 * size, len(clock.runs)), (True, True, 1))
    for name, rate, millionths in (("three are off by a sample of a third of a millisecond", 3000, 130),
                                   ("samples of 4.2 microseconds", 240000, 6)):
        coarse = [[int(-(-time * (1 + millionths / 1e6) * rate // 1000000) * 1000000 / rate) for time in pulse]
                  for pulse in tools.recording()]
        clock = Clock(listing_of(coarse), 10000)
        yield same(name, (abs(clock.grid - 1e6 / rate) < 1, len(clock.runs)), (True, 1))
    between = [[int(time * 0.9999) // 200 * 200 + 2100 for time in pulse] for pulse in tools.recording()]
    clock = Clock(listing_of([[0, 400], *between]), 10000)  # the first pulse is cut
    yield same("edges between two samples, and a wire that is high at first", (clock.grid, len(clock.runs)), (200, 2))
    rough = [[-(-time // 600) * 600 for time in pulse] for pulse in tools.recording()]  # distances of 10,200 and 9,600
    clock = Clock(listing_of(rough), 10000)
    yield same("a sample is 6 % of the interval", (round(clock.grid), len(clock.runs), round(clock.interval, -1)), (600, 1, 10000))


def of_one_sample():
    """A recorder gains a sample: the grid, before and after repairs."""
    for rate, begin, millionths, by, half in ((3000, 620, 10, 7, 0), (5000, 750, 20, 5, 0), (5000, 750, 20, 5, 100)):
        gained = [[half + int(-(-(begin + time * (1 + millionths / 1e6)) * rate // 1000000) * 1000000 / rate) for time in pulse]
                  for pulse in tools.recording()]
        grids = []
        for many in (0, 40):
            gained[300:300 + many:2] = [[rise + by, rise + by + 2000] for rise, _ in gained[300:300 + many:2]]
            clock = Clock(listing_of(gained), 10000)
            grids.append((round(clock.grid), len(clock.runs)))
        yield same("one is off by a sample, before and after repairs, %d, %d" % (rate, half), grids, [(round(1e6 / rate), 1)] * 2)


def of_runs():
    """The runs of pulses: a step, a hole, and single pulses that are late."""
    for begin, by in ((285, 333), (2000, 250)):
        exact = [[begin + time for time in pulse] for pulse in late(tools.recording(), 450, by)]
        yield same("a step of %d in a code that begins at %d" % (by, begin), len(Clock(listing_of(exact), 10000).runs), 2)
    both = tools.recording()
    for at in (150, 420):  # which is no sample of 500
        both[at][:] = [time + 500 for time in both[at]]
    yield same("two pulses that are late by the same", len(Clock(listing_of(both), 10000).runs), 5)
    stepped = Clock(listing_of(late(tools.recording(), 450, 3)), 10000)
    yield same("a step of 3", [(run.first, run.last) for run in stepped.runs], [(0, 449), (450, 799)])
    near = Clock(listing_of(late(tools.recording(), 450, 1)), 10000)
    yield same("a step of 1", len(near.runs), 1)
    hole = Clock(listing_of(without(230, 415)), 10000)
    yield same("runs at a hole", [(run.first, run.last, run.begin) for run in hole.runs], [(0, 229, 0), (230, 614, 4150000)])
    yield same("on one clock", hole.on_one_clock(*hole.runs), True)


def wow(pulses, share, elements):
    """Each pulse at the time that a tape with wow gives it: the interval is off by up to a share, with a period of some elements."""
    turn = 2 * math.pi / (elements * 10000)
    return [[int(time + share / turn * (math.sin(turn * time + 1) + 1)) for time in pulse] for pulse in pulses]


def of_wander():
    """A clock whose interval changes: no step where none is, the ends of runs where they are, and what follows over a hole."""
    for share, elements in ((0.003, 100), (0.01, 200), (0.03, 200), (0.005, 50), (0.003, 8)):
        name, sound = "wow of %s in %d elements, " % (share, elements), wow(tools.recording(12), share, elements)
        clock = Clock(listing_of(sound), 10000)
        yield same(name + "the runs", [(run.first, run.last) for run in clock.runs], [(0, 1199)])
        run = clock.runs[0]
        off = max(abs(run.begin - sound[0][0]), abs(run.end - sound[-1][0]))
        yield same(name + "its ends", off < 400, True)
        holed = Clock(listing_of(sound[:430] + sound[460:]), 10000)
        track = Track(Layout("B", 4), holed, slots.link(holed, holed.runs, Layout("B", 4).unused).runs)
        lost = [abs(track.rise_at(place) - sound[place][0]) for place in range(430, 460)]
        yield same(name + "a hole of 30", (len(track.runs), track.zones[1].late, max(lost) < 700), (2, 0, True))
        stepped = sound[:600] + [[rise + 3000, fall + 3000] for rise, fall in sound[600:]]
        runs = Clock(listing_of(stepped), 10000).runs
        yield same(name + "a step", [(run.first, run.last) for run in runs], [(0, 599), (600, 1199)])
    slow = [[int(time * (0.95 + time / 2.4e8)) for time in pulse] for pulse in tools.recording(12)]
    clock = Clock(listing_of(slow), 10000)
    yield same("from fast to slow", (len(clock.runs), abs(clock.runs[0].begin - slow[0][0]) < 2, clock.margin), (1, True, 400))
    for first, share in ((150, 0.9633), (1000, 1.0342)):  # of the interval: 0.95, and a 12,000th more with each element
        lost = range(first, first + 20)
        found = analysis.examine(listing_of([pulse for at, pulse in enumerate(slow) if at not in lost])).parts[0].faults
        nominal = {"0": 2000, "1": 5000, "P": 8000}
        wide = [found.width(found.wanted[place], place) / nominal[found.wanted[place]] for place in lost]
        yield same("widths from fast to slow", [round(each / share, 2) for each in (min(wide), max(wide))], [1, 1])
    yield same("a steady clock", Clock(listing_of(tools.recording(12)), 10000).wander, None)


def of_vague():
    """On a clock that wanders a long hole is left and named with how uncertain it is; a short one is filled where its pulses were."""
    sound = wow(tools.recording(14), 0.03, 200)
    for name, first, beyond, kept, wanted in (
            ("12 elements", 530, 542, (), 12), ("150 elements", 530, 680, (), 0), ("two frames", 530, 730, (), 0),
            ("84 elements, and four of seven are there", 530, 614, [at for at in range(530, 614) if at % 7 in (1, 3, 4, 6)], 36)):
        pulses = [pulse for at, pulse in enumerate(sound) if not first <= at < beyond or at in kept]
        found = analysis.examine(listing_of(pulses))
        part = found.parts[0]
        yield same(name + ", what is filled", (len(found.parts), len(part.faults.wanted)), (1, wanted))
        far = [abs(part.track.rise_at(place) - sound[place][0]) for place in part.faults.wanted]
        yield same(name + ", to a tenth of an interval", max(far, default=0) < 1000, True)
        said = [remark for remark in part.remarks if "the clock wanders" in remark.seen]
        yield same(name + ", what is said", (len(said), len(part.remarks + found.remarks)), (0, 0) if wanted else (1, 1))
        for remark in said:
            from_there = remark.seen.startswith("%d elements are lost or damaged from there to " % (beyond - first))
            milliseconds = float(re.findall(r"be ([0-9.]+) milliseconds off", remark.seen)[0])
            # the interval is off by 3 % over half a turn of 200 elements: the hole is off by up to 10 milliseconds or a multiple
            yield same(name + ", how uncertain", (from_there, 1 < milliseconds < 100), (True, True))
    fast = wow(tools.recording(14), 0.03, 300)
    part, = analysis.examine(listing_of(fast[:610] + fast[760:])).parts
    yield same("the rest is early by more than an element", (part.track.zones[1].glued, len(part.remarks)), (False, 1))
    steady = tools.recording(14)
    yield same("a steady clock", len(analysis.examine(listing_of(steady[:530] + steady[730:])).parts[0].faults.wanted), 200)


def of_flutter():
    """In a hole of many turns of a flutter pulses come evenly, to what the flutter moves them; in one of less than half a turn they come
    as the curve has them."""
    for elements, share, many, near in ((32, 0.0015, 300, 160), (17, 0.001, 150, 60), (200, 0.01, 40, 250)):
        sound = wow(tools.recording(40), share, elements)
        part, = analysis.examine(listing_of(sound[:1530] + sound[1530 + many:])).parts
        far = [abs(part.track.rise_at(place) - sound[place][0]) for place in part.faults.wanted]
        yield same("%d elements, a turn of %d" % (many, elements), (len(far), max(far, default=0) < near), (many, True))


def of_another_speed():
    """A recorder goes on at another speed within a hole: the elements of a long one are left, as nothing says where in it that was."""
    sound = [[int(0.99 * time) if time < 15000000 else int(1.01 * time - 300000) for time in pulse] for pulse in tools.recording(30)]
    # 100 elements with 2 % between both speeds: the curve is off by a quarter of an interval in the middle; with 20 by a 20th
    for name, first, many, wanted, left in (("in a long hole", 1450, 100, 0, 1), ("in a short hole", 1490, 20, 20, 0),
                                            ("elsewhere, before it", 150, 30, 30, 0), ("elsewhere, after it", 2050, 30, 30, 0)):
        part, = analysis.examine(listing_of(sound[:first] + sound[first + many:])).parts
        said = [remark for remark in part.remarks if "the clock wanders" in remark.seen]
        yield same(name, (len(part.faults.wanted), len(said)), (wanted, left))
        far = [abs(part.track.rise_at(place) - sound[place][0]) for place in part.faults.wanted]
        yield same(name + ", to a tenth of an interval", max(far, default=0) < 1000, True)


def of_fast_wow():
    """After a hole at which a fast wow changes its speed most, all pulses are of one run, and the hole is filled to a tenth of an
    interval."""
    sound = wow(tools.recording(40), 0.0184, 53.5)
    for first in (1518, 1542):
        part, = analysis.examine(listing_of(sound[:first] + sound[first + 32:])).parts
        far = max(abs(part.track.rise_at(place) - sound[place][0]) for place in part.faults.wanted)
        yield same("a hole from %d on" % first, (len(part.faults.wanted), far < 1000), (32, True))


def of_off():
    """What is filled in on a clock that wanders has a word on how far off it can be, and is not farther off; but not if that is less than
    a hundredth of an interval, and not on a steady clock."""
    for name, sound, beyond, is_said in (("a hole of half a turn", wow(tools.recording(14), 0.01, 200), 610, True),
                                         ("a hole of five elements", wow(tools.recording(14), 0.01, 200), 535, False),
                                         ("a hole of a steady clock", tools.recording(14), 610, False)):
        found = analysis.examine(listing_of(sound[:530] + sound[beyond:]))
        repairs = [each for each in mend.called_for(found) if each.edits]
        track, off = found.parts[0].track, max(each.off for each in repairs)
        far = max(abs(track.rise_at(place) - sound[place][0]) for place in range(530, beyond))
        said = [comment for each in repairs for comment in each.comments if "the clock wanders" in comment]
        words = ["the clock wanders: what is filled in here can be %.3g milliseconds off" % (off / 1000)]
        yield same(name, (said, 100 <= off < 1000, far <= max(off, 100)), (words, True, True) if is_said else ([], False, True))


def of_undamaged():
    """Recordings of clocks that wander, get faster, tremble, and all of that: nothing is damage, and no pulse would move."""
    rng = random.Random(81)
    for number in range(12):
        pulses = tools.recording(10)
        if number % 2:
            pulses = wow(pulses, rng.uniform(0.001, 0.03), rng.choice((100, 150, 200, 400)))
        if number % 3 == 0:
            pulses = wow(pulses, rng.uniform(0.001, 0.005), rng.choice((8, 17, 40)))
        if number % 4 == 0:
            speed = rng.uniform(-0.03, 0.03)
            pulses = [[int(time * (1 + speed * time / 1e7)) for time in pulse] for pulse in pulses]
        if number % 5 == 0:
            tremble = [rng.randint(0, 100) for _ in pulses]
            pulses = [[rise + by, fall + by] for (rise, fall), by in zip(pulses, tremble)]
        found = analysis.examine(listing_of(pulses))
        said = [remark.seen for part in found.parts for remark in part.remarks + part.faults.remarks]
        said += [remark.seen for remark in found.remarks]
        yield same("undamaged %d" % number, (said, [part.faults.wanted for part in found.parts]), ([], [{}]))


def of_ends():
    """With wow of few elements nothing says when the end of a run should rise, but the end itself: no recorded pulse would move."""
    for elements, share, begins in ((28.6, 0.022, (0, 15, 25, 40)), (20, 0.03, (5, 30))):  # of format E at 0.35 and 0.5 hertz
        for begin in begins:
            sound = wow(tools.recording(9), share, elements)[begin:-7]
            name = "wow of %s in %s elements, from element %d on" % (share, elements, begin)
            found = analysis.examine(listing_of(sound))
            said = [remark.seen for part in found.parts for remark in part.remarks + part.faults.remarks]
            yield same(name, (said, [part.faults.wanted for part in found.parts]), ([], [{}]))
            holes = (200, 203), (333, 334), (500, 515)
            holed = [pulse for at, pulse in enumerate(sound) if not any(low <= at < high for low, high in holes)]
            part, = analysis.examine(listing_of(holed)).parts
            yield same(name + ", three holes", [place for place in part.faults.wanted if part.track.pulses_at(place)], [])


def trembling(pulses):
    """Distances are off by 10, 40, -20, 50 and -80; nine of ten of their distances to 10010 are up to 90, so the spread is 36.9."""
    for at, pulse in enumerate(pulses):
        pulse[0] += (0, 10, 50, 30, 80)[at % 5]


def nothing(pulses):
    pass


def dropout(pulses):
    del pulses[417:430]


# name, what the rises do, what is lost, which rise is off and by how much, and what is damage
STRAYS = (
    ("three microseconds on an exact clock", nothing, nothing, 430, 3, []),
    ("four", nothing, nothing, 430, 4, [430]),
    ("early", nothing, nothing, 430, -4, [430]),
    ("at the end of a dropout", nothing, dropout, 430, 4, [*range(417, 431)]),
    ("before a dropout", nothing, dropout, 416, 350, [*range(416, 430)]),
    ("a marker", nothing, nothing, 500, 300, [500]),
    ("the first one is cut by the begin", nothing, nothing, 0, 300, []),
    # pulse 430 is 40 before where those next to it say
    ("8.0 times the spread", trembling, nothing, 430, 325, []),
    ("8.5 times the spread", trembling, nothing, 430, 355, [430]),
)


def of_strays():
    """A rise that is off by more than eight times the spread and three samples is damage, though its pulse is in step."""
    for name, jitter, damage, at, by, wanted in STRAYS:
        pulses = tools.recording()
        jitter(pulses)
        pulses[at][0] += by
        if not at:
            pulses = [[max(0, rise - by), fall - by] for rise, fall in pulses]
        damage(pulses)
        found = analysis.examine(listing_of(pulses)).parts[0].faults
        yield same(name, sorted(found.wanted), wanted)
        if wanted == [430]:
            edits, _ = script_of(pulses)
            due = 4300000 + (40 if jitter is trembling else 0)
            moved = [int(line.split()[2]) for line in edits if line.startswith("431 shift ")]
            yield same(name + ", where it is moved to", [pulses[430][0] + each for each in moved], [due])


def frames_of(interval, begin, many):
    """Elements of frames of another format."""
    tenths, text = {"0": 2, "1": 5, "P": 8}, letters(3)
    return [[begin + at * interval, begin + at * interval + tenths[text[at]] * interval // 10] for at in range(many)]


def of_code_in_a_hole():
    """Other code is left and named, in a hole and at the end."""
    pulses = tools.recording(12)
    for name, other, seen in (
        ("of format A", frames_of(1000, 2331000, 230), "time code of format A, one in 1000 microseconds"),
        ("of format E", frames_of(100000, 2320000, 30), "time code of format E, one in 100000 microseconds"),
        ("a pulse in a second", [[2400000 + at * 1000000, 2420000 + at * 1000000] for at in range(6)], "pulses, one in a second"),
        ("another signal", [[2331000 + at * 3300, 2332000 + at * 3300] for at in range(60)], "pulses, one in 3300 microseconds"),
    ):
        beyond = other[-1][1] // 10000 + 20
        found = analysis.examine(listing_of(pulses[:230] + other + pulses[beyond:]))
        said = [remark.seen for part in found.parts for remark in part.remarks]
        yield same(name + ", the remark", [seen in each and "is other code" in each for each in said], [True])
        yield same(name + ", what is repaired", [dict(part.faults.wanted) for part in found.parts], [{}])
        ended = analysis.examine(listing_of(pulses[:230] + other))
        yield same(name + ", at the end", any(part.faults.wanted for part in ended.parts), False)


def of_code_with_losses():
    """Other code in a hole of which some pulses are lost."""
    pulses = tools.recording(12)
    for name, other, lost in (("of format A", frames_of(1000, 2331000, 230), 3), ("another signal", frames_of(3300, 2331000, 28), 4),
                              ("of format E", frames_of(100000, 2320000, 28), 5)):
        kept = [pulse for at, pulse in enumerate(other) if at % lost]
        found = analysis.examine(listing_of(pulses[:230] + kept + pulses[other[-1][1] // 10000 + 20:]))
        said = [remark.seen for part in found.parts for remark in part.remarks]
        got = ["is other code" in each for each in said], [part.faults.wanted for part in found.parts]
        yield same(name + ", one of %d is lost" % lost, got, ([True], [{}]))


def of_this_code():
    """What is left of this code in a hole is no other code, and what is missing is mended."""
    glitches = [[2383334, 2383500], [2386667, 2386800]]  # a third of an interval apart, as the marker after them is
    lost = [*range(240, 259), *range(261, 277)]
    pulses = [pulse for at, pulse in enumerate(tools.recording()) if at not in lost]
    found = analysis.examine(listing_of([*pulses[:239], *glitches, *pulses[239:]]))
    yield same("glitches that pulses of this code follow in a hole", [sorted(part.faults.wanted) for part in found.parts], [[238, *lost]])
    for name, lost in (("four of seven, 2, 2, 2 and 1 apart", [at for at in range(232, 262) if at % 7 not in (0, 2, 4, 6)]),
                       ("three of eight, 2, 2 and 4 apart", [at for at in range(232, 282) if at % 8 not in (0, 2, 4)])):
        found = analysis.examine(listing_of([pulse for at, pulse in enumerate(tools.recording()) if at not in lost]))
        yield same("elements of this code, " + name, [sorted(part.faults.wanted) for part in found.parts], [lost])
    positions = [pulse for at, pulse in enumerate(tools.recording()) if not 230 <= at < 480 or at % 10 == 9 or at % 100 == 0]
    found = analysis.examine(listing_of(positions))
    lost = [at for at in range(230, 480) if at % 10 != 9 and at % 100]
    yield same("position identifiers alone are no other code", [sorted(part.faults.wanted) for part in found.parts], [lost])


def of_other_code():
    """What is in a hole, and is not of this code, is left and named; what is left of this code is mended."""
    for rows in (of_code_in_a_hole, of_code_with_losses, of_this_code):
        yield from rows()


def of_every_second():
    """A hole in which every second or third pulse of this code is left is filled if position identifiers are among these; what has the
    distance, but is not wide just where this code is, is left."""
    for name, lost in (("every second", range(232, 301, 2)), ("every third", [at for at in range(231, 330) if at % 3 != 2])):
        found = analysis.examine(listing_of([pulse for at, pulse in enumerate(tools.recording()) if at not in lost]))
        yield same(name + " is left", [sorted(part.faults.wanted) for part in found.parts], [list(lost)])
    steps = range(2330000, 3170000, 20000)
    names = [name for k in range(20) for name in timecode.encode("G", 2, timecode.generated("G", (tools.DAY, tools.NOON), k, 0))]
    of_g = [[100 * at, 100 * at + timecode.nominal(100, name)] for at, name in enumerate(names)]
    for name, kind, whole, other in (
            ("without position identifiers", "B", tools.recording(), [tools.recording()[at] for at in range(232, 300, 2)]),
            ("50 hertz, narrow", "B", tools.recording(), [[rise, rise + 2000] for rise in steps]),
            ("50 hertz, wide", "B", tools.recording(), [[rise, rise + 8000] for rise in steps]),
            ("50 hertz between them", "B", tools.recording(), [[rise + 10000, rise + 15000] for rise in steps[:-1]]),
            ("wide at other places", "B", tools.recording(),
             [[rise, rise + (8000 if at % 5 == 1 else 2000)] for at, rise in enumerate(steps)]),
            ("wide there, and at other places", "B", tools.recording(),
             [[rise, rise + (8000 if at % 5 in (1, 3) else 2000)] for at, rise in enumerate(steps)]),
            ("code of format E in step", "B", tools.recording(12),
             [[2400000 + rise * 10, 2400000 + fall * 10] for rise, fall in tools.recording()[:28]]),
            ("code of format A in step", "G", of_g, [[23900 + each[0] // 10, 23900 + each[1] // 10] for each in tools.recording()[:60]])):
        interval = timecode.INTERVAL[kind]
        holed = [*whole[:230], *other, *whole[other[-1][1] // interval + 2:]]
        found = analysis.examine(listing_of(holed, expression=4 if kind == "B" else 2, kind=kind))
        said = ["is other code" in remark.seen for part in found.parts for remark in part.remarks]
        yield same(name + " is left", (said, [part.faults.wanted for part in found.parts]), ([True], [{}]))


# polarity


def of_upright():
    """A wire that is upright by few pulses is so by all of them: of random rises and falls, in step in some stretches, or out of it."""
    for seed in range(400):
        rng, times = random.Random("upright %d" % seed), ([0], [300])
        shares = rng.choice((0.02, 0.1, 0.3, 0.6, 0.8)), rng.choice((0, 0.05, 0.3, 0.6, 0.9))
        for _ in range(rng.randint(4, 600)):
            shares = shares[::-1] if rng.random() < 0.01 else shares
            for each, share in zip(times, shares):
                each.append(each[-1] + (rng.choice((500, 1300, 1700)) if rng.random() < share else 1000))
        listing = Listing(max(map(max, times)), len(times[0]), "A", 2, *times)
        found = polarity.upside_down(listing, 1000)
        with mock.patch.object(polarity, "_is_upright", lambda *_: False):
            votes = polarity.upside_down(listing, 1000)
        rises, falls = ([not 900 <= after - before <= 1100 for before, after in zip(each, each[1:])] for each in times)
        few = sum(rise and not fall for rise, fall in zip(rises, falls)) <= limits.TURNED_OVER
        yield same("upright %d" % seed, found, [] if few else votes)


def of_polarity():
    """Which stretches of a wire are upside down."""
    for name, stretches in (("from some time on", [(2503000, 8000000)]), ("up to some time", [(0, 4321000)]),
                            ("but for a stretch", [(0, 2403000), (5104000, 8000000)]),
                            ("for a while", [(2403000, 5104000)]), ("nowhere", [])):
        pulses = tools.recording()
        for each in stretches:
            tools.upside_down_in(pulses, *each)
        found = polarity.upside_down(listing_of(pulses, 8000000), 10000)
        near = [abs(got - true) for both in zip(found, stretches) for got, true in zip(*both)]
        yield same("upside down " + name, (len(found), all(each <= 100000 for each in near)), (len(stretches), True))
    pulses = tools.recording()
    tools.turned(pulses)
    yield same("upside down", polarity.upside_down(listing_of(pulses, 8000000), 10000), [(0, 8000000)])


# slots


def linked(pulses):
    listing = listing_of(pulses)
    clock = Clock(listing, 10000)
    return slots.link(clock, slots.parts(clock)[0], Layout("B", 4).unused)


def of_slots():
    """What it costs to believe a recording, and the places that follow: docs/METHOD.md has the prices."""
    gap, cut = (230, 415), without(430, 460)
    marker = without(*gap)
    marker[500 - 185][1] = 5005000
    rows = (
        ("a sound recording", tools.recording(), 0, [0]),
        ("a hole", without(*gap), 0.3, [0, 415]),
        ("a hole, and a marker is a one", marker, 1.3, [0, 415]),
        ("a hole, and a little late", late(without(*gap), 230, 100), 2, [0, 415]),
        ("the rest is late", late(tools.recording(), 450, 3300), 3, [0, 450]),
        ("the rest is very late", late(tools.recording(), 450, 33000), 3, [0, 450]),
        ("a hole, and late", late(without(*gap), 230, 3300), 4, [0, 415]),
        ("a hole, and early", late(without(*gap), 230, -600), 5, [0, 415]),
        # ten apart are also those of the other phase, up to the marker of frame 5; a frame more may be missing
        ("elements are missing", late(cut, 430, -300000), 1, [0, 600]),
    )
    for name, pulses, cost, places in rows:
        found = linked(pulses)
        yield same(name + ", the cost", round(found.cost, 6), cost)
        yield same(name + ", the places", [run.place for run in found.runs], places)
        yield same(name + ", the lead", all(run.lead >= 3 for run in found.runs), True)


def of_tenths():
    """Costs are whole tenths, so a lead of two faults is two; a run that is left alone has a line."""
    yield same("tenths", [slots.tenths(each) for each in (0.3, 0.5, 2, 0.1 + 0.2)], [3, 5, 20, 3])
    unseen = []
    for cut in range(0, 60, 3):
        for lost in range(20, 200 - cut - 20, 9):
            pulses = tools.recording(2)[cut:]
            del pulses[lost]
            found = analysis.examine(listing_of(pulses, expression=2))
            if not found.remarks and not any(part.faults.wanted or part.faults.remarks for part in found.parts):
                unseen.append((cut, lost))
    yield same("one pulse is missing in few", unseen, [])


def of_parts():
    """Which runs count, and which are left alone."""
    few = without(230, 415)
    del few[:226]  # four pulses, and then a run
    listing = listing_of(few)
    clock = Clock(listing, 10000)
    yield same("a short run on the same clock", len(slots.parts(clock)[0]), 2)
    off = late(without(230, 415), 230, 4000)
    del off[:226]
    listing = listing_of(off)
    yield same("a short run on another clock", len(slots.parts(Clock(listing, 10000))[0]), 1)
    runs = linked(late(tools.recording(), 450, 3300)).runs
    yield same("all are sure", [len(part) for part in slots.sure_parts(runs)], [2])
    unsure = [runs[0], runs[1].__class__(**{**vars(runs[1]), "lead": 1})]
    found = slots.sure_parts(unsure)
    yield same("one is not", [[run.ends for run in part] for part in found], [["]"]])
    yield same("what was given is as before", runs[0].ends, "")


# places between runs


def track_of(pulses, length=0, expression=4):
    listing, layout = listing_of(pulses, length, expression), Layout("B", expression)
    clock = Clock(listing, 10000)
    way = slots.link(clock, slots.parts(clock)[0], layout.unused)
    return Track(layout, clock, way.runs)


def of_places():
    """Which pulse is at which place, and its letter."""
    found = [zones.whole_steps(distance, 10000) for distance in (8100, 7900, -1900, -2100)]
    yield same("early by a fifth", found, [1, 0, 0, -1])
    lone = tools.recording()
    del lone[301:415]
    del lone[230:300]
    track = track_of(lone)
    yield same("a pulse in a hole", list(track.pulses_at(300)), [230])
    yield same("its neighbours", [list(track.pulses_at(place)) for place in (299, 301)], [[], []])
    yield same("the letters of the hole", track.told[229:302], letters()[229] + "-" * 70 + "P-")
    yield same("when it should rise", track.rise_at(350), 3500000)
    border = late(without(420, 450), 424, 3300)
    del border[426]  # two late pulses, one that is missing, and then the run
    zone = next(zone for zone in track_of(border).zones if zone.late)
    yield same("the first pulse that is late", (zone.border, zone.border_place), (424, 454))
    twice = tools.recording()
    tools.glitch(twice)
    yield same("two pulses", track_of(twice).told[300:303], "P?" + letters()[302])
    joined = tools.recording()
    joined[232:234] = [[2320000, 2332000]]
    yield same("over how many more places it reaches", track_of(joined).spans(232, 232), 1)
    cut = tools.recording()
    track = track_of(cut[30:], cut[-1][1])
    yield same("before the recording", track.frame(0)[:31], "~" * 30 + letters()[30])
    yield same("the end is cut", track.told[-1], "~")


# times of frames


class Frames:
    """Frames as a track has them."""

    def __init__(self, texts, expression=4):
        self.layout, self.texts = Layout("B", expression), texts

    def frames(self):
        return range(len(self.texts))

    def frame(self, number):
        return self.texts[number]


def texts_of(frames=8, leap=False):
    text = letters(frames, leap=leap)
    return [text[at:at + 100] for at in range(0, len(text), 100)]


def changed(text, element, letter):
    return text[:element] + letter + text[element + 1:]


def of_votes():
    """What frames say, one by one and together."""
    texts = texts_of()
    texts[6] = changed(texts[6], 21, "0")  # the hours are 10, and seconds since midnight say 12
    texts[2] = changed(changed(texts[2], 2, "-"), 1, "1")
    votes = Votes(Frames(texts))
    base = NOON
    yield same("the base of a frame", votes.own[5], base)
    yield same("a frame that contradicts itself", 6 in votes.own, False)
    yield same("its votes", votes.counted(6, base)[1], 1)
    yield same("a damaged frame", [votes.votes(2, base)[element] if element != 2 else element in votes.votes(2, base)
                                   for element in (1, 2, 3)], [-1, False, 1])
    yield same("a base that is borne out", votes.is_borne([1, 3], base), True)
    yield same("and one that is not", votes.is_borne([1, 3], base + 100), False)


class Said:
    """Frames with bases of their own, and how many of 20 elements are against a base; None if a frame shows none."""

    def __init__(self, own, against):
        self.own, self.wrong = own, against

    def counted(self, number, base):
        wrong = self.wrong.get((number, base), 0)
        return (0, 0) if wrong is None else (20 - wrong, wrong)

    def is_borne(self, numbers, base):
        return True


def of_spans():
    """The cheapest way from base to base: a change costs three elements."""
    rows = (
        ("five elements are damage", {2: 200}, {(2, 100): 5, (1, 200): 9, (3, 200): 9}, 100, 100, {1: 100, 2: 100, 3: 100}),
        ("six are as good as two changes", {2: 200}, {(2, 100): 6, (1, 200): 9, (3, 200): 9}, 100, 100,
         {1: 100, 2: None, 3: 100}),
        ("seven in one frame are no new time", {2: 200}, {(2, 100): 7, (1, 200): 9, (3, 200): 9}, 100, 100,
         {1: 100, 2: None, 3: 100}),
        ("frames that show nothing support no new time", {2: 200},
         {(2, 100): 7, **{(number, base): None for number in (1, 3) for base in (100, 200)}}, 100, 100,
         {1: None, 2: None, 3: None}),
        ("the time changes between", {}, {(1, 200): 4, (2, 200): 4, (3, 100): 4}, 100, 200, {1: 100, 2: 100, 3: 200}),
        ("only one side", {}, {(2, 100): 9}, 100, None, {1: 100, 2: 100, 3: 100}),
    )
    for name, own, against, left, right, wanted in rows:
        yield same(name, spans.fit(Said(own, against), [1, 2, 3], left, right), wanted)


def of_pieces():
    """The time that parts of frames say together: two must say each field."""
    texts = texts_of(4)
    broken = [changed(changed(text, 9, "-"), 80, "-") for text in texts]
    for text, lost in ((0, (12,)), (1, (12, 22)), (2, (22, 31)), (3, (31,))):
        for element in lost:
            broken[text] = changed(broken[text], element, "-")
    votes = Votes(Frames(broken))
    yield same("no frame is read", votes.own, {})
    yield same("all together", pieced(votes, [0, 1, 2, 3]), NOON)
    broken[3] = changed(broken[3], 12, "-")
    yield same("one frame has the minutes", pieced(Votes(Frames(broken)), [0, 1, 2, 3]), None)


def of_leap():
    """A second 60 that is shown, or lost with time for it."""
    end = 736329 * timecode.DAY + timecode.DAY  # of 31 December 2016
    texts = texts_of(10, leap=True)
    yield same("it is shown", Votes(Frames(texts)).calendar.leap, end)
    yield same("each frame leads to one base", set(Votes(Frames(texts)).own.values()), {end - 400})
    lost = [*texts[:4], "-" * 100, *texts[5:]]
    found = Votes(Frames(lost))
    yield same("it is lost", found.calendar.leap, end)
    yield same("one base", set(found.own.values()), {end - 400})
    yield same("its fields", [found.calendar.fields(end + 50)[name] for name in ("hours", "minutes", "seconds", "days")],
               [23, 59, 60, 366])
    yield same("what follows", [found.calendar.fields(end + 100)[name] for name in ("seconds", "days")], [0, 1])
    noon = texts_of(8)
    yield same("none at noon", Votes(Frames([*noon[:3], "-" * 100, *noon[3:]])).calendar.leap, None)
    yield same("none without a loss", Votes(Frames(texts_of(8))).calendar.leap, None)


def of_moments():
    """Moments and fields."""
    with_year, without_year = Calendar(Layout("B", 4)), Calendar(Layout("B", 2))
    told = {"year": 24, "days": 61, "hours": 12, "minutes": 0, "seconds": 0}
    yield same("a number", with_year.moment_of(told), NOON)
    yield same("its text", with_year.text(NOON), "2024-061T12:00:00")
    yield same("the day after 365", without_year.fields(366 * timecode.DAY)["days"], 1)
    yield same("in a long year", Calendar(Layout("B", 2), 366).fields(366 * timecode.DAY)["days"], 366)
    last = {"days": 365, "hours": 23, "minutes": 59, "seconds": 58}
    first = {"days": 1, "hours": 0, "minutes": 0, "seconds": 1}
    yield same("one base over the end of a year", without_year.base(0, last), without_year.base(3, first))


def hour_less(number):
    """Eight frames of expression 2 at one o'clock, one with a zero for the one of its hours."""
    pulses = []
    for k in range(8):
        for name in timecode.encode("B", 2, timecode.generated("B", (tools.DAY, 360000 + 100 * k), 0, 0)):
            pulses.append([10000 * len(pulses), 10000 * len(pulses) + timecode.nominal(10000, name)])
    pulses[100 * number + 20][1] -= 3000
    return pulses


def of_times():
    """The time of each frame of a track, if one is damaged or the clock was set."""
    pulses = tools.recording()
    pulses[621][1] = 6212000
    times = Times(track_of(pulses))
    yield same("one base", set(times.bases.values()), {NOON})
    yield same("one span", [(span.first, span.last) for span in times.spans], [(0, 7)])
    yield same("which are sound", times.sound, {0, 1, 2, 3, 4, 5, 7})
    yield same("what follows", times.expected(6)[20:23], "010")
    plain = Times(track_of(hour_less(6), expression=2))
    yield same("a frame of another hour", (plain.own[6] - plain.own[5], plain.bases[6] - plain.bases[5]), (-360000, 0))
    yield same("it is not sound", plain.sound, {0, 1, 2, 3, 4, 5, 7})
    clock_set = tools.recording(4) + [[rise + 4000000, fall + 4000000] for rise, fall in tools.recording(4)]
    found = Times(track_of(clock_set)).spans
    yield same("the clock was set", [(span.first, span.last, span.base - NOON) for span in found], [(0, 3, 0), (4, 7, -400)])


def of_contrary():
    """A frame between sound ones of which two elements of its time say otherwise is repaired, and of which three do is left."""
    for many, wanted, left in ((1, [410], 0), (2, [410, 411], 0), (3, [], 1), (4, [], 1)):
        pulses = tools.recording(9)
        for at in (410, 411, 412, 413)[:many]:  # the minutes, of which each is another one
            rise, fall = pulses[at]
            pulses[at][1] = rise + (2000 if fall - rise == 5000 else 5000)
        found = analysis.examine(listing_of(pulses)).parts[0].faults
        said = sum("contradict" in remark.seen for remark in found.remarks)
        yield same("%d elements of a frame contradict the others" % many, (sorted(found.wanted), said), (wanted, left))
    for many, wanted, left in ((1, [845], 0), (2, [], 1)):
        pulses = tools.recording(9, expression=2)
        for at in (845, 847)[:many]:  # of which the expression has no use
            pulses[at][1] = pulses[at][0] + 5000
        found = analysis.examine(listing_of(pulses, expression=2)).parts[0].faults
        said = sum("contradict" in remark.seen for remark in found.remarks)
        yield same("%d ones of no use at the end" % many, (sorted(found.wanted), said), (wanted, left))
    # an hour later, an hour earlier, another day, and that in two elements
    for places, wanted, left in (([820], [], 1), ([820, 821], [], 1), ([832], [832], 0), ([830, 832], [], 1)):
        pulses = tools.recording(9, expression=2)
        for at in places:
            rise, fall = pulses[at]
            pulses[at][1] = rise + (2000 if fall - rise == 5000 else 5000)
        found = analysis.examine(listing_of(pulses, expression=2)).parts[0].faults
        said = sum("contradict" in remark.seen for remark in found.remarks)
        yield same("elements %s of the recording" % places, (sorted(found.wanted), said), (wanted, left))


def of_set():
    """A clock that was set at the 16th frame, and what comes after it is damaged: no frame gets the time that is over."""
    told, unseen = [], []
    for seed in range(6):
        rng = random.Random("set %d" % seed)
        pulses = tools.recording(16, expression=2)
        for rise, fall in tools.recording(16, begin=(tools.DAY, tools.NOON + 360000 * rng.randint(1, 9)), expression=2):
            pulses.append([rise + 16000000, fall + 16000000])
        true = listing_of(pulses, expression=2).classes
        for at in sorted(rng.sample(range(1602, 3200), rng.randint(12, 30)), reverse=True):
            if rng.random() < 0.5:
                pulses[at][1] = pulses[at][0] + rng.choice((2000, 5000, 8000))
            else:
                del pulses[at]
        for part in analysis.examine(listing_of(pulses, expression=2)).parts:
            wrong = {place for place, target in part.faults.wanted.items() if 0 <= place < 3200 and true[place] != target}
            # up to two elements of a frame are damage; more than that are no accident
            most = max((sum(each // 100 == frame for each in wrong) for frame in {each // 100 for each in wrong}), default=0)
            told.append(most)
            unseen += sorted(wrong) if most > 2 else []
    yield same("no frame is rewritten against more than two elements", (unseen, max(told) <= 2), ([], True))


def of_steadiness():
    """How often an element may have changed: two changes need a chance below 1 in 1,000."""
    def rows(changes, frames):
        row = "01" * changes + "1" * frames
        return ["-" * 50 + row[at] for at in range(frames)]

    for name, texts, before, after, wanted in (
            ("it never changed", ["-" * 50 + "0"] * 25, 9, 9, True),
            ("it never changed in few frames, and no other did", ["-" * 50 + "0"] * 5, 9, 9, True),
            ("one change in 99", rows(0, 50) + ["-" * 50 + "0"] * 50, 1, 1, True),
            ("the same, two frames away", rows(0, 50) + ["-" * 50 + "0"] * 50, 2, 2, False),
            ("it changes always", rows(10, 20), 1, 1, False)):
        yield same(name, steadiness.Steadiness([50], texts).holds(50, before, after), wanted)
    two = ["0" + "01"[at % 2] for at in range(10)]
    yield same("too few chances, and another element changed", steadiness.Steadiness([0, 1], two).holds(0, 9, 9), False)


# what is there twice, and repairs


def of_copies():
    """A stretch that is there twice is taken out, and the rest goes back."""
    copied = tools.recording(12)
    tools.again(copied, 430, 130)
    track = track_of(copied)
    lines = [line for repair in take_out(track, Times(track)) for line in repair.lines()[1:]]
    yield same("a copy", lines, ["begin", "558,687 delete", "558,$ shift -1300000", "end"])
    track = track_of(tools.recording(12))
    yield same("no copy", take_out(track, Times(track)), [])


def of_cuts():
    """Two stretches were cut out: the times on both sides say how long each was."""
    cut = tools.recording(24)
    for first, many in ((1730, 45), (430, 330)):
        del cut[first:first + many]
        tools.moved(cut, first, -10000 * many)
    found = mend.called_for(analysis.examine(listing_of(cut), move=True))
    said = [int(repair.comments[0].split()[3]) for repair in found if "elements are missing by the times" in repair.comments[0]]
    yield same("how many are missing", sorted(said), [45, 330])


def of_checks():
    """Where a track steps, so that the check of a script does not compare frames over it."""
    early = late(without(230, 415), 230, -600)
    early[-1][1] = 8099900  # so that there is no room to move the rest back
    findings = analysis.examine(listing_of(early, 8100000), move=True)
    yield same("times of steps", mend.step_times(findings), [0, 4149400])


def script_of(pulses, **more):
    """What the first look calls for, without comments."""
    found = mend.called_for(analysis.examine(listing_of(pulses, 8100000), **more))
    return [line for repair in found for line in repair.lines() if not line.startswith("#")], found


def of_edits():
    """The text of an edit, and what is chosen."""
    yield same("one pulse", edit.of_pulses("delete", 4, 4).line(), "5 delete")
    yield same("some pulses", edit.of_pulses("delete", 4, 6).line(), "5,7 delete")
    yield same("no pulse", edit.Edit("insert", (10, 20)).line(), "insert 10 20")
    yield same("a rest", (edit.moved_rest(450, -3300).line(), edit.moved_rest(450, -3300).move), ("451,$ shift -3300", -3300))
    yield same("from a time on", edit.script_lines(edit.moved_from(9, -3)), ["mark z 9", "'z,$ shift -3", "unmark z"])
    yield same("one pulse is no rest", edit.of_pulse("shift", 4, 7).move, 0)
    seven, eight = without(430, 437), without(430, 438)
    yield same("seven are lost", [line.split()[0] for line in script_of(seven)[0]], ["begin", *["insert"] * 7, "end"])
    yield same("eight are lost", script_of(eight)[0], ["regen 4000000 1 2024-061T12:00:04"])
    both = without(430, 431)
    del both[120]
    yield same("the last comes first", script_of(both)[0], ["insert 4300000 4305000", "insert 1200000 1202000"])
    rest, found = script_of(late(tools.recording(), 450, 3300), move=True)
    yield same("a rest that is late", (rest, found[0].moves), (["451,$ shift -3300"], [(4503300, -3300, 0)]))
    early = late(without(230, 415), 230, -600)
    early[-1][1] = 8099900
    said = "".join(repair.comments[0] for repair in script_of(early, move=True)[1])
    yield same("no room for a rest", "185 elements are missing, and the rest comes 600 early; the recording is too short"
               in said, True)


def of_threshold():
    """Every pulse is longer by 0.17 of an interval: classes as they were."""
    pulses = [[rise, fall + 1700] for rise, fall in tools.recording()]
    listing = listing_of(pulses, 8002000)
    found = threshold.level(listing, Layout("B", 4))
    names = {"zero": "0", "one": "1", "position": "P"}
    given = [(line.split()[0], names[line.split()[2]]) for repair in found for line in repair.edits]
    yield same("each pulse gets its class", given, [(str(at), name) for at, name in enumerate(letters(), 1)])
    yield same("a sound recording", threshold.level(listing_of(tools.recording()), Layout("B", 4)), [])


def literals(path):
    """The texts of bytes in a source of the programs."""
    with open(os.path.join(TOP, "crates", path), encoding="utf-8") as file:
        return re.findall(r'b?"([^"]*)"', re.sub("//.*", "", file.read()))


def is_refused(reads, text):
    """Whether a reader refuses a text."""
    try:
        reads(text)
    except ValueError:
        return True
    return False


def of_guard():
    """The tools know each text that irig_guard can say, and no other, and read each reason of its worked rows."""
    words, texts = guard_words, literals("irig_guarding/src/reason_text.rt")
    refusals = [text for text in texts if re.fullmatch("E[0-9]+ .*", text)]
    of_none = [words.UNSUPPORTED, words.UNJUDGED, *words.OF_NO_FRAME, *words.GONE, words.MOMENT, *words.OF_A_MOMENT,
               words.REFUSED_BY_EDITOR]
    known = [words.NOT_KEPT, *words.OF_A_FRAME, *of_none]
    yield same("each reason", sorted(set(texts) - set(refusals)), sorted(known))
    yield same("each refusal", [words.guard_reason(words.NOT_KEPT + words.REFUSED_BY_EDITOR + each) for each in refusals],
               [words.Reason("not kept: refused: " + each) for each in refusals])
    yield same("nothing is fine", words.NOTHING_FINE in literals("irig_guarding/src/printing.rt"), True)
    said = words.FILLED % ("{filled}", "{frames}")
    yield same("frames that were filled", said in "".join(literals("irig_guard/src/statuses.rt")), True)
    lines = [line for row in guard.ROWS for line in row.wanted if line not in row.script and line.startswith(words.NOT_KEPT)]
    yield same("when the frames begin", [words.guard_reason(line).begin for line in lines],
               [int(line.split(" at ")[1].split()[0].strip(":")) if "frame " in line and " at " in line else None for line in lines])
    of_all = [line for line in lines if words.guard_reason(line).is_of_all]
    yield same("of all frames", of_all, [line for line in lines if words.UNSUPPORTED in line or words.UNJUDGED in line])
    yield same("a line of the script", words.guard_reason("# 702 force zero"), None)
    counts = [words.filled_frames("irig_guard: a: b.vcd: " + words.filled_text(many)) for many in (1, 12)]
    yield same("how many were filled", (counts, words.filled_frames("")), ([1, 12], 0))
    yield same("a reason that is not known", is_refused(words.guard_reason, words.NOT_KEPT + "of another release"), True)


def of_limits():
    """Each cost and limit is used, has a comment, and is written as a number nowhere else."""
    with open(limits.__file__, encoding="utf-8") as file:
        lines = file.read().splitlines()
    texts = ""
    for path in glob.glob(os.path.join(TOP, "tools", "irig_tools", "*.py")):
        with open(path, encoding="utf-8") as file:
            texts += file.read()
    names = [name for name in vars(limits) if name.isupper()]
    yield same("each is used", [name for name in names if not re.search(r"limits\.%s\b" % name, texts)], [])
    bare = [line for line in lines if re.match("[A-Z_, ]+ =", line) and "  # " not in line]
    yield same("each has a unit or a reason", bare, [])


def cases():
    """Each part by its name."""
    return [case("mend: part: " + name, holds) for name, holds in (
        ("phases", of_phases), ("clock", of_clock), ("clock of samples", of_samples), ("clock that gains a sample", of_one_sample),
        ("clock of runs", of_runs), ("a clock that wanders", of_wander), ("polarity", of_polarity), ("slots", of_slots),
        ("upright by few pulses", of_upright),
        ("sure runs", of_parts), ("tenths", of_tenths), ("other code", of_other_code),
        ("every second pulse", of_every_second), ("ends of runs on a clock that wanders", of_ends),
        ("a long hole on a clock that wanders", of_vague), ("another speed", of_another_speed), ("a fast wow", of_fast_wow),
        ("flutter", of_flutter),
        ("how far off what is filled in can be", of_off),
        ("undamaged", of_undamaged), ("a rise that is off", of_strays), ("a clock that was set", of_set), ("places", of_places),
        ("votes", of_votes),
        ("spans", of_spans), ("pieces", of_pieces), ("leap seconds", of_leap), ("moments", of_moments), ("times", of_times),
        ("contrary elements", of_contrary), ("steadiness", of_steadiness), ("copies", of_copies), ("cuts", of_cuts),
        ("edits", of_edits), ("checks", of_checks), ("threshold", of_threshold), ("words of irig_guard", of_guard), ("limits", of_limits))]
