"""All costs and limits of finding and mending, each with its unit and what it says; docs/METHOD.md has the words.

An interval is the time from element to element; a fault is the unit of the first shortest path. Where a number is from:
the tolerance of irig_ed, which reads a frame only if each rise is within a tenth of an interval (IN_STEP, and what is below
it); a probability (EIGHT_OF_TEN, NINE_OF_TEN, CHANCE, CHANCES); the reasons in the tables of docs/METHOD.md (the costs); or
the end of a search (what says `most`, `longest` or `search`). `[28, 26]`: halved and doubled (of a small whole number one
less and one more), that many first looks at 332 recordings at random are others; from UPSIDE_DOWN on at 99, and from ROUNDS
on that many scripts. Those without it changed none: tests/rows/tools_parts.py has rows for the rarer faults they are for. `[1, 4 of 58]`:
of that many other recordings. 58 and 34 wander, jitter or have holes with other code; 48 are holes with this code or another, thinned out;
12 have wow or flutter; 30 have late rises. As they are, 1,350 places of the 58 are filled, none is a tenth of an interval off, and no
sound pulse is moved; half of WANDER_STEP or CLEARLY_BETTER moves one, half of ABOVE_NINE_OF_TEN fills 150 places fewer.
"""

# the clock (interval)
IN_STEP = 0.1  # intervals: neighbours whose distance is so near the nominal one follow each other [12, 3]
MOST_SAMPLED = 50000  # distances that are looked at for the interval
SAME_CLOCK = 0.0001  # a clock that is less off, as a share, is nominal, if no more than OTHER_CLOCK say otherwise [0, 1]
OTHER_CLOCK = 0.5  # the share of elements that are in runs which are too long or too short for a nominal clock: damage is in fewer
LEAST_MARGIN, MOST_MARGIN = 0.04, 0.09  # intervals: how far a distance within a run may be off
LEAST_STRAY, MOST_STRAY = 0.04, 0.07  # intervals: how far one rise between runs may be off
MARGIN_BY_NOISE, STRAY_BY_NOISE = 6, 4  # how many times the half spread of the distances
NEAR = 15  # pulses at the end of a run whose median says where it should rise [28, 26]
FAR = 300  # pulses at the end of a run that say the interval there [1, 1]
LOCAL = 100  # pulses: a longer run has an interval of its own
STRETCHES = 4  # stretches of FAR that show how much the interval changes
UNKNOWN_DOUBT = 0.0003  # of the interval: how much it may change if no stretch shows it
QUARTZ_DOUBT = 0.00002  # the same if it is nearly nominal (SAME_CLOCK): as much as a clock of quartz changes from 0 to 50 degrees
EIGHT_OF_TEN = 1.9  # of what is spread as by chance, eight of ten are within that many times what half are within
NINE_OF_TEN = 2.44  # and nine of ten within that many times [36, 2]
MOST_SLACK = 0.4  # intervals: how far runs on one clock may be off at most
NEAR_RUNS = 300  # elements: runs that are no farther apart can be on one clock
SPREADS = 5  # a step is seen if it is that many times as large as the spread of the distances [36, 36]
LEAST_STEP = 2  # microseconds: times are whole numbers, so less is no step
BY_GRID = 1.5  # samples of a recorder: a smaller step is one of its own
OFF_BY_SAMPLE = 3  # distances that are off by one sample show its size, if all edges are a whole number of samples apart: two can be steps
MANY_OFF = 6  # distances that show it if not all are: two pulses that are late by the same make four
OFTEN_OFF = 0.05  # the share of distances that are off by a sample, beyond which pulses are in step that are off by one
ROUNDED = 1  # microseconds: both ends of a distance are rounded down, so it is off by less
LEAST_SAMPLE = 5  # microseconds: of shorter ones four of ten lengths and more are a whole number by chance: only distances show them
LEAST_FROM_BEGIN = 50  # microseconds: an exact code is at longer samples, counted from the beginning, in five of a hundred times at most
LEAST_HALVED = 100  # microseconds: of longer samples edges can be in the middle between two, with the same chance
SOME_PULSES = 200  # pulses that are looked at for that, so that the search stays short
ON_SAMPLE = 0.8  # the share of their edges that has to be whole samples after the beginning: the others are damaged or repaired
ON_GRID = 0.5  # the share of lengths, and of what distances are off, that has to be whole samples: what is repaired is not
SIDE = 5  # pulses on each side of a step [0, 1]
STRAY_SEEN = 8  # a rise is damage if it is off by more than that many times the spread: no chance puts it there [0, 0 of 34]
SAMPLES_OFF = 3  # and by more than that many samples of the recorder [3, 3 of 30]

# a clock that wanders (wander, interval)
REACHES = ((15, 100), (15, 48), (15, 24), (9, 16), (7, 12))  # pulses at an end that say its rise and its interval, if one of these is best
LEAST_LOCAL = 12  # pulses that have an interval of their own [1, 11 of 58]
BESIDE = 24  # pulses on each side of a hole that is tried where there is none [3, 3 of 34]
HOLES_TRIED = (1, 12, 40)  # elements of the holes by which the reach is chosen
HOLES_MEASURED = (1, 3, 6, 9, 12, 16, 20, 25, 32, 40, 50, 63, 80, 100, 126, 160, 200, 250, 320, 400)  # and that say how far all is off
LENGTHS = 4  # and up to a quarter longer, so that it does not count how many turns of a wow are in it [0, 0 of 12]
PLACES_TRIED = 60  # of each, all over the recording: more change nothing, and take time [1, 0 of 34]
FEWEST_TRIED = 8  # fewer say nothing [0, 0 of 12]
BY_TREMBLING = 0.6  # of the noise: a steady clock is off by no more after a hole; of rises that tremble it is a third [0, 1 of 34]
HALF_SIDE = 2  # pulses on each side of one that say with it where it has to be [0, 0 of 12]
CLEARLY_BETTER = 0.8  # of what a steady clock would be off: by chance another reach is better by a tenth [5, 1 of 58]
ABOVE_NINE_OF_TEN = 1.5  # times what nine of ten holes are within: by chance no more than one of a hundred is beyond [2, 2 of 58]
BLOCK = 8  # distances that have an interval of their own: of flutter a period is no shorter [1, 1 of 34]
CURVE_SEEN, PARTS_SEEN = 400, 40  # distances of a part, and how many parts: does the interval change from block to block? [0, 0 of 6]
CURVED = 0.7  # of the noise: a block of 8 alone is a tenth nearer [1, 4 of 58]
WANDER_STEP = 0.01  # intervals: a smaller step is not seen on such a clock: an inserted pulse can be off by that [2, 1 of 58]
MOST_WANDER = 12  # intervals: how far a rest may be off after a hole on a clock that wanders, if the others say the phase [0, 0 of 58]
VAGUE = 0.1  # intervals: an element that can be more off in a hole is not put there: irig_ed would not read it either [0, 0 of 58]
CHANGED_AT_ONCE = 1 / 8  # of the change, by element: the curve is off by that in the middle if the interval changes there at once
ALIASED = 0.4  # intervals: if all could be so much off, a pulse there can be that of the next element [0, 0 of 34]
LOCAL_STRAY = 0.09  # intervals: how far one rise between runs may be off there [0, 0 of 34]
LONG_RUN = 40  # pulses of a run that can have two phases, or whose position identifiers say its phase

# phases
NO_WHOLE_FRAME = 4  # faults: what a phase costs with which no frame is whole, if another phase has one
MOSTLY = 0.9  # the share of frames that have a class if it is usual there [0, 9]
LONGEST_TURN = 3000  # elements: in a longer text no turn is looked for
FEWER_FAULTS = 8  # faults that a turn has to explain if neither side's phase is known
FEWER_AFTER_ONE = 3  # the same if one side's phase is known
FEWER_AT_MARKER = 2  # the same if also a marker says it, and nothing speaks against it

# the first shortest path: runs (slots)
SURE_RUN = 5  # pulses: a run of that many is no accident [13, 11]
UNLIKELY = 12  # faults: a way that costs that much more than the cheapest is not followed, so that the search stays short
MOST_LATE = 12  # elements: a rest can be that late; one that is later is moved only if both sides are unmistakable
EARLY = 5  # faults: what a rest costs that is early [21, 1]
BARELY = 2  # faults: what a rest costs that is late by less than a pulse may stray
HOLE = 0.3  # faults: what a hole costs after which all is on time
LATE = 3  # faults: what a rest costs that is late [0, 3]
LATE_HOLE = 1  # faults: what it costs more after a hole [0, 3]
JUMP = 1  # faults: what a run costs that follows at once with another element
JUMP_TO_SAME = 6  # faults: the same if only whole frames are missing
LEAST_LEAD = 2  # faults: a run whose phase leads by less is left alone [1, 2]
LEAD = 3  # faults: a run whose phase leads by less is looked at again, with what most frames have
UNUSUAL = 0.5  # faults: what an element costs that is not as in most frames
LONGEST_HOLE = 200000  # elements: what is farther apart is mended part by part
TELLING = 12  # pulses of a run that has phases of its own
MOST_PHASES = 40  # phases of a run that are looked at besides those that follow
WITHIN = 2  # faults: phases that have that many more than the best are looked at [1, 0]
NO_TIME = 1.5  # intervals: a rest that is so early has lost elements for which there is no time [3, 4]
FAULTS_A_PULSE = 1 / 18  # a way that costs more by pulse is that of another format
FAULTS_AT_LEAST = 5  # faults: what any way may cost

# places between runs (zones, track)
BEFORE_ITS_RISE = 0.2  # intervals: a pulse belongs to a place from that much before its rise on [11, 18 of 111]
EXACT = 0.005  # intervals: on an exact clock a pulse that is no more off keeps its time
EITHER_SIDE = 300  # pulses on each side of a glued run that may be of the other side
REACH = 2.5  # intervals: a pulse that is farther from the last one is of no frame
OVERLAP = 0.02  # intervals: a pulse that reaches so far beyond the next rise covers it

# the whole recording (analysis, threshold): pulses are 20, 50 or 80 hundredths wide, and classes end at 5, 35, 65 and 95
UPSIDE_DOWN, MORE_THAN_UPRIGHT = 0.8, 0.1  # the share of falls in step, as of upright zeros; by how much more than rises
NEXT_TO_A_TURN = 8  # pulses on either side that are looked at, too: one alone can be damaged
MOST_EDGES_TRIED = 400  # edges of pulses that do not show whether they are upside down: the end of a search
TURNED_OVER = 20  # rises or falls out of step: what it costs that a wire is turned over; a frame that is upside down has more
FIT = 0.5  # the share of the time in step without which it is no such recording: damage of half of it is not mended [0, 1]
THRESHOLD_SHIFTS = range(-17, 28)  # hundredths of an interval by which all can be longer: a zero is left, a one no position [2, 0]
WIDEST_PEAK = 98  # hundredths of an interval: no pulse gets as long as the interval
PEAK = 6  # hundredths of an interval: what is nearer to a peak counts for it; the peaks are 30 apart
LEAST_SHIFT = 6  # hundredths of an interval: a smaller shift changes no class, as classes end 15 from their pulses
AT_PEAK = 7  # hundredths of an interval: a width that is no farther from a peak has its class, half of the way to the end
TEN_APART = 0.4  # the share of position identifiers with one ten pulses on, if no frame can be read: of nine of eleven some are lost
SOME_TEN_APART = 0.2  # the same without which no expression is looked for: the end of a search
SOME_BAD, MOST_BAD = 0.01, 0.3  # the share of bad pulses from which a threshold is looked for; a mended one has fewer
MOST_UNREAD = 5000  # pulses by which the expression is found if no frame is fine: fifty frames
MOST_EDITS = 10000  # edits in one group, which is undone at once

# pulses at an end (astray)
FEWEST_ASTRAY = 2  # faults that another element explains: of pulses that fit it so much better nothing decides the place; one is damage
LONGEST_ASTRAY = 200  # places at an end that are looked at: farther from it a run with another phase is seen

# times of frames, and the second shortest path (frames, spans, pieces)
LONGEST_CUT = 3000  # elements: the end of a search; after more than that the places are not counted on
STRAY_ONES, STRAY_SHARE = 2, 0.1  # frames with ones that are not used, and their share: more is another expression
CHANGE = 3  # elements: what it costs that the time goes on elsewhere
MOST_BASES = 12  # bases that are looked at in one gap: the end of a search
MOST_TRIED = 100  # frames and bases by which these are chosen if there are more: the end of that search
WITNESSES = 2  # frames that have to say a field or a base: one can be damaged [4, 0]

# what is steady (steadiness)
CHANCE = 0.001  # that an element differs from its neighbours, if it is said to be steady [0, 1]
CHANCES = 24  # times that an element could have changed: if it never did, it differs by about CHANCE [2, 1]
CHANCE_BESIDE = 0.02  # the same if another recording has it as the neighbours, too: it would have to be damaged there, and not show it

# control functions with a rule (parity)
EACH_BY_RULE = 3  # frames that have a zero, and a one, as the element of the rule: one that hardly changes shows none
LEAST_BY_RULE = 16  # frames in which it holds: of 27 elements at random one fits as many in less than one of 1,000 recordings
FEW_BY_RULE = 8  # the same at element 75 alone, if it only has to say which of two recordings is damaged: by chance one code of 128
FOR_EACH_AGAINST = 5  # more of them for each frame in which it does not hold

# other recordings of the same code (others)
MOST_PERIODS = 495  # frames that are farther apart do not support each other, as in irig_time
UNLIKE_ELSEWHERE, UNLIKE_SHARE = 2, 0.1  # frames of the same time that may differ, and by how many more, as a share of those that show it
LEAST_COMPARED = 9  # control functions of a frame that are recorded in both: fewer are alike by chance
MOST_ALIKE = 400  # moments at which the control functions change in the same way in both: more say nothing of their clocks
AS_WIDE = 0.02  # intervals: a pulse that is off by more is not as wide as others of its class: in G a width is rounded by a hundredth
AS_WIDE_IF_EVEN = 0.005  # the same where nearly all hardly differ: a quarter of that, and much more than they are off on a clock of 0.1 %
OF_NEARLY_ALL = 3  # times as much as nearly all are off, if that is between both
OF_OTHER_WIDTH = 0.1  # the share of the pulses of a class that are not nearly all: if more are off, a width says nothing
ODD_WIDTH = 0.01  # intervals: as irig_guard compares widths in a frame, one that is off by more is not as wide as the others
LEAST_ALIKE, FOR_DIFFERENCE = 5, 2  # that many others there have to be; and it is off by this many times as much as these differ, too

# stretches that are there twice (copies, steps)
UNLIKE_IN_COPY = 25  # a copy has at most one element in that many that differs: more is no copy, but frames alike [0, 1]
ALIKE_IN_COPY = 2  # and at least one in that many that is the same: the rest can be damaged [3, 0]
LEAST_COPY = 10  # elements; fewer are alike by chance

# other code in a hole (other_code)
STEADY_CODE = 0.8  # the share of its distances that are one interval; 0.7 takes 3 of 150 holes of this code for other, 0.8 one [1, 0 of 34]
OWN_POSITIONS = 3  # position identifiers in their places, and none elsewhere, are this code; with less one wide pulse would be [6, 2 of 48]
THINNED_CODE = 0.5  # the same if some pulses are lost, so that distances are two of its intervals and more [0, 1 of 34]

# what is wrong (faults, edits, wholes, repairs)
LIKE = 0.08  # intervals: a level that differs from a class for less is this class: two classes are 0.3 apart [1, 0]
LIKE_IN_BURST = 0.03  # intervals: the same in a burst of damage, which can look like a class by chance: a tenth of the way
NOMINAL = 0.03  # intervals: a width that is no more off is the one of its class: a tenth of the way to the next class
BURST = 2  # of the two places before and the two after one, at least that many are damaged in a burst: one is by chance
MOST_CONTRARY = 2  # elements: a frame of which more say another time than its neighbours is no damage: three are no accident
CONTRARY_AT_END = 1  # the same if no frame before it, or none after it, has the time of the others: two are no accident, a clock can be set
INTERVAL_SEEN = 0.95  # intervals of a place whose level is looked at: the rest can be an early pulse
UNLIKE = 0.02  # intervals: a width that is more off is changed if the pulse is edited anyway [2, 0]
FEWEST_LOST = 8  # lost elements of a frame that is generated again: fewer are fewer lines one by one [7, 8]
MOST_AGAIN = 2000  # places that are written again one by one: the end of a search

# what is said (damage), and how often it is looked at (damage, mend)
DRIFT = 0.001  # intervals: a clock that is less off is sound: it is off by a tenth of an interval in a frame
TREMBLE = 0.005  # intervals: rises that stray less are sound: beyond, steps of 0.025 do not show (SPREADS) [0, 6]
SILENCE = 1.5  # intervals: less is no silence: no pulse is missing for sure [92, 30]
TOGETHER = 3  # that many faulty places one after the other are one line [7, 9]
ROUNDS = 5  # after that many the script is as it is: the end of a search
BESIDE_ANOTHER = 2  # intervals: a repair of a later look that is so near after one of a look before it is one with it
MOST_CHECKS = 5  # after that many no repair is left: the end of a search

# samples that lose their time (taken_times)
REACH_OF_A_REPAIR = 4  # frames: a frame bears out the two before it and the two after it, and pulses are counted into the next one
MOST_NEAREST = 2  # runs of irig_guard after which all repairs within that reach are left out, and not just the nearest

# frames before and after the script (check)
MOVED = 0.2  # intervals: a marker that is moved by less is the same: twice what irig_ed tolerates
ON_CLOCK = 0.5  # intervals: frames of one clock are off by no more: what is nearer is the right element
CLOCK_DRIFT = 0.002  # the same for each interval between them: a clock is off by less from place to place
AT_STEP = 30  # intervals: the same if there is a step between them: less than half a frame, so that no frame is skipped
OUTVOTED = 3  # frames of the result that outvote one that was fine: three of four

# files that are refused (dump_header, dump_source, wire_words): a small file can ask for seconds and memory without end
LONGEST_DECLARATION = 1 << 16  # bytes of the words of a scope, a variable or a unit: names have some ten
MOST_SCOPES = 100  # one within the other: each end of a path is a name that a wire can have, so more cost the square; designs have ten
LONGEST_PATH = 1 << 14  # letters of the path of a wire, so of 100 scopes with 160 letters each
MOST_LETTERS = 1 << 27  # of the paths of all wires, which are kept: 134 MB, so of a million wires with 134 letters each
MOST_BITS_WRITTEN = 1 << 16  # bits of a vector that a track is put back into, as all are written: IEEE 1364 has tools take that many
MOST_UNPACKED = 1000  # bytes for each one of a packed file: a recording has ten to twenty, as no time is as the one before
SURELY_UNPACKED = 1 << 26  # bytes that are read of a packed file in any case
