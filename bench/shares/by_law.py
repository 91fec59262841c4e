"""The times of samples by a reference program, the law of time or the cheapest explanation, compared with the truth as those of irig_time
are.
"""
from __future__ import annotations

import os
import re
import sys
from fractions import Fraction
from typing import List, Tuple

from judge import TREE, Frame, Judge, Seen, seen_as
from recordings import Recording, samples
from sent import DAY, HOUR, MINUTE, SECOND

sys.path.append(os.path.join(TREE, "tests"))

from reference import explained, law, times  # noqa: E402

PULSE = re.compile(r"#(\d+)\n1!\n#(\d+)\n0!")
HUNDREDTH = 10_000  # microseconds
SECOND_60 = 2 * 366 * DAY  # microseconds that explained.Times adds in a second 60


class ByLaw(Judge):
    """The law of time in place of irig_time."""

    def samples(self, recording: Recording, track: str) -> List[Seen]:
        found = law_of(recording)
        return [self.seen(recording, found, moment) for moment in samples(recording)]

    def frames(self, recording: Recording, track: str) -> List[Frame]:
        return []

    def seen(self, recording: Recording, found: law.Law, moment: float) -> Seen:
        """What the law gives a moment."""
        got = found.time_at(Fraction("%.3f" % moment))
        if got is None:
            return seen_as(recording, moment, "-")
        return seen_as(recording, moment, text_of(got.time))._replace(bound=float(got.bound))


class ByExplanation(ByLaw):
    """The cheapest explanation in its place."""

    def samples(self, recording: Recording, track: str) -> List[Seen]:
        found = explained.Times(pulses_of(recording), recording.format, recording.expression)
        got = [(moment, found.when(moment)) for moment in samples(recording)]
        return [seen_as(recording, moment, "-" if when is None else text_at(when)) for moment, when in got]


def pulses_of(recording: Recording) -> List[Tuple[int, int]]:
    return [(int(rise), int(fall)) for rise, fall in PULSE.findall(recording.text)]


def law_of(recording: Recording) -> law.Law:
    return law.Law(recording.format, recording.expression, pulses_of(recording))


def text_of(time: times.Time) -> str:
    """A time to the microsecond."""
    micros = int(time.micros)
    return "%03dT%02d:%02d:%02d.%06d" % (time.days, time.hours, time.minutes, micros // 1_000_000, micros % 1_000_000)


def text_at(hundredths: float) -> str:
    """The same of hundredths of a second since the begin of the year."""
    more, micros = divmod(int(hundredths * HUNDREDTH), SECOND_60)
    day, rest = divmod(micros, DAY)
    second, micro = divmod(rest % MINUTE, SECOND)
    return "%03dT%02d:%02d:%02d.%06d" % (day + 1, rest // HOUR, rest % HOUR // MINUTE, second + more, micro)
