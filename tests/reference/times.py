"""The times of frames, and the calendar that they are of."""
import datetime
from typing import NamedTuple, Optional

from reference import timecode

PERIOD = {kind: 100 * interval for kind, interval in timecode.INTERVAL.items()}  # microseconds
LONG_MINUTE = 61_000_000  # microseconds
TIME_ELEMENTS = {"A": 49, "B": 42, "E": 42, "G": 54}  # the day, the hour, the minute, the second and its parts, and what is between
MINUTE, HOUR = 60_000_000, 3_600_000_000  # microseconds


class Time(NamedTuple):
    year: Optional[int]  # of two digits
    days: int
    hours: int
    minutes: int
    micros: int  # of the minute


class Frame(NamedTuple):
    marker: int  # the place of its first pulse
    rise: int  # of that pulse, in microseconds
    time: Time


def frames_of(kind, expression, pulses):
    """The frames that have a time: those that are fine and end within a minute of 61 seconds."""
    interval = timecode.INTERVAL[kind]
    found = []
    for marker in timecode.markers(interval, pulses):
        if timecode.fault_of(interval, pulses, marker):
            continue
        values, note = timecode.decode(kind, expression, timecode.ones_of(interval, pulses, marker))
        micros = 1_000_000 * values["seconds"] + 10_000 * values.get("hundredths", 0)
        if note == "fine" and micros + PERIOD[kind] <= LONG_MINUTE:
            shown = Time(values.get("year"), values["days"], values["hours"], values["minutes"], micros)
            found.append(Frame(marker, pulses[marker][0], shown))
    return found


def is_leap(year):
    return year % 4 == 0 and (year % 100 != 0 or year % 400 == 0)


def minutes_after(time, century):
    """The minutes that can come after that of a time: year, day, hour and minute."""
    if time.minutes < 59:
        return [(time.year, time.days, time.hours, time.minutes + 1)]
    if time.hours < 23:
        return [(time.year, time.days, time.hours + 1, 0)]
    if time.year is None:
        lengths, following = (365, 366), None
    else:
        lengths, following = (366 if is_leap(100 * century + time.year) else 365,), (time.year + 1) % 100
    days = {time.days + 1 for length in lengths if time.days < length}
    return [(time.year, day, 0, 0) for day in days] + [(following, 1, 0, 0)] * (time.days in lengths)


def follows(kind, century, time, later):
    """Whether the second time is one frame period after the first."""
    for minute in (60_000_000, 61_000_000):
        micros = time.micros + PERIOD[kind]
        if time.micros < minute and micros < minute and later == time._replace(micros=micros):
            return True
        if time.micros < minute <= micros and later.micros == micros - minute and later[:4] in minutes_after(time, century):
            return True
    return False


def instant(time, year, leap):
    """The microseconds of a time in a calendar of years of four digits."""
    days = datetime.date(2000 + year, 1, 1).toordinal() if time.year is not None else (0 if not year else 366 if leap else 365)
    return (((days + time.days) * 24 + time.hours) * 60 + time.minutes) * 60_000_000 + time.micros


def passed(one, other):
    """How many microseconds the second time is after the first, in the calendar; None if its year is neither the same nor the next one."""
    if one.year is None:
        years = (0, int(other[1:] < one[1:]))
    elif (other.year - one.year) % 100 > 1:
        return None
    else:
        years = (one.year, one.year + (other.year - one.year) % 100)
    micros = instant(other, years[1], one.days == 366) - instant(one, years[0], False)
    is_longer = one.micros >= MINUTE > other.micros and one[1:4] != other[1:4]  # the minute of the first has 61 seconds
    return micros + 1_000_000 if is_longer else micros
