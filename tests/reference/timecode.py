"""Time code, as docs/FORMATS.md has it: classes, fields, the frames of a track, and frames that are generated."""
import datetime
import re

INTERVAL = {"A": 1000, "B": 10000, "E": 100000, "G": 100}  # microseconds
EXPRESSIONS = {"A": range(8), "B": range(8), "E": (1, 2, 5, 6), "G": (1, 2, 5, 6)}
TWENTIETHS = {"zero": 4, "one": 10, "position": 16}  # the nominal widths
PLACES_OF_POSITIONS = {0, 9, 19, 29, 39, 49, 59, 69, 79, 89, 99}
RANGES = {
    "hundredths": (0, 99), "seconds": (0, 60), "minutes": (0, 59), "hours": (0, 23), "days": (1, 366), "year": (0, 99),
}
DAY = 24 * 60 * 60 * 100  # hundredths of a second


def class_of(interval, width):
    """What a pulse of this width stands for."""
    if 20 * width < interval:
        return "bad"
    for name, bound in (("zero", 7), ("one", 13), ("position", 19)):
        if 20 * width < bound * interval:
            return name
    return "bad"


def nominal(interval, name):
    return TWENTIETHS[name] * interval // 20


def in_step(interval, distance):
    return 10 * abs(distance - interval) <= interval


def digit(elements, unit):
    """Elements with their weights: each counts twice what the one before it counts."""
    return [(element, unit << place) for place, element in enumerate(elements)]


def layout(kind, expression):
    """The fields that there are, each as a list of digits. Binary numbers are one digit."""
    fields = {
        "seconds": [digit(range(1, 5), 1)] * (kind != "E") + [digit(range(6, 9), 10)],
        "minutes": [digit(range(10, 14), 1), digit(range(15, 18), 10)],
        "hours": [digit(range(20, 24), 1), digit((25, 26), 10)],
        "days": [digit(range(30, 34), 1), digit(range(35, 39), 10), digit((40, 41), 100)],
    }
    if kind in "AG":
        fields["hundredths"] = [digit(range(50, 54), 1)] * (kind == "G") + [digit(range(45, 49), 10)]
    if expression in (4, 5, 6, 7):
        first = 60 if kind == "G" else 50
        fields["year"] = [digit(range(first, first + 4), 1), digit(range(first + 5, first + 9), 10)]
    if kind in "AB" and expression in (0, 3, 4, 7):
        fields["sbs"] = [digit([*range(80, 89), *range(90, 98)], 1)]
    if expression in (0, 1, 4, 5):
        fields["control"] = [digit(control_elements(kind, "year" in fields), 1)]
    return fields


def control_elements(kind, with_year):
    first = (60 if kind == "G" else 50) + (10 if with_year else 0)
    return [e for e in range(first, 80 if kind in "AB" else 100) if e not in PLACES_OF_POSITIONS]


def total(rows, ones):
    return sum(weight for element, weight in rows if element in ones)


def decode(kind, expression, ones):
    """The fields of a frame with these elements One, and the note."""
    fields = layout(kind, expression)
    values = {name: sum(total(rows, ones) for rows in digits) for name, digits in fields.items()}
    for name, (least, most) in RANGES.items():
        if name in fields:
            too_large = any(total(rows, ones) > 9 * rows[0][1] for rows in fields[name])
            if too_large or not least <= values[name] <= most:
                return values, "field " + name
    if "sbs" in values and values["sbs"] != 3600 * values["hours"] + 60 * values["minutes"] + values["seconds"]:
        return values, "sbs"
    used = {element for digits in fields.values() for rows in digits for element, _ in rows}
    if ones - used:
        return values, "stray %d" % min(ones - used)
    return values, "fine"


def encode(kind, expression, values):
    """The classes of the 100 elements of a frame that shows these values."""
    ones = set()
    for name, digits in layout(kind, expression).items():
        for rows in digits:
            unit = rows[0][1]
            number = values[name] // unit if name in ("sbs", "control") else values[name] // unit % 10
            ones |= {element for element, weight in rows if number & weight // unit}
    return ["position" if e in PLACES_OF_POSITIONS else "one" if e in ones else "zero" for e in range(100)]


def markers(interval, pulses):
    """The places, from 0, of the pulses that begin a frame."""
    def is_position(place):
        return class_of(interval, pulses[place][1] - pulses[place][0]) == "position"

    return [
        i for i in range(1, len(pulses))
        if is_position(i - 1) and is_position(i) and in_step(interval, pulses[i][0] - pulses[i - 1][0])
    ]


def fault_of(interval, pulses, marker):
    """The first element after a marker that fails, and why; None if none does."""
    for k in range(1, 100):
        place = marker + k
        if place >= len(pulses):
            return k, "ended"
        if not in_step(interval, pulses[place][0] - pulses[place - 1][0]):
            return k, "step"
        found = class_of(interval, pulses[place][1] - pulses[place][0])
        if found not in (("position",) if k in PLACES_OF_POSITIONS else ("zero", "one")):
            return k, "class"
    return None


def ones_of(interval, pulses, marker):
    widths = [fall - rise for rise, fall in pulses[marker:marker + 100]]
    return {e for e, width in enumerate(widths) if class_of(interval, width) == "one"}


def moment(text):
    """The day number and the hundredths of a second since its midnight that a text gives; None if it gives none."""
    form = rb"(\d{4})-(?:(\d{3})|(\d\d)-(\d\d))T(\d\d):(\d\d):(\d\d)(?:\.(\d\d))?"
    found = re.fullmatch(form, text)
    if not found:
        return None
    year, day_of_year, month, day, hour, minute, second, hundredth = [int(part or 0) for part in found.groups()]
    date = date_of_day(year, day_of_year) if found[2] else date_of_month(year, month, day)
    if date is None or hour > 23 or minute > 59 or second > 59:
        return None
    return date.toordinal(), ((hour * 60 + minute) * 60 + second) * 100 + hundredth


def date_of_month(year, month, day):
    """The date, if there is such a day in the years 1 to 9998."""
    try:
        return datetime.date(year, month, day) if year <= 9998 else None
    except ValueError:
        return None


def date_of_day(year, day_of_year):
    """The same of the day of a year, which has as many days as lie between two firsts of January."""
    first = date_of_month(year, 1, 1)
    if first is None or not 1 <= day_of_year <= (datetime.date(year + 1, 1, 1) - first).days:
        return None
    return first + datetime.timedelta(days=day_of_year - 1)


def starts(kind, hundredths):
    """Whether a frame may begin there: at a whole multiple of its period within the minute."""
    return hundredths % 6000 % (INTERVAL[kind] // 100) == 0


def generated(kind, start, k, control):
    """The values of the k-th frame, from 0, after a moment."""
    day, hundredths = start
    elapsed = hundredths + k * (INTERVAL[kind] // 100)
    date = datetime.date.fromordinal(day + elapsed // DAY)
    rest = elapsed % DAY
    return {
        "year": date.year % 100, "days": date.timetuple().tm_yday, "hours": rest // 360000,
        "minutes": rest // 6000 % 60, "seconds": rest // 100 % 60, "hundredths": rest % 100,
        "sbs": rest // 100, "control": control,
    }
