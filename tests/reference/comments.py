"""The patch with comments, as docs/irig_diff.1 has it: place by place. Frames count from 1; times are in microseconds."""
from reference import listing


def frames(state):
    """The frames by their places, the rises of their markers: of each its number, its place, and what is reported of it."""
    words = [line.split(" ", 3) for line in listing.frames(state)]
    return {int(rise): (int(number), int(rise), report) for number, _, rise, report in words}


def whole(frame):
    return "frame %d at %d: %s" % frame


def comment(was, now):
    """The lines on the frames at one place: none, if both say the same."""
    if was and now:
        return ["# %s, then %s\n" % (whole(was), now[2])] * (was[2] != now[2])
    return ["# %s, then %s\n" % (whole(was) if was else "no frame", whole(now) if now else "none")]


def numbers(before, after):
    """The last line."""
    fine = [sum(report.endswith(" fine") for _, _, report in found.values()) for found in (before, after)]
    made, lost = len(after.keys() - before.keys()), len(before.keys() - after.keys())
    changed = sum(before[place][2] != after[place][2] for place in before.keys() & after.keys())
    more = "" if any(fine) else "; format or expression can be wrong, irig_what FILE says more"
    return "# frames: %d fine before, %d fine after, %d made, %d lost, %d changed%s\n" % (*fine, made, lost, changed, more)


def lines(before, after, stretches):
    """At each time in order the comment on the frames that begin then, if they differ, and the line of the stretch that ends then;
    then the last line."""
    was, now = frames(before), frames(after)
    ends = {fall: (rise, fall) for rise, fall in stretches}
    text = []
    for time in sorted({*was, *now, *ends}):
        if time in was or time in now:
            text += comment(was.get(time), now.get(time))
        if time in ends:
            text.append("invert %d %d\n" % ends[time])
    return text + [numbers(was, now)]
