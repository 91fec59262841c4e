"""Printed lines, as docs/SCRIPT.md has them. Pulses and records count from 1."""
from reference import timecode


def pulses(state, i, j):
    return ["%d %d %d %s" % (k, *pulse, timecode.class_of(state.interval(), pulse[1] - pulse[0]))
            for k, pulse in enumerate(state.pulses()[i - 1:j], i)]


def frames(state):
    """A line for each frame, read again from the whole track."""
    found = state.pulses()
    return ["%d %d %d %s" % (number, marker + 1, found[marker][0], told(state, found, marker))
            for number, marker in enumerate(timecode.markers(state.interval(), found), 1)]


def told(state, found, marker):
    fault = timecode.fault_of(state.interval(), found, marker)
    if fault:
        return "broken %d %s" % fault
    ones = timecode.ones_of(state.interval(), found, marker)
    values, note = timecode.decode(state.kind, state.expression, ones)
    line = "%(days)03d %(hours)02d:%(minutes)02d:%(seconds)02d" % values
    for name, form in (("hundredths", ".%02d"), ("year", " year %02d"), ("sbs", " sbs %d"), ("control", " control %x")):
        if name in values:
            line += form % values[name]
    return line + " " + note


def marks(state):
    return ["%s %d" % mark for mark in sorted(state.marks.items())]


def info(machine):
    state = machine.present
    told = (state.length, len(state.pulses()), len(timecode.markers(state.interval(), state.pulses())),
            state.kind, state.expression, state.cursor, len(machine.past), len(machine.future))
    return ["length %d pulses %d frames %d format %s %d cursor %d past %d future %d" % told]
