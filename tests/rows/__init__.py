"""Worked scripts: what is printed of a dump and a script, worked out by hand from the documents."""
from rows import edits, frames, groups, language, reading, saved

ROWS = reading.ROWS + edits.ROWS + groups.ROWS + frames.ROWS + language.ROWS + saved.ROWS
FAULT_ROWS = reading.FAULT_ROWS + saved.FAULT_ROWS
