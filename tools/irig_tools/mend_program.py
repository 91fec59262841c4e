"""The program irig_mend."""
from __future__ import annotations

import gc
import os
import sys
from contextlib import ExitStack, contextmanager
from dataclasses import dataclass, replace
from typing import Iterator, List, Optional, Sequence, Tuple

from .again import Names, again, is_kept
from .analysis import START, examine
from .changes import changes_of, find_differ
from .command import kept, of_any_length, run, unchanged
from .applied import Applied, How, applied_to
from .apply import Code, Summary, Target, as_object, code_of, find_guard, turning
from .cut_end import is_of_rest, note_if_cut, notes_of_rest
from .damage import look
from .damage_program import say_notes
from .editor import Editor, Problem, Progress, progress_to
from .ending import ALL_RIGHT, FOUND, IS_FOLDER, Usage, complain, name_of
from .escapes import in_line, in_script
from .explain import explained
from .folder_program import APPLY_TO, JOBS, REPORT, mend_folder
from .facts import json_lines, repairs_as_json
from .kinds import DamageKind
from .mend import called_for, of_no_time, propose, script_text
from .mend_long import LongRecording, looked_at
from .named import wire_or_none
from .opening import Opened, is_of_one_wire, opened
from .options import DUMP, EDITOR, JSON, OUTPUT, TIMESCALE, WIRE, Command, Given, Option
from .other_files import check_others, read_others
from .others import Others
from .output import check_apart, is_standard_output, output
from .overview import of_program, sheet_of
from .page import page
from .readings import is_opened
from .reasons import in_order, of_whole, ranked
from .recounted import in_recording
from .script import Repair
from .sheet import Sheet
from .sampled import can_be_long
from .temporary import named_if_no_room, temporary_folder
from .texts import counted
from .untimed import said_of_times
from .window_work import Task
from .windows import SIZE, named_size

PAGE_OF_REPAIRS = Option("--page", "FILE", "also writes a page (HTML) to look at: the whole recording, each place before and "
                         "after its repair, and the script; with --apply what was changed, as irig_diff prints it")
STEADY = Option("--steady", about="the control functions never change: what one frame alone has is damage")
MOVE = Option("--move", about="moves the rest if it comes late, and takes out what is there twice: only if the time "
              "code has a clock of its own, and no other wire slipped with it")
EXPLAIN = Option("--explain", about="prints instead how the script follows: the clock, the runs and their costs, the "
                 "frames and their votes, and the places")
APPLY = Option("--apply", "FILE", "runs the script, writes the repaired recording as this file, whole or not at all, and "
               "prints what became of it")
SAVE = Option("--save", about="with --apply: the file keeps the steps, so that each can be undone")
INTO = Option("--into", "ORIGINAL", "with --apply: writes this file with the repaired track instead of its wire")
WITH = Option("--with", "OTHER", "another recording of the same code, with a clock of its own: what it has of the same second decides "
              "control functions that are lost here; can be given several times", is_list=True)
TRUST_MOST = Option("--trust-most", about="with --with twice or more: what most recordings have of a control function decides "
                    "in a frame that is fine, too")
COMMAND = Command("irig_mend", ("TRACK",), """\
Proposes a script that repairs a recording of IRIG 200-04 time code, or runs it.
Before each repair a comment says what was seen and why this repair follows. What
nothing decides is a comment with the choices. Times are kept: a pulse in step is
moved only if its rise alone is clearly off. The track itself is not changed; - is
standard input. Any dump that irig_wire reads is read; the wire, the format and the
expression are found if they are not given:

  irig_mend --apply new.vcd track.vcd                 one command
  irig_mend --apply new.vcd --into all.vcd all.vcd    with all other wires
  irig_mend --apply-to mended recordings              all recordings of a folder
  irig_mend --with other.vcd --apply new.vcd track.vcd    two recorders
  irig_mend --expression 4 track.vcd > repair.ed      read it, change it
  (cat repair.ed; echo write) | irig_ed --expression 4 --out new.vcd track.vcd
""", (*EDITOR, TIMESCALE, DUMP, PAGE_OF_REPAIRS, STEADY, MOVE, WITH, TRUST_MOST, EXPLAIN, OUTPUT, APPLY, SAVE, INTO, APPLY_TO, REPORT,
      JOBS, JSON), """\
The editor is the program that IRIG_ED names, or irig_ed on the path.
The status is 0 if there is nothing to repair, 1 if there is something, 2 if the
track was not read, and 70 if memory ran out or the tool has a defect. With
--apply it is 0 if no damage is left, and 1 if some is, or if no sample gets a
time; with --apply-to 0 if so it is for all recordings, and else 1.
""")


ENDED = "%s: ended, %s; nothing is written, and the same command begins at the first window"


@dataclass(frozen=True)
class Done:
    """What became of the recording: why repairs are not kept, and what nothing decides; whether nothing is left."""

    summary: Summary
    code: Code
    reasons: Sequence[str]
    is_whole: bool


@dataclass(frozen=True)
class End:
    """How the work ends, once all that was read is still as it was: its status, the script to write, and what became of the recording."""

    status: int
    script: Optional[str] = None
    done: Optional[Done] = None


def find_programs(given: Given) -> None:
    """Without the programs that --apply needs nothing is read or written."""
    if given.has(APPLY):
        find_guard()
    if given.has(APPLY) and given.has(PAGE_OF_REPAIRS):
        find_differ()


def work(given: Given) -> int:
    check(given)
    if given.has(APPLY_TO):
        find_guard()
        return mend_folder(given, (STEADY, MOVE, SAVE), PAGE_OF_REPAIRS)
    find_programs(given)
    progress = progress_to(sys.stderr)
    with ExitStack() as outputs, sources(given) as (path, original):
        windows = mend_windows(given, path, original, outputs, progress) if is_for_windows(given, path) else None
        end = windows or mend_track(given, path, original, outputs, progress)
    if end.script is not None:
        with output(given.text(OUTPUT)) as out:
            out.write(end.script.encode("utf-8"))
    if end.done:
        report(given, end.done)
    return end.status


def end_of(done: Done, script: Optional[str] = None) -> End:
    """The end with --apply."""
    return End(ALL_RIGHT if done.is_whole else FOUND, script, done)


def mend_track(given: Given, path: str, original: Optional[str], outputs: ExitStack, progress: Progress) -> End:
    """A recording that fits in a track."""
    with of_any_length(), opened(path, given.names[0], given, wire_of(given, path)) as track:
        return mend_opened(given, track, original, outputs, progress)


def mend_opened(given: Given, track: Opened, original: Optional[str], outputs: ExitStack, progress: Progress) -> End:
    note_if_cut(track)
    say_notes(track, given.names[0], COMMAND.name)
    editor = Editor(track.words)
    with ExitStack() as files:
        others = read_others(given.texts(WITH), editor, progress, COMMAND.name, files, given.has(TRUST_MOST))
        end = mend_with(given, track, editor, others, target_of(given, track, original, outputs), progress)
    return end


def mend_with(given: Given, track: Opened, editor: Editor, others: Others, target: Target, progress: Progress) -> End:
    """By what other recordings say."""
    if given.has(EXPLAIN):
        return End(explain(editor, given, others))
    script = proposed(editor, given, progress, others, given.has(MOVE))
    if not given.has(APPLY):
        said, script = of_no_time(editor, script), as_recorded(editor, script)
        draw_proposal(given, track, script, said, progress, target.outputs)
        return End(FOUND if said or script else ALL_RIGHT, text_to_write(given, said + script, track))
    done = apply(given, track, editor, script, progress, target, others)
    return end_of(done, text_to_write(given, as_recorded(editor, script), track) if given.has(OUTPUT) else None)


def as_recorded(editor: Editor, script: List[Repair]) -> List[Repair]:
    """The script for the recording as it is, or as it is once its wire is turned over: its remarks have the pulses of that."""
    return in_recording(script, editor.ask([each.lines() for each in script[:turning(script)]]).rises)


def text_to_write(given: Given, script: List[Repair], track: Opened) -> str:
    return repairs_as_json(script, track.offset) if given.has(JSON) else script_of(script, track)


def target_of(given: Given, track: Opened, original: Optional[str], outputs: ExitStack) -> Target:
    """Where the repaired recording goes."""
    return Target(outputs, given.text(APPLY) or "", original, given.text(WIRE) or track.wire, given.text(TIMESCALE), given.number(DUMP))


def is_for_windows(given: Given, path: str) -> bool:
    """Whether the recording can be longer than a track. Of several dumps only the first one is looked at."""
    return given.has(APPLY) and given.number(DUMP) in (None, 1) and (named_size() is not None or can_be_long(path))


def mend_windows(given: Given, path: str, original: Optional[str], outputs: ExitStack, progress: Progress) -> Optional[End]:
    """Repairs a recording that is longer than a track; nothing is done if it fits in one."""
    name = given.names[0]
    track = looked_at(path, name, given, wire_of(given, path), progress)
    if track is None or fits_in_a_track(track):  # all of it is looked at then
        return None
    recording = LongRecording(track, progress)
    with temporary_folder() as folder:
        task = Task(folder, recording.track.code, given.has(STEADY), original is None)
        try:
            is_long = recording.mend(task, given.number(JOBS) or len(os.sched_getaffinity(0)), lambda: begin_windows(given))
        finally:
            if recording.ended:
                complain(ENDED % (name_of(name), recording.ended), COMMAND.name)
        if not is_long:
            return None
        say_notes(recording.track, name, COMMAND.name)
        target = target_of(given, recording.track, original, outputs)
        if original is None:
            recording.write_text(folder, outputs.enter_context(output(target.out)))
        else:
            with recording.level(folder) as level, named_if_no_room():
                say_put_back(given, target.put_back(level, recording.track, outputs.enter_context(output(target.out))))
    summed = recording.counts().summary()
    return end_of(Done(summed, recording.code(name), recording.reasons(), summed.is_whole and not notes_of_rest(recording.track)))


def fits_in_a_track(track: Opened) -> bool:
    """Whether the editor opens it as it is. That takes a tenth of what reading its edges here takes."""
    wire = [] if track.wire is None else ["--wire=" + track.wire]
    return named_size() is None and track.unit is None and is_opened(track.path, wire)


def begin_windows(given: Given) -> None:
    """Refuses what is not there for windows, and says that the work has begun: it takes minutes."""
    is_long = "%s: has more pulses than a track holds, so it is repaired in windows" % name_of(given.names[0])
    for option in (SAVE, MOVE, WITH, OUTPUT, PAGE_OF_REPAIRS):
        if given.has(option):
            raise Problem("%s, and that goes without %s" % (is_long, option.name))
    complain("%s of %s; the result is written when all are repaired" % (is_long, counted(named_size() or SIZE, "pulse")), COMMAND.name)


def proposed(editor: Editor, given: Given, progress: Progress, others: Others, move: bool) -> List[Repair]:
    """The script for the editor's track, and what is said of other recordings."""
    return others.remarks + propose(editor, progress, given.has(STEADY), move, witnesses=others.witnesses)


def differs(script: Sequence[Repair]) -> bool:
    """Whether another recording is not used, or has something else that is left."""
    return any(repair.kind == DamageKind.DIFFERS and not repair.edits for repair in script)


def script_of(script: List[Repair], track: Opened) -> str:
    """The script. Its first line says how the editor has to be run for it, if that was found."""
    return script_text([Repair(START, track.comments)] * bool(script) + script)


def explain(editor: Editor, given: Given, others: Others) -> int:
    """Prints what the first look finds."""
    listing = editor.ask([])
    findings = examine(listing, given.has(STEADY), given.has(MOVE), witnesses=others.witnesses)
    lines = explained(listing, findings)
    lines[1:1] = others.lines
    with output(given.text(OUTPUT)) as out:
        out.write("".join(in_script(line) + "\n" for line in lines).encode("utf-8"))
    return FOUND if called_for(findings) or others.remarks or of_no_time(editor, []) else ALL_RIGHT


def check(given: Given) -> None:
    """Refuses options that exclude each other, and outputs that are an input."""
    for option, needed in ((SAVE, (APPLY, APPLY_TO)), (INTO, (APPLY,)), (REPORT, (APPLY_TO,)), (JOBS, (APPLY, APPLY_TO))):
        if given.has(option) and not any(map(given.has, needed)):
            raise Usage("%s is only for %s" % (option.name, " and ".join(each.name for each in needed)))
    for option in (APPLY, INTO, OUTPUT, EXPLAIN, WITH):
        if given.has(APPLY_TO) and given.has(option):
            raise Usage("--apply-to and %s exclude each other" % option.name)
    if given.has(TRUST_MOST) and len(given.texts(WITH)) < 2:
        raise Usage("%s needs %s twice: two of three recordings are the most" % (TRUST_MOST.name, WITH.name))
    if given.has(APPLY_TO):
        return
    if os.path.isdir(given.names[0]):
        raise Problem("%s: %s; --apply-to FOLDER writes the repaired recordings of one into another" % (given.names[0], IS_FOLDER))
    for option in (APPLY, PAGE_OF_REPAIRS, JSON):
        if given.has(EXPLAIN) and given.has(option):
            raise Usage("--explain and %s exclude each other" % option.name)
    if given.has(SAVE) and given.has(INTO):
        raise Usage("--save and --into exclude each other: the steps are those of a track alone")
    outputs = [(option.name, given.text(option)) for option in (PAGE_OF_REPAIRS, OUTPUT, APPLY)]
    check_others(given.names[0], given.texts(WITH))
    for source in filter(None, (given.names[0], given.text(INTO), *given.texts(WITH))):
        check_apart(source, outputs, not given.has(APPLY) and not given.has(OUTPUT))


def wire_of(given: Given, path: str) -> Optional[str]:
    """The wire of the track at this path; with --into another file has several, and the track can be of one."""
    return None if given.text(INTO) is not None and is_of_one_wire(path) else given.text(WIRE)


@contextmanager
def sources(given: Given) -> Iterator[Tuple[str, Optional[str]]]:
    """The path of the file of the track, and of the file that it goes back into, if it does."""
    with kept(given.names[0]) as path, unchanged(path), original_of(given, path) as original:
        yield path, original


@contextmanager
def original_of(given: Given, path: str) -> Iterator[Optional[str]]:
    """The path of the file that the track goes back into, if it does: it is read twice. The track has this path."""
    into = given.text(INTO)
    if into is None or into == given.names[0]:
        yield into and path
        return
    with kept(into) as original, unchanged(original):
        yield original


def proposed_text(script: List[Repair], sheet: Sheet) -> str:
    """What a page says first of a script: a repair can be of several places."""
    left, edits = sum(place.is_left for place in sheet.places), sum(bool(repair.edits) for repair in script)
    return "%s found, %s proposed for %d of them, %d left to you; nothing is changed yet" % (
        counted(len(sheet.places), "place"), counted(edits, "repair"), len(sheet.places) - left, left)


def draw_proposal(given: Given, track: Opened, script: List[Repair], said: List[Repair], progress: Progress, outputs: ExitStack) -> None:
    """Writes the page of what is proposed, if it is asked for, with what is said of the whole."""
    path = given.text(PAGE_OF_REPAIRS)
    if path is not None:
        editor = Editor(track.words)
        after = editor.ask([repair.lines() for repair in script])
        seen = look(editor, progress, given.has(STEADY))
        sheet = sheet_of(os.path.basename(given.names[0]), wire_or_none(track), seen, script, after)
        sheet = replace(sheet, notes=(*sheet.notes, *(comment for each in said for comment in each.comments)))
        drawn = page(of_program(sheet, COMMAND.name, "%s: %s" % (name_of(given.names[0]), proposed_text(script, sheet))))
        outputs.enter_context(output(path)).write(drawn.encode("utf-8"))


def apply(given: Given, track: Opened, editor: Editor, script: List[Repair], progress: Progress, target: Target,
          others: Others) -> Done:
    """Runs the script, writes what it gives, and counts what it did."""
    how = How(lambda asked, move: proposed(asked, given, progress, others, move), progress, given.has(STEADY), given.has(MOVE),
              given.has(SAVE), others.paths)
    with temporary_folder() as folder:
        repaired = os.path.join(folder, "repaired.vcd")
        ran = applied_to(track, editor, script, how, repaired)
        now = ran.now(script)
        done = ran.counts(now).summary()
        if given.has(PAGE_OF_REPAIRS):
            drawn = drawing(given, track, now, (ran, done), repaired)
            target.outputs.enter_context(output(given.text(PAGE_OF_REPAIRS))).write(drawn.encode("utf-8"))
        say_put_back(given, target.write(repaired, track))
    code = code_of(given.names[0], track, ran.before.listing)
    is_whole = done.is_whole and not notes_of_rest(track) and not differs(script) and not ran.no_time
    return Done(done, code, reasons_of(track, now, ran), is_whole)


def say_put_back(given: Given, notes: Sequence[str]) -> None:
    for note in notes:
        complain("%s: %s" % (name_of(given.text(INTO) or ""), note), COMMAND.name)


def reasons_of(track: Opened, script: List[Repair], ran: Applied) -> List[str]:
    """Guesses, and why something is left: also a recording that gives no time, and a file of which not all was read."""
    return in_order([*ranked(script, ran.refused, ran.without_line(script)), *of_whole(ran.no_time + notes_of_rest(track))])


def drawing(given: Given, track: Opened, script: List[Repair], result: Tuple[Applied, Summary], repaired: str) -> str:
    """The page of what was repaired, and the sums."""
    ran, done = result
    before = ran.before
    rules = [option.name for option in (STEADY, MOVE, TRUST_MOST) if given.has(option)]
    rules += ["%s=%s" % (WITH.name, name if is_kept(name) else WITH.value) for name in given.texts(WITH)]
    names = Names(given.names[0], given.text(APPLY) or "", given.text(INTO), given.number(DUMP), rules)
    changes = changes_of(track, before.listing, repaired)
    changes.command = again(names, track, before.listing)
    sheet = sheet_of(os.path.basename(given.names[0]), wire_or_none(track), before, script, ran.after.listing, changes, ran.there())
    timed = said_of_times(track.code, repaired, ran.after.listing)
    noted = replace(sheet, notes=(*sheet.notes, *done.notes, *ran.no_time, *timed))
    return page(of_program(noted, COMMAND.name, "%s: %s" % (name_of(given.names[0]), done.text())))


def report(given: Given, done: Done) -> None:
    """Prints what became of the recording, and why something is left. Each line has its name."""
    written = filter(None, map(given.text, (APPLY, OUTPUT, PAGE_OF_REPAIRS)))
    stream = sys.stderr if any(map(is_standard_output, written)) else sys.stdout
    if given.has(JSON):
        stream.write(json_lines([as_object(done.summary, done.code, done.reasons)]))
        return
    reasons = (reason for reason in done.reasons if not is_of_rest(reason))
    for line in (done.summary.text(), *done.summary.notes, *reasons):
        stream.write(in_line("%s: %s" % (given.names[0], line)) + "\n")


def main() -> int:
    gc.disable()  # millions of numbers, and nothing that refers to itself
    return run(COMMAND, work)
