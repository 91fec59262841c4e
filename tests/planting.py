"""How planted bugs are tried: many in one check of a copy of their crate.

A file crates/CRATE/planted/NAME.edit changes a body so that it does something wrong, and a contract has to refuse it. It has the
form of the toolchain's must-fail edits, and a second line `only:` with the functions that it changes. A function is proved from its
own body and from the contracts of what it calls, so bugs in different functions do not touch each other: one check of a copy of the
crate takes one bug of each function, and has a verdict for each function. Only these functions and those that they call are checked.

Two changes of the copy save what no verdict needs, a fifth to a quarter of the time:
- A function that has no bug in this check gets a proof that is refused at once, so it costs nothing. The check proves its callers
  from its contract all the same. Its name is in what the gate prints, or in what a check before this one printed.
- The answers of a function with a bug get one more, which is refused. For each goal that is left, the check would search again and
  print what could be written; for a function with a wrong answer it does not. The other answers and goals stay as they are.

A bug counts as refused if one of its functions has a goal of its own that the search refuses. Three other ways do not count:
- A proof file names what the edit took away.
- An answer in a proof file no longer fits its goal. The goal may still hold. So a later check takes that answer away, and the search
  decides.
- The search only gave up at a limit. The bug is named with the goal. It counts only if a line `search: gives up` of the bug says so: its
  answers are taken away first, and another bug that breaks the same promise has to be refused by a goal.
What a proof by hand or `Invariants.antt` states counts if it no longer fits, since no search decides it. A bug that is refused in its
first check costs least.

If a bug is not refused so, it is tried again with the proofs of all callees; if one of those has a bug too, in a later check. If a
check does not compile, the bugs are tried in halves, until the one whose text is wrong is alone.
"""
import os
import re
import shutil
import signal
import subprocess
import tempfile
from collections import defaultdict
from contextlib import suppress

VERDICT = re.compile(r"fn (\S+): (.*)")
OPEN_GOAL = re.compile(r"note: src/\S+:\d+:\d+: .*\(`([^`]*)`\)")
ERROR = re.compile(r"(?:\./)?(proofs/(\S+)/(?:Answers|Invariants|Proof)\.antt):(\d+):\d+: error: (.*)")
ANSWERS = "/Answers.antt"
INVARIANTS = "/Invariants.antt"
BY_HAND = "/Proof.antt"
REFUSED_AT_ONCE = "refused_at_once"
REFUSED = f"\npub {REFUSED_AT_ONCE} : nothing_has_this_name\n{REFUSED_AT_ONCE} = nothing_has_this_name\n"
DECLARED = re.compile(r"^(?:(?:pub|abbrev|unfoldable) )*(\S+) :")
GAVE_UP = "gave up at one of its limits"
UNSURE = "only the search gave up"
GIVES_UP = "search: gives up"  # a line of a bug
LOST_NAME = re.compile(r"has no field|is not in scope|has no `|was not admitted|can be named from here")
CYCLE = re.compile(r"`(\S+)` is in a cycle of calls")
CALLS = re.compile(r"(?:it calls|a call of) (`.*?`), which (?:is not proved|are not proved|has no proof)")


def declarations(text):
    """The declarations of a proof file, each with what is indented below it and the line that it begins on, from 1."""
    found, line = [], 1
    for part in re.split(r"(?<=\n)\n", text):
        if found and part.startswith(" "):
            found[-1] = (found[-1][0], f"{found[-1][1]}\n{part}")
        else:
            found.append((line, part))
        line += part.count("\n") + 1
    return found


def declared(parts):
    """The names that some declarations declare, as one pattern."""
    names = [name for part in parts for row in part.split("\n") for name in DECLARED.findall(row) if not row.startswith((" ", "--"))]
    return re.compile("|".join(rf"(?<![\w.-]){re.escape(name)}(?![\w-])" for name in names) or r"(?!)")


def without(text, lines):
    """A proof file without the declarations on these lines, and without those that name one that is gone."""
    parts = declarations(text)
    answers = [(line, part) for line, part in parts if not part.startswith("use ")]
    gone = [part for line, part in answers if any(line <= at <= line + part.count("\n") for at in lines)]
    more = gone
    while more:
        names = declared(gone)
        more = [part for _, part in answers if part not in gone and names.search(part)]
        gone = gone + more
    return "\n".join(part for _, part in parts if part not in gone)


class Bug:
    """A planted bug: its name, the functions that it changes, whether it counts if the search only gives up, and the old and the new text
    of each place with its file. After a check also the lines of the answers that no longer fit, of each proof file."""

    def __init__(self, crate, path):
        self.path, self.name = path, f"{crate.name}/{os.path.basename(path)[:-len('.edit')]}"
        self.only, self.places, self.unfit, file, old = set(), [], defaultdict(set), "", ""
        self.may_give_up = False
        for line in open(path, encoding="utf-8").read().split("\n"):
            word, _, rest = line.partition(": ")
            if word == "only":
                self.only = {f"{crate.name}::{name}" for name in rest.split()}
            elif line == GIVES_UP:
                self.may_give_up = True
            elif word == "file":
                file = rest.strip()
            elif word == "old":
                old = rest
            elif word.startswith("new"):
                self.places.append((file, old, rest))

    def applied(self, folder, texts):
        """The changed texts with this bug in them too, or None if an old text is not there exactly once."""
        texts = dict(texts)
        for path, old, new in self.places:
            if path not in texts:
                with open(f"{folder}/{path}", encoding="utf-8") as file:
                    texts[path] = file.read()
            if texts[path].count(old) != 1:
                return None
            texts[path] = texts[path].replace(old, new)
        for path, lines in self.unfit.items():
            with open(f"{folder}/{path}", encoding="utf-8") as file:
                texts[path] = without(file.read(), lines)
        return texts


def batch_of(left, waits, most, folder):
    """The bugs of the next check, and the changed texts: no two change one function or one text, and none has to wait again."""
    batch, texts, taken, apart = [], {}, set(), set()
    for bug in sorted(left, key=lambda bug: bug.name not in waits):
        if len(batch) == most:
            break
        blocked = waits.get(bug.name, set())
        changed = None if bug.only & (taken | apart) or blocked & taken else bug.applied(folder, texts)
        if changed is not None:
            batch.append(bug)
            texts, taken, apart = changed, taken | bug.only, apart | blocked
    return batch, texts


def proof_of(name, file):
    """Where a proof file of a function is."""
    return f"proofs/{name.partition('::')[2].replace('::', '/')}{file}"


def is_of(name, functions):
    """Whether a function is one of these, or a closure of one."""
    return any(name == it or name.startswith(f"{it}::") for it in functions)


def trimmed(folder, texts, changed, functions, cycles):
    """The changed texts, and those that save what no verdict needs: of the functions with a bug, and of all others by their names.

    A function of a cycle of calls takes no answers of its own."""
    texts = dict(texts)
    for name in changed - cycles:
        path = proof_of(name, ANSWERS)
        if not os.path.exists(f"{folder}/{proof_of(name, BY_HAND)}"):
            texts[path] = texts.get(path, text_of(f"{folder}/{path}")) + REFUSED
    for name in functions:
        if not is_of(name, changed):
            texts[proof_of(name, BY_HAND)] = REFUSED
    return texts


def text_of(path):
    """A text of the crate; none if there is no such file."""
    if not os.path.exists(path):
        return ""
    with open(path, encoding="utf-8") as file:
        return file.read()


def only(batch):
    """The words with which a check proves the functions of some bugs and what these call, and no others."""
    names = sorted(set().union(*(bug.only for bug in batch)))
    return [word for name in names for word in ("--only", name.partition("::")[2])]


def verdicts(crate, said):
    """Of each function its verdict, its open goals and whether the search gave up there, and the errors in its proof files."""
    found, goals, errors = {}, [], {}
    for line in said.split("\n"):
        goal, verdict, error = OPEN_GOAL.match(line), VERDICT.match(line), ERROR.match(line)
        if goal:
            goals.append((goal[1], GAVE_UP in line))
        elif error and not error[4].startswith(f"`{REFUSED_AT_ONCE}`"):
            errors.setdefault(f"{crate.name}::{error[2].replace('/', '::')}", []).append((error[1], int(error[3]), error[4]))
        elif verdict:
            found[verdict[1]], goals = (verdict[2], goals), []
    return {name: (verdict, goals, errors.get(name, [])) for name, (verdict, goals) in found.items()}


def callees(name, found):
    """The functions without a proof that a function waits for, through others too."""
    met, ahead = set(), [name]
    while ahead:
        called = CALLS.search(found[ahead.pop()][0])
        new = {callee for callee in re.findall(r"`([^`]*)`", called[1]) if called and callee in found} - met if called else set()
        met |= new
        ahead += new
    return met


def judged(bug, found):
    """What a check says of a bug: 'refused', 'unfit', the functions that it waits for, that the search gave up and may, or why it does
    not count."""
    own = [(name, *found[name]) for name in sorted(bug.only) if name in found]
    if not own:
        return f"the check has no function {' '.join(sorted(bug.only))}"
    goals = [goal for _, _, goals, _ in own for goal in goals]
    if any(not gave_up for _, gave_up in goals):
        return "refused"
    errors = [error for _, _, _, errors in own for error in errors]
    unfit = [error for error in errors if not LOST_NAME.search(error[2])]
    if any(not path.endswith(ANSWERS) for path, _, _ in unfit):
        # a proof by hand, or what a loop keeps
        return "refused"
    if unfit and not bug.unfit:
        for path, line, _ in errors:
            bug.unfit[path].add(line)
        return "unfit"
    if any("expected a measure" in verdict for _, verdict, _, _ in own):
        # a body that calls itself without an end
        return "refused"
    waits = set().union(*(callees(name, found) for name, _, _, _ in own))
    if waits:
        return waits
    return GAVE_UP if goals and bug.may_give_up else why_it_counts_not(own, goals, errors)


def why_it_counts_not(own, goals, errors):
    if goals:
        return f"{UNSURE}, at {' '.join(goal for goal, _ in goals)}"
    if errors:
        return f"only a proof file that names what the edit took away refuses it: {errors[0][2][:200]}"
    return "; ".join(f"{name}: {verdict[:200]}" for name, verdict, _, _ in own)


def unexpected(batch, found, functions):
    """The functions that are refused though no bug of the batch names them, and that are not refused at once: then an `only:` is not
    whole, or the check is at fault."""
    named = set().union(*(bug.only for bug in batch)) | functions
    for name, (verdict, goals, errors) in found.items():
        if not is_of(name, named) and verdict not in ("proved", "assumed") and not CALLS.search(verdict):
            yield f"{name}: {verdict[:200]}, and no bug of the check names it: {' '.join(bug.name for bug in batch)}"


def copied(rtlib, crate, texts, room):
    """Copies the crate to a folder, with these texts."""
    for part in rtlib.PARTS:
        if os.path.isdir(f"{crate.folder}/{part}"):
            shutil.copytree(f"{crate.folder}/{part}", f"{room}/{part}")
    for path, text in texts.items():
        os.makedirs(os.path.dirname(f"{room}/{path}"), exist_ok=True)
        with open(f"{room}/{path}", "w", encoding="utf-8") as file:
            file.write(text)
        if path.endswith(BY_HAND):
            # a whole proof, which takes no other files next to it
            for other in (ANSWERS, INVARIANTS):
                with suppress(FileNotFoundError):
                    os.remove(f"{room}/{path[:-len(BY_HAND)]}{other}")


def checked(rtlib, crate, texts, batch, kept):
    """What a check of a copy of the crate prints of the functions of these bugs, and its verdicts."""
    with tempfile.TemporaryDirectory(prefix="rt-edit-") as room:
        copied(rtlib, crate, texts, room)
        words = crate.words(["--jobs", "1", *only(batch)], keeps=False)
        words = [*rtlib.guarded(), rtlib.RATTLE, "check", *words, "--incremental", kept]
        for _ in range(2):
            ran = subprocess.run(words, cwd=room, stdin=subprocess.DEVNULL, stdout=subprocess.PIPE, stderr=subprocess.STDOUT,
                                 errors="replace", check=False)
            if ran.returncode != -signal.SIGKILL:
                break
            # most likely because memory ran out: once again
    return ran.stdout, verdicts(crate, ran.stdout)


def try_trimmed(rtlib, crate, bugs, kept, functions):
    """Tries the bugs of a crate with the proofs of no callees, check after check: those that are not refused so, why the check is at
    fault, and how many checks it took."""
    left, again, failed, checks, cycles = list(bugs), [], [], 0, set()
    while left:
        batch, texts = batch_of(left, {}, len(left), crate.folder)
        changed = set().union(*(bug.only for bug in batch))
        texts = trimmed(crate.folder, texts, changed, functions, cycles)
        printed, found = checked(rtlib, crate, texts, batch, kept) if batch else ("", {})
        more = set(CYCLE.findall(printed)) - cycles
        if not found and more:
            cycles |= more
            continue
        if not found:
            return again + left, failed, checks + 1
        failed, checks = failed + list(unexpected(batch, found, functions)), checks + 1
        functions = functions | {name for name in found if re.fullmatch(r"[\w:]+", name)}
        for bug in batch:
            said = judged(bug, found)
            if said != "unfit":
                left.remove(bug)
                again += [bug] * (said != "refused")
    return again, failed, checks


def try_batches(rtlib, crate, bugs, kept):
    """Tries the bugs of a crate, check after check over one folder of kept work: why each that does not count fails."""
    left, waits, failed, checks, most = list(bugs), {}, [], 0, len(bugs)
    while left:
        batch, texts = batch_of(left, waits, most, crate.folder)
        if not batch:
            return failed + [f"{bug.name}: an old text of it is not there exactly once" for bug in left], checks
        printed, found = checked(rtlib, crate, texts, batch, kept)
        checks, before = checks + 1, len(left)
        if not found and len(batch) > 1:
            # a text does not compile: smaller batches show whose
            most = len(batch) // 2
            continue
        most = most if found else len(bugs)
        failed += unexpected(batch, found, set())
        for bug in batch:
            said = judged(bug, found)
            # if bugs wait for each other, the first counts as it is
            if isinstance(said, set) and (bug is not batch[-1] or len(left) < before):
                waits[bug.name] = waits.get(bug.name, set()) | said
                continue
            if said == "unfit":
                continue
            left.remove(bug)
            if said not in ("refused", GAVE_UP):
                failed.append(f"{bug.name}: {said if found else printed[-1000:]}")
    return failed, checks


def bugs_of(crate):
    """The planted bugs of a crate, by their names."""
    folder = f"{crate.folder}/planted"
    for file in sorted(os.listdir(folder)) if os.path.isdir(folder) else []:
        yield Bug(crate, f"{folder}/{file}")
