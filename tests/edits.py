#!/usr/bin/env python3
"""Why the prover refused each must-fail edit.

    edits.py SAID [NAME..]       by what rt ci (or rt must-fail) printed into SAID, and where that says too little by rt check: the gate
    edits.py --whole [NAME..]    each by rt check, tried one by one on a copy: 6 to 40 seconds each

Of these crates alone, where any is named. An edit shows something only where a rule no longer holds: what a function promises, a loop's
invariant, or a law. It shows nothing where the edited text or a proof file merely no longer fits, where the prover met a limit, nor where
the edited code is unsafe: a sum that wraps, an index or a part past the end, a cast, a callee's `requires`. So the first error has to be
about a rule, and none may be about safety.

rt ci prints one error of an edit: the first that is not about a name which the edit took away from a proof file. That is enough where the
function has no proof file: there no name can be taken away, and what is asked for safety comes before what is promised. Where code is
edited and the function has one, a goal can be open only because its answer is for a goal of another name, and errors in answers come
before open goals about safety: there rt check is asked for all errors."""
import collections
import concurrent.futures
import os
import pathlib
import queue
import re
import shutil
import subprocess
import sys
import tempfile
import time

ROOT = pathlib.Path(__file__).resolve().parent.parent
SAID = re.compile(r"^rt: must-fail (\S+?)\.edit: (.*)$", re.M)
# what rt says where the prover refuses an edit for an error that it then names
REFUSED = "refused, as it must be: "
# how many edits rt counts, once all else passed
COUNTED = re.compile(r"^rt: ok; .*?must-fail edits: (\d+) refused(, \d+ of them only by a limit)?(, \d+ bad)?;", re.M)

# a goal of a function that no answer covers; rt ci cuts its lines, so the goal's name can lack its end
OPEN = re.compile(r"note: (src/\S+\.rt):(\d+):\d+: it is not proved that (.+?) ?\(`([^`]*)")
# the words for the goals that are about a rule; every other goal of a function is about safety, or that a loop ends
RULE = (
    "what the function ensures holds when it returns",
    "the invariant of the loop holds",
    "the invariant that rattle tried for the loop holds",
    "the struct's ghost fields",
    "the `invariant` of the struct's `impl Model` holds",
    "the `invariant` holds of the struct's fields",
)
# the names of goals about safety, and of those that a loop ends
UNSAFE = re.compile(r"(overflow|nonzero)_|(slice_|offset_)?bounds-|.+-requires(-|$)")
ENDS = re.compile(r".+-smaller(-\d+)?$")

# an error in a file of proofs/ or specs/, and the lemma, law or answer that it is in
ERROR = re.compile(r"(?:\./)?((?:proofs|specs)/\S+\.antt):\d+:\d+: error: `([^`]+)`: (.*)")
# two sides that differ, a goal that does not follow, a rest that is not proved, a call of other values
FACT = ("two types", "two values", "does not hold", "does not follow", "not proved that", "`search`: no proof", "give a proof of that", "no occurrence of the path", "but this has type")
# the last of these where it lacks its end: that stands in a line of its own, or rt ci cut what it names there
CUT, BEGUN = 160, re.compile(r"expected type `([^`]*`$)?")
# a name or a part that is not there
UNFIT = ("is not in scope", "that can be named from here", "has no field", "has no `", "is no name")
# an answer whose goal is another one than its file has
OTHER_GOAL = re.compile(r"expected type `(Rattle\.\w+\.proofs\.\S+\.Goals|goal)\.")
# an error, and what follows from another one
ERRS = re.compile(r"\S+:\d+:\d+: error|note: src/\S+\.rt:\d+:\d+: it is not proved that ")
FOLLOWS = re.compile(r"was not admitted|declarations? that depends? on `[^`]*`, which was rejected")

# what the code cannot do without a goal of its own, which no proof file answers
ASKS = re.compile(r"[-+*\[]|<<|>>|\bas\b|[/%](?! *[1-9])")


def goal_of(reason):
    """The words and the name of the function's goal that an error is about; none where it is about a law."""
    open_goal, error = OPEN.match(reason), ERROR.match(reason)
    if open_goal:
        return open_goal[3], open_goal[4]
    return ("", error[2]) if error and error[1].endswith("/Answers.antt") else ("", "")


def is_end(reason):
    """That a loop ends is neither a rule nor a bound."""
    words, name = goal_of(reason)
    return words.startswith("the loop ends") or bool(ENDS.match(name))


def is_unsafe(reason):
    words, name = goal_of(reason)
    return not is_end(reason) and (bool(UNSAFE.match(name)) or bool(words) and not words.startswith(RULE))


def is_fact(reason):
    if OPEN.match(reason):
        return goal_of(reason)[0].startswith(RULE)
    error = ERROR.match(reason)
    # an invariant or a measure that errs is not one that fails: that one's goal does
    if not error or error[1].endswith("/Invariants.antt") or any(words in error[3] for words in UNFIT) or OTHER_GOAL.search(error[3]):
        return False
    begun = BEGUN.match(error[3])
    return any(words in error[3] for words in FACT) or bool(begun and (begun[1] or len(reason) == CUT))


def fault_of_reasons(reasons):
    """What is wrong with the errors of an edit, or nothing. Those that a loop ends are passed over."""
    reasons = [reason for reason in reasons if not is_end(reason)]
    if not reasons:
        return "no error about a rule"
    for reason in reasons:
        if is_unsafe(reason):
            return "the edited code is not safe: " + reason
    return "" if is_fact(reasons[0]) else "not refused for a fact: " + reasons[0]


def pairs_of(edit):
    """(file, old, new) of each change of an edit."""
    file = old = ""
    for line in edit.read_text().splitlines():
        key, _, text = line.partition(": ")
        if key == "file":
            file = text
        elif key == "old":
            old = text
        elif key in ("new", "new:"):
            yield file, old, text


def adds_an_operation(edit):
    """New code has a sum, an index or a cast more than the old. A contract and its imports are no code."""
    return any(
        file.startswith("src/") and not re.search("≡|^ghost", old) and len(ASKS.findall(new)) > len(ASKS.findall(old))
        for file, old, new in pairs_of(edit)
    )


def name_of(edit):
    return f"{edit.parts[-3]}/{edit.stem}"


def fault_of_line(told):
    """What is wrong with an edit by what rt ci printed of it, or nothing."""
    if len(told) != 1:
        return f"{len(told)} lines of what rt said name it, and not one"
    if not told[0].startswith(REFUSED):
        return told[0]
    return fault_of_reasons([told[0].removeprefix(REFUSED)])


def function_at(source, line):
    """The function that a line of a file is in."""
    above = source.read_text().splitlines()[: int(line)]
    return next((head[1] for head in (re.match(r"\s*(?:[\w()\"]+ )*fn (\w+)", text) for text in reversed(above)) if head), "")


def says_too_little(edit, reason):
    """Whether code is edited, and the function that errs has proof files: then the first error alone does not tell what the edit shows."""
    if not any(file.startswith("src/") for file, _, _ in pairs_of(edit)):
        return False
    open_goal, crate = OPEN.match(reason), edit.parents[1]
    if not open_goal:
        return True
    function = function_at(crate / open_goal[1], open_goal[2])
    # the proof of functions that call one another, or of one that calls itself, goes by another name
    return any(file.parent.name in (function, "+" + function) or "/+" in str(file) for file in crate.glob("proofs/**/*.antt") if file.name in ("Answers.antt", "Invariants.antt", "Proof.antt"))


def fault_of_check(edit, room):
    """What is wrong with an edit by all that rt check says of it, or nothing. The room is a copy of the repository."""
    folder = room / "crates" / edit.parts[-3]
    try:
        for file, old, new in pairs_of(edit):
            text = (folder / file).read_text()
            if text.count(old) != 1:
                return f"its text stands {text.count(old)} times in {file}"
            (folder / file).write_text(text.replace(old, new))
        ran = subprocess.run(["rt", "check"], cwd=folder, stdin=subprocess.DEVNULL, stdout=subprocess.PIPE, stderr=subprocess.STDOUT, text=True, errors="replace")
    finally:
        for file, _, _ in pairs_of(edit):
            shutil.copyfile(edit.parents[1] / file, folder / file)
    if ran.returncode != 1 or not re.search(r"^logic=not-proved", ran.stdout, re.M):
        return f"rt check ends with status {ran.returncode}: {ran.stdout[-600:]}"
    # what an error says goes on in the indented lines below it
    lines = re.sub(r"\n +", " ", ran.stdout).splitlines()
    return fault_of_reasons([line for line in lines if ERRS.match(line) and not FOLLOWS.search(line)])


def copied(room):
    """A copy of the repository in a new folder, as far as rt check reads it."""
    crates = ROOT / "crates"
    shutil.copytree(crates, room / "crates", ignore=lambda at, names: ["out", "must-fail"] if pathlib.Path(at).parent == crates else [])
    shutil.copyfile(ROOT / "crates.txt", room / "crates.txt")
    # the top of a repository
    (room / ".git").mkdir()
    return room


def faults_of_checks(edits):
    """The fault of each edit by rt check, two processors to a copy of the repository."""
    if not edits:
        return []
    at_once = min(max((os.cpu_count() or 2) // 2, 1), len(edits))
    with tempfile.TemporaryDirectory() as folder, concurrent.futures.ThreadPoolExecutor(at_once) as pool:
        rooms = queue.Queue()
        for number in range(at_once):
            rooms.put(copied(pathlib.Path(folder, str(number))))

        def tried(edit):
            room, start = rooms.get(), time.time()
            try:
                fault = fault_of_check(edit, room)
            finally:
                rooms.put(room)
            print(f"must-fail {name_of(edit)}: tried by rt check, {time.time() - start:.0f} s", flush=True)
            return fault

        return list(zip(edits, pool.map(tried, edits)))


def faults_of_lines(said, edits, names):
    """The fault of each edit by what rt said, and by rt check where that says too little."""
    told = collections.defaultdict(list)
    for name, text in SAID.findall(said):
        if not names or name.split("/")[0] in names:
            told[name].append(text)
    found = {edit: fault_of_line(told[name_of(edit)]) for edit in edits}
    dubious = [edit for edit in edits if not found[edit] and says_too_little(edit, told[name_of(edit)][0].removeprefix(REFUSED))]
    print(f"must-fail edits: the first error says too little of {len(dubious)}, so these are tried again")
    yield from {**found, **dict(faults_of_checks(dubious))}.items()
    for name in sorted(told.keys() - {name_of(edit) for edit in edits}):
        yield None, f"{name}: there is no such edit"
    counted = COUNTED.search(said)
    if not names and (not counted or counted.groups() != (str(len(edits)), None, None)):
        yield None, f"rt counts other edits than the {len(edits)} of crates/*/must-fail: {counted[0] if counted else 'it counts none'}"


def main():
    if len(sys.argv) < 2:
        sys.exit(__doc__)
    source, names = sys.argv[1], sys.argv[2:]
    edits = [edit for edit in sorted(ROOT.glob("crates/*/must-fail/*.edit")) if not names or edit.parts[-3] in names]
    found = faults_of_checks(edits) if source == "--whole" else faults_of_lines(pathlib.Path(source).read_text(errors="replace"), edits, names)
    faults = 0
    for edit, fault in found:
        if edit and not fault and adds_an_operation(edit):
            fault = "it adds an operation that no proof file shows to be safe"
        if fault:
            print(f"must-fail {name_of(edit)}: {fault}" if edit else f"must-fail {fault}")
            faults += 1
    print(f"must-fail edits: {len(edits)} read, {faults} faults")
    sys.exit(1 if faults or not edits else 0)


main()
