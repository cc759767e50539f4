#!/usr/bin/env python3
"""Tries the wrong bodies of crates/NAME/edits/: a check must refuse each one. scripts/try_edits.sh says how it is called.

An edit has the form of the gate's: a line `file: PATH`, then pairs of lines `old: TEXT` and `new: TEXT`. Each crate is
proved first, over what earlier checks kept in its out/. What a check costs is to read that work, and one wrong body leaves
the other functions as they are. So edits of different functions are tried together, each batch over its own copy, and the
check must say of each edited function that it is not proved; an edit of which a batch says nothing is tried alone. Edits of
modules that stand in the tests alone are checked with the tests. There are as many copies as there are processors, or JOBS.
The status is 1 where an edit was not refused.

No clause says when the allocator refuses. So a body that answers `NoMemory` wherever no other refusal is asked for meets the
contract of a call that takes memory, and has no edit. Tests of rstar_vectors refuse it:

    RTree::insert    insertion::insertions_shape_the_tree
    RTree::drain     removal::drains_that_are_given_up, removal::callers_drain_and_insert_again
"""

import concurrent.futures
import os
import queue
import re
import shutil
import subprocess
import sys
import tempfile
from pathlib import Path

ROOT = Path(__file__).resolve().parent.parent
JOBS = int(os.environ.get("JOBS") or os.cpu_count() or 1)
BATCH = 10

TESTED = re.compile(r"^#\[cfg\(test\)\]\n(?:pub )?mod (\w+);", re.M)
FUNCTION = re.compile(r'^\s*(?:pub(?:\([^)]*\))?\s+)?(?:const\s+)?(?:extern\s+"C"\s+)?fn\s+(\w+)', re.M)
TOLD = re.compile(r"^(?:note: )?(?P<path>\S+?):(?P<line>\d+):\d+:")
# What a proof file says of a name that the edit took away, and what is said of a text that does not read.
NAMES = re.compile(r"^(\./)?proofs/.*(has no field|is not in scope|has no `|was not admitted)")
UNREAD = re.compile(r"is not in scope|has no field|is no name|operand is missing|expected the end|cannot continue")
# A function that a check does not prove itself; of one that calls it a check says that it calls it.
UNPROVED = re.compile(r"^fn (\S+): (?:not proved|no proof: expected answers)")
# An error whose first word is no goal's name.
NO_GOAL = re.compile(r"^\S+ error: [^`]")


class Edit:
    """One wrong body: where its replacements stand, and the function whose body they change, if there is one."""

    def __init__(self, path):
        self.name = path.stem
        self.changes = []
        file, old = "", None
        for line in path.read_text().splitlines():
            if line.startswith("file: "):
                file = line[len("file: ") :]
            elif line.startswith("old: "):
                old = line[len("old: ") :]
            elif line.startswith("new:") and old is not None:
                self.changes.append((file, old, line[len("new:") :].removeprefix(" ")))

    def apply(self, crate):
        """Makes the replacements; gives what hinders them."""
        for file, old, new in self.changes:
            text = (crate / file).read_text()
            if text.count(old) != 1:
                return f"in {file} does not stand once: {old}"
            (crate / file).write_text(text.replace(old, new))
        return None

    def is_tested(self, crate):
        """Whether it changes a module that stands in the tests alone."""
        roots = [crate / "src" / name for name in ("lib.rt", "main.rt")]
        tested = {name for root in roots if root.exists() for name in TESTED.findall(root.read_text())}
        return any(modules(file)[:1] and modules(file)[0] in tested for file, _, _ in self.changes)

    def function(self, crate):
        """The file and the function that all replacements stand in; None where they stand in more than one."""
        found = set()
        for file, old, _ in self.changes:
            text = (crate / file).read_text()
            at = text.find(old)
            heads = [head for head in FUNCTION.finditer(text) if head.start() < at + len(old)]
            if at < 0 or not heads or heads[-1].end() > at:
                return None
            found.add((file, heads[-1].group(1)))
        return found.pop() if len(found) == 1 else None


def modules(file):
    """The modules of a source file, as a check names them."""
    return [part for part in Path(file).with_suffix("").parts[1:] if part not in ("lib", "main", "mod")]


def is_of(parts, place):
    """Whether a name in parts, as a check writes it, is that of an edited function: its own name last, and before it the
    outermost module of its file. A method is named by the module of its type, which may be another file's."""
    file, name = place
    outer = modules(file)[:1]
    return parts[-1:] == [name] and all(module in parts for module in outer)


def check(crate, tests):
    """Checks a copy of a crate, with its tests or without, and gives the status and what the check says."""
    words = ["rt", "check", "--jobs", "1"] + ["--test"] * tests
    done = subprocess.run(words, cwd=crate, stdout=subprocess.PIPE, stderr=subprocess.STDOUT, text=True)
    return done.returncode, done.stdout.splitlines()


def verdict(status, said, told):
    """A word for what a check makes of an edit, and why: `told` is what it says of the edit's function."""
    errors = [line for line in told if re.match(r"^(\./)?(src|specs)/\S+ error: ", line)]
    if status == 0:
        return "NOT REFUSED"
    if not any(line.startswith("logic=not-proved") for line in said):
        return "NOT TRIED: " + next((line for line in said if "error" in line), said[-1] if said else "no word")
    if any(NO_GOAL.match(line) or UNREAD.search(re.sub(r"`[^`]*`", "", line)) for line in errors):
        return "NOT TRIED: it does not read: " + errors[0]
    if told and all(NAMES.match(line) for line in told):
        return "BY NAMES ALONE: " + told[0]
    return "refused: " + next((line for line in told if not NAMES.match(line)), said[-1])


def told_lines(said):
    return [line for line in said if TOLD.match(line) and (": error" in line or line.startswith("note: "))]


def starts_of(text):
    """The line on which each function of a text begins, its attributes included, and its name."""
    rows = text.split("\n")
    starts = []
    for head in FUNCTION.finditer(text):
        line = text.count("\n", 0, head.start(1)) + 1
        while line > 1 and rows[line - 2].lstrip().startswith("#["):
            line -= 1
        starts.append((line, head.group(1)))
    return starts


def told_of(function, crate, said):
    """What a check says of one function: by the folder of its proofs, and by the lines of its body."""
    file, name = function
    starts = starts_of((crate / file).read_text())
    own = []
    for line in told_lines(said):
        at = TOLD.match(line)
        path, number = at["path"].removeprefix("./"), int(at["line"])
        if path.startswith("proofs/"):
            if is_of([part.removeprefix("+") for part in Path(path).parts[1:-1]], function):
                own.append(line)
        elif path == file:
            before = [head for start, head in starts if start <= number]
            if before and before[-1] == name:
                own.append(line)
    return own


def try_batch(edits, home, copy):
    """Tries edits of different functions together, and gives a verdict for each; None where it must be tried alone."""
    shutil.rmtree(copy / "src")
    shutil.copytree(home / "src", copy / "src")
    for edit in edits:
        hindered = edit.apply(copy)
        if hindered:
            return {edit.name: "NOT TRIED: " + hindered} if len(edits) == 1 else {e.name: None for e in edits}
    status, said = check(copy, edits[0].tests)
    if len(edits) == 1:
        return {edits[0].name: verdict(status, said, told_lines(said))}
    verdicts = {}
    refused = [found[1].split("::") for found in map(UNPROVED.match, said) if found]
    for edit in edits:
        if any(is_of(parts, edit.place) for parts in refused):
            told = told_of(edit.place, copy, said)
            word = verdict(status, said, told)
            verdicts[edit.name] = word if told and word.startswith("refused") else None
        else:
            verdicts[edit.name] = None
    return verdicts


def batches_of(edits, home):
    """The edits in batches: no two of functions with one name in a batch, and none of tests beside another."""
    batches = []
    for edit in edits:
        edit.place, edit.tests = edit.function(home), edit.is_tested(home)
        if edit.place is None:
            batches.append([edit])
            continue
        for batch in batches:
            if not batch[0].place or batch[0].tests != edit.tests or len(batch) == BATCH:
                continue
            if all(other.place[1] != edit.place[1] for other in batch):
                batch.append(edit)
                break
        else:
            batches.append([edit])
    return batches


def copy_for(name, room):
    """A copy of the repository to check one crate in: sources, built libraries, and what checks of the crate kept."""
    room.mkdir()
    shutil.copy(ROOT / "crates.txt", room)
    for crate in (ROOT / "crates").iterdir():
        for part in ("src", "specs", "proofs", "out/rlib"):
            if (crate / part).exists():
                shutil.copytree(crate / part, room / "crates" / crate.name / part, symlinks=True)
    shutil.copytree(ROOT / "crates" / name / "out/incremental", room / "crates" / name / "out/incremental")
    return room / "crates" / name


def try_crate(name, wanted, rooms):
    """Tries the edits of a crate that are wanted, or all, prints a line for each, and gives the lines."""
    home = ROOT / "crates" / name
    edits = [Edit(path) for path in sorted((home / "edits").glob("*.edit")) if not wanted or path.stem in wanted]
    if len(edits) < len(wanted):
        sys.exit(f"{name} has not all of these edits: " + " ".join(sorted(wanted)))
    if not edits:
        return []
    batches = batches_of(edits, home)
    for tests in sorted({batch[0].tests for batch in batches}):
        status, said = check(home, tests)
        if status != 0:
            sys.exit(f"{name} itself is not proved: " + next((l for l in said if "error" in l), (said or ["no word"])[-1]))
    copies = queue.Queue()
    for number in range(min(JOBS, len(batches))):
        copies.put(copy_for(name, rooms / f"{name}-{number}"))
    lines = []

    def run(batch):
        copy = copies.get()
        try:
            verdicts = try_batch(batch, home, copy)
            for edit in batch:
                word = verdicts[edit.name] or try_batch([edit], home, copy)[edit.name]
                lines.append(f"{name}/{edit.name}: {word[:200]}")
                print(lines[-1], flush=True)
        finally:
            copies.put(copy)

    with concurrent.futures.ThreadPoolExecutor(JOBS) as pool:
        for done in [pool.submit(run, batch) for batch in batches]:
            done.result()
    return lines


def main():
    wanted = {}
    for word in sys.argv[1:] or re.findall(r"^([a-z0-9_]+):", (ROOT / "crates.txt").read_text(), re.M):
        name, _, edit = word.partition("/")
        wanted.setdefault(name, set()).update({edit} - {""})
    lines = []
    with tempfile.TemporaryDirectory() as room:
        for name, edits in wanted.items():
            lines += try_crate(name, edits, Path(room))
    words = ("NOT REFUSED", "NOT TRIED", "BY NAMES ALONE")
    for word in words:
        for line in [line for line in lines if f": {word}" in line]:
            print("--", line)
    counts = [sum(f": {word}" in line for line in lines) for word in ("refused",) + words]
    print("{} refused, {} not refused, {} not tried, {} by names alone".format(*counts))
    sys.exit(1 if counts[1] else 0)


main()
