#!/usr/bin/env python3
"""Tries the must-fail edits of all crates, or of the crates, files or edits named: a contract must reject each.

An edit changes code only (edit.py checks this by reading). It counts as rejected only if the prover reads the edited
text and fails to prove a goal of an `ensures` of every function that the edit changes, or of the functions that its
lines `only: NAME` name. A goal of safety alone, a loop's invariant, a compile error, a missing measure or a proof file
that no longer fits does not count.

`rt must-fail` tries the same edits, one file at a time, and accepts any reason. Here, one `rt check --only` tries edits of many
functions. The prover proves a function against the contracts of the functions that it calls, not against their bodies,
so one broken implementation does not affect the goals of another. A function that is not proved only because it depends
on another one shows nothing: its edit is tried again in another check, and in the end alone.

    tests/steps/edits.py [--clone FOLDER] [--log FOLDER] [--tests] [CRATE..] [CRATE/FILE..] [CRATE/EDIT..]

Works in a copy of the crates or, with four processors or more, in two, each with a part of the edits. An edit counts only
if the crate is proved without it, so first proves there the crates and those below them, the lowest first. Then tries the
edits from the top down: those of a crate after those of the crates above it, so that no check has to prove the libraries
below again. Restores the sources after each check. In one copy, one check runs at a time, because `rt` lets no two run
over the same library. --clone keeps the copies in this folder, and a later run proves only what changed. --log keeps what
each check prints, each line prefixed with the seconds since its start, so the lines `checked NAME` show what each function
costs. If nothing is named, also tries the edits of tests/edits/, each of which states what this script must print for it.
With --tests, tries these and what is named.
"""

import argparse
import os
import re
import shutil
import subprocess
import sys
import tempfile
import time
from concurrent.futures import ThreadPoolExecutor

sys.path.insert(0, os.path.join(sys.path[0], "..", "lib"))

from edit import BadEdit, edits_of, function_at_line, is_named, is_of  # noqa: E402 (it is in that folder)
from libraries import TOP, below, dependencies, folder_of  # noqa: E402
from reasons import open_goals, wrong_answers  # noqa: E402

# The largest number of edits that one check tries.
BATCH = 24
# The number of jobs of a check. Two checks may run at once, on two processors each.
JOBS = "2"
# What a crate costs: about how many lines are proved in a second, and the seconds of an edit.
LINES_PER_SECOND, EDIT_SECONDS = 30, 15
PARTS = ("src", "specs", "proofs")

# The verdict of a check of the whole crate, and that of a check of some functions: how many were requested.
WHOLE = re.compile(r"(?m)^logic=proved ")
ONLY = re.compile(r"(?m)^only=\d+ \w+=\d+")
# The path of a function of the crate that is proved.
PROVED = re.compile(r"(?m)^fn ([\w+]+(?:::[\w+]+)*): proved$")
ERROR = re.compile(r"^(?:\./)?(\S+?):\d+:\d+: error: (?:(`[^`]*`): )?(.*)$", re.M)
UNREAD = re.compile(r"is not in scope|has no field|is no name|operand is missing|expected the end|cannot continue")


def texts_of(folder):
    """Returns the texts of a crate's files, by their paths in its folder."""
    texts = {}
    for part in PARTS:
        for at, _, names in os.walk(os.path.join(folder, part)):
            for name in names:
                path = os.path.join(at, name)
                with open(path, encoding="utf-8") as file:
                    texts[os.path.relpath(path, folder)] = file.read()
    return texts


def edits_of_crate(name):
    """Returns the edits of a crate of this repository."""
    return edits_of(name, os.path.join(folder_of(name), "must-fail"))


def is_known(name):
    """Returns whether a crate, a file of edits or an edit has this name."""
    crate = name.partition("/")[0]
    return name in dependencies() or any(is_named(it, [name]) for it in edits_of_crate(crate))


class Clone:
    """A copy of the crates, without their edits, in which `rt check` runs."""

    def __init__(self, top, names):
        self.top = top
        os.makedirs(top, exist_ok=True)
        for name in ("crates.txt", "HANDLES"):
            shutil.copyfile(os.path.join(TOP, name), os.path.join(top, name))
        for name in names:
            self.write(name, texts_of(folder_of(name)))

    def write(self, crate, texts):
        """Makes these the texts of the crate. Leaves a file as it is if its text is the same."""
        folder = folder_of(crate, self.top)
        found = texts_of(folder)
        for path in found.keys() - texts.keys():
            os.remove(os.path.join(folder, path))
        for path in [it for it in texts if found.get(it) != texts[it]]:
            os.makedirs(os.path.dirname(os.path.join(folder, path)), exist_ok=True)
            with open(os.path.join(folder, path), "w", encoding="utf-8") as file:
                file.write(texts[path])


class Checked:
    """A check of a crate in this folder, whose texts these are: its status, what it printed, and its processor time."""

    def __init__(self, folder, texts, options):
        self.texts, self.timed, begun = texts, [], time.monotonic()
        how = {"cwd": folder, "stdin": subprocess.DEVNULL, "stdout": subprocess.PIPE, "stderr": subprocess.STDOUT}
        with subprocess.Popen(["rt", "check", "--jobs", JOBS, *options], **how, text=True, errors="replace") as run:
            for line in run.stdout:
                self.timed.append((time.monotonic() - begun, line))
            _, status, usage = os.wait4(run.pid, 0)
            run.returncode = os.waitstatus_to_exitcode(status)
        self.status, self.output = run.returncode, "".join(line for _, line in self.timed)
        self.seconds = usage.ru_utime + usage.ru_stime

    def is_proved(self):
        return self.status == 0 and bool(WHOLE.search(self.output) or ONLY.search(self.output))

    def is_rejected(self):
        """Returns whether the check of some functions ended because something is not proved."""
        return self.status == 1 and bool(ONLY.search(self.output))

    def unread(self):
        """Returns the line that states that the prover could not read a text, or None."""
        for it in ERROR.finditer(self.output):
            file, name, message = it.groups()
            ours = file.startswith(("src/", "specs/"))
            if ours and (not name or UNREAD.search(re.sub(r"`[^`]*`", "", message))):
                return it[0]
        return None

    def broken(self, paths):
        """Returns which of these functions, all paths in the crate, have a goal of an `ensures` that is not proved."""
        found = set()
        for file, line in open_goals(self.output):
            function = function_at_line(file, self.texts.get(file, ""), line)
            found |= {path for path in paths if function and is_of(function, path)}
        return found.union(wrong_answers(self.output)).intersection(paths)

    def why(self):
        """Returns the first line that states what was not proved or not read."""
        lines = self.output.split("\n")
        found = [it for it in lines if re.match(r"(note: )?\S+:\d+:\d+: (error|it is not)", it)]
        found += [it for it in lines if it.startswith("fn ") and not it.endswith(": proved")]
        return [*found, f"the check ended with status {self.status}"][0][:300]


class Batch:
    """Edits of different functions, and the crate's texts with all of them applied."""

    def __init__(self, texts):
        self.texts, self.edits, self.functions = texts, [], set()

    def takes(self, edit, functions):
        """Adds the edit if it changes none of the functions that the batch changes. Returns whether it was added."""
        if len(self.edits) == BATCH or self.functions & functions:
            return False
        try:
            self.texts = edit.applied(self.texts)
        except BadEdit:
            return False
        self.edits.append(edit)
        self.functions |= functions
        return True


def batches(edits, functions, texts):
    """Returns the edits in batches, and those that must be tried alone, such as edits of constants.

    Distributes them in turn, those of many functions first, so that functions next to each other, which often call one
    another, are in different batches.
    """
    inside = sorted([it for it in edits if it.is_inside(texts)], key=lambda it: -len(functions[it]))
    held = [it for edit in inside for it in functions[edit]]
    made = [Batch(texts) for _ in range(max([-(-len(inside) // BATCH), *map(held.count, set(held))]))]
    alone = [it for it in edits if it not in inside]
    for at, edit in enumerate(inside):
        turn = [*made[at % len(made) :], *made[: at % len(made)]]
        if not any(it.takes(edit, functions[edit]) for it in turn):
            alone.append(edit)
    return [it for it in made if it.edits], alone


class Crate:
    """A crate in the clone, its edits, and those of tests/edits/ that apply to it. These test this script, which must
    print for each what its line `expect:` states."""

    def __init__(self, name, clone, log):
        self.name, self.clone, self.log = name, clone, log
        self.folder, self.texts = folder_of(name, clone.top), texts_of(folder_of(name))
        self.edits = edits_of_crate(name)
        self.script_tests, self.proved, self.functions = [], [], {}
        self.checks, self.seconds = 0, 0.0

    def checked(self, name, texts, *options):
        """Checks the crate with these texts, and restores its own."""
        self.clone.write(self.name, texts)
        try:
            checked = Checked(self.folder, texts, options)
        finally:
            self.clone.write(self.name, self.texts)
        self.checks, self.seconds = self.checks + 1, self.seconds + checked.seconds
        if self.log:
            with open(os.path.join(self.log, f"{self.name}.{name}.txt"), "w", encoding="utf-8") as file:
                file.writelines(f"{seconds:6.1f} {line}" for seconds, line in checked.timed)
        return checked

    def edited(self, name, texts, paths):
        """Checks these functions in the edited texts."""
        return self.checked(name, texts, *[word for it in paths for word in ("--only", f"{self.name}::{it}")])

    def is_proved(self):
        """Proves the crate as it is, and returns whether it is proved."""
        checked = self.checked("proof", self.texts)
        proved = [it.partition("::") for it in PROVED.findall(checked.output)]
        self.proved = list(dict.fromkeys(path for crate, _, path in proved if crate == self.name))
        if not checked.is_proved():
            print(f"{self.name} is not proved: {checked.why()}", flush=True)
        return checked.is_proved()

    def show_costs(self, what):
        """Prints what was done since the last call, and the processor time of its checks."""
        print(f"{self.name}: {what}, {self.seconds:.0f} processor seconds", flush=True)
        self.checks, self.seconds = 0, 0.0

    def targets(self, edit):
        """Returns the paths of each function whose contract must reject the edit. Several paths match one function if
        its type has several impls of its trait. Raises BadEdit if a function is not found."""
        if edit.only:
            wanted = [(it, [path for path in self.proved if f"::{path}".endswith(f"::{it}")]) for it in edit.only]
        else:
            wanted = [(it, [path for path in self.proved if is_of(it, path)]) for it in self.functions[edit]]
        for it, paths in wanted:
            if not paths:
                raise BadEdit(f"no proved function of the crate is {it}")
        return [paths for _, paths in wanted]

    def tried(self):
        """Tries the edits, and yields each with whether it passes and what to print."""
        good = []
        for edit in self.edits:
            try:
                edit.applied(self.texts)
                self.functions[edit] = edit.functions(self.texts)
                self.targets(edit)
                good.append(edit)
            except BadEdit as why:
                yield edit, False, f"BAD EDIT: {why}"
        together, alone = batches(good, self.functions, self.texts)
        for batch in together:
            yield from self.batch(batch)
        for edit in alone:
            yield self.alone(edit)
        for edit in self.script_tests:
            yield self.expected(edit)

    def expected(self, edit):
        """Returns the edit, whether the message for it is the expected one, and what to print."""
        try:
            edit.applied(self.texts)
            self.functions[edit] = edit.functions(self.texts)
            _, _, message = self.alone(edit)
        except BadEdit as why:
            message = f"BAD EDIT: {why}"
        is_right = message.startswith(edit.expect)
        return edit, is_right, f"as expected: {message}" if is_right else f"expected {edit.expect}, not: {message}"

    def batch(self, batch):
        """Tries a batch. If it leaves edits that it does not show to be rejected, tries these in batches once more, and
        then alone."""
        rest = yield from self.together(batch)
        again, alone = batches(rest, self.functions, self.texts) if 1 < len(rest) < len(batch.edits) else ([], rest)
        for it in again:
            alone += yield from self.together(it)
        for it in alone:
            yield self.alone(it)

    def together(self, batch):
        """Yields the edits of the batch that a check shows to be rejected, and returns the others."""
        groups = {edit: self.targets(edit) for edit in batch.edits}
        asked = sorted({path for it in groups.values() for paths in it for path in paths})
        checked = self.edited(f"batch-{batch.edits[0].name}", batch.texts, asked)
        broken = checked.broken(asked) if checked.is_rejected() and not checked.unread() else set()
        rest = []
        for edit in batch.edits:
            if functions := rejected(groups[edit], broken):
                yield edit, True, f"rejected, together with {len(batch.edits) - 1} others, by {functions}"
            else:
                rest.append(edit)
        return rest

    def alone(self, edit):
        """Returns the edit, whether a contract rejects it, and what to print."""
        groups = self.targets(edit)
        paths = [path for it in groups for path in it]
        checked = self.edited(edit.name, edit.applied(self.texts), paths)
        broken = checked.broken(paths) if checked.is_rejected() and not checked.unread() else set()
        if functions := rejected(groups, broken):
            return edit, True, f"rejected, alone, by {functions}"
        if checked.is_proved():
            return edit, False, f"NOT REJECTED: {' '.join(paths)} is proved with this edit"
        if line := checked.unread():
            return edit, False, f"BAD EDIT: the prover cannot read the edited text: {line[:300]}"
        left = sorted(set(paths) - checked.broken(paths))
        return edit, False, f"BAD EDIT: no goal of an `ensures` of {' '.join(left)} fails: {checked.why()}"


def rejected(groups, broken):
    """Returns which functions reject an edit, if each of these has a goal that is not proved."""
    found = [[path for path in paths if path in broken] for paths in groups]
    return " ".join(path for it in found for path in it) if all(found) else None


class Lane:
    """A clone, and the crates whose edits are tried there, one check after another."""

    def __init__(self, top, names, crates, log):
        self.names, self.passed, self.failed = names, 0, 0
        clone = Clone(top, names)
        self.crates = [Crate(it, clone, log) for it in needed(crates, names)]
        for crate in self.crates:
            if crate.name not in crates:
                crate.edits = []

    def add(self, is_right, line):
        print(line, flush=True)
        self.passed += is_right
        self.failed += not is_right

    def run(self):
        """Proves the crates, the lowest first, and tries their edits, those of the highest crates first."""
        proved = []
        for crate in self.crates:
            if {*below(crate.name, self.names)} <= {it.name for it in proved} and crate.is_proved():
                proved.append(crate)
                crate.show_costs("it is proved")
            else:
                self.add(False, f"FAILED: {crate.name} is not proved, so none of its edits was tried")
        for crate in reversed(proved):
            for edit, is_right, message in crate.tried():
                self.add(is_right, f"{edit.crate}/{edit.name}: {message}")
            if crate.checks:
                crate.show_costs(f"its edits took {crate.checks} checks")


def needed(crates, names):
    """Returns these crates and those below them, the lowest first."""
    found = {it for name in crates for it in [name, *below(name, names)]}
    return sorted(found, key=lambda it: len(below(it, names)))


def shares(crates, names, number):
    """Distributes crates over this number of lanes: the most costly first, each to the lane that then ends first."""
    made = [[] for _ in range(number)]
    edits = {it: len(edits_of_crate(it)) for it in crates}
    lines = {it: sum(text.count("\n") for text in texts_of(folder_of(it)).values()) for it in names}

    def cost(share):
        return sum(lines[it] for it in needed(share, names)) / LINES_PER_SECOND + sum(EDIT_SECONDS * edits[it] for it in share)

    for name in sorted(crates, key=lambda it: -cost([it])):
        min(made, key=lambda it: cost([*it, name])).append(name)
    return [it for it in made if it]


def options(words):
    """Returns the options of the command line."""
    parser = argparse.ArgumentParser(description="Tries the must-fail edits: a contract must reject each.")
    parser.add_argument("--clone", help="keep the copies of the crates in this folder (default: a temporary one)")
    parser.add_argument("--log", help="write what each check prints, with times, to a file in this folder")
    parser.add_argument("--tests", action="store_true", help="try the edits of tests/edits/, which test this script, and those that are named")
    parser.add_argument("names", nargs="*", help="crates, or files or edits of one (default: all crates)")
    return parser.parse_args(words)


def main(words):
    how, names = options(words), dependencies()
    if how.log:
        os.makedirs(how.log, exist_ok=True)
    own = [] if how.names and not how.tests else edits_of("tests/edits", os.path.join(TOP, "tests", "edits"))
    crates = {it.partition("/")[0] for it in how.names} | {it.base for it in own if how.tests}
    if unknown := [it for it in how.names if not is_known(it)]:
        sys.exit(f"no such crate, file or edit: {' '.join(unknown)}")
    crates = sorted(crates) or [it for it in names if edits_of_crate(it)]
    with tempfile.TemporaryDirectory(prefix="edits-") as folder:
        parts = shares(crates, names, 2 if len(os.sched_getaffinity(0)) >= 4 else 1)
        tops = [os.path.join(how.clone or folder, str(number)) for number in range(len(parts))]
        lanes = [Lane(top, names, part, how.log) for top, part in zip(tops, parts)]
        for crate in [it for lane in lanes for it in lane.crates]:
            if how.names or how.tests:
                crate.edits = [it for it in crate.edits if is_named(it, how.names)]
        for edit in own:
            next(it for lane in lanes for it in lane.crates if it.name == edit.base).script_tests.append(edit)
        with ThreadPoolExecutor(len(lanes)) as threads:
            for it in [threads.submit(lane.run) for lane in lanes]:
                it.result()
    passed, failed = sum(it.passed for it in lanes), sum(it.failed for it in lanes)
    print(f"edits: {passed} passed, {failed} failed", flush=True)
    return 1 if failed else 0


if __name__ == "__main__":
    sys.exit(main(sys.argv[1:]))
