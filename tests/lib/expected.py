"""Reads expected.txt, the numbers that the gate requires, and compares the repository and the steps with them."""

import glob
import hashlib
import os
import re

TOP = os.path.dirname(os.path.dirname(os.path.dirname(os.path.abspath(__file__))))
FILE = "tests/expected.txt"

# The step that proves the crates and tries their edits; the script that tries the edits of a crate by function, and the
# folder of edits that test this script.
CI, EDITS, OWN_EDITS = "rt ci", "tests/steps/edits.py", "tests/edits"

# The form of each line, by its first word: its name, and its number or digest.
POSITIVE = r"[1-9]\d*"
FORMS = {
    "edits": rf"(\S+) ({POSITIVE})",
    "mistakes": rf"(\S+) ({POSITIVE})",
    "measures": r"(\w+)()",
    "tests": rf"(\w+) ({POSITIVE})",
    "passes": rf"(\S.*) ({POSITIVE})",
    "passes-at-least": rf"(\S.*) ({POSITIVE})",
    "skippable": r"([\w-]+ \S.*) (\d+)",
    "digest": r"(\S+) ([0-9a-f]{64})",
    "other-reason": r"(\w+/\w+)()",
}


class BadLine(Exception):
    """A line of expected.txt that cannot be read."""


def digest_of(path):
    """Returns the sha256 digest of a file, in hexadecimal."""
    with open(path, "rb") as file:
        return hashlib.sha256(file.read()).hexdigest()


def lines_of(path):
    """Returns the lines of a file."""
    with open(path, encoding="utf-8") as file:
        return file.readlines()


def differs(what, number, stated, is_exact=True):
    """Returns how a number differs from the stated one, or None if it does not."""
    if number < stated:
        return f"{what}: {number}, fewer than the {stated} that {FILE} states"
    if number > stated and is_exact:
        return f"{what}: {number}, more than the {stated} that {FILE} states; raise the number there"
    return None


def edits_in(path):
    """Returns how many edits a file has: its lines `kind:`, or one."""
    return max(1, sum(line.startswith("kind:") for line in lines_of(path)))


class Expected:
    """The lines of expected.txt: for each first word, the number or digest of each name."""

    def __init__(self, top=TOP):
        self.top, self.lines = top, {word: {} for word in FORMS}
        with open(os.path.join(top, FILE), encoding="utf-8") as file:
            for at, line in enumerate(file, 1):
                self.read(at, line.partition("#")[0].split())
        self.lines["passes"][EDITS] = self.lines["edits"].get(OWN_EDITS, 0)
        self.lines["passes"][CI] = self.lines["passes"].get(CI, 0) + len(self.files())

    def read(self, at, words):
        """Reads the words of one line, without its comment."""
        if not words:
            return
        word, rest = words[0], " ".join(words[1:])
        form = re.fullmatch(FORMS[word], rest) if word in FORMS else None
        if not form:
            raise BadLine(f"{FILE}, line {at} cannot be read: {word} {rest}")
        name, value = form.groups()
        if name in self.lines[word]:
            raise BadLine(f"{FILE}, line {at} states `{word} {name}` a second time")
        self.lines[word][name] = value if word == "digest" else int(value or 0)

    def crates(self):
        """Returns the names of the crates, which are the folders of crates/."""
        folder = os.path.join(self.top, "crates")
        return sorted(it for it in os.listdir(folder) if os.path.isdir(os.path.join(folder, it)))

    def edits_of(self, name):
        """Returns how many edits the crate has or, for the name OWN_EDITS, how many edits test the script."""
        folder = name if name == OWN_EDITS else os.path.join("crates", name, "must-fail")
        return sum(map(edits_in, glob.glob(os.path.join(glob.escape(self.top), folder, "*.edit"))))

    def edits_of_file(self, name):
        """Returns how many edits a file has that is named as CRATE/FILE."""
        crate, _, file = name.partition("/")
        return edits_in(os.path.join(self.top, "crates", crate, "must-fail", f"{file}.edit"))

    def wrong_edits(self):
        """Yields each difference in the numbers of edits."""
        stated, names = self.lines["edits"], [*self.crates(), OWN_EDITS]
        for name in names:
            number = self.edits_of(name)
            is_exempt = name.endswith("_tests") or name in self.lines["measures"]
            if not number and not is_exempt:
                yield f"{name} has no edits, and {FILE} does not exempt it"
            elif why := differs(f"edits of {name}", number, stated.get(name, 0)):
                yield why
        for name in sorted({*stated, *self.lines["measures"]} - {*names}):
            yield f"{FILE} names the crate {name}, which does not exist"

    def mistakes_of(self, name):
        """Returns how many mistakes the edits of a crate make: their pairs of old and new text."""
        paths = glob.glob(os.path.join(glob.escape(self.top), "crates", name, "must-fail", "*.edit"))
        return sum(line.startswith("old:") for path in paths for line in lines_of(path))

    def wrong_mistakes(self):
        """Yields each difference in the numbers of mistakes."""
        stated = self.lines["mistakes"]
        for name in sorted({*stated, *self.crates()}):
            if why := differs(f"mistakes of {name}", self.mistakes_of(name), stated.get(name, 0)):
                yield why

    def files(self):
        """Returns the names of all files of edits, as CRATE/FILE."""
        paths = glob.glob(os.path.join(glob.escape(self.top), "crates", "*", "must-fail", "*.edit"))
        return sorted(f"{path.split(os.sep)[-3]}/{os.path.basename(path)[:-5]}" for path in paths)

    def unclear(self, reasons):
        """Returns the files of edits that tests/steps/edits.py must try: those whose first reason is no goal of an `ensures`,
        and for which no line states that. `reasons` has, for each file that `rt ci` refused, whether it is such a goal."""
        return [it for it in self.files() if not reasons.get(it, True) and it not in self.lines["other-reason"]]

    def wrong_edits_tried(self, reasons):
        """Yields each file of edits that `rt ci` did not refuse, and each line about one that does not exist."""
        for edit in self.files():
            if edit not in reasons:
                yield f"rt ci did not refuse the edits {edit}"
        for edit in sorted({*self.lines["other-reason"]} - {*self.files()}):
            yield f"{FILE} names the edits {edit}, which do not exist"

    def wrong_tests(self, counted):
        """Yields each difference in the numbers of tests that ran and passed in each crate."""
        stated = self.lines["tests"]
        for crate in sorted({*stated, *counted, *(it for it in self.crates() if it.endswith("_tests"))}):
            if not counted.get(crate):
                yield f"tests of {crate}: none ran and passed"
            elif why := differs(f"tests of {crate}", counted[crate], stated.get(crate, 0)):
                yield why

    def wrong_digest(self, path):
        """Returns how the digest of the file differs from the stated one, or None."""
        found, stated = digest_of(os.path.join(self.top, path)), self.lines["digest"].get(path)
        return None if found == stated else f"{path} has the sha256 digest {found}; {FILE} states {stated}"

    def wrong_files(self):
        """Returns the differences that are known before any step runs: those of edits, mistakes and digests."""
        digests = filter(None, map(self.wrong_digest, self.lines["digest"]))
        return [*self.wrong_edits(), *self.wrong_mistakes(), *digests]

    def wrong_names(self, steps):
        """Yields each line that names a step other than these, and each of these steps that no line names."""
        named = {*self.lines["passes"], *self.lines["passes-at-least"]}
        for name in sorted({*named, *(it.partition(" ")[2] for it in self.lines["skippable"])} - {*steps}):
            yield f"{FILE} names the step {name}, which does not exist"
        for name in steps:
            if name not in named:
                yield f"{FILE} does not state how many pass in the step {name}"

    def wrong_skips(self, step, skips):
        """Yields each skip of a step that is not listed. A skip is a name and a reason."""
        for name, reason in skips:
            if f"{name} {step}" not in self.lines["skippable"]:
                yield f"{step} skipped {name} ({reason}), which {FILE} does not list as skippable"

    def wrong_number(self, step, number, skips):
        """Returns how the number that passed in a step differs, or None. Each listed skip reduces the stated number."""
        fewer = sum(self.lines["skippable"].get(f"{name} {step}", 0) for name, _ in skips)
        is_exact = step in self.lines["passes"]
        stated = self.lines["passes" if is_exact else "passes-at-least"].get(step, 1) - fewer
        return differs(f"passed in {step}", number, stated, is_exact)

    def note(self, step, number):
        """Returns a line that asks you to raise a number that is only a lower bound, or None."""
        stated = self.lines["passes-at-least"].get(step)
        return differs(f"passed in {step}", number, stated) if stated and number > stated else None
