"""A must-fail edit: mistakes of one kind in one or more places of a crate's code. A file has one edit or several."""

import os
import re

from regions import CODE, kind_between

FUNCTION = re.compile(r'(?m)^( *)((?:(?:pub(?:\([^)]*\))?|const|unsafe|extern|"C") )*)fn (\w+)(.*)$')
# The line that begins the impl or the trait that a function is a member of.
MEMBER_OF = re.compile(r"(?m)^(?:pub(?:\(\w+\))? )?(?:impl|trait)\b(.*)$")


class BadEdit(Exception):
    """An edit that cannot be applied, or that changes something other than code."""


class Edit:
    """The pairs of old and new text, each with its file of the crate, and the named functions, if any, whose contracts
    must reject the edit. An edit that tests the script also names its crate and what it expects."""

    def __init__(self, crate, file, name):
        self.crate, self.file, self.name = crate, file, name
        self.pairs, self.only, self.base, self.expect = [], [], crate, ""

    def applied(self, texts):
        """Returns the crate's texts, by file, after all pairs are applied in turn. Raises BadEdit if a pair cannot be
        applied or changes something other than code."""
        made = dict(texts)
        if not self.pairs:
            raise BadEdit("it has no pair of texts")
        for file, old, new in self.pairs:
            found = made.get(file, "").count(old)
            if found != 1:
                raise BadEdit(f"`old` must occur exactly once in {file}, but occurs {found} times")
            before = made[file]
            made[file] = before.replace(old, new)
            if kind := changed_kind(file, before, made[file]):
                raise BadEdit(f"it changes {kind} in {file}, and an edit must change code only")
        return made

    def places(self, texts):
        """Returns the functions that the edit changes, and None if it changes code outside a function."""
        return {function_at(file, texts[file], texts[file].find(old), len(old)) for file, old, _ in self.pairs}

    def is_inside(self, texts):
        """Returns whether the edit changes code inside functions only, and its lines `only:` name none but these."""
        places = self.places(texts)
        return None not in places and all(any(is_of(it, path) for it in places) for path in self.only)

    def functions(self, texts):
        """Returns the functions that the edit changes. Raises BadEdit if it changes code outside a function and does
        not name a function that must reject it."""
        found = self.places(texts)
        if None in found and not self.only:
            raise BadEdit("it changes code outside a function, so a line `only:` must name a function that rejects it")
        return found - {None}


def changed_kind(file, before, after):
    """Returns what a pair changes other than code, "nothing" if it changes nothing, or None if it changes code."""
    if not file.startswith("src/"):
        return "a file that is not below src/,"
    start = len(os.path.commonprefix([before, after]))
    rest = min(len(before), len(after)) - start
    same = len(os.path.commonprefix([before[::-1][:rest], after[::-1][:rest]]))
    for text in (before, after):
        kind = kind_between(text, start, len(text) - same)
        if kind != CODE:
            return kind
    return "nothing" if before == after else None


def function_at(file, text, at, size=0):
    """Returns the module, trait, type and name of the function that contains `size` characters of the text, starting
    at `at`, or None if no function does.

    The files are formatted by `rt fmt`: a function ends at the first line that closes a brace at its own indentation.
    """
    starts = [it for it in FUNCTION.finditer(text) if it.start() <= at]
    if at < 0 or not starts:
        return None
    start = starts[-1]
    end = text.find(f"\n{start[1]}}}\n", start.start())
    one_line = start[4].endswith("}") and start.end()
    if at + size > max(end + len(start[1]) + 2, one_line or 0):
        return None
    module = file.removeprefix("src/").removesuffix(".rt").replace("/", "::")
    trait, owner = owner_of(text[: start.start()]) if start[1] else ("", "")
    return "" if module in ("lib", "main") else module, trait, owner, start[3]


def function_at_line(file, text, number):
    """Returns the function that contains the line with this number, or whose attributes begin at it."""
    lines = text.splitlines(True)
    while lines[number - 1].lstrip().startswith("#["):
        number += 1
    line = lines[number - 1]
    return function_at(file, text, sum(map(len, lines[: number - 1])) + len(line) - len(line.lstrip()))


def owner_of(above):
    """Returns the trait, or "", and the type of the last impl that begins in this text. If a trait begins after it,
    returns "" and that trait. Both names are as in the prover's path for a member: `From<AllocError>` is
    `FromAllocError`, and `&mut [u8]` is `RefMutSliceU8`."""
    head = re.sub(r"'\w+", "", ["", *MEMBER_OF.findall(above)][-1])
    head = re.sub(r"From<(?:\w+::)*([\w]+)[^ ]*>", r"From\1", head)
    head = re.sub(r"& *mut *\[(\w+)\]", r"RefMutSlice\1", head)
    head = re.sub(r"& *\[(\w+)\]", r"RefSlice\1", head)
    while "<" in (bare := re.sub(r"<[^<>]*>", "", head)) and bare != head:
        head = bare
    first, _, second = bare.partition(" for ")
    owner = re.match(r" *(?:\w+::)*(\w*)", second or first)[1]
    return re.search(r"(\w*) *$", first)[1] if second else "", owner


def is_of(function, path):
    """Returns whether this is the path of the function, without the name of its crate.

    A member of an inherent impl has the path of the type, wherever the impl is. A member of a trait's impl has the path
    of the module, and then the type and the trait in one word, in which a number's type begins with a capital letter.
    """
    module, trait, owner, name = function
    *front, member, last = ["", *path.split("::")]
    if last != name or not member.lower().startswith(owner.lower()) or trait.lower() not in member.lower():
        return False
    inside = "::".join(filter(None, front if owner or trait else [*front, member]))
    return bool(owner and not trait) or inside == module


def edits_in(crate, path):
    """Returns the edits of a file: one for each line `kind: NAME`, with what follows it, or else one with the file's
    name. A line `file:` counts for all that follows it."""
    stem = os.path.basename(path).removesuffix(".edit")
    edits, file, old = [Edit(crate, stem, stem)], "", None
    with open(path, encoding="utf-8") as lines:
        for line in lines.read().split("\n"):
            word, _, text = line.partition(":")
            text, edit = text.removeprefix(" "), edits[-1]
            if word == "kind":
                edits.append(Edit(crate, stem, text.strip()))
            elif word == "file":
                file = text.strip()
            elif word == "only":
                edit.only.append(text.strip())
            elif word == "crate":
                edit.base = text.strip()
            elif word == "expect":
                edit.expect = text.strip()
            elif word == "old":
                old = text
            elif word == "new" and old is not None:
                edit.pairs.append((file, old, text))
                old = None
    return edits if len(edits) == 1 or edits[0].pairs else edits[1:]


def edits_of(crate, folder):
    """Returns the crate's edits, from the files of this folder."""
    names = sorted(os.listdir(folder)) if os.path.isdir(folder) else []
    return [edit for it in names if it.endswith(".edit") for edit in edits_in(crate, os.path.join(folder, it))]


def is_named(edit, names):
    """Returns whether these names have the edit, as CRATE/EDIT, or its file, as CRATE/FILE, or its crate."""
    return not {edit.crate, f"{edit.crate}/{edit.name}", f"{edit.crate}/{edit.file}"}.isdisjoint(names)
