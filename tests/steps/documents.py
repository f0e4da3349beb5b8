#!/usr/bin/env python3
"""Checks README.md and docs/*.md: the code that they quote, the commands that they show, and their links.

All code is in fences, and each fence names its language:

rattle, antt, c, rust, python
                       The block must occur word for word, apart from its indentation, in the file that the nearest link
                       above it names. A link to a Markdown file or to a folder does not count. c/test compiles the
                       first `c` and the first `rust` block of README.md, compiles the first `c` block of docs/C.md, and
                       runs its first `python` block, so this script skips those four.
console                Each line `$ COMMAND` is followed by exactly the lines that the command prints: its standard
                       output and, if it fails, its standard error. bash runs the command at the top of the repository.
                       `./netlink_NAME` in it runs the built program and ignores `--quick` and `--verbose`.
text                   The block is not checked.

The table of sizes in docs/CONTRIBUTING.md, and docs/crates.svg, are what tests/lib/layers.py makes. Numbers in the prose that
count what the repository has are counted again (`counts`). The tables at the heads of the crates' lib.rt, of functions and
their definitions, name what is there.

Any other language, a fence that is not closed, and indented code are failures. A link must lead to a file or folder of
the repository, and an anchor to a heading of that Markdown file.
"""

import os
import re
import shlex
import sys
from functools import cache
from itertools import zip_longest
from textwrap import dedent
from urllib.parse import unquote

sys.path.insert(0, os.path.join(sys.path[0], "..", "lib"))

import layers  # noqa: E402 (it is in that folder)
from built import TOP, run, tally  # noqa: E402
from edit import edits_of  # noqa: E402

# The documents that are not checked yet.
EXEMPT = set()

QUOTED = {"rattle", "antt", "c", "rust", "python"}

# The languages of which c/test compiles or runs the first block, by document.
TRIED = {"README.md": {"c", "rust"}, "docs/C.md": {"c", "python"}}

FENCE = re.compile(r" *(`{3,}|~{3,})([^`]*)")
LIST_ITEM = re.compile(r" *(?:[-*+]|\d+[.)]) +(?=\S)")
HEADING = re.compile(r" {0,3}#{1,6} +(.+?)(?: +#+)? *")
CODE_SPAN = re.compile(r"(?<!`)(`+)(?!`).+?(?<!`)\1(?!`)")
LINK = re.compile(r"\]\((?!//|[a-z]+:)([^)\s]*)")
NUMBERS = "no one two three four five six seven eight nine ten eleven twelve thirteen fourteen fifteen sixteen".split()
PROGRAM = re.compile(r"(?<![\w./])\./(netlink_\w+)(?: --(?:quick|verbose)\b)?(?![\w./-])")


def text_of(path):
    with open(os.path.join(TOP, path), encoding="utf-8") as file:
        return file.read()


def parts_of(text):
    """Yields the parts of a document, each with its line number and its kind: a line of `prose`, a `block` with its
    language and its lines, or `wrong` with the reason."""
    numbered = enumerate(text.split("\n"), 1)
    # The column at which the text of the list item begins, and whether no paragraph continues on this line.
    column, is_new = 0, True
    for number, line in numbered:
        indent = len(line) - len(line.lstrip())
        if not line.strip():
            is_new = True
        elif is_new and (indent >= column + 4 or "\t" in line[:indent]):
            yield number, "wrong", "indented code is not in a fence"
            is_new = False
        elif fence := FENCE.fullmatch(line):
            end, block = re.compile(rf" *{fence[1]}{fence[1][0]}* *"), []
            for _, inner in numbered:
                if end.fullmatch(inner):
                    yield number, "block", (fence[2], block)
                    break
                block.append(re.sub(f"^ {{0,{indent}}}", "", inner))
            else:
                yield number, "wrong", "the fence is not closed"
            is_new = True
        else:
            yield number, "prose", line
            is_heading, item = bool(HEADING.fullmatch(line)), LIST_ITEM.match(line)
            if item or is_new or is_heading:
                column = item.end() if item else min(column, indent)
            is_new = is_heading


@cache
def anchors_of(path):
    """Returns the anchors that GitHub gives to the headings of a Markdown file."""
    text = text_of(path) if path.endswith(".md") else ""
    headings = [it[1] for _, kind, line in parts_of(text) if kind == "prose" and (it := HEADING.fullmatch(line))]
    names = [re.sub(r"\]\([^)]*\)|[^\w\- ]", "", it.lower()).replace(" ", "-") for it in headings]
    return {f"{it}-{names[:at].count(it)}" if it in names[:at] else it for at, it in enumerate(names)}


def links_of(document, line):
    """Yields the path of each link in a line that does not lead out of the repository, and what is wrong or None."""
    for link in LINK.findall(CODE_SPAN.sub(lambda span: " " * len(span[0]), line)):
        path, _, anchor = unquote(link).partition("#")
        path = os.path.normpath(os.path.join(os.path.dirname(document), path)) if path else document
        if path.startswith(("/", "..")) or not os.path.exists(os.path.join(TOP, path)):
            yield path, f"the repository has no {path}, to which a link leads"
        else:
            is_wrong = anchor and anchor not in anchors_of(path)
            yield path, f"{path} has no heading for the anchor #{anchor}" if is_wrong else None


def wrong_quote(block, source):
    """Returns what is wrong with a block of code from a file, or None."""
    if source is None:
        return "no link above this block names the file that it is from"
    wanted, lines = dedent("\n".join(block)), text_of(source).split("\n")
    found = (dedent("\n".join(lines[at : at + len(block)])) for at in range(len(lines)))
    return None if wanted.strip() and wanted in found else f"this block does not occur in {source}"


def wrong_print(command, wanted):
    """Returns how what a command prints differs from these lines, or None."""
    programs = {name: os.path.join(TOP, "crates", name, "out", name) for name in PROGRAM.findall(command)}
    if missing := [name for name, path in programs.items() if not os.path.isfile(path)]:
        return f"`{command}` cannot run, because {missing[0]} is not built: ./check builds it"
    words = ["bash", "-c", PROGRAM.sub(lambda it: shlex.quote(programs[it[1]]), command)]
    status, output, error = run(words, cwd=TOP)
    text = (output + (b"" if status == 0 else error)).decode(errors="replace")
    pairs = zip_longest(text.removesuffix("\n").split("\n") if text else [], wanted)
    differing = [["nothing" if it is None else f"`{it}`" for it in pair] for pair in pairs if pair[0] != pair[1]]
    return "`{}` prints {} where the document has {}".format(command, *differing[0]) if differing else None


def wrong_commands(block):
    """Yields for each command of a block its place in the block, and what is wrong or None."""
    starts = [at for at, line in enumerate(block) if line.startswith("$ ")]
    if starts[:1] != [0]:
        yield 0, "a console block must begin with a line `$ COMMAND`"
    for at, end in zip(starts, [*starts[1:], len(block)]):
        yield at + 1, wrong_print(block[at][2:], block[at + 1 : end])


def checks_of(document):
    """Yields for each check of a document its line number, and what is wrong or None."""
    source, skipped = None, {*TRIED.get(document, ())}
    for number, kind, part in parts_of(text_of(document)):
        if kind == "prose":
            for path, wrong in links_of(document, part):
                yield number, wrong
                if not wrong and os.path.isfile(os.path.join(TOP, path)) and not path.endswith(".md"):
                    source = path
        elif kind == "wrong":
            yield number, part
        elif part[0] in skipped:
            skipped.remove(part[0])
        elif part[0] in QUOTED:
            yield number, wrong_quote(part[1], source)
        elif part[0] == "console":
            yield from ((number + at, wrong) for at, wrong in wrong_commands(part[1]))
        elif part[0] != "text":
            yield number, f"the fence must name rattle, antt, c, rust, python, console or text, and has `{part[0]}`"


def wrong_sizes():
    """Yields for what tests/lib/layers.py makes the document and the line, and how they differ, or None."""
    text, table = text_of("docs/CONTRIBUTING.md"), "\n".join(layers.table())
    line = text.count("\n", 0, text.find("| crate | lines |")) + 1
    yield "docs/CONTRIBUTING.md", line, None if table in text else "the table is not that of `tests/lib/layers.py table`"
    is_same = text_of("docs/crates.svg") == "\n".join(layers.picture()) + "\n"
    yield "docs/crates.svg", 1, None if is_same else "it is not the output of `tests/lib/layers.py picture`"


def counts():
    """Yields for each number in the prose its document, the words around it, and what the repository has."""
    tested = sum(it.endswith("_tests") for it in layers.dependencies())
    tables = sum(text.count("\nimpl Table for ") for text in layers.texts_of("netlink_route", "src"))
    lines = 1 + sum(f"pub use {it}::" in text_of("crates/netlink_lines/src/lib.rt") for it in layers.dependencies())
    edits = len(edits_of("netlink_route", os.path.join(TOP, "crates/netlink_route/must-fail")))
    yield "docs/CONTRIBUTING.md", "the tests of {} libraries are separate crates", tested
    yield "docs/CONTRIBUTING.md", "its functions to the {} edits in `must-fail/` that name all tables", edits
    yield "docs/DECISIONS.md", "the tests of {} libraries are separate crates", tested
    yield "docs/DECISIONS.md", "**The lines are {} crates, one for each layer**", lines
    yield "docs/FORMAT.md", "`netlink_route` has {} families", tables


def wrong_counts():
    """Yields for each of them its document and line, and what is wrong or None."""
    for document, words, number in counts():
        text, before = text_of(document), words.split("{}")[0]
        line = text.count("\n", 0, max(0, text.find(before))) + 1
        is_right = words.format(NUMBERS[number]) in text
        yield document, line, None if is_right else f"`{words.format('..')}` must have {NUMBERS[number]}"


def rows():
    """Yields for each row of the tables at the heads of the files lib.rt the file, the line, and its two last cells."""
    for crate in layers.dependencies():
        path = f"crates/{crate}/src/lib.rt"
        text = text_of(path) if os.path.isfile(os.path.join(TOP, path)) else ""
        for number, line in enumerate(text.splitlines(), 1):
            cells = re.findall(r"(?<=\| )[^|]+(?= \|)", line) if line.startswith("//! | ") else []
            if len(cells) == 3 and "`" in cells[1]:
                yield path, number, *cells[1:]


def lacks(path, name, pattern):
    """Returns a sentence if a file does not exist or has no line of this pattern for a name, or None."""
    if os.path.isfile(os.path.join(TOP, path)) and re.search(pattern.format(re.escape(name)), text_of(path), re.M):
        return None
    return f"{path} has no `{name}`"


def wrong_rows():
    """Yields for each name in these cells the file and the line, and what is wrong or None."""
    for path, number, functions, definitions in rows():
        crates, own = "crates/", path.split("/")[1]
        for module, name in re.findall(r"`(\w+)::(\w+)`", functions):
            yield path, number, lacks(f"{crates}{own}/src/{module}.rt", name, r"\bfn {}\b")
        for crate, file, name in re.findall(r"`(?:(\w+)::)?(\w+)::([\w-]+)`", definitions):
            if crate != "std":
                yield path, number, lacks(f"{crates}{crate or own}/specs/{file}.antt", name, r"^(?:\w+ )*{} :")


def main():
    documents = {"README.md", *(f"docs/{it}" for it in os.listdir(os.path.join(TOP, "docs")) if it.endswith(".md"))}
    checks = [(it, *check) for it in sorted(documents - EXEMPT) for check in checks_of(it)]
    checks += [*wrong_sizes(), *wrong_counts(), *wrong_rows()]
    failures = [f"{document}, line {number}: {wrong}" for document, number, wrong in checks if wrong]
    tally("documents", failures, len(checks) - len(failures))


main()
