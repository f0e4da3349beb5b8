"""Counts for c/test the lines of the examples of messages by tables, and of the programs over libmnl in tests/libmnl that
do the same.

    c/lines.py    prints the table of docs/C.md

A line counts if it has code: it is not empty, and not only a comment. A docstring counts. A line has at most 120 columns
and one statement.
"""

import os
import re
import sys

from kit import HERE, TOP
from tally import note
from typed import EXAMPLES
from wrapper import RUST

COMMENTS = {".c": r"(?s)/\*.*?\*/", ".rs": r"//.*", ".py": r"#.*"}
MOST = {"C": 60, "Rust": 40, "Python": 40}
COLUMNS = 120
PYTHON = {"route_links": "route_links.py", "route_add_address": "add_address.py"}


def paths_of(name):
    """Returns the files of an example, by the head of their column."""
    paths = {
        "C": os.path.join(HERE, "examples", f"{name}.c"),
        "C over libmnl": os.path.join(HERE, "tests", "libmnl", f"{name}.c"),
        "Rust": os.path.join(RUST, "examples", f"{name}.rs"),
    }
    return {**paths, **({"Python": os.path.join(HERE, "examples", PYTHON[name])} if name in PYTHON else {})}


def code_of(path):
    """Returns the lines that have code, without their comments."""
    with open(path) as file:
        text = re.sub(COMMENTS[os.path.splitext(path)[1]], lambda it: "\n" * it[0].count("\n"), file.read())
    return [line for line in text.splitlines() if line.strip()]


def is_plain(path):
    """Returns whether no line is too long, and each has one statement: one semicolon outside of strings, of brackets and
    of the head of a loop, and none after a condition."""
    with open(path) as file:
        is_narrow = all(len(line.rstrip("\n")) <= COLUMNS for line in file)
    lines = [re.sub(r'"[^"]*"|\[[^]]*\]|\bfor \(.*\)', "", line) for line in code_of(path)]
    return is_narrow and all(it.count(";") < 2 and not re.match(r"\s*(if|else|while)\b.*;$", it) for it in lines)


def table(counts):
    """Returns the table of docs/C.md."""
    heads = list(counts[EXAMPLES[0]])
    lines = [f"| lines of code | {' | '.join(heads)} |", "|---|" + "--:|" * len(heads)]
    for name, numbers in counts.items():
        lines.append(f"| `{name}` | " + " | ".join(str(numbers.get(it, "")) for it in heads) + " |")
    return "\n".join(lines) + "\n"


def counted():
    """Returns the number of lines of each file, by the example and the head of its column."""
    return {name: {head: len(code_of(path)) for head, path in paths_of(name).items()} for name in EXAMPLES}


def run_lines():
    """Tests the numbers, the style of the files, and the table of docs/C.md."""
    counts = counted()
    for name, numbers in counts.items():
        note(f"shorter than over libmnl: {name}", numbers["C"] < numbers["C over libmnl"], f"{numbers}")
        for head, path in paths_of(name).items():
            is_short = numbers[head] <= MOST.get(head, numbers[head])
            note(f"short lines, and few: {os.path.relpath(path, TOP)}", is_short and is_plain(path), f"{numbers[head]}")
    with open(os.path.join(TOP, "docs", "C.md")) as file:
        note("docs/C.md has the numbers of lines", table(counts) in file.read(), table(counts))


if __name__ == "__main__":
    sys.stdout.write(table(counted()))
