#!/usr/bin/env python3
"""Compares the tables of families with the kernel's headers on this machine: each constant, the offset and size of each
field of a fixed header, and its whole size; and the order of the rows.

    tests/steps/tables.py [FILE..]

Without files, those of netlink_route, netlink_generic and netlink_values. A name that no header has is not compared, since
the headers may be older than the table; of files that are given, such names are printed. The headers are those that a file
names in comments, such as linux/neighbour.h, in a list also without `linux/`, with the ones that all route netlink needs.
The struct of a field is the one that the nearest comment above names, as in "The fields of `struct ndmsg`".
"""

import glob
import os
import re
import subprocess
import sys
import tempfile

sys.path.insert(0, os.path.join(sys.path[0], "..", "lib"))

from libraries import TOP, folder_of  # noqa: E402 (it is in that folder)
from toolchain import compiler  # noqa: E402

COMMON = ("linux/if_link.h", "linux/if_arp.h", "linux/rtnetlink.h", "linux/genetlink.h")

HEADER = re.compile(r"(?<![\w/])(?:linux/)?(\w+\.h)\b")
NUMBER = re.compile(r"(?m)^(?:pub(?:\(crate\))? )?const (\w+): (?:u(?:8|16|32)|i32) = (-?\d+|0x[0-9a-fA-F_]+);$")
FIELD = re.compile(r'(?m)^(?:pub )?const (\w+): Field = \("(\w+)", (\d+), Shape::(\w+)(?:\((\d+)\))?\);$')
STRUCT = re.compile(r"(?m)^//.*`struct (\w+)`")
USED = re.compile(r"(?m)^use crate::(\w+)::")
ROW = re.compile(r'(?m)^ *\(\s*(\w+),\s*(\w+),\s*"\w*",\s')
HEADER_LEN = re.compile(r"fn header_len\(\w+: u16\) -> usize \{\s*(\d+)\s*\}")
# How many bytes of a struct are read as the header of an attribute, before its fields.
STARTS = {"rtnexthop": 4}
NOT_FOUND = "not compared, since no header has it that a comment names"
SIZES = {"U8": 1, "U16": 2, "Be16": 2, "U32": 4, "I32": 4, "Be32": 4, "U64": 8, "Be64": 8}


class Compiled:
    """C statements, one for each name, and the numbers that those print which the compiler accepts."""

    def __init__(self, headers, statements):
        self.head = "#include <stddef.h>\n#include <stdio.h>\n" + "".join(f"#include <{it}>\n" for it in headers)
        self.head += "int main(void) {\n"
        self.statements = statements

    def source(self, names):
        return self.head + "".join(f"    {self.statements[it]}\n" for it in names) + "    return 0;\n}\n"

    def accepted(self):
        """Returns the names whose statements the compiler accepts."""
        first = self.head.count("\n") + 1
        names = list(self.statements)
        words = [compiler(), "-fsyntax-only", "-fmax-errors=0", "-x", "c", "-"]
        run = subprocess.run(words, input=self.source(names), stderr=subprocess.PIPE, text=True)
        wrong = {int(it) - first for it in re.findall(r"(?m)^<stdin>:(\d+):\d+: error", run.stderr)}
        return [it for at, it in enumerate(names) if at not in wrong]

    def printed(self):
        """Returns what the accepted statements print: two numbers for each name."""
        names = self.accepted()
        with tempfile.TemporaryDirectory() as folder:
            program = os.path.join(folder, "tables")
            subprocess.run([compiler(), "-x", "c", "-o", program, "-"], input=self.source(names), text=True, check=True)
            lines = subprocess.run([program], stdout=subprocess.PIPE, text=True, check=True).stdout.splitlines()
        return {name: tuple(map(int, line.split())) for name, line in zip(names, lines)}


def read(path):
    with open(path, encoding="utf-8") as file:
        return file.read()


def struct_at(text, at):
    """Returns the struct that the nearest comment above this place names, or an empty name."""
    return ["", *STRUCT.findall(text[:at])][-1]


def values_in(text):
    """Returns the numbers that a file declares, by their names."""
    return {name: int(value.replace("_", ""), 0) for name, value in NUMBER.findall(text)}


def has_headers(names):
    source = "".join(f"#include <{it}>\n" for it in names)
    return not subprocess.run([compiler(), "-fsyntax-only", "-x", "c", "-"], input=source, stderr=subprocess.PIPE, text=True).returncode


def wrong_values(text):
    """Yields for each constant and field its name, and how it differs from the headers, None, or NOT_FOUND."""
    headers = dict.fromkeys([*COMMON, *(f"linux/{it}" for it in HEADER.findall(text))])
    headers = [it for it in headers if has_headers([*COMMON, it])]
    numbers = {name: (value, 0) for name, value in values_in(text).items()}
    fields = {it[1]: (struct_at(text, it.start()), it[2], (int(it[3]), int(it[5] or SIZES.get(it[4], 0)))) for it in FIELD.finditer(text)}
    statements = {it: f'printf("%lld 0\\n", (long long)({it}));' for it in numbers}
    for name, (struct, member, _) in fields.items():
        place = f"offsetof(struct {struct}, {member}) - {STARTS.get(struct, 0)}, sizeof ((struct {struct} *)0)->{member}"
        statements[name] = f'printf("%zu %zu\\n", {place});'
    stated = {**numbers, **{name: it[2] for name, it in fields.items()}}
    if fields and (size := HEADER_LEN.search(text)):
        struct, _, _ = next(iter(fields.values()))
        statements["header_len"] = f'printf("%zu 0\\n", (sizeof(struct {struct}) + 3) / 4 * 4);'
        stated["header_len"] = int(size[1]), 0
    printed = Compiled(headers, statements).printed()
    for name in stated:
        found = printed.get(name)
        if found is None:
            yield name, NOT_FOUND
        else:
            yield name, None if found == stated[name] else f"{stated[name]}, but {found} in the kernel's headers"


def wrong_order(path, text):
    """Yields for each row, after the first of its table, its policy and kind, and how it stands out of order or None."""
    values = {"TOP": 0, "ANY": 0xFFFF}
    for name in [*USED.findall(text), os.path.basename(path)[:-3]]:
        if os.path.isfile(used := os.path.join(os.path.dirname(path), f"{name}.rt")):
            values.update(values_in(read(used)))
    for table in text.split("[Row] = "):
        rows = [(policy, kind) for policy, kind in ROW.findall(table) if {policy, kind} <= values.keys()]
        for before, after in zip(rows, rows[1:]):
            is_sorted = [values[it] for it in before] < [values[it] for it in after]
            yield ":".join(after), None if is_sorted else f"its row follows that of {':'.join(before)}"


def main(paths, shows_all):
    if not compiler() or not has_headers(COMMON):
        print("skipped: kernel-headers (there is no C compiler with the headers of Linux)")
        print("0 passed, 0 failed")
        return 0
    passed = failed = 0
    for path in paths:
        text = read(path)
        for name, why in [*wrong_values(text), *wrong_order(path, text)]:
            passed, failed = passed + (why is None), failed + (why not in (None, NOT_FOUND))
            if why and (shows_all or why != NOT_FOUND):
                print(f"{os.path.relpath(path, TOP)}: {name}: {why}")
    print(f"{passed} passed, {failed} failed")
    return 1 if failed else 0


if __name__ == "__main__":
    own = [it for name in ("netlink_route", "netlink_generic", "netlink_values") for it in sorted(glob.glob(folder_of(name) + "/src/*.rt"))]
    sys.exit(main(sys.argv[1:] or own, len(sys.argv) > 1))
