#!/usr/bin/env python3
"""Prints the constants of a kernel header as those of a family's table, and a row for each.

    constants.py HEADER PREFIX

HEADER is a header of the kernel, such as linux/neighbour.h, and PREFIX that of the constants, such as NDA_. Each row has
the shape `Bytes`, which accepts any value: give each kind its own. Leaves out 0, and names that begin with `__` or end
with `_MAX`. Needs a C compiler and the kernel's headers.
"""

import os
import re
import subprocess
import sys
import tempfile

COMPILER = os.environ.get("CC", "cc")


def names_in(header, prefix):
    """Returns the names in the header's enums and macros that have this prefix, in the order of the header."""
    source = f"#include <{header}>\n"
    text = subprocess.run([COMPILER, "-E", "-dD", "-"], input=source, stdout=subprocess.PIPE, text=True, check=True).stdout
    enums = " ".join(re.findall(r"\benum\b[^{;]*\{([^}]*)\}", text))
    found = re.findall(r"^#define (\w+) +\w", text, re.M) + re.findall(r"(?:^|,)\s*(\w+)", re.sub(r"(?m)^#.*$", "", enums))
    return [it for it in dict.fromkeys(found) if it.startswith(prefix) and not it.endswith("_MAX")]


def values_of(header, names):
    """Returns the value of each name, as the compiler computes it."""
    lines = "".join(f'    printf("%llu\\n", (unsigned long long)({it}));\n' for it in names)
    with tempfile.TemporaryDirectory() as folder:
        program = os.path.join(folder, "values")
        source = f"#include <stdio.h>\n#include <{header}>\nint main(void) {{\n{lines}    return 0;\n}}\n"
        subprocess.run([COMPILER, "-x", "c", "-o", program, "-"], input=source, text=True, check=True)
        return [int(it) for it in subprocess.run([program], stdout=subprocess.PIPE, text=True, check=True).stdout.split()]


def main(header, prefix):
    names = names_in(header, prefix)
    kinds = sorted((value, name) for name, value in zip(names, values_of(header, names)) if value)
    for value, name in kinds:
        print(f"pub const {name}: u16 = {value};\n")
    for _, name in kinds:
        print(f'    (TOP, {name}, "{name}", Shape::Bytes),')


if __name__ == "__main__":
    if len(sys.argv) != 3:
        sys.exit(__doc__)
    main(*sys.argv[1:])
