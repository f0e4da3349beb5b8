"""Finds the Rattle kit, which must be one that README.md names, and the C compiler.

./check, c/build, bench/calls, ./netlink_frame and ./netlink_show first call `need_kit`.
"""

import functools
import os
import re
import shutil
import subprocess
import sys

TOP = os.path.dirname(os.path.dirname(os.path.dirname(os.path.abspath(__file__))))

# A script ends with this status if it has no result, for example because the toolchain is missing.
NO_RESULT = 3


def kits_named():
    """Returns the lines of `rt version` that README.md names, sorted."""
    with open(os.path.join(TOP, "README.md"), encoding="utf-8") as file:
        return sorted(set(re.findall(r"rattle-kit-\w+ logic \w+", file.read())))


@functools.cache
def kit_found():
    """Returns the line that `rt version` prints, or None if `rt` is not on the path or does not start."""
    how = {"stdin": subprocess.DEVNULL, "stdout": subprocess.PIPE, "stderr": subprocess.DEVNULL}
    try:
        return subprocess.run(["rt", "version"], **how).stdout.decode(errors="replace").rstrip("\n")
    except OSError:
        return None


def need_kit(script):
    """Ends the script with one line on standard error and status 3, unless README.md names this toolchain."""
    named, found = kits_named(), kit_found()
    if found in named:
        return
    error = "`rt` is not on the path" if found is None else f"`rt version` prints `{found.partition(chr(10))[0]}`"
    lines = " or ".join(f"`{it}`" for it in named)
    remedy = f"install a Rattle kit whose `rt version` prints {lines}" if named else "README.md must name a kit"
    print(f"{script}: {error}: {remedy}", file=sys.stderr)
    sys.exit(NO_RESULT)


def compiler():
    """Returns the C compiler of the machine: $CC, cc or clang. Returns None if there is none."""
    return os.environ.get("CC") or shutil.which("cc") or shutil.which("clang")
