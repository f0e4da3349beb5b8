#!/usr/bin/env python3
"""Runs the built program on each input of answers.txt, and compares the result with the recorded one of the Rust crate.

A line of that file has a command, the input and the output in hexadecimal (`-` for none), and `ok` or the error text.
The status, the standard output and the standard error must be exactly those; the script shows the line of each
difference. The datagrams in examples/captured must be inputs of the file, except those in its folder replies, which are
newer than the file. The file must have the number of lines and the sha256 digest that tests/expected.txt states, so that
no line can be left out or replaced by another.
"""

import glob
import os
import sys

sys.path.insert(0, os.path.join(sys.path[0], "..", "lib"))

from built import TOP, built, in_parallel, run, tally  # noqa: E402 (it is in that folder)
from expected import Expected, differs  # noqa: E402

ANSWERS = "tests/answers.txt"


def bytes_of(word):
    return b"" if word == "-" else bytes.fromhex(word)


def main():
    program = built("netlink_frame")
    with open(os.path.join(TOP, ANSWERS), encoding="utf-8") as file:
        lines = file.read().splitlines()

    def difference(numbered):
        number, line = numbered
        command, stdin, output, error = line.split(" ", 3)
        stderr = b"" if error == "ok" else error.encode() + b"\n"
        result = run([program, command], bytes_of(stdin))
        wanted = (1 if stderr else 0, bytes_of(output), stderr)
        return None if result == wanted else f"line {number}: {line}\n  returned {result}"

    failures = [it for it in in_parallel(difference, enumerate(lines, 1)) if it]
    passed = len(lines) - len(failures)
    expected = Expected()
    stated = expected.lines["passes"].get("tests/steps/answers.py", 0)
    failures += filter(None, [differs(f"lines of {ANSWERS}", len(lines), stated), expected.wrong_digest(ANSWERS)])
    inputs = {line.split(" ", 2)[1] for line in lines}
    for path in glob.glob(os.path.join(TOP, "examples", "captured", "*.bin")):
        with open(path, "rb") as file:
            if file.read().hex() not in inputs:
                failures.append(f"{os.path.relpath(path, TOP)} is not an input of {ANSWERS}")
    print(f"{len(lines)} recorded results of the Rust crate were compared")
    tally("answers", failures, passed)


main()
