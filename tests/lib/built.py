"""What the scripts of this folder share: the built programs, how they are run, and the tally at the end."""

import os
import subprocess
import sys
from concurrent.futures import ThreadPoolExecutor

TOP = os.path.dirname(os.path.dirname(os.path.dirname(os.path.abspath(__file__))))

# The number of runs in parallel, and the time limit of each, in seconds.
LANES = 2 * (os.cpu_count() or 1)
LIMIT = 60


def built(name, of="netlink_frame"):
    """Returns the path of a program that `rt ci` built in the folder of the crate. Ends the script if there is none."""
    path = os.path.join(TOP, "crates", of, "out", name)
    if not os.path.isfile(path):
        print(f"there is no {os.path.relpath(path, TOP)}: ./check builds it")
        tally("build", ["not built"], 0)
    return path


def run(words, stdin=b"", **how):
    """Runs a program, which reads these bytes or this file descriptor. Returns its status, its standard output and its
    standard error. The status is None if the run exceeds the time limit."""
    how["input" if isinstance(stdin, bytes) else "stdin"] = stdin
    how.setdefault("stdout", subprocess.PIPE)
    try:
        ended = subprocess.run(words, stderr=subprocess.PIPE, timeout=LIMIT, **how)
    except subprocess.TimeoutExpired:
        return None, b"", f"stopped after {LIMIT} seconds".encode()
    return ended.returncode, ended.stdout or b"", ended.stderr


def row(name, words, wanted, stdin=b"", **how):
    """Returns a test case: its name, the arguments, the wanted status, output and error, the input, and how to run it.

    The error is a line without its line feed. `how` may have a key `closed`: a redirection of sh that closes a
    descriptor, such as `0<&-`. Its other keys are those of subprocess.run.
    """
    status, output, error = wanted
    return name, words, (status, output, error.encode() + b"\n" if error else b""), stdin, how


def error_of(program, case):
    """Runs a test case. Returns how the result differs from the wanted one, or None."""
    name, words, wanted, stdin, how = case
    words = [program, *words]
    if "closed" in how:
        words = ["sh", "-c", f'exec "$@" {how["closed"]}', "sh", *words]
    result = run(words, stdin, **{key: how[key] for key in how if key != "closed"})
    return None if result == wanted else f"{name}: returned {result}, not {wanted}"


class FailingDevices:
    """Inputs that cannot be read and outputs that cannot be written, and the test cases that use them."""

    READ, WRITE = (1, b"", "read failed"), (1, b"", "write failed")

    def __init__(self):
        here, self.broken = os.pipe()
        os.close(here)
        self.full = os.open("/dev/full", os.O_WRONLY)
        self.folder = os.open("/", os.O_RDONLY)

    def unread(self, name, words):
        """Yields runs whose input cannot be read: it is a directory or a closed descriptor."""
        yield row(f"{name} of a directory", words, self.READ, self.folder)
        yield row(f"{name} of a closed input", words, self.READ, closed="0<&-")

    def unwritten(self, name, words, stdin, wanted=WRITE):
        """Yields runs whose output cannot be written. `wanted` is another result if there is nothing to write."""
        yield row(f"{name} to a full output", words, wanted, stdin, stdout=self.full)
        yield row(f"{name} to a closed output", words, wanted, stdin, closed="1>&-")
        yield row(f"{name} to a pipe without a reader", words, wanted, stdin, stdout=self.broken)


def silent(name, words, wanted, stdin):
    """Returns a run whose standard error is closed, so that it has only a status and an output."""
    return row(f"{name}, no standard error", words, (*wanted[:2], ""), stdin, closed="2>&-")


def in_parallel(check, rows):
    """Returns the results of the check for each row, in the order of the rows."""
    with ThreadPoolExecutor(LANES) as lanes:
        return list(lanes.map(check, rows))


def tally(what, failures, passed):
    """Prints the failures and, as the last line, how many runs passed and failed. Ends the script."""
    for failure in failures:
        print(f"FAILED: {failure}")
    print(f"{what}: {passed} passed, {len(failures)} failed", flush=True)
    sys.exit(1 if failures else 0)
