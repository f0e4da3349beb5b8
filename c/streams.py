"""The captured answers, and what c/tests/replies.txt states about each."""

import csv
import os
import re

from kit import HERE, TOP

CAPTURED = os.path.join(TOP, "examples", "captured")
EXPECTED = os.path.join(HERE, "tests", "replies.txt")


def path_of(name):
    return os.path.join(CAPTURED, name + ".bin")


def hex_of(name):
    with open(path_of(name), "rb") as file:
        return file.read().hex()


def datagrams_of(name):
    """Returns the names of the datagrams NAME-0, NAME-1 and so on."""
    names = []
    while os.path.exists(path_of(f"{name}-{len(names)}")):
        names.append(f"{name}-{len(names)}")
    return names


def streams():
    """Returns for each answer the names of its datagrams, its line for the programs, and the lines that tests/replies.c
    must print."""
    found = []
    with open(EXPECTED) as file:
        lines = [line.rstrip("\n") for line in file if line.strip() and not line.startswith("#")]
    for line in lines:
        head = re.fullmatch(r"(\S+) (dump|single) (\d+)(?: (\S+))?", line)
        if head:
            names = datagrams_of(head[1])
            words = [f"{head[2] == 'dump':02x}{int(head[3]):02x}", hex_of(head[4] or f"{head[1]}-request")]
            found.append((names, " ".join(words + list(map(hex_of, names))), []))
        else:
            times = re.fullmatch(r"(\d+)x (.*)", line)
            found[-1][2].extend([times[2]] * int(times[1]) if times else [line])
    return found


def unused():
    """Returns the names of the captured datagrams that a program received and no answer has."""
    with open(os.path.join(CAPTURED, "INDEX.tsv")) as file:
        received = {row[0] for row in csv.reader(file, delimiter="\t") if row[2] == "received"}
    return sorted(received - {name for names, _, _ in streams() for name in names})


def lines_of(parts):
    return "".join(f"{part}\n" for part in parts)


def input_lines():
    """Returns what tests/replies.c and tests/replies_mnl.c read: a line for each answer."""
    return lines_of(line for _, line, _ in streams())


def wanted_lines():
    """Returns what tests/replies.c must print."""
    return lines_of(line for _, _, wanted in streams() for line in wanted)


def is_comparison(printed, total):
    """Returns whether tests/replies_mnl.c compared each captured answer and this many random ones, and each of its
    cases occurred at least a thousand times: 5 in which the two agree, and the 16 differences."""
    head, *counts = printed.splitlines() or [""]
    form = re.compile(r"(\d+) (random streams|same: |differ: )")
    numbers = [form.match(line) for line in counts]
    return (
        head == f"{len(streams())} captured streams"
        and len(numbers) == 1 + 5 + 16
        and all(it and int(it[1]) >= 1000 for it in numbers)
        and int(numbers[0][1]) == total
    )
