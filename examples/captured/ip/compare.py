#!/usr/bin/env python3
"""Compares lines.txt and LABELS with the lines that the installed `ip` prints for frames.bin, each after its label. They
are those of iproute2 6.1.

Run it in namespaces without links and without lists of names, for example:

unshare -rnm sh -c 'mount -t tmpfs none /etc/iproute2; mount --bind /dev/null /etc/protocols; ./compare.py'

`ip monitor file` prints neither neighbour tables nor routes that were looked up for a request. The script skips these.
Of links, it prints neither the mode nor the length of the queue nor the alias, which `ip link` prints.
"""

import os
import re
import struct
import subprocess
import sys
import tempfile

FOLDER = os.path.dirname(os.path.abspath(__file__))

NEIGHBOUR_TABLE = 64
LINKS, ADDRESSES, ROUTES, RULES = (16, 17), (20, 21), (24, 25), (32, 33)
IFLA_IFALIAS = 20
RTM_F_CLONED = 0x200

# What `ip monitor label` prints before the line of a message, by the type without its last two bits.
LABELS = {16: "[LINK]", 20: "[ADDR]", 24: "[ROUTE]", 28: "[NEIGH]", 32: "[RULE]", 52: "[PREFIX]", 80: "[NETCONF]"}
LABELS |= {88: "[NSID]", 92: "[STATS]", 104: "[NEXTHOP]", 116: "[NEXTHOPBUCKET]"}

# And what `bridge monitor all` prints.
LABELS |= {84: "[MDB]", 112: "[VLAN]", 120: "[TUNNEL]"}

# And before the line of a route of multicast routing, by its families.
MULTICAST_FAMILIES, MULTICAST_LABEL = (128, 129), "[MROUTE]"


def frames_in(data):
    at = 0
    while at < len(data):
        end = at + ((struct.unpack_from("<I", data, at)[0] + 3) & ~3)
        yield data[at:end]
        at = end


def kind_of(frame):
    return struct.unpack_from("<H", frame, 4)[0]


def label_of(frame):
    """Returns what `ip monitor label` prints before the line of a frame."""
    if kind_of(frame) in ROUTES and frame[16] in MULTICAST_FAMILIES:
        return MULTICAST_LABEL
    return LABELS.get(kind_of(frame) & ~3, "")


def is_printed(frame):
    if kind_of(frame) in ROUTES:
        return not struct.unpack_from("<I", frame, 24)[0] & RTM_F_CLONED
    return kind_of(frame) != NEIGHBOUR_TABLE


def alias_of(frame):
    at = 32
    while at < len(frame):
        length, kind = struct.unpack_from("<HH", frame, at)
        if kind == IFLA_IFALIAS:
            return frame[at + 4 : at + length].split(b"\0")[0].decode("latin-1")
        at += (length + 3) & ~3
    return ""


def monitored(frame, line, shown=str):
    """Returns a line of lines.txt without what only `ip link` prints. `shown` returns an alias as it is in the line."""
    if kind_of(frame) not in LINKS:
        return line
    line = re.sub(r" (mode \S+|qlen -?\d+)(?= )", "", line)
    return line.replace(f" alias {shown(alias_of(frame))}", "", 1) if alias_of(frame) else line


def spaced(frame, line):
    """Returns a line of `ip` with one space between its words."""
    if kind_of(frame) in LINKS + ADDRESSES:
        line = re.sub(r"\\( {4})", r"\1", line)
        line = re.sub(r" (state 0x[0-9a-f]+?)(group|event) ", r" \1 \2 ", line)
        return re.sub(" +", " ", line).strip(" ")
    return " ".join(re.sub(r"\\(?=\s|$)", " ", line).split())


def normalized(frame, line):
    """Returns a line of `ip` as it is in lines.txt."""
    line = spaced(frame, line)
    return line if kind_of(frame) in LINKS + ADDRESSES + RULES else re.sub(r"\b(dev|iif) lo\b", r"\1 if1", line)


def main():
    with open(os.path.join(FOLDER, "frames.bin"), "rb") as file:
        frames = list(frames_in(file.read()))
    with open(os.path.join(FOLDER, "lines.txt"), "rb") as file:
        lines = file.read().decode("latin-1").split("\n")[:-1]
    rows = [(place, *row) for place, row in enumerate(zip(frames, lines), 1) if is_printed(row[0])]
    with tempfile.NamedTemporaryFile() as file:
        file.write(b"".join(frame for _, frame, _ in rows))
        file.flush()
        words = ["ip", "-o", "monitor", "label", "file", file.name]
        printed = subprocess.run(words, stdout=subprocess.PIPE, check=True).stdout.decode("latin-1").split("\n")[:-1]
    if (len(frames), len(printed)) != (len(lines), len(rows)):
        sys.exit(f"{len(frames)} frames and {len(lines)} lines; ip printed {len(printed)} lines instead of {len(rows)}")
    different = 0
    for (place, frame, line), own in zip(rows, printed):
        label, wanted = label_of(frame), monitored(frame, line)
        if own[: len(label)] != label or normalized(frame, own[len(label) :]) != wanted:
            different += 1
            print(f"line {place}: ip prints {own!r}, not {label + wanted!r}")
    print(f"{len(rows) - different} lines are equal, {different} differ, {len(lines) - len(rows)} skipped")
    sys.exit(1 if different else 0)


if __name__ == "__main__":
    main()
