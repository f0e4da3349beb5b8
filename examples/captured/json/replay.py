#!/usr/bin/env python3
"""Writes what `ip -j` of iproute2 6.1 prints for the frames of ../ip and ../monitor: the files objects.jsonl there.

    ./replay.py          (as root; needs iproute2, unshare and a C compiler)

`ip` runs once for each frame, in namespaces without links and without lists of names, except /etc/protocols. A preloaded
library (answer.c) puts the frame in the place of the kernel's answer, and before it the links whose names are known from
the frames before. A line is the object of a frame, or `null` if `ip` prints none.
"""

import json
import os
import struct
import subprocess
import sys
import tempfile

HERE = os.path.dirname(os.path.abspath(__file__))
sys.path.insert(0, os.path.join(HERE, "..", "..", "..", "tests", "lib"))

from built import in_parallel  # noqa: E402 (it is in that folder)
from ip_lines import first, items, joined, number  # noqa: E402
from kernel import objects_of_ip  # noqa: E402

FOLDERS = {"ip": "frames.bin", "monitor": "stream.bin"}
NEWLINK, DELLINK, NEWADDR, DELADDR = 16, 17, 20, 21
RTM_F_CLONED = 0x200

# The words of `ip`, by the type without its last two bits. It asks for the type of this plus 2.
WORDS = {16: "link show", 20: "addr show", 24: "route show table all", 28: "neigh show nud all"}
WORDS |= {32: "rule show", 64: "ntable show", 80: "netconf show", 88: "netns list-id"}
WORDS |= {104: "nexthop show", 116: "nexthop bucket show"}
FAMILIES = {2: "-4 ", 10: "-6 ", 28: "-f mpls ", 128: "-4 ", 129: "-6 "}


def words_for(frame):
    """Returns the words of `ip` that print a frame, or nothing."""
    kind, family = number(frame[4:6]), frame[16]
    words = WORDS.get(kind & ~3)
    if kind & ~3 == 24 and family in (128, 129):
        words = "mroute show table all"
    elif kind & ~3 == 24 and number(frame[24:28]) & RTM_F_CLONED:
        words = "route show cache"
    return words and (FAMILIES.get(family, "") if kind & ~3 in (20, 24, 32) else "") + words


def named(index, name):
    """Returns a message about a link with a name."""
    data = struct.pack("<HHiIIHH", 0, 1, index, 1, 0, 5 + len(name), 3) + name + b"\0"  # IFF_UP, IFLA_IFNAME
    return struct.pack("<IHHII", 16 + len(data), NEWLINK, 0, 0, 0) + data


def object_for(library, frame, names):
    """Returns the object of `ip` for a frame, if links have these names, or None."""
    kind, own = number(frame[4:6]), struct.unpack("<i", frame[20:24])[0]
    if not (words := words_for(frame)):
        return None
    known = {1: b"if1", **names}  # not the name of the kernel's own link
    before, links = b"", [named(*it) for it in known.items()]
    if kind in (NEWLINK, DELLINK):
        used = {number(first(frame[32:], it)) for it in (5, 10)} - {own}
        before = joined(named(it, names[it]) for it in used if it in names)
    elif kind in (NEWADDR, DELADDR):  # `ip` prints an address after its link, and none that was deleted
        links = [named(own, known.get(own, b"if%d" % own))]
        frame = frame[:4] + bytes([NEWADDR]) + frame[5:]
    with tempfile.TemporaryDirectory() as folder:
        environment = {**os.environ, "LD_PRELOAD": library, "KIND": str((kind & ~3) + 2)}
        for name, data in (("FRAMES", before + joined([frame])), ("LINKS", joined(links))):
            environment[name] = os.path.join(folder, name)
            with open(environment[name], "wb") as file:
                file.write(data)
        objects = objects_of_ip(words, env=environment)
    return None if not objects else {"deleted": True, **objects[-1]} if kind == DELADDR else objects[-1]


def with_names(frames):
    """Yields each frame and the names of links that are known then."""
    names = {}
    for frame in frames:
        if number(frame[4:6]) in (NEWLINK, DELLINK):
            name, index = first(frame[32:], 3).split(b"\0")[0], struct.unpack("<i", frame[20:24])[0]
            if number(frame[4:6]) == DELLINK or name:
                names.pop(index, None)
            if number(frame[4:6]) == NEWLINK and 0 < len(name) < 16:
                names[index] = name
        yield frame, dict(names)


def replay():
    subprocess.run("mount -t tmpfs none /etc/iproute2; mount -t tmpfs none /run", shell=True, check=True)
    with tempfile.TemporaryDirectory() as folder:
        library = os.path.join(folder, "answer.so")
        words = ["cc", "-shared", "-fPIC", "-O1", "-o", library, os.path.join(HERE, "answer.c")]
        subprocess.run(words, check=True)
        for name, file in FOLDERS.items():
            with open(os.path.join(HERE, "..", name, file), "rb") as data:
                pairs = list(with_names(items(data.read(), 4)))
            objects = in_parallel(lambda it: object_for(library, *it), pairs)
            with open(os.path.join(HERE, "..", name, "objects.jsonl"), "w", encoding="utf-8") as lines:
                lines.writelines(json.dumps(it, separators=(",", ":"), ensure_ascii=False) + "\n" for it in objects)
            print(name, len(objects), "frames,", objects.count(None), "without an object")


if sys.argv[1:] == ["inside"]:
    replay()
else:
    subprocess.run(["unshare", "-nm", sys.executable, os.path.abspath(__file__), "inside"], check=True)
