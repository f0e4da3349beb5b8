#!/usr/bin/env python3
"""Compares the lines of the built program `netlink_show` with those of the installed `ip`, for what this kernel sends.

    tests/beside_ip.py        (as root; needs iproute2 6.1 and `unshare`; is no step of ./check)

Each script of SCRIPTS fills new namespaces. beside_ip.txt has commands that add to them, and others that change them.
This script asks the kernel for dumps and for the routes to some addresses, and records notifications of the changes.
`netlink_show` reads these messages after those of all links. Its lines are compared with those of `ip` in the same
namespace: of `ip -o monitor label file` for the notifications, with their labels, else of a command that asks the kernel
for the same. Of such a command, the objects of `ip -j` are compared too, with those of `netlink_show --json`.

The lines of `ip` are normalized as examples/captured/ip/README.md states. A command that fails here is skipped. The
status is 1 if a line or an object differs and LISTED or LISTED_OBJECTS does not allow it, and 3 if the comparison is not
possible here.
"""

import ipaddress
import json
import os
import re
import shutil
import socket
import struct
import subprocess
import sys
import tempfile
from collections import Counter
from itertools import zip_longest

sys.path.insert(0, os.path.join(sys.path[0], "lib"))

from built import built, run  # noqa: E402 (it is in that folder)
from ip_lines import ADDRESSES, LINKS, escaped, items, joined, with_kind  # noqa: E402
from compare import is_printed, kind_of, label_of, monitored, spaced  # noqa: E402 (ip_lines adds its folder)
from json_lines import is_equal, own_objects, reason_for, wanted_object  # noqa: E402
from json_listed import LISTED_MEMBERS, without  # noqa: E402
from kernel import DUMPS, FAMILIES, LINK_REQUEST, NLM_F_DUMP, RTM_GETLINK, RTM_GETNEIGHTBL, RTM_GETROUTE  # noqa: E402
from kernel import SCRIPTS, ask, fill, paired, prepare, shell  # noqa: E402

SOL_NETLINK, NETLINK_ADD_MEMBERSHIP, SO_RCVBUFFORCE = 270, 1, 33

# The groups of links, neighbours, addresses, routes, rules, settings of links, ids of namespaces and next hops
# (RTNLGRP_* of linux/rtnetlink.h).
GROUPS = (1, 3, 5, 7, 8, 9, 11, 19, 24, 25, 28, 32)

# What is added to the words of `ip route get ADDRESS`, and the attributes that this adds to the request.
LOOKUPS = [("", b""), (" mark 21", struct.pack("<HHI", 8, 16, 21)), (" uid 1500", struct.pack("<HHI", 8, 25, 1500))]
DESTINATIONS = "10.1.0.1 10.1.0.9 10.1.0.255 10.3.0.1 10.4.0.1 10.5.0.1 10.12.0.1 10.15.0.1 10.18.0.1 10.19.0.1"
DESTINATIONS += " 10.52.0.1 10.53.0.1 127.0.0.1 224.0.0.1"
DESTINATIONS += " 2001:db8:1::1 2001:db8:3::1 2001:db8:4::1 2001:db8:b::1 2001:db8:c::1"
RTM_F_LOOKUP_TABLE = 0x1000

# What may differ, by docs/FORMAT.md and that README: the reason, and two functions that make a
# line of `ip` and one of the program equal.
LISTED = [
    ("M-DOWN of a lower link", lambda line: line.replace(",M-DOWN>", ">"), str),
    ("the name of a network namespace", *2 * [lambda line: re.sub(r" (link|new)-netns(id)? \S+", "", line)]),
    ("the name of a network namespace", lambda line: re.sub(r" \(iproute2 netns name: .*\)$", "", line), str),
    ("the reasons of protodown", lambda line: re.sub(r" protodown_reason <[^>]*>", "", line), str),
    ("a time of 1,000 s or more", str, lambda line: re.sub(r"[\d.]{5,}(?=s )", lambda it: f"{float(it[0]):g}", line)),
    ("the name of an IP protocol", *2 * [lambda line: re.sub(r" ipproto \S+", "", line)]),
    ("a link address of no bytes", lambda line: line.replace(" lladdr 08 ", " "), str),
    ("the older name of a link", lambda line: re.sub(r"\bolder\b", "newer", line), str),
]

# The same for objects: what examples/captured/json allows, and the names that `ip` takes from /etc/protocols.
LISTED_OBJECTS = [*LISTED_MEMBERS, ("the name of an IP protocol", *2 * [without("ipproto")])]


def own_lines(links, frames, *words):
    """Returns the lines of the program, with these arguments, for messages that follow those of links."""
    _, output, error = run([built("netlink_show", "netlink_show"), *words], joined([*links, *frames]))
    return (output + error).decode("latin-1").split("\n")[len(links) : -1]


def lines_of_ip(words, frames, skipped=0):
    """Returns the lines of `ip` for these messages. Each is normalized, except that it may differ as LISTED states."""
    _, output, error = shell(f"-o {words}")
    lines = (output + error).decode("latin-1").split("\n")[skipped:-1]
    found = []
    for frame, line in zip(frames, lines):
        line = with_kind(frame, spaced(frame, line))
        found.append(line if kind_of(frame) in LINKS + ADDRESSES else escaped(line))
    return found + lines[len(frames) :]


def settled(words, kind, body, flags=NLM_F_DUMP):
    """Returns the lines of the program for an answer of the kernel, and those of `ip`. The kernel answers before and
    after `ip` runs, until the lines for both answers are equal, so that no time and no state changed in between."""
    for _ in range(20):
        before = ask(kind, body, flags)
        ours, theirs = own_lines(ask(RTM_GETLINK, LINK_REQUEST), before), lines_of_ip(words, before)
        if ours == own_lines(ask(RTM_GETLINK, LINK_REQUEST), ask(kind, body, flags)):
            break
    # The kernel repeats an entry of the neighbour tables at the start of a datagram, and the sizes of these may differ.
    return [[*dict.fromkeys(lines)] if kind == RTM_GETNEIGHTBL else lines for lines in (ours, theirs)]


def compare(what, ours, theirs, counts):
    """Prints how many lines there are and those that differ, and counts them by the reason."""
    print(f"{what}: {len(theirs)} lines")
    for own, line in zip_longest(ours, theirs, fillvalue="(no line)"):
        told(own, line, "equal" if own == line else reason_for(own, line, LISTED), counts)


def told(own, line, reason, counts):
    """Counts a line or an object by the reason why it may differ, and prints both if there is none."""
    counts[reason or "different"] += 1
    if not reason:
        print(f"    netlink_show: {own}\n    ip:           {line}")


def compare_objects(words, kind, body, counts, flags=NLM_F_DUMP):
    """Compares the objects of the program with those of `ip` for an answer of the kernel."""
    frames, theirs = paired(words, kind, body, flags)
    ours = own_objects(built("netlink_show", "netlink_show"), ask(RTM_GETLINK, LINK_REQUEST), frames)
    print(f"{words}: {len(theirs)} objects")
    if len({len(frames), len(ours), len(theirs)}) > 1:
        told(f"{len(ours)} objects for {len(frames)} messages", f"{len(theirs)} objects", "", counts)
    for own, frame, it in zip(ours, frames, theirs):
        wanted = wanted_object(frame, it)
        reason = "equal" if is_equal(own, wanted) else reason_for(own, wanted, LISTED_OBJECTS)
        told(json.dumps(own), json.dumps(wanted), reason and f"{reason} in JSON", counts)


def lookups(counts):
    """Compares the lines of the routes that are looked up for DESTINATIONS."""
    for address in map(ipaddress.ip_address, DESTINATIONS.split()):
        for more, attributes in LOOKUPS:
            family, bits = FAMILIES[f"-{address.version}"], address.max_prefixlen
            body = struct.pack("<BBBBBBBBI", family, bits, 0, 0, 0, 0, 0, 0, RTM_F_LOOKUP_TABLE)
            body += struct.pack("<HH", 4 + bits // 8, 1) + address.packed + attributes
            words = f"route get {address}{more}"
            compare(words, *settled(words, RTM_GETROUTE, body, 0), counts)
            compare_objects(words, RTM_GETROUTE, body, counts, 0)


def listener():
    """Returns a socket that receives the notifications of GROUPS."""
    kernel = socket.socket(socket.AF_NETLINK, socket.SOCK_RAW, 0)
    kernel.setsockopt(socket.SOL_SOCKET, SO_RCVBUFFORCE, 1 << 23)
    kernel.bind((0, 0))
    for group in GROUPS:
        kernel.setsockopt(SOL_NETLINK, NETLINK_ADD_MEMBERSHIP, group)
    kernel.settimeout(0.5)
    return kernel


def changes(section, counts):
    """Runs the commands of a section, and compares the lines of the notifications, which end when none comes for half a
    second."""
    links, frames = ask(RTM_GETLINK, LINK_REQUEST), []
    with listener() as kernel, tempfile.NamedTemporaryFile() as file:
        fill(section)
        try:
            while len(frames) < 10000:
                frames += [it for it in items(kernel.recv(1 << 18), 4) if is_printed(it)]
        except TimeoutError:
            pass
        file.write(joined([*links, *frames]))
        file.flush()
        theirs = lines_of_ip(f"monitor label file {file.name}", frames, len(links))
    lines = own_lines(links, frames, "--label")
    ours = [monitored(frame, line, escaped) for frame, line in zip(frames, lines)]
    compare("notifications", ours, theirs or ["(there is none)"], counts)


def inside(script):
    """Fills new namespaces, compares all lines, and prints the numbers of lines."""
    counts = Counter()
    prepare(script)
    subprocess.run("mount --bind /dev/null /etc/protocols".split(), check=True)
    for words, kind, body in DUMPS:
        compare(words, *settled(words, kind, body), counts)
        compare_objects(words, kind, body, counts)
    if script == "setup.sh":
        lookups(counts)
    changes(f"{script} changes", counts)
    print(*(f"{count}\t{reason}" for reason, count in counts.items()), sep="\n")


def missing():
    """Returns why the script cannot run here, or nothing."""
    for name in ("ip", "unshare"):
        if not shutil.which(name):
            return f"there is no {name}"
    if os.geteuid():
        return "it needs root"
    return "" if run(["unshare", "-nm", "true"])[0] == 0 else "unshare makes no namespaces"


def main():
    if len(sys.argv) == 2:
        inside(sys.argv[1])
        return
    if reason := missing():
        print(f"beside_ip: skipped, because {reason}")
        sys.exit(3)
    built("netlink_show", "netlink_show")
    print(shell("-V")[1].decode().strip())
    counts = Counter()
    for script in SCRIPTS:
        status, output, error = run(["unshare", "-nm", sys.executable, os.path.abspath(__file__), script])
        print(f"{script}:\n{output.decode()}{error.decode()}")
        for count, reason in re.findall(r"^(\d+)\t(.*)$", output.decode(), re.M):
            counts[reason] += int(count)
        counts["different"] += status != 0
    objects = counts["equal in JSON"]
    listed = sum(counts.values()) - counts["equal"] - objects - counts["different"]
    equal = f"{counts['equal']} lines and {objects} objects equal"
    print(f"beside_ip: {equal}, {listed} listed, {counts['different']} different")
    sys.exit(1 if counts["different"] else 0)


main()
