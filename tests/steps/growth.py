#!/usr/bin/env python3
"""Checks how the time of a call grows with inputs that a sender may choose.

It counts instructions by valgrind's callgrind. A block of attributes may take at most 4.4 times the instructions if it
has four times the attributes. A view of a block of 64 KB whose shapes another attribute chooses may take at most 1.5
times as many as one of as many attributes of any bytes, if any bytes are what it chooses; outside nests, where each
attribute takes fewer, 1.6 times. A message that changes the name of a link may take at most 1.5 times as many if 65,536
links are known instead of 1,000. A call that takes much less than that did not read its input.
"""

import os
import re
import shutil
import struct
import sys

sys.path.insert(0, os.path.join(sys.path[0], "..", "lib"))

from built import built, in_parallel, run, tally  # noqa: E402 (it is in that folder)
from expected import Expected, differs  # noqa: E402

NEWLINK, DELLINK, NEWROUTE = 16, 17, 24
IFNAME, LINKINFO = 3, 18
INFO_KIND, INFO_DATA, INFO_XSTATS, SLAVE_KIND, SLAVE_DATA = 1, 2, 3, 4, 5
NEWDST, ENCAP_TYPE, ENCAP = 19, 21, 22  # RTA_NEWDST, RTA_ENCAP_TYPE, RTA_ENCAP

# How many attributes a block has, and the least and the most times the instructions of the smaller one that the larger
# one may take.
FEW, MANY, TIMES = 2000, 8000, (2, 4.4)
# How many attributes a block of 64 KB has, and the same in comparison with a block of any bytes.
WHOLE, TIMES_OF_BYTES = 16000, (1, 1.5)
# The same for the attributes of a message, which are looked up faster than those in a nest.
TIMES_OUTSIDE_NESTS = (1, 1.6)
# How many links are known, the same for a message, and how many messages change names.
FEW_LINKS, MANY_LINKS, TIMES_A_LINK, CHANGES = 1000, 65536, (0.5, 1.5), 500

CAPTURED, GROWTH = "tests::captured::standard_input_is_", "tests::growth::"
# The calls, each by a test of netlink_route_tests.
CALLS = {
    "normalize": CAPTURED + "normalized",
    "deserialize and show": CAPTURED + "shown",
    "MessageView": GROWTH + "standard_input_is_viewed",
    "CheckedAttributes": GROWTH + "standard_input_is_checked_in_one_pass",
    "iteration": GROWTH + "a_nest_of_standard_input_is_iterated",
    "try_push": GROWTH + "a_nest_of_standard_input_is_appended",
}
# Those for a route, whose own attributes are the block.
ROUTE_CALLS = {it: CALLS[it] for it in ("normalize", "deserialize and show", "MessageView", "CheckedAttributes")}
ROUTE_CALLS["iteration"] = GROWTH + "attributes_of_standard_input_are_iterated"


def attribute(kind, value=b""):
    return struct.pack("<HH", 4 + len(value), kind) + value + bytes(-len(value) % 4)


# The attributes in IFLA_LINKINFO, whose shape others choose, by their number.
BLOCKS = {
    "data without a kind": lambda count: count * attribute(INFO_DATA),
    "data before a kind without a table": lambda count: count * attribute(INFO_DATA) + attribute(INFO_KIND, b"dummy\0"),
    "data before their kind": lambda count: count * attribute(INFO_DATA) + attribute(INFO_KIND, b"vlan\0"),
    "data of two kinds by turns": lambda count: (
        count // 2 * (attribute(INFO_DATA) + attribute(SLAVE_DATA))
        + attribute(INFO_KIND, b"vlan\0")
        + attribute(SLAVE_KIND, b"bond\0")
    ),
    "data before a malformed attribute": lambda count: count * attribute(INFO_DATA) + b"\3\0\0\0",
}

# The attributes of a route, whose RTA_ENCAP_TYPE chooses the shape of each RTA_ENCAP, by the number of these.
ENCAPSULATIONS = {
    "encapsulations without a type": lambda count: count * attribute(ENCAP),
    "encapsulations before a type without a table": lambda count: (
        count * attribute(ENCAP) + attribute(ENCAP_TYPE, b"\xff\0")
    ),
    "encapsulations before their type": lambda count: count * attribute(ENCAP) + attribute(ENCAP_TYPE, b"\1\0"),
    "encapsulations before a malformed attribute": lambda count: count * attribute(ENCAP) + b"\3\0\0\0",
}


def link(message_type, index, block):
    """Returns a message about a link."""
    payload = struct.pack("<BxHiII", 0, 1, index, 0, 0) + block
    return struct.pack("<IHHII", 16 + len(payload), message_type, 0, 1, 0) + payload


def of_kind(block):
    """Returns a message about a link with these attributes in IFLA_LINKINFO."""
    return link(NEWLINK, 1, attribute(LINKINFO, block))


def route(block):
    """Returns a message about a route with these attributes."""
    return struct.pack("<IHHII", 28 + len(block), NEWROUTE, 0, 1, 0) + bytes(12) + block


def named(index, name):
    return link(NEWLINK, index, attribute(IFNAME, name.encode() + b"\0"))


# What changes names when this many links are known, the oldest first.
NAMES = {
    "the oldest links are renamed": lambda known: b"".join(named(it, f"new{it}") for it in range(1, CHANGES + 1)),
    "the oldest links are deleted": lambda known: b"".join(link(DELLINK, it, b"") for it in range(1, CHANGES + 1)),
    "links are new": lambda known: b"".join(named(known + it, f"new{it}") for it in range(1, CHANGES + 1)),
}


def block_cases(call, words, message, blocks, other, times):
    """Yields the cases of a call for messages with these blocks. A view of one with the first or the second block,
    whose attributes may have any bytes, is compared with one that has attributes of the kind `other`, of any bytes
    too."""
    for what, block in blocks.items():
        few, many = [message(block(count)) for count in (FEW, MANY)]
        none = message(block(0))
        yield f"{call}, {what}", words, ((none, few), (none, many)), TIMES
        if call == "MessageView" and what in [*blocks][:2]:
            pairs = ((message(b""), message(WHOLE * attribute(other))), (none, message(block(WHOLE))))
            yield f"{call}, {what}, and any bytes", words, pairs, times


def cases():
    """Yields each case: its name, the program with its words, the two inputs, each with one that it begins with or that
    has no attributes, and the least and the most times the instructions of the first that the second may take."""
    show = built("netlink_show", "netlink_show")
    tests = built("netlink_route_tests_tests", "netlink_route_tests")
    for call, test in {"netlink_show": None, **CALLS}.items():
        yield from block_cases(call, [tests, test] if test else [show], of_kind, BLOCKS, INFO_XSTATS, TIMES_OF_BYTES)
    for call, test in {"netlink_show": None, **ROUTE_CALLS}.items():
        words = [tests, test] if test else [show]
        yield from block_cases(call, words, route, ENCAPSULATIONS, NEWDST, TIMES_OUTSIDE_NESTS)
    known = {count: b"".join(named(it, f"link{it}") for it in range(1, count + 1)) for count in (FEW_LINKS, MANY_LINKS)}
    for what, changes in NAMES.items():
        pairs = tuple((links, links + changes(count)) for count, links in known.items())
        yield f"netlink_show, {what}", [show], pairs, TIMES_A_LINK


def count_of(words, data):
    """Returns the number of instructions of a run over this input. Raises ValueError if valgrind prints none."""
    tool = ["valgrind", "--tool=callgrind", "--callgrind-out-file=/dev/null"]
    status, _, error = run([*tool, *words], data)
    found = re.search(rb"Collected : (\d+)", error)
    if not found:
        raise ValueError(f"status {status}, {error.decode(errors='replace')[-200:]}")
    return int(found[1])


def difference(case):
    """Returns how the counts of a case differ from what they may be, or None."""
    name, words, pairs, (least, most) = case
    try:
        few, many = [count_of(words, more) - count_of(words, less) for less, more in pairs]
    except ValueError as why:
        return f"{name}: {why}"
    print(f"{name}: {few} and {many} instructions", flush=True)
    if 0 < few and least * few <= many <= most * few:
        return None
    return f"{name}: {few} and {many} instructions, not {least} to {most} times as many"


def main():
    if not shutil.which("valgrind"):
        print("skipped: valgrind (it is not installed)")
        tally("growth", [], 0)
    all_cases = list(cases())
    failures = [it for it in in_parallel(difference, all_cases) if it]
    passed = len(all_cases) - len(failures)
    why = differs("calls", len(all_cases), Expected().lines["passes"].get("tests/steps/growth.py", 0))
    failures += [why] * bool(why)
    tally("growth", failures, passed)


main()
