#!/usr/bin/env python3
"""Runs the built program `netlink_show` on captured datagrams, on frames for which `ip` printed lines, on what a
monitor saw, on inputs with each error, on every prefix of a stream, on random bytes, on pcap and pcapng files, all these
also with `--json`, on pipes that stay open, with wrong arguments, and with inputs and outputs that fail.

This script computes the expected lines for the captured datagrams itself, with Python's struct and ipaddress and the
numbers of linux/if.h, if_link.h and if_addr.h. The expected lines for acknowledgements, errors and messages made here
are written by hand, or are those that `ip`, `tc` or `bridge` prints (bridge_lines.py, hop_lines.py, ip_lines.py,
monitor_lines.py and traffic_lines.py in tests/lib). The expected error texts are those of docs/FORMAT.md.
"""

import ipaddress
import os
import random
import struct
import subprocess
import sys
import tempfile

sys.path.insert(0, os.path.join(sys.path[0], "..", "lib"))

from bridge_lines import ABOUT_3, ABOUT_A, BRIDGE_LABELLED, BRIDGE_LINES, INVALID_BRIDGES, SHORT_BRIDGES  # noqa: E402 (it is in that folder)
from built import TOP, FailingDevices, built, error_of, in_parallel, row, run, silent, tally  # noqa: E402
from byte_lines import byte_errors, frames_of, request_error  # noqa: E402
from hop_lines import HOP_LINES, INVALID_HOPS, LABELLED, SHORT_HOPS, hop, integer, prefix, settings  # noqa: E402
from ip_lines import ip_errors, joined  # noqa: E402
from json_lines import case_error, json_cases, object_errors, packet_errors, replayed_errors, text_errors  # noqa: E402
from kinds import rows as kind_rows  # noqa: E402
from live import closed_error, live_error, memory_error  # noqa: E402
from monitor_lines import monitor_errors, monitor_rows  # noqa: E402
from pcap_rows import header as pcap_header  # noqa: E402
from pcap_rows import packet as pcap_packet  # noqa: E402
from pcap_rows import pcap_rows, tshark_errors, without_padding  # noqa: E402
from pcapng_rows import block, enhanced, interface, others, packed, pcapng_errors, pcapng_rows, section, simple  # noqa: E402
from pcapng_rows import tshark_errors as tshark_block_errors  # noqa: E402
from time_rows import time_errors, time_rows  # noqa: E402
from traffic_lines import INVALID_TRAFFIC, SHORT_TRAFFIC, TRAFFIC_LINES  # noqa: E402

CAPTURED = ["links-0", "links-1", "links-2", "addresses-0", "addresses-1", "link-by-name-0"]
CAPTURED += ["event-0", "event-1", "event-2"]

# Captured answers of one message, an acknowledgement or an error, and the line of each.
ANSWERS = {
    "link-mtu-0": b"ack\n",
    "link-new-bridge-0": b"ack\n",
    "link-delete-0": b"ack\n",
    "noop-0": b"ack\n",
    "link-mtu-refused-0": b"error -22 (Invalid argument): mtu less than device minimum\n",
    "link-unknown-0": b"error -19 (No such device)\n",
    "type-unknown-0": b"error -95 (Operation not supported)\n",
    "bridge-ports-1": b"done\n",
    "replies/option-short-0": b"error -34 (Numerical result out of range): Attribute failed policy validation"
    b"; byte 68, attribute 18/2/5\n",
    "replies/option-short-capped-0": b"error -34 (Numerical result out of range): Attribute failed policy validation"
    b"; byte 68\n",
}

FLAGS = [(0x8, "LOOPBACK"), (0x2, "BROADCAST"), (0x1000, "MULTICAST"), (0x1, "UP")]
FLAGS += [(0x10000, "LOWER_UP")]
STATES = {0: "UNKNOWN", 2: "DOWN", 6: "UP"}
DEVICES = {1: "ether", 772: "loopback"}
FAMILIES = {2: "inet", 10: "inet6"}
SCOPES = {0: "global", 253: "link", 254: "host"}
MODES = {0: "DEFAULT"}
GROUPS = {0: "default"}
# The flags of the captured addresses, in the order of `ip`. All of these are permanent.
ADDRESS_FLAGS = [(0x2, "nodad"), (0x40, "tentative")]

# The errors that have a name.
ERRNO = [*range(1, 41), *range(42, 58), *range(59, 134)]

BAD = "a message is malformed"
USAGE = (2, b"", "usage: netlink_show [--time] [--json | [--label] [--bytes]] < FILE")
LINE = b"7: a: <> link/netrom\n"
# The lines of the bytes of that message.
BYTES = b"""\
  0  28 00 00 00  nlmsg_len: 40
  4  10 00  nlmsg_type: 16
  6  00 00  nlmsg_flags: 0
  8  00 00 00 00  nlmsg_seq: 0
  12  00 00 00 00  nlmsg_pid: 0
  16  00  ifi_family: 0
  17  00
  18  00 00  ifi_type: 0
  20  07 00 00 00  ifi_index: 7
  24  00 00 00 00  ifi_flags: 0
  28  00 00 00 00  ifi_change: 0
  32  06 00 03 00 61 00 00 00  IFLA_IFNAME: a
"""


def blocks(data, size):
    """Yields the items of a walk. Each begins with a length field of `size` bytes and is padded to a multiple of 4."""
    at = 0
    while at < len(data):
        length = int.from_bytes(data[at : at + size], "little")
        yield data[at : at + length]
        at += (length + 3) & ~3


def attributes(data):
    return {int.from_bytes(it[2:4], "little"): it[4:] for it in blocks(data, 2)}


def text(value):
    return value[:-1].decode()


def number(value):
    return int.from_bytes(value, "little")


def name_of(index, known):
    return known.get(index, f"if{index}")


def words(key, kind, attrs, value):
    """Returns a key and the value of an attribute, if there is one."""
    return [f"{key} {value(attrs[kind])}"] if kind in attrs else []


def link_line(kind, body, known):
    """Returns the line of a link, as `ip -o link` prints it, and its kind; updates the names of links."""
    _, device, index, flags, _ = struct.unpack_from("<HHiII", body)
    attrs = attributes(body[16:])
    known.pop(index, None)
    if kind == 16:
        known[index] = text(attrs[3])
    names = ",".join(name for bit, name in FLAGS if flags & bit)
    lower = f"@{name_of(number(attrs[5]), known)}" if 5 in attrs else ""
    line = [f"{'Deleted ' if kind == 17 else ''}{index}: {text(attrs[3])}{lower}: <{names}>"]
    line += words("mtu", 4, attrs, number) + words("qdisc", 6, attrs, text)
    line += words("master", 10, attrs, lambda it: name_of(number(it), known))
    line += words("state", 16, attrs, lambda it: STATES[it[0]]) + words("mode", 17, attrs, lambda it: MODES[it[0]])
    line += words("group", 27, attrs, lambda it: GROUPS[number(it)]) + words("qlen", 13, attrs, number)
    line += [f"link/{DEVICES[device]} {attrs[1].hex(':')}"] + words("brd", 2, attrs, lambda it: it.hex(":"))
    line += words("alias", 20, attrs, text)
    line += [f"kind {text(attributes(attrs[18])[1])}"] if 18 in attrs else []
    return " ".join(line)


def address_line(body, known):
    """Returns the line of an address, as `ip -o addr` prints it."""
    family, prefix, _, scope, index = struct.unpack_from("<BBBBI", body)
    attrs = attributes(body[8:])
    address, flags = ipaddress.ip_address(attrs.get(2, attrs[1])), number(attrs[8])
    line = [f"{index}: {name_of(index, known)} {FAMILIES[family]} {address}/{prefix}", f"scope {SCOPES[scope]}"]
    line += [name for bit, name in ADDRESS_FLAGS if flags & bit] + ([text(attrs[3])] if 3 in attrs else [])
    preferred, valid = (time_of(it) for it in struct.unpack_from("<II", attrs[6]))
    return " ".join([*line, f"valid_lft {valid} preferred_lft {preferred}"])


def time_of(seconds):
    return "forever" if seconds == 0xFFFFFFFF else f"{seconds}sec"


def line_of(frame, known):
    kind, body = number(frame[4:6]), frame[16:]
    if kind == 3:
        return "done"
    return address_line(body, known) if kind == 20 else link_line(kind, body, known)


def lines_of(data, known):
    return "".join(f"{line_of(frame, known)}\n" for frame in blocks(data, 4)).encode()


def frame(kind, body, length=None, flags=0):
    return struct.pack("<IHHII", 16 + len(body) if length is None else length, kind, flags, 0, 0) + body


def attribute(kind, value):
    return struct.pack("<HH", 4 + len(value), kind) + value + bytes(-len(value) % 4)


def link(*attributes, index=7, flags=0):
    return frame(16, struct.pack("<HHiII", 0, 0, index, 0, 0) + b"".join(attributes), flags=flags)


def error(attributes, flags=0x300, code=-22, request=struct.pack("<IHHII", 52, 16, 5, 1, 0)):
    return frame(2, struct.pack("<i", code) + request + attributes, flags=flags)


def padded(data):
    return data + bytes(-len(data) % 4)


NAMED = attribute(3, b"a\0")
TEXT = attribute(1, b"a b\0")
DUMP_INTR = 0x12  # NLM_F_DUMP_INTR and NLM_F_MULTI
FRAME = "failed deserializing NetlinkMessage caused by invalid netlink buffer length caused by "
FRAME += "invalid netlink buffer: "
MINIMUM = "netlink packets are at least 16 bytes"


def rejected(kind, why):
    return f"Failed to parse message with type {kind}: {why}"


def short(kind, received, expected):
    return rejected(kind, f"the payload has {received} bytes, fewer than its header of {expected}")


def invalid(kind, at, why, policy=0):
    return rejected(kind, f"at byte {at}, in policy {policy}: {why}")


CODE = "invalid {0} length caused by invalid {0}: length is {1} but {0} are at least 4 bytes"
INTERIOR_NUL = "attribute {} is a string with a NUL before its last byte"

LONGEST = 1 << 20

# The types of control messages, of times (iproute2's libnetlink.h) and of netlink_route (linux/netlink.h, rtnetlink.h).
KNOWN = {*range(1, 5), *range(15, 23), *range(24, 27), *range(28, 31), *range(32, 35), 52, 64, 66, 67}
KNOWN |= {*range(80, 83), *range(88, 91), *range(104, 107), *range(116, 119)}
KNOWN |= {*range(36, 39), *range(40, 43), *range(44, 47), *range(48, 51), *range(100, 103)}
KNOWN |= {*range(84, 87), 92, 94, 95, *range(112, 115), *range(120, 123)}

# Bytes that no message starts with that can be read, and the error text for each.
STOPS = [
    (b"\0", f"{FRAME}length is 1 but {MINIMUM}"),
    (link(NAMED)[:39], f"{FRAME}length field says 40 the buffer is 39 bytes long"),
    (frame(16, bytes(16), 15), f"{FRAME}length field says 15 but {MINIMUM}"),
    (frame(16, bytes(16), 0), f"{FRAME}length field says 0 but {MINIMUM}"),
    (frame(16, b"", LONGEST), f"{FRAME}length field says {LONGEST} the buffer is 16 bytes long"),
    (frame(16, b"", LONGEST + 1), f"a message of {LONGEST + 1} bytes is longer than {LONGEST}"),
    (frame(16, bytes(64), 0xFFFFFFFF), f"a message of {0xFFFFFFFF} bytes is longer than {LONGEST}"),
]

# Malformed messages in frames of sound length, and the error text for each.
MALFORMED = [
    (frame(18, bytes(5)), short(18, 5, 16)),
    *[(frame(15, bytes(n)), rejected(15, f"the payload has {n} bytes instead of 8")) for n in (0, 4, 7, 9, 16)],
    (frame(28, bytes(11)), short(28, 11, 12)),
    (frame(16, bytes(15)), short(16, 15, 16)),
    (frame(20, bytes(7)), short(20, 7, 8)),
    (frame(2, bytes(3)), f"failed parsing NLMSG_ERROR caused by {CODE.format('ErrorBuffer', 3)}"),
    (frame(3, bytes(1)), f"failed to parse NLMSG_DONE caused by {CODE.format('DoneBuffer', 1)}"),
    (link(b"\5\0\3"), invalid(16, 16, "3 bytes are too few for an attribute")),
    (link(b"\5\0\3\0"), invalid(16, 16, "an attribute of 5 bytes is truncated to 4")),
    (link(b"\3\0\3\0"), invalid(16, 16, "an attribute has length 3, less than 4")),
    (link(attribute(3, b"a\0\0")), invalid(16, 16, INTERIOR_NUL.format(3))),
    *[
        (link(attribute(4, bytes(n))), invalid(16, 16, f"attribute 4 has a value of {n} bytes instead of 4"))
        for n in (0, 3, 5)
    ],
    (link(attribute(18, attribute(1, b"a\0b"))), invalid(16, 20, INTERIOR_NUL.format(1), 1)),
    (
        frame(20, bytes(8) + attribute(2, bytes(5))),
        invalid(20, 8, "attribute 2 has an address of 5 bytes instead of 4 or 16"),
    ),
]
MALFORMED += [
    (data, short(number(data[4:6]), len(data) - 16, size))
    for data, size in SHORT_HOPS + SHORT_TRAFFIC + SHORT_BRIDGES
]
MALFORMED += [
    (data, invalid(number(data[4:6]), *why))
    for data, *why in INVALID_HOPS + INVALID_TRAFFIC + INVALID_BRIDGES
]

# Messages about links and addresses that have a line, and the line of each: requests with a `struct rtgenmsg` instead of
# the header, padding in the header, strings without a NUL or of bytes that are not printable, a negative index, and a
# nest with NLA_F_NESTED.
LINES = [
    (frame(18, b"\x11\0\0\0"), b"Get 0: if0: <> link/netrom\n"),
    (frame(22, b"\2"), b"Get 0: * inet scope global dynamic\n"),
    (frame(16, b"\0\1" + bytes(14)), b"0: if0: <> link/netrom\n"),
    (link(attribute(3, b"")), b"7: : <> link/netrom\n"),
    (link(attribute(3, b"a")), LINE),
    (link(attribute(3, b"\xff\0")), b"7: \\xff: <> link/netrom\n"),
    (link(NAMED, index=-2), b"-2: a: <> link/netrom\n"),
    (link(attribute(18, attribute(1, b"veth"))), b"7: if7: <> link/netrom kind veth\n"),
    (link(attribute(0x8012, attribute(1, b"veth\0"))), b"7: if7: <> link/netrom kind veth\n"),
]

# Messages of unknown types, and routes of no family.
LINES += [(frame(kind, b"abc"), f"type {kind}, 19 bytes\n".encode()) for kind in (0, 5, 56, 60, 65535)]
LINES += [
    (frame(kind, bytes(size)), f"type {kind}, {16 + size} bytes\n".encode())
    for kind, size in ((24, 12), (25, 12))
]

# A route, neighbours, a rule, a neighbour table and ids of namespaces, and the lines that `ip` 6.1 prints for them, that
# of the table by hand. examples/captured/ip has many more.
ROUTE = b"\2\0\0\0\xfe\3\0\1" + bytes(4) + attribute(4, b"\3\0\0\0") + attribute(5, b"\n\1\0\2")
NEIGHBOUR = b"\2\0\0\0\3\0\0\0\4\0\0\1" + attribute(1, b"\n\1\0\4") + attribute(2, b"\2\0\0\0\0\3")
SHOWN = b"10.1.0.4 dev if3 lladdr 02:00:00:00:00:03 STALE\n"
LINES += [
    (frame(24, ROUTE), b"default via 10.1.0.2 dev if3\n"),
    (frame(25, ROUTE), b"Deleted default via 10.1.0.2 dev if3\n"),
    (frame(28, NEIGHBOUR), SHOWN),
    (frame(29, NEIGHBOUR), b"Deleted " + SHOWN),
    (frame(30, NEIGHBOUR), b"miss " + SHOWN),
    (frame(28, NEIGHBOUR, flags=DUMP_INTR), b"interrupted\n" + SHOWN),
    (frame(28, bytes(12)), b"\n"),
    (frame(30, bytes(12)), b"miss\n"),
    (frame(32, b"\2\0\0\0\xfe\0\0\1" + bytes(4)), b"0: from all lookup main\n"),
    (frame(64, b"\2\0\0\0" + attribute(1, b"arp_cache\0")), b"inet arp_cache\n"),
    (frame(88, bytes(4) + attribute(1, b"\5\0\0\0")), b"nsid 5\n"),
    (frame(89, bytes(4) + attribute(1, b"\xff\xff\xff\xff")), b"Deleted nsid unassigned\n"),
    (frame(32, b"\2\0\0\0\xfe\0\0\1" + bytes(4) + attribute(22, b"\6")), b"0: from all ipproto tcp lookup main\n"),
]
LINES += [(frame(56, bytes(LONGEST - 16)), b"type 56, 1048576 bytes\n")]

# Routes of MPLS, and the lines that `ip` 6.1 prints for them.
LABEL = b"\x1c\x14\0\0\xfe\3\0\1" + bytes(4) + attribute(1, b"\0\6\x41\0")
VIA = attribute(18, b"\2\0\n\1\0\3")
LINES += [
    (frame(24, LABEL), b"100\n"),
    (frame(25, LABEL + VIA + attribute(4, b"\3\0\0\0")), b"Deleted 100 via inet 10.1.0.3 dev if3\n"),
    (frame(24, LABEL + attribute(19, b"\0\x0c\x80\0\0\x12\xc1\0") + VIA), b"100 as to 200/300 via inet 10.1.0.3\n"),
    (
        frame(24, LABEL + attribute(9, b"\x10\0\0\1\3\0\0\0" + attribute(19, b"\0\x0c\x81\0"))),
        b"100 nexthop as to 200 dev if3\n",
    ),
    (frame(24, LABEL + attribute(26, b"\1")), b"100 ttl-propogate enabled\n"),
]

# Routes of multicast routing, and the lines that `ip` 6.1 prints for them; and a request by hand.
GROUP = bytes([128, 32, 32, 0, 253, 17, 0, 5, 0, 0, 0, 0]) + attribute(2, b"\n\1\0\x09") + attribute(1, b"\xef\1\1\1")
OUT = attribute(9, b"\x08\0\0\1\4\0\0\0\x08\0\0\3\5\0\0\0")
LINES += [
    (
        frame(24, GROUP + attribute(3, b"\3\0\0\0") + OUT),
        b"(10.1.0.9,239.1.1.1) Iif: if3 Oifs: if4 if5(ttl 3) State: resolved Table: default\n",
    ),
    (frame(25, GROUP), b"Deleted (10.1.0.9,239.1.1.1) Iif: unresolved State: resolved Table: default\n"),
    (frame(26, b"\x81" + bytes(11), flags=0x301), b"Get (unknown,unknown) Iif: unresolved State: resolved\n"),
]

# Requests for routes, rules, neighbour tables and ids, one that sets a table, and messages about a namespace without an id, and
# the lines that docs/FORMAT.md defines.
LINES += [
    (frame(26, ROUTE), b"Get default via 10.1.0.2 dev if3\n"),
    (frame(26, LABEL, flags=1), b"Get 100\n"),
    (frame(26, bytes(12), flags=0x301), b"Get none default proto unspec\n"),
    (frame(26, bytes(4), flags=0x301), b"Get none default proto unspec\n"),
    (frame(26, b"\x0a\x80" + bytes(10) + attribute(1, bytes(15) + b"\1"), flags=1), b"Get none ::1 proto unspec\n"),
    (frame(34, b"\2\0\0\0\xfe\0\0\1" + bytes(4)), b"Get 0: from all lookup main\n"),
    (frame(34, b"\2" + bytes(11), flags=0x301), b"Get 0: from all none\n"),
    (frame(66, bytes(4), flags=0x301), b"Get family 0\n"),
    (frame(66, b"\2\0\0\0" + attribute(1, b"arp_cache\0")), b"Get inet arp_cache\n"),
    (frame(67, b"\2\0\0\0" + attribute(1, b"arp_cache\0")), b"Set inet arp_cache\n"),
    (frame(67, b"\2\0\0\0" + attribute(2, b"\1\0\0\0"), flags=5), b"request Set inet thresh1 1\n"),
    (frame(88, bytes(4)), b"nsid\n"),
    (frame(89, bytes(4)), b"Deleted nsid\n"),
    (frame(90, bytes(4)), b"Get nsid\n"),
    (frame(90, bytes(4) + attribute(1, b"\5\0\0\0")), b"Get nsid 5\n"),
    (frame(90, bytes(4) + attribute(2, b"\x64\0\0\0") + attribute(4, b"\1\0\0\0")), b"Get pid 100 target-nsid 1\n"),
    (frame(90, bytes(4) + attribute(3, b"\4\0\0\0")), b"Get fd 4\n"),
    (frame(88, bytes(4) + attribute(5, b"\2\0\0\0")), b"current-nsid 2\n"),
]

# Next hops, settings of links and announced prefixes, traffic control, and bridges and statistics.
LINES += HOP_LINES + TRAFFIC_LINES + BRIDGE_LINES

# A request of 18 bytes and its padding.
REQUEST = struct.pack("<IHHII", 18, 16, 5, 1, 0) + b"\7\7\0\0"

# Error and done messages and the line of each: a capped request, a whole one, no NLM_F_ACK_TLVS, an acknowledgement with
# a text, other attributes, a damaged attribute after and before the text, and bytes that are not printable. Then messages
# with NLM_F_DUMP_INTR.
LINES += [
    (error(TEXT), b"error -22 (Invalid argument): a b\n"),
    (error(TEXT, flags=0x200, request=REQUEST), b"error -22 (Invalid argument): a b\n"),
    (error(TEXT, flags=0x100), b"error -22 (Invalid argument)\n"),
    (error(TEXT, code=0), b"ack: a b\n"),
    (error(attribute(2, b"\x24\0\0\0") + attribute(0x8001, b"c") + TEXT), b"error -22 (Invalid argument): c; byte 36\n"),
    (error(attribute(2, bytes(4))), b"error -22 (Invalid argument); byte 0\n"),
    (error(attribute(2, bytes(3)) + attribute(5, bytes(5)) + TEXT), b"error -22 (Invalid argument): a b\n"),
    (frame(3, struct.pack("<i", -22) + attribute(2, b"\x24\0\0\0"), flags=0x202), b"done -22 (Invalid argument); byte 36\n"),
    (error(TEXT + b"\3\0\1\0"), b"error -22 (Invalid argument): a b\n"),
    (error(b"\3\0\2\0" + TEXT), b"error -22 (Invalid argument)\n"),
    (error(attribute(1, b"a\n\0")), b"error -22 (Invalid argument): a\\x0a\n"),
    (error(attribute(1, b"\xc3\xa9\0")), b"error -22 (Invalid argument): \\xc3\\xa9\n"),
    (error(attribute(1, b"\0")), b"error -22 (Invalid argument): \n"),
    (frame(3, struct.pack("<i", -22) + TEXT, flags=0x202), b"done -22 (Invalid argument): a b\n"),
    (frame(3, struct.pack("<i", -22) + TEXT, flags=2), b"done -22 (Invalid argument)\n"),
    (frame(3, bytes(4), flags=DUMP_INTR), b"interrupted\ndone\n"),
    (link(NAMED, flags=DUMP_INTR), b"interrupted\n" + LINE),
]
# The name of each error, by the C library, and codes without one.
LINES += [(error(b"", code=-number), f"error -{number} ({os.strerror(number)})\n".encode()) for number in ERRNO]
LINES += [(error(b"", code=code), b"error %d\n" % code) for code in (-41, -58, -134, -256, -524, -(1 << 31))]


def time(seconds, micros):
    return frame(15, struct.pack("<II", seconds, micros))


# Streams with times as `rtmon` writes them, and the lines of each: a time precedes the first line of the next message,
# the later of two counts, and one at the end has no effect.
STREAMS = [
    (time(1_700_000_000, 42) + link(NAMED) + link(NAMED), b"[1700000000.000042] " + LINE + LINE),
    (time(1, 2) + time(3, 999_999) + link(NAMED), b"[3.999999] " + LINE),
    (link(NAMED) + time(0, 0) + link(NAMED) + time(1, 2), LINE + b"[0.000000] " + LINE),
    (time(1, 2), b""),
    (time(1, 2) + link(NAMED, flags=DUMP_INTR), b"[1.000002] interrupted\n" + LINE),
    (time(1, 1_000_000) + frame(56, bytes(4)), b"[1.1000000] type 56, 20 bytes\n"),
    (time(0xFFFFFFFF, 10) + frame(3, bytes(4)), b"[4294967295.000010] done\n"),
    (frame(15, bytes(8), flags=DUMP_INTR) + link(NAMED), b"[0.000000] " + LINE),
]

# Streams with names of links, and the lines of each: a link has the name of the last message with one until it is
# deleted. A lower link in another network namespace has none, and neither has one with a name that is too long.
NAME = link(NAMED, index=3)
NAMED_LINE = b"3: a: <> link/netrom\n"
GONE = frame(17, struct.pack("<HHiII", 0, 0, 3, 0, 0))
BELOW = attribute(5, b"\3\0\0\0")
STREAMS += [
    (NAME + frame(24, ROUTE), NAMED_LINE + b"default via 10.1.0.2 dev a\n"),
    (NAME + frame(28, NEIGHBOUR), NAMED_LINE + SHOWN.replace(b"if3", b"a")),
    (NAME + GONE + frame(28, NEIGHBOUR), NAMED_LINE + b"Deleted 3: if3: <> link/netrom\n" + SHOWN),
    (NAME + link(index=3) + frame(28, NEIGHBOUR), NAMED_LINE + b"3: if3: <> link/netrom\n" + SHOWN.replace(b"if3", b"a")),
    (NAME + link(NAMED, BELOW), NAMED_LINE + b"7: a@a: <> link/netrom\n"),
    (NAME + link(NAMED, attribute(10, b"\3\0\0\0")), NAMED_LINE + b"7: a: <> master a link/netrom\n"),
    (NAME + link(NAMED, BELOW, attribute(37, b"\2\0\0\0")), NAMED_LINE + b"7: a@if3: <> link/netrom link-netnsid 2\n"),
    (link(NAMED, index=-1) + link(attribute(5, b"\xff\xff\xff\xff")), b"-1: a: <> link/netrom\n7: if7@a: <> link/netrom\n"),
    (NAME + settings(2, (1, 3)) + prefix(index=3) + hop(integer(5, 3)), NAMED_LINE + b"inet a\ndev a\nid 0 dev a\n"),
    (NAME + b"".join(ABOUT_3), NAMED_LINE + ABOUT_A),
]
STREAMS += [
    (
        link(attribute(3, name), index=3) + frame(28, NEIGHBOUR),
        b"3: " + own + b": <> link/netrom\n" + SHOWN.replace(b"if3", shown_name),
    )
    for name, own, shown_name in (
        (b"\xff\0", b"\\xff", b"\\xff"),
        (b"b" * 15, b"b" * 15, b"b" * 15),
        (b"b" * 16, b"b" * 16, b"if3"),
    )
]

# Requests with NLM_F_REQUEST and NLM_F_ACK, and the lines of each: the kernel may refuse what they ask for, so they
# change no name.
ASKED = 5
STREAMS += [
    (
        NAME + link(attribute(3, b"b\0"), index=3, flags=ASKED) + error(b"", code=-16) + frame(28, NEIGHBOUR),
        NAMED_LINE + b"request 3: b: <> link/netrom\nerror -16 (Device or resource busy)\n" + SHOWN.replace(b"if3", b"a"),
    ),
    (
        NAME + frame(17, GONE[16:], flags=ASKED) + frame(28, NEIGHBOUR),
        NAMED_LINE + b"request delete 3: if3: <> link/netrom\n" + SHOWN.replace(b"if3", b"a"),
    ),
]
LINES += [
    (frame(25, ROUTE, flags=ASKED), b"request delete default via 10.1.0.2 dev if3\n"),
    (frame(19, GONE[16:], flags=ASKED), b"request Set 3: if3: <> link/netrom\n"),
]

# Requests for a dump with a `struct ifinfomsg` and IFLA_EXT_MASK, as iproute2 before 5.0 sends them, and requests for an
# id with one byte and with three; and the line of each.
OLD = b"\2" + bytes(15) + attribute(29, b"\1\0\0\0")
LINES += [(frame(kind, OLD, flags=0x301), f"type {kind}, 40 bytes\n".encode()) for kind in (22, 26, 82, 90, 106, 118)]
LINES += [(frame(90, bytes(size), flags=1), b"Get nsid\n") for size in (1, 3)]

# An address, a route and a neighbour of MCTP (45), whose addresses have one byte, and the line of each.
LINES += [
    (frame(kind, b"\x2d" + bytes(size - 1) + attribute(at, b"\x09")), f"type {kind}, {24 + size} bytes\n".encode())
    for kind, size, at in ((20, 8, 2), (24, 12, 1), (28, 12, 1))
]

# Messages, and the objects of each with `--json`: of `ip -j` 6.1 for the same values (examples/captured/json), or as
# docs/FORMAT.md defines them.
NUMBERS = '"nlmsg_flags":0,"nlmsg_seq":0,"nlmsg_pid":0'


def object_text(name, rest="", flags=0):
    return f'{{"message":"{name}","nlmsg_flags":{flags},"nlmsg_seq":0,"nlmsg_pid":0{rest and ","}{rest}}}\n'


def link_object(name='"a"', rest="", flags=0):
    return object_text("RTM_NEWLINK", f'"ifindex":7,"ifname":{name},"flags":[],"link_type":"netrom"{rest}', flags)


def before(members, text):
    return f"{{{members},{text[1:]}"


LINK_OBJECT, INVALID = link_object(), '"code":-22,"strerror":"Invalid argument"'
DONE_OBJECT = object_text("NLMSG_DONE", '"code":0', DUMP_INTR)
NEIGHBOUR_MEMBERS = '"dst":"10.1.0.4","dev":"if3","lladdr":"02:00:00:00:00:03","state":["STALE"]'
OF_NAMED = object_text("RTM_NEWNEIGH", NEIGHBOUR_MEMBERS.replace("if3", "a"))
ROUTE_MEMBERS = '"dst":"default","gateway":"10.1.0.2","dev":"if3","flags":[]'
ZERO_MEMBERS = '"type":"none","dst":"default","protocol":"unspec","flags":[]'
RULE_MEMBERS = '"priority":0,"src":"all","table":"main"'
HEADED = struct.pack("<IHHII", 17, 56, 0x8001, 7, 0xFFFFFFFF) + b"a"
OBJECTS = [
    (link(NAMED), LINK_OBJECT),
    (HEADED, '{"type":56,"bytes":17,"nlmsg_flags":32769,"nlmsg_seq":7,"nlmsg_pid":4294967295}\n'),
    (frame(22, OLD, flags=0x301), f'{{"type":22,"bytes":40,{NUMBERS.replace("0", "769", 1)}}}\n'),
    (frame(20, b"\x2d" + bytes(7) + attribute(2, b"\x09")), f'{{"type":20,"bytes":32,{NUMBERS}}}\n'),
    (frame(24, bytes(12)), object_text("RTM_NEWROUTE", ZERO_MEMBERS)),
    (frame(1, b""), object_text("NLMSG_NOOP")),
    (frame(4, b""), object_text("NLMSG_OVERRUN")),
]
# What the kernel says.
OBJECTS += [
    (error(b"", code=0, flags=0x100), object_text("NLMSG_ERROR", '"code":0', 0x100)),
    (error(TEXT, code=0), object_text("NLMSG_ERROR", '"code":0,"text":"a b"', 0x300)),
    (error(TEXT), object_text("NLMSG_ERROR", f'{INVALID},"text":"a b"', 0x300)),
    (error(attribute(2, b"\x24\0\0\0") + TEXT), object_text("NLMSG_ERROR", f'{INVALID},"text":"a b; byte 36"', 0x300)),
    (error(attribute(2, bytes(4))), object_text("NLMSG_ERROR", f'{INVALID},"text":"byte 0"', 0x300)),
    (error(attribute(1, b'a"b\0')), object_text("NLMSG_ERROR", f'{INVALID},"text":"a\\"b"', 0x300)),
    (error(b"", code=-41), object_text("NLMSG_ERROR", '"code":-41', 0x300)),
    (frame(3, bytes(4), flags=2), object_text("NLMSG_DONE", '"code":0', 2)),
    (frame(3, struct.pack("<i", -22) + TEXT, flags=0x202), object_text("NLMSG_DONE", f'{INVALID},"text":"a b"', 0x202)),
]
# Times and NLM_F_DUMP_INTR.
OBJECTS += [
    (time(1, 1_000_000) + link(NAMED), before('"sec":1,"usec":1000000', LINK_OBJECT)),
    (time(1, 2) + 2 * frame(1, b""), before('"sec":1,"usec":2', object_text("NLMSG_NOOP")) + object_text("NLMSG_NOOP")),
    (link(NAMED, flags=DUMP_INTR), before('"interrupted":true', link_object(flags=DUMP_INTR))),
    (time(1, 2) + frame(3, bytes(4), flags=DUMP_INTR), before('"sec":1,"usec":2,"interrupted":true', DONE_OBJECT)),
]
# Strings with any bytes: names and an alias in UTF-8 and in Latin-1, an incomplete sequence, and signs that JSON escapes.
ACCENTED, CUT = attribute(20, b"caf\xc3\xa9\0"), attribute(20, b"\xc3(\0")
ALTERNATIVES = attribute(52, attribute(53, b"\xe9t\xe9\0") + attribute(53, b"b\0") + attribute(53, b"\xff\0"))
OBJECTS += [
    (link(NAMED, ACCENTED), link_object(rest=',"ifalias":"caf\xc3\xa9"')),
    (link(NAMED, attribute(20, b"caf\xe9\0")), link_object(rest=',"ifalias":"caf\\u00e9","raw":{"ifalias":"636166e9"}')),
    (
        link(attribute(3, b"\xff\0"), CUT),
        link_object('"\\u00ff"', ',"ifalias":"\\u00c3(","raw":{"ifname":"ff","ifalias":"c328"}'),
    ),
    (
        link(NAMED, ALTERNATIVES),
        link_object(rest=',"altnames":["\\u00e9t\\u00e9","b","\\u00ff"],"raw":{"altnames":["e974e9","ff"]}'),
    ),
    (link(attribute(3, b'a"\\\n\1\x7f\0')), link_object('"a\\"\\\\\\u000a\\u0001\\u007f"')),
]
# The other families.
OBJECTS += [
    (link(NAMED, attribute(18, attribute(1, b"veth"))), link_object(rest=',"linkinfo":{"info_kind":"veth"}')),
    (frame(24, ROUTE), object_text("RTM_NEWROUTE", ROUTE_MEMBERS)),
    (frame(25, ROUTE), object_text("RTM_DELROUTE", f'"deleted":true,{ROUTE_MEMBERS}')),
    (frame(25, ROUTE, flags=ASKED), object_text("RTM_DELROUTE", f'"request":true,"deleted":true,{ROUTE_MEMBERS}', ASKED)),
    (frame(28, NEIGHBOUR), object_text("RTM_NEWNEIGH", NEIGHBOUR_MEMBERS)),
    (frame(29, NEIGHBOUR), object_text("RTM_DELNEIGH", f'"deleted":true,{NEIGHBOUR_MEMBERS}')),
    (frame(30, NEIGHBOUR), object_text("RTM_GETNEIGH", f'"miss":null,{NEIGHBOUR_MEMBERS}')),
    (link(NAMED, index=3) + frame(28, NEIGHBOUR), LINK_OBJECT.replace("7", "3") + OF_NAMED),
    (frame(32, b"\2\0\0\0\xfe\0\0\1" + bytes(4)), object_text("RTM_NEWRULE", RULE_MEMBERS)),
    (frame(64, b"\2\0\0\0" + attribute(1, b"ndisc\0")), object_text("RTM_NEWNEIGHTBL", '"family":"inet","name":"ndisc"')),
    (frame(88, bytes(4) + attribute(1, b"\5\0\0\0")), object_text("RTM_NEWNSID", '"nsid":5')),
]
# Next hops with an id, a resilient group and a bucket of it, settings of links, and an announced prefix, which `ip` prints
# no object of.
HOP = b"\2\0\4" + bytes(5) + attribute(1, b"\1\0\0\0") + attribute(6, b"\n\1\0\2") + attribute(5, b"\3\0\0\0")
HOP_MEMBERS = '"id":1,"gateway":"10.1.0.2","dev":"if3","protocol":"static","flags":[]'
OF_NAMED_HOP = object_text("RTM_NEWNEXTHOP", HOP_MEMBERS.replace("if3", "a"))
RESILIENT = attribute(1, b"\x20\0") + attribute(2, b"\xe0\x2e\0\0") + attribute(3, b"\x96\0\0\0")
RESILIENT += attribute(4, b"\x7b" + bytes(7))
HOP_GROUP = bytes(8) + attribute(1, b"\n\0\0\0") + attribute(2, b"\1" + bytes(7) + b"\2\0\0\0\2\0\0\0")
HOP_GROUP += attribute(3, b"\1\0") + attribute(12, RESILIENT)
HOP_GROUP_MEMBERS = '"id":10,"group":[{"id":1},{"id":2,"weight":3}],"type":"resilient","resilient_args":{"buckets":32,'
HOP_GROUP_MEMBERS += '"idle_timer":120,"unbalanced_timer":1.5,"unbalanced_time":1.23},"flags":[]'
BUCKET = bytes(8) + attribute(1, b"\n\0\0\0") + attribute(13, attribute(1, b"\7\0") + attribute(2, b"\xd2\4" + bytes(6)))
BUCKET_MEMBERS = '"id":10,"bucket":{"index":7,"idle_time":12.34},"flags":[]'
SETTINGS = b"\2\0\0\0" + attribute(1, b"\xff\xff\xff\xff") + attribute(2, b"\1\0\0\0") + attribute(3, bytes(4))
SETTING_MEMBERS = '"family":"inet","interface":"all","forwarding":true,"rp_filter":"off"'
PREFIX = b"\n\0\0\0\3\0\0\0\3\x40\3\0" + attribute(1, b"\x20\1\r\xb8" + bytes(12)) + attribute(2, b"\x64\0\0\0\xc8\0\0\0")
PREFIX_MEMBERS = '"prefix":"2001:db8::","prefixlen":64,"dev":"if3","onlink":null,"autoconf":null,"valid":200,"preferred":100'
OBJECTS += [
    (frame(104, HOP), object_text("RTM_NEWNEXTHOP", HOP_MEMBERS)),
    (frame(105, HOP, flags=ASKED), object_text("RTM_DELNEXTHOP", f'"deleted":true,{HOP_MEMBERS}', ASKED)),
    (link(NAMED, index=3) + frame(104, HOP), LINK_OBJECT.replace("7", "3") + OF_NAMED_HOP),
    (frame(104, HOP_GROUP), object_text("RTM_NEWNEXTHOP", HOP_GROUP_MEMBERS)),
    (frame(106, b"\2"), object_text("RTM_GETNEXTHOP", '"id":0,"flags":[]')),
    (frame(116, BUCKET), object_text("RTM_NEWNEXTHOPBUCKET", BUCKET_MEMBERS)),
    (frame(117, BUCKET), object_text("RTM_DELNEXTHOPBUCKET", f'"deleted":true,{BUCKET_MEMBERS}')),
    (frame(80, SETTINGS), object_text("RTM_NEWNETCONF", SETTING_MEMBERS)),
    (frame(81, SETTINGS), object_text("RTM_DELNETCONF", f'"deleted":true,{SETTING_MEMBERS}')),
    (frame(81, SETTINGS, flags=ASKED), object_text("RTM_DELNETCONF", f'"request":true,"deleted":true,{SETTING_MEMBERS}', ASKED)),
    (frame(82, b"\n"), object_text("RTM_GETNETCONF", '"family":"inet6"')),
    (frame(52, PREFIX), object_text("RTM_NEWPREFIX", PREFIX_MEMBERS)),
]


def captured_lines():
    """Returns the captured datagrams by their names, each with its lines after those before it."""
    folder = os.path.join(TOP, "examples", "captured")
    captured = {it: open(os.path.join(folder, f"{it}.bin"), "rb").read() for it in [*CAPTURED, *ANSWERS]}
    known = {}
    return {name: (data, ANSWERS.get(name) or lines_of(data, known)) for name, data in captured.items()}


def in_packets(data):
    """Returns a pcap file with each message of a stream in a packet of its own."""
    parts = [pcap_header()]
    while data:
        size = number(data[:4])
        parts.append(pcap_packet(data[:size]))
        data = data[size + -size % 4 :]
    return b"".join(parts)


def rows():
    """Yields the runs whose input can be read and whose output can be written."""
    captured = captured_lines()
    for name, (data, _) in captured.items():
        yield row(name, [], (0, ANSWERS.get(name) or lines_of(data, {}), ""), data)
    whole, all_lines = (b"".join(it) for it in zip(*captured.values()))
    yield row("all of them", [], (0, all_lines, ""), whole)
    yield row("nothing", [], (0, b"", ""))
    for data, error in STOPS:
        yield row(data.hex(), [], (1, b"", f"byte 0: {error}"), data)
        longer = link(NAMED) + data
        yield row(longer.hex(), [], (1, LINE, f"byte 40: {error}"), longer)
    for data, error in MALFORMED:
        yield row(data.hex(), [], (1, f"byte 0: {error}\n".encode(), BAD), data)
        lines = LINE + f"byte 40: {error}\n".encode() + LINE
        longer = link(NAMED) + padded(data) + link(NAMED)
        yield row(longer.hex(), [], (1, lines, BAD), longer)
        yield row((longer + b"\0").hex(), [], (1, lines, f"byte {len(longer)}: {STOPS[0][1]}"), longer + b"\0")
    for data, line in LINES:
        yield row(data[:99].hex(), [], (0, line, ""), data)
        yield row(data[:99].hex(), [], (0, LINE + line + LINE, ""), link(NAMED) + padded(data) + link(NAMED))
    for data, lines in STREAMS:
        yield row(data.hex(), [], (0, lines, ""), data)
        yield row(f"{data.hex()} in packets", [], (0, lines, ""), in_packets(data))
    lines = b"netlink family 16, 0 bytes\n[1.000002] " + LINE
    data = in_packets(time(1, 2)) + pcap_packet(b"", family=16) + pcap_packet(link(NAMED))
    yield row(data.hex(), [], (0, lines, ""), data)
    data = time(1, 2) + MALFORMED[0][0]
    yield row(data.hex(), [], (1, f"[1.000002] byte 24: {MALFORMED[0][1]}\n".encode(), BAD), data)
    data = in_packets(time(1, 2)) + pcap_packet(link(NAMED) + frame(1, b""))
    yield row(f"{data.hex()} with a label", ["--label"], (0, b"[1.000002] [LINK]" + LINE + b"noop\n", ""), data)
    for name, labelled in (("next hops", LABELLED), ("bridges and statistics", BRIDGE_LABELLED)):
        lines = b"".join(line for _, line in labelled)
        yield row(f"{name} with labels", ["--label"], (0, lines, ""), joined(data for data, _ in labelled))
    yield row("a time and its bytes", ["--bytes"], (0, b"[1.000002] " + LINE + BYTES, ""), time(1, 2) + link(NAMED))
    yield row("labels and bytes", ["--label", "--bytes"], (0, b"[LINK]" + LINE + BYTES, ""), link(NAMED))
    options = ["--bytes", "--time", "--label"]
    yield row("all options", options, (0, b"[1700000000.000005] [LINK]" + LINE + BYTES, ""), in_packets(link(NAMED)))
    yield row("bytes and labels", ["--bytes", "--label"], (0, b"[LINK]" + LINE + BYTES, ""), in_packets(link(NAMED)))
    for data, objects in OBJECTS:
        yield row(f"{data.hex()} as JSON", ["--json"], (0, objects.encode("latin-1"), ""), data)
        yield row(f"{data.hex()} in packets as JSON", ["--json"], (0, objects.encode("latin-1"), ""), in_packets(data))
    data, rest = link(NAMED) + padded(MALFORMED[0][0]), f'"error":"{MALFORMED[0][1]}",{NUMBERS}}}\n'
    yield row(f"{data.hex()} as JSON", ["--json"], (1, (LINK_OBJECT + f'{{"byte":40,{rest}').encode(), BAD), data)
    wanted = 1, LINK_OBJECT.encode(), f"byte 40: {STOPS[0][1]}"
    yield row("a message that ends early as JSON", ["--json"], wanted, link(NAMED) + b"\0")
    timed = time(1, 2) + MALFORMED[0][0]
    yield row(f"{timed.hex()} as JSON", ["--json"], (1, f'{{"sec":1,"usec":2,"byte":24,{rest}'.encode(), BAD), timed)
    whole = pcap_packet(bytes(40), family=16) + pcap_packet(link(NAMED) + frame(56, b"abc"))
    objects = ['{"netlink_family":16,"bytes":40}\n', LINK_OBJECT, f'{{"type":56,"bytes":19,{NUMBERS}}}\n']
    yield row("packets as JSON", ["--json"], (0, "".join(objects).encode(), ""), pcap_header() + whole)
    stamped = "".join([objects[0], *[before('"sec":1700000000,"usec":5', it) for it in objects[1:]]]).encode()
    for words in (["--json", "--time"], ["--time", "--json"]):
        yield row(f"packets with {words}", words, (0, stamped, ""), pcap_header() + whole)
    data = pcap_header() + pcap_packet(link(NAMED) + b"\1") + pcap_packet(b"", device=1)
    objects = [LINK_OBJECT, f'{{"byte":96,"error":"{FRAME}length is 1 but {MINIMUM}"}}\n']
    objects += ['{"byte":97,"error":"the device type of a packet is 1 instead of 824 (NETLINK)"}\n']
    yield row("damaged packets as JSON", ["--json"], (1, "".join(objects).encode(), BAD), data)
    for more in ("--bytes", "--label", "--json", "--time --time"):
        for words in (f"--json {more}", f"{more} --json"):
            yield row(f"arguments {words}", words.split(), USAGE, link(NAMED))
    for words in (["links"], [""], ["-h"], ["a", "b"], [b"\xff"], ["label"], ["--labels"], ["--label", "--label"], ["--time", "--time"], ["--time", "--label", "--time"]):
        yield row(f"arguments {words}", words, USAGE, link(NAMED))


def stop_of(data):
    """Returns why bytes start with no whole message, or None."""
    left, said = len(data), number(data[:4])
    if left < 16:
        return f"{FRAME}length is {left} but {MINIMUM}"
    if said < 16:
        return f"{FRAME}length field says {said} but {MINIMUM}"
    if said > LONGEST:
        return f"a message of {said} bytes is longer than {LONGEST}"
    return f"{FRAME}length field says {said} the buffer is {left} bytes long" if said > left else None


def shown(data, offset=0):
    """Returns what the program does with a stream of messages of unknown types, at an offset of its input: its status,
    output and error. Returns None if a type is known."""
    at, lines = 0, []
    while at < len(data):
        if error := stop_of(data[at:]):
            return 1, "".join(lines).encode(), f"byte {offset + at}: {error}"
        said, kind = number(data[at : at + 4]), number(data[at + 4 : at + 6])
        if kind in KNOWN:
            return None
        mark = "interrupted\n" if number(data[at + 6 : at + 8]) & 0x10 else ""
        lines.append(f"{mark}type {kind}, {said} bytes\n")
        at += (said + 3) & ~3
    return 0, "".join(lines).encode(), ""


def stream_rows():
    """Yields every prefix of a stream, streams with a damaged length, and random bytes."""
    made = random.Random(1)
    whole = b"".join(padded(frame(kind, made.randbytes(kind % 7))) for kind in range(40, 61) if kind not in KNOWN)
    for cut in range(len(whole) + 1):
        yield row(f"the first {cut} bytes", [], shown(whole[:cut]), whole[:cut])
    damaged = []
    while len(damaged) < 200:
        at = 4 * made.randrange(len(whole) // 4)
        damaged.append(whole[:at] + made.randbytes(made.choice((1, 2, 4))) + whole[at + 4 :])
    while len(damaged) < 300:
        damaged.append(bytes(made.choice((0, 0, 40, made.randrange(256))) for _ in range(made.randrange(80))))
    for place, data in enumerate(damaged):
        if wanted := shown(data):
            yield row(f"damaged stream {place}", [], wanted, data)


def failing_rows(devices):
    """Yields runs whose input cannot be read, whose output cannot be written, or whose standard error is closed.

    The program writes the lines of a message before it reads on, so it reports `write failed` instead of a later error of
    the input. It writes nothing for no message, so no device can fail then. It checks its arguments before it reads or
    writes.
    """
    data, (rejected, error) = link(NAMED), STOPS[0]
    yield from devices.unread("netlink_show", [])
    yield from devices.unwritten("a link", [], data)
    yield from devices.unwritten("a link and an error", [], data + rejected)
    yield from devices.unwritten("an error alone", [], rejected, (1, b"", f"byte 0: {error}"))
    yield from devices.unwritten("nothing", [], b"", (0, b"", ""))
    yield from devices.unread("netlink_show --json", ["--json"])
    yield from devices.unwritten("an object", ["--json"], data)
    yield from devices.unwritten("an object and an error", ["--json"], data + rejected)
    yield silent("an object and an error", ["--json"], (1, LINK_OBJECT.encode()), data + rejected)
    yield from devices.unwritten("an argument", ["links"], data, USAGE)
    yield row("an argument and a closed input", ["links"], USAGE, closed="0<&-")
    yield silent("a link", [], (0, LINE), data)
    yield silent("a link and an error", [], (1, LINE), data + rejected)
    yield silent("an argument", ["links"], USAGE, data)
    yield row("a directory, no standard error", [], (1, b"", ""), devices.folder, closed="2>&-")


def live_checks(program):
    """Yields what differs on pipes that stay open, that are closed early, or that carry many messages, or None. Padding
    comes late, with the next message; a packet is whole before its lines appear."""
    kind, broken = frame(56, b"abc"), MALFORMED[0]
    messages = [(link(NAMED), LINE, LINK_OBJECT), (kind, b"type 56, 19 bytes\n", f'{{"type":56,"bytes":19,{NUMBERS}}}\n')]
    messages += [(frame(28, NEIGHBOUR), SHOWN, object_text("RTM_NEWNEIGH", NEIGHBOUR_MEMBERS))]
    messages += [(broken[0], f"byte 108: {broken[1]}\n".encode(), f'{{"byte":108,"error":"{broken[1]}",{NUMBERS}}}\n')]
    said = object_text("NLMSG_ERROR", f'{INVALID},"text":"a b"', 0x300)
    messages += [(error(TEXT), b"error -22 (Invalid argument): a b\n", said)]
    lines, objects, at = [], [], 0
    for data, line, text in messages:
        lines.append((bytes(-at % 4), data, line))
        objects.append((bytes(-at % 4), data, text.encode()))
        at += -at % 4 + len(data)
    yield live_error(program, lines, (1, f"{BAD}\n".encode()))
    yield live_error(program, objects, (1, f"{BAD}\n".encode()), "--json")
    two = link(NAMED) + link(NAMED)
    packets = [(pcap_header(), pcap_packet(two), LINE + LINE), (b"", pcap_packet(link(NAMED)), LINE)]
    yield live_error(program, packets, (0, b""))
    packets = [(before, data, LINK_OBJECT.encode() * (len(lines) // len(LINE))) for before, data, lines in packets]
    yield live_error(program, packets, (0, b""), "--json")
    start = b"".join([section(), *others("<"), interface()])
    blocks = [(start, enhanced(packed(two)), LINE + LINE), (b"".join(others("<")), simple(packed(link(NAMED))), LINE)]
    yield live_error(program, [*blocks, (section(">") + interface(">"), enhanced(packed(two), ">"), LINE + LINE)], (0, b""))
    yield closed_error(program, link(NAMED), LINE)
    many = 1024 * link(NAMED, attribute(200, bytes(1000)))
    yield memory_error(program, b"", many, 64)
    yield memory_error(program, pcap_header(), 32 * pcap_packet(many[: len(many) // 32]), 64)
    datagram = packed(many[: len(many) // 32])
    yield memory_error(program, start, 32 * enhanced(datagram), 64)
    yield memory_error(program, section(), block(5, bytes(1 << 24)), 4)
    yield padding_error(program)
    yield names_error(program)


def padding_error(program):
    """Passes all datagrams of the files of programs in examples/captured as packets, with the zeros that `ip` sends after
    some requests. Returns what differs from the lines of the same messages as a stream, without the zeros, or None."""
    datagrams = []
    for name in ("programs.tsv", "kinds.tsv"):
        with open(os.path.join(TOP, "examples", "captured", name), encoding="utf-8") as file:
            datagrams += [bytes.fromhex(line.split("\t")[2]) for line in file if not line.startswith("#")]
    unpadded = [without_padding(it) for it in datagrams]
    stream = run([program], b"".join(padded(it) for it in unpadded))
    packets = run([program], pcap_header() + b"".join(pcap_packet(it) for it in datagrams))
    zeros = sum(len(it) - len(rest) for it, rest in zip(datagrams, unpadded))
    good = stream == packets and stream[0] == 0 and stream[1] and not stream[2] and zeros
    return None if good else f"programs: status {stream[0]} as a stream, {packets[0]} as packets, {packets[2]}"


def names_error(program):
    """Names 65,537 links. The first is then not known any more. The program may take 16 MB of memory. Returns what
    differs, or None."""
    by = [frame(24, ROUTE[:12] + attribute(4, struct.pack("<I", index))) for index in (1, 2)]
    named = [link(NAMED, index=index) for index in range(1, 65_538)]
    with tempfile.TemporaryFile() as output, subprocess.Popen([program], stdin=subprocess.PIPE, stdout=output) as run:
        run.stdin.write(b"".join([*named[:-1], by[0], named[-1], *by]))
        run.stdin.flush()
        with open(f"/proc/{run.pid}/status") as file:
            peak = next(int(line.split()[1]) for line in file if line.startswith("VmHWM:"))
        run.stdin.close()
        status = run.wait()
        output.seek(0)
        wrote = output.read().splitlines()[65_536:]
    wanted = [b"default dev a", b"65537: a: <> link/netrom", b"default dev if1", b"default dev a"]
    good = status == 0 and wrote == wanted and peak <= 16_000
    return None if good else f"65,537 links: status {status}, {peak} kB of memory, {wrote[:4]}"


def all_frames():
    """Returns the frames whose bytes are compared with their lines: those of the files in examples/captured and of
    tests/kinds.txt, well-formed and malformed, and those of this script."""
    names = ("ip/frames.bin", "monitor/stream.bin", "traffic/stream.bin", "bridge/stream.bin")
    frames = [frame for name in names for frame in frames_of(name)]
    frames += [frame for _name, _test, frame, _text in kind_rows()]
    return frames + [data for data, _line in [*LINES, *MALFORMED]]


def main():
    program = built("netlink_show", "netlink_show")
    streams = [*captured_lines().values()]
    files = [*pcap_rows(frame, shown, streams), *pcapng_rows(frame, shown, streams), *time_rows(frame, link(NAMED), LINE)]
    all_rows = [*rows(), *stream_rows(), *files, *failing_rows(FailingDevices()), *monitor_rows(stop_of)]
    errors = [it for it in in_parallel(lambda it: error_of(program, it), all_rows) if it]
    checks = [*live_checks(program), request_error(program)]
    errors += [it for it in checks if it]
    from_ip, frames = ip_errors(program)
    from_monitor, messages = monitor_errors(program)
    from_tshark, read = tshark_errors(frame)
    from_blocks, more = tshark_block_errors(frame)
    from_times, timed = time_errors(program, frame)
    from_file, lines = pcapng_errors(program)
    if read is None:
        print("skipped: tshark (it is not installed)")
    bytes_of, inputs = all_frames(), json_cases(all_rows)
    from_objects, objects = object_errors(program)
    from_replays, replays = replayed_errors(program)
    errors += [it for it in in_parallel(lambda it: case_error(program, it), inputs) if it]
    from_packets, packets = packet_errors(program)
    errors += [*from_objects, *from_replays, *from_packets, *text_errors(program, "all frames", joined(bytes_of), bytes_of)]
    errors += from_ip + from_monitor + from_tshark + from_blocks + from_times + from_file + [*byte_errors(program, bytes_of)]
    counted = len(all_rows) + len(checks) + frames + messages + 2 * len(bytes_of) + (read or 0) + more + timed + lines
    counted += len(inputs) + objects + replays + packets
    tally("show", errors, counted - len(errors))


main()
