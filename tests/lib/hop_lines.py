"""Messages about next hops, settings of links and announced prefixes, made by hand after linux/nexthop.h, netconf.h and
rtnetlink.h, and the lines and the errors of `netlink_show` for them. tests/steps/show.py runs the program on them.

Each line follows its label. `ip monitor` of iproute2 6.1 prints those of OF_IP, apart from spaces, if /etc/iproute2 is
empty. docs/FORMAT.md defines those of BY_HAND.
"""

import re
import struct

ALL, DEFAULT = -1, -2  # NETCONFA_IFINDEX_ALL and NETCONFA_IFINDEX_DEFAULT
NESTED = 0x8000  # NLA_F_NESTED
ASKED, DUMP = 5, 0x301  # NLM_F_REQUEST, with NLM_F_ACK and with NLM_F_DUMP
FOUR, SIX = bytes([192, 0, 2, 1]), bytes.fromhex("20010db8000000000000000000000000")


def message(kind, body, flags=0):
    return struct.pack("<IHHII", 16 + len(body), kind, flags, 0, 0) + body


def attribute(kind, value):
    return struct.pack("<HH", 4 + len(value), kind) + value + bytes(-len(value) % 4)


def integer(kind, value, size=4):
    return attribute(kind, (value % (1 << 8 * size)).to_bytes(size, "little"))


def settings(family, *values, kind=80, flags=0):
    """Returns a message about the settings of a link: its family, and its attributes with their numbers."""
    return message(kind, bytes([family, 0, 0, 0]) + b"".join(integer(*it) for it in values), flags)


def prefix(*attributes, index=5, length=64, marks=0, family=10, of=3, flags=0):
    """Returns a message about a prefix. `marks` are its flags, and `of` is the type of what announced it."""
    head = struct.pack("<BBHIBBBB", family, 0, 0, index, of, length, marks, 0)
    return message(52, head + b"".join(attributes), flags)


def hop(*attributes, kind=104, family=2, scope=0, protocol=0, marks=0, flags=0):
    """Returns a message about a next hop, a group or a bucket. `marks` are the flags of the next hop."""
    return message(kind, struct.pack("<BBBBI", family, scope, protocol, 0, marks) + b"".join(attributes), flags)


def group(*members):
    """Returns the group of these members: the id, the lower and the upper byte of the weight less 1."""
    return attribute(2, b"".join(struct.pack("<IBBH", *it, 0) for it in members))


def resilient(buckets, idle, unbalanced, time):
    """Returns what a resilient group has, with times in hundredths of a second."""
    times = integer(2, idle), integer(3, unbalanced), integer(4, time, 8)
    return attribute(12 | NESTED, b"".join([integer(1, buckets, 2), *times]))


def bucket(*attributes):
    return attribute(13 | NESTED, b"".join(attributes))


def life(preferred, valid):
    return attribute(2, struct.pack("<II", preferred, valid))


ID, TEN, LINK, VIA = integer(1, 1), integer(1, 10), integer(5, 5), attribute(6, FOUR)
ADDRESS = attribute(1, SIX)
INDEX, TIME, MEMBER = integer(1, 7, 2), integer(2, 1234, 8), integer(3, 2)
RESILIENT = integer(3, 1, 2)
MPLS = [integer(7, 1, 2), attribute(8, attribute(1, bytes.fromhex("00064100")))]

# Settings of all links, of those to come and of one; each value, numbers without a name, and families.
OF_IP = [
    (
        settings(2, (1, ALL), (2, 1), (3, 0), (4, 0), (5, 1), (6, 0), (8, 1)),
        "[NETCONF]inet all forwarding on rp_filter off mc_forwarding off proxy_neigh on"
        " ignore_routes_with_linkdown off",
    ),
    (settings(2, (1, DEFAULT), (3, 1)), "[NETCONF]inet default rp_filter strict"),
    (settings(2, (1, 5), (3, 2), (7, 1)), "[NETCONF]inet if5 rp_filter loose input on"),
    (settings(10, (1, 5), (3, 3), (2, -1)), "[NETCONF]inet6 if5 forwarding on rp_filter 3"),
    (settings(28, (1, 5), (7, 0)), "[NETCONF]mpls if5 input off"),
    (settings(2, (1, 5), kind=81), "[NETCONF]Deleted inet if5"),
    (settings(7, (1, 0), (4, 2)), "[NETCONF]bridge * mc_forwarding on"),
    (settings(17, (6, 1), (1, -3)), "[NETCONF]link if4294967293 ignore_routes_with_linkdown on"),
    (settings(2, (3, -1), (3, 1)), "[NETCONF]inet rp_filter 4294967295"),
]

# Prefixes with each flag and both, without an address, without lifetimes, and with more bytes than the kernel sends.
OF_IP += [
    (
        prefix(ADDRESS, life(100, 200), marks=3),
        "[PREFIX]prefix 2001:db8::/64 dev if5 onlink autoconf valid 200 preferred 100",
    ),
    (prefix(ADDRESS), "[PREFIX]prefix 2001:db8::/64 dev if5"),
    (prefix(life(100, 0xFFFFFFFF), marks=1), "[PREFIX]dev if5 onlink valid 4294967295 preferred 100"),
    (prefix(life(100, 0xFFFFFFFF), marks=4), "[PREFIX]dev if5 valid 4294967295 preferred 100"),
    (
        prefix(attribute(2, b"\1\0\0\0\2\0\0\0abcd"), attribute(1, bytes(16)), index=9, length=0, marks=0x3E),
        "[PREFIX]prefix ::/0 dev if9 autoconf valid 2 preferred 1",
    ),
    (prefix(attribute(1, bytes(15) + b"\1"), index=0, length=128), "[PREFIX]prefix ::1/128 dev *"),
]

# Next hops by a gateway, a link, both or neither; scopes, protocols and flags, with names and without; no id; and
# attributes that have no words.
OF_IP += [
    (hop(ID, VIA, LINK), "[NEXTHOP]id 1 via 192.0.2.1 dev if5"),
    (hop(LINK, attribute(6, SIX), ID, family=10, protocol=4), "[NEXTHOP]id 1 via 2001:db8:: dev if5 proto static"),
    (hop(ID, LINK, scope=253, protocol=3), "[NEXTHOP]id 1 dev if5 scope link proto boot"),
    (hop(ID, scope=77, protocol=99), "[NEXTHOP]id 1 scope 77 proto 99"),
    (hop(ID, attribute(4, b"")), "[NEXTHOP]id 1 blackhole"),
    (hop(ID, attribute(4, b""), integer(5, 0)), "[NEXTHOP]id 1 blackhole"),
    (hop(ID, integer(5, 9), marks=0x5F), "[NEXTHOP]id 1 dev if9 dead onlink pervasive offload trap linkdown"),
    (
        hop(ID, attribute(11, b""), attribute(4, b""), scope=254, protocol=186, marks=0xFFFFFFFF),
        "[NEXTHOP]id 1 scope host blackhole proto bgp dead onlink pervasive offload trap notify linkdown unresolved"
        " rt_offload rt_trap rt_offload_failed fdb",
    ),
    (hop(ID, VIA, attribute(11, b"")), "[NEXTHOP]id 1 via 192.0.2.1 fdb"),
    (hop(ID, kind=105), "[NEXTHOP]Deleted id 1"),
    (hop(), "[NEXTHOP]id 0"),
    (hop(integer(1, -1), protocol=186), "[NEXTHOP]id 4294967295 proto bgp"),
    (hop(ID, integer(1, 2), attribute(9, b""), integer(10, 5), integer(14, 1)), "[NEXTHOP]id 1"),
    (hop(ID, integer(7, 1, 2)), "[NEXTHOP]id 1"),
    (hop(ID, integer(7, 6, 2), attribute(8, b"")), "[NEXTHOP]id 1 encap bpf"),
    (hop(attribute(8, b""), integer(7, 99, 2), VIA), "[NEXTHOP]id 0 encap unknown via 192.0.2.1"),
]

# Groups: weights, types, and times of each length.
OF_IP += [
    (hop(TEN, group((1, 0, 0), (2, 2, 0)), integer(3, 0, 2), family=0), "[NEXTHOP]id 10 group 1/2,3"),
    (hop(group((0xFFFFFFFF, 255, 0)), TEN), "[NEXTHOP]id 10 group 4294967295,256"),
    (hop(TEN, RESILIENT), "[NEXTHOP]id 10 type resilient"),
    (
        hop(TEN, group((1, 0, 0), (2, 2, 0)), RESILIENT, resilient(32, 12000, 150, 123), family=0),
        "[NEXTHOP]id 10 group 1/2,3 type resilient buckets 32 idle_timer 120 unbalanced_timer 1.5"
        " unbalanced_time 1.23",
    ),
    (
        hop(TEN, resilient(65535, 5, 10, 1), LINK, kind=105),
        "[NEXTHOP]Deleted id 10 buckets 65535 idle_timer 0.05 unbalanced_timer 0.1 unbalanced_time 0.01 dev if5",
    ),
    (
        hop(TEN, resilient(1, 100, 1001, 999999)),
        "[NEXTHOP]id 10 buckets 1 idle_timer 1 unbalanced_timer 10.01 unbalanced_time 9999.99",
    ),
    (
        hop(TEN, attribute(12, integer(3, 99))),
        "[NEXTHOP]id 10 buckets 0 idle_timer 0 unbalanced_timer 0.99 unbalanced_time 0",
    ),
    (
        hop(TEN, attribute(12 | NESTED, b"")),
        "[NEXTHOP]id 10 buckets 0 idle_timer 0 unbalanced_timer 0 unbalanced_time 0",
    ),
]

# Buckets: attributes in another order, flags, and what is missing.
OF_IP += [
    (hop(TEN, bucket(INDEX, TIME, MEMBER), kind=116), "[NEXTHOPBUCKET]id 10 index 7 idle_time 12.34 nhid 2"),
    (
        hop(TEN, bucket(MEMBER, TIME, INDEX), kind=116, protocol=3, marks=0x45),
        "[NEXTHOPBUCKET]id 10 index 7 idle_time 12.34 nhid 2 dead onlink trap",
    ),
    (hop(bucket(integer(2, 0, 8)), kind=116), "[NEXTHOPBUCKET]idle_time 0"),
    (hop(TEN, bucket(), VIA, kind=116), "[NEXTHOPBUCKET]id 10"),
    (hop(kind=116), "[NEXTHOPBUCKET]"),
]

# What `ip` prints otherwise: families without a name, prefixes and gateways of another family, encapsulations, groups
# without members and of a type without a name, weights above 256, longer times, and buckets that are gone.
BY_HAND = [
    (settings(99, (1, 0)), "[NETCONF]family 99 *"),
    (settings(0), "[NETCONF]family 0"),
    (prefix(attribute(1, FOUR), family=2, marks=1), "[PREFIX]prefix 192.0.2.1/64 dev if5 onlink"),
    (prefix(ADDRESS, of=4, marks=2), "[PREFIX]prefix 2001:db8::/64 dev if5 autoconf"),
    (prefix(ADDRESS, marks=0x80), "[PREFIX]prefix 2001:db8::/64 dev if5 onlink"),
    (prefix(ADDRESS, marks=0x40), "[PREFIX]prefix 2001:db8::/64 dev if5 autoconf"),
    (hop(ID, VIA, family=7), "[NEXTHOP]id 1 via 192.0.2.1"),
    (hop(ID, VIA, family=10), "[NEXTHOP]id 1 via 192.0.2.1"),
    (hop(ID, attribute(6, SIX)), "[NEXTHOP]id 1 via 2001:db8::"),
    (hop(ID, *MPLS, VIA, LINK), "[NEXTHOP]id 1 encap mpls via 192.0.2.1 dev if5"),
    (hop(ID, *MPLS[1:], VIA), "[NEXTHOP]id 1 via 192.0.2.1"),
    (hop(TEN, group(), integer(3, 0, 2)), "[NEXTHOP]id 10"),
    (hop(TEN, group((1, 255, 0)), integer(3, 7, 2)), "[NEXTHOP]id 10 group 1,256 type 7"),
    (hop(TEN, group((1, 0, 1), (2, 255, 255), (3, 1, 0))), "[NEXTHOP]id 10 group 1,257/2,65536/3,2"),
    (
        hop(TEN, resilient(0, 12345678, 0xFFFFFFFF, (1 << 64) - 1)),
        "[NEXTHOP]id 10 buckets 0 idle_timer 123456.78 unbalanced_timer 42949672.95"
        " unbalanced_time 184467440737095516.15",
    ),
    (hop(TEN, bucket(INDEX), kind=117), "[NEXTHOPBUCKET]Deleted id 10 index 7"),
]

# Requests, of which `ip` prints those for a change as facts, and the others as unknown.
BY_HAND += [
    (settings(2, (1, 5), kind=82), "[NETCONF]Get inet if5"),
    (settings(10, kind=82, flags=DUMP), "[NETCONF]Get inet6"),
    (message(82, b"\x1c", flags=DUMP), "[NETCONF]Get mpls"),
    (message(82, b"\2\0\0", flags=1), "[NETCONF]Get inet"),
    (settings(2, (1, 5), (2, 1), flags=ASKED), "[NETCONF]request inet if5 forwarding on"),
    (settings(2, (1, 5), kind=81, flags=ASKED), "[NETCONF]request delete inet if5"),
    (prefix(ADDRESS, flags=ASKED), "[PREFIX]request prefix 2001:db8::/64 dev if5"),
    (hop(ID, kind=106), "[NEXTHOP]Get id 1"),
    (hop(kind=106, flags=DUMP), "[NEXTHOP]Get id 0"),
    (hop(group((1, 0, 0)), attribute(11, b""), kind=106, flags=DUMP), "[NEXTHOP]Get id 0 group 1 fdb"),
    (message(106, b"\2", flags=DUMP), "[NEXTHOP]Get id 0"),
    (message(106, b"\2\xfd\4\0", flags=1), "[NEXTHOP]Get id 0 scope link proto static"),
    (hop(ID, VIA, LINK, flags=ASKED), "[NEXTHOP]id 1 via 192.0.2.1 dev if5"),
    (hop(ID, kind=105, flags=ASKED), "[NEXTHOP]Deleted id 1"),
    (hop(TEN, bucket(INDEX), kind=118), "[NEXTHOPBUCKET]Get id 10 index 7"),
    (hop(kind=118, flags=DUMP), "[NEXTHOPBUCKET]Get"),
    (message(118, bytes(4), flags=1), "[NEXTHOPBUCKET]Get"),
    (hop(TEN, bucket(INDEX, MEMBER), kind=116, flags=ASKED), "[NEXTHOPBUCKET]request id 10 index 7 nhid 2"),
    (hop(TEN, kind=117, flags=ASKED), "[NEXTHOPBUCKET]request delete id 10"),
]

LABELLED = [(data, f"{line}\n".encode()) for data, line in OF_IP + BY_HAND]
HOP_LINES = [(data, re.sub(rb"^\[[A-Z]+\]", b"", line)) for data, line in LABELLED]

# Payloads that are shorter than their header, and its size.
SHORT_HOPS = [(message(kind, bytes(size)), 4) for kind, size in ((80, 0), (80, 3), (81, 1), (82, 0))]
SHORT_HOPS += [(message(52, bytes(size)), 12) for size in (0, 4, 11)]
SHORT_HOPS += [(message(kind, bytes(size)), 8) for kind, size in ((104, 4), (105, 7), (106, 0), (106, 5), (106, 7))]
SHORT_HOPS += [(message(kind, bytes(size)), 8) for kind, size in ((116, 7), (117, 1), (118, 0), (118, 5))]

# Malformed attributes: the offset of each in its payload, what is wrong with it, and its policy.
INVALID_HOPS = [
    (message(80, bytes(4) + attribute(1, bytes(3))), 4, "attribute 1 has a value of 3 bytes instead of 4"),
    (message(81, bytes(4) + attribute(3, bytes(5))), 4, "attribute 3 has a value of 5 bytes instead of 4"),
    (message(80, bytes(4) + attribute(8, b"")), 4, "attribute 8 has a value of 0 bytes instead of 4"),
    (message(82, bytes(4) + b"\3\0\1\0"), 4, "an attribute has length 3, less than 4"),
    (prefix(attribute(1, bytes(5))), 12, "attribute 1 has an address of 5 bytes instead of 4 or 16"),
    (prefix(ADDRESS, attribute(2, bytes(7))), 32, "attribute 2 has a value of 7 bytes instead of 8 or more"),
    (hop(attribute(1, bytes(3))), 8, "attribute 1 has a value of 3 bytes instead of 4"),
    (hop(ID, attribute(2, bytes(9))), 16, "attribute 2 has a value of 9 bytes, no multiple of 8"),
    (hop(attribute(3, bytes(4)), kind=105), 8, "attribute 3 has a value of 4 bytes instead of 2"),
    (hop(attribute(4, b"\1")), 8, "attribute 4 has a value of 1 bytes instead of 0"),
    (hop(attribute(6, bytes(15)), kind=106), 8, "attribute 6 has an address of 15 bytes instead of 4 or 16"),
    (hop(attribute(12, integer(1, 1))), 12, "attribute 1 has a value of 4 bytes instead of 2", 1),
    (hop(ID, attribute(12, integer(4, 1))), 20, "attribute 4 has a value of 4 bytes instead of 8", 1),
    (hop(bucket(integer(2, 1)), kind=116), 12, "attribute 2 has a value of 4 bytes instead of 8", 2),
    (hop(bucket(INDEX, b"\5\0\3\0"), kind=118), 20, "an attribute of 5 bytes is truncated to 4", 2),
]
