"""Messages about multicast groups, statistics of links, VLANs of bridges and VNIs, made by hand after linux/if_bridge.h
and if_link.h, and the lines and the errors of `netlink_show` for them. tests/steps/show.py runs the program on them.

Each line follows its label. `bridge -d monitor all` of iproute2 6.1 prints those of OF_BRIDGE, apart from spaces and line
feeds. docs/FORMAT.md defines those of BY_HAND.
"""

import re
import struct

from hop_lines import NESTED, attribute, integer, message

ASKED, DUMP = 5, 0x301  # NLM_F_REQUEST, with NLM_F_ACK and with NLM_F_DUMP
ETH_P_IP, ETH_P_IPV6 = 0x800, 0x86DD
FOUR, SIX = bytes([239, 1, 1, 1]), bytes.fromhex("ff020000000000000000000000000123")
MAC, SOURCE = bytes.fromhex("01005e010101"), bytes([192, 0, 2, 1])


def of_link(kind, *attributes, index=5, flags=0):
    """Returns a message about a link whose header has 8 bytes, and the index of the link at 4."""
    return message(kind, struct.pack("<BBHI", 7, 0, 0, index) + b"".join(attributes), flags)


def info(*attributes, port=6, group=FOUR, protocol=ETH_P_IP, state=0, marks=0, vid=0):
    """Returns the `struct br_mdb_entry` of an entry, and the attributes after it."""
    head = struct.pack("<IBBH", port, state, marks, vid) + group.ljust(16, b"\0") + protocol.to_bytes(2, "big") + bytes(2)
    return attribute(1, head + b"".join(attributes))


def groups(*infos, kind=84, index=5, flags=0):
    """Returns a message about the entries of a multicast database, each with its `info`."""
    return of_link(kind, attribute(1, b"".join(attribute(1, it) for it in infos)), index=index, flags=flags)


def source(address, *times):
    """Returns an entry of a list of sources. A time is in hundredths of a second."""
    return attribute(1 | NESTED, attribute(1, address) + b"".join(integer(2, it) for it in times))


def sources(*entries):
    return attribute(2 | NESTED, b"".join(entries))


def router(*ports, kind=84, index=5, flags=0):
    """Returns a message about the router ports of a bridge."""
    return of_link(kind, attribute(2, b"".join(ports)), index=index, flags=flags)


def vlan(marks, vid, *attributes, kind=112, index=5, flags=0):
    """Returns a message about a VLAN of a port. `marks` are its flags."""
    entry = attribute(1, struct.pack("<HH", marks, vid)) + b"".join(attributes)
    return of_link(kind, attribute(1 | NESTED, entry), index=index, flags=flags)


def options(*attributes, kind=112, index=5, flags=0):
    """Returns a message about the settings of VLANs of a bridge."""
    return of_link(kind, attribute(2 | NESTED, b"".join(attributes)), index=index, flags=flags)


def vnis(*attributes, kind=120, index=5, flags=0):
    """Returns a message about VNIs of a VXLAN link."""
    return of_link(kind, attribute(1 | NESTED, b"".join(attributes)), index=index, flags=flags)


def statistics(*attributes, kind=92, index=5, flags=0):
    return message(kind, struct.pack("<BBHII", 0, 0, 0, index, 1) + b"".join(attributes), flags)


def counts(*numbers):
    """Returns the `struct rtnl_link_stats64` that begins with these numbers."""
    return attribute(1, struct.pack("<25Q", *numbers, *bytes(25 - len(numbers))))


def hardware(*attributes):
    """Returns what is requested and used of statistics of routing that hardware collects."""
    return attribute(4, attribute(2 | NESTED, attribute(3 | NESTED, b"".join(attributes))))


def range_to(vid):
    return integer(2, vid, 2)


def state(number):
    return integer(3, number, 1)


STATIC, INCLUDE, EXCLUDE = integer(5, 4, 1), integer(3, 1, 1), integer(3, 0, 1)
PORT = integer(1, 6)

# Entries by IPv4, IPv6 and Ethernet addresses; states, flags, VLANs, sources, lists of sources, modes, protocols, and
# attributes in another order or without words.
OF_BRIDGE = [
    (groups(info()), "[MDB]dev if5 port if6 grp 239.1.1.1 temp"),
    (
        groups(info(state=1, marks=0xF, vid=10)),
        "[MDB]dev if5 port if6 grp 239.1.1.1 permanent offload fast_leave added_by_star_ex blocked vid 10",
    ),
    (groups(info(marks=0xF2, vid=65535)), "[MDB]dev if5 port if6 grp 239.1.1.1 temp fast_leave vid 65535"),
    (
        groups(info(group=SIX, protocol=ETH_P_IPV6, state=2, vid=4095)),
        "[MDB]dev if5 port if6 grp ff02::123 temp vid 4095",
    ),
    (groups(info(group=SIX, protocol=0x1234)), "[MDB]dev if5 port if6 grp ff02::123 temp"),
    (groups(info(group=MAC, protocol=0, state=3)), "[MDB]dev if5 port if6 grp 01:00:5e:01:01:01 permanent"),
    (
        groups(info(attribute(4, SOURCE), INCLUDE, STATIC, integer(1, 12345))),
        "[MDB]dev if5 port if6 grp 239.1.1.1 src 192.0.2.1 temp filter_mode include proto static",
    ),
    (
        groups(info(integer(5, 186, 1), EXCLUDE, attribute(4, SIX), group=SIX, protocol=ETH_P_IPV6, marks=1, vid=1)),
        "[MDB]dev if5 port if6 grp ff02::123 src ff02::123 temp filter_mode exclude proto bgp offload vid 1",
    ),
    (groups(info(integer(3, 7, 1))), "[MDB]dev if5 port if6 grp 239.1.1.1 temp filter_mode exclude"),
    (
        groups(info(STATIC, sources(source(SOURCE, 26000), source(FOUR, 105)), INCLUDE)),
        "[MDB]dev if5 port if6 grp 239.1.1.1 temp filter_mode include source_list 192.0.2.1/260.00,239.1.1.1/1.05"
        " proto static",
    ),
    (
        groups(info(sources(source(SIX, 0), source(SIX, -1)), EXCLUDE, group=SIX, protocol=ETH_P_IPV6, vid=1)),
        "[MDB]dev if5 port if6 grp ff02::123 temp filter_mode exclude source_list ff02::123/0.00,ff02::123/42949672.95"
        " vid 1",
    ),
    (
        groups(info(attribute(2, attribute(1, integer(2, 100) + attribute(1, SOURCE))))),
        "[MDB]dev if5 port if6 grp 239.1.1.1 temp source_list 192.0.2.1/1.00",
    ),
    (
        groups(info(sources(source(SOURCE, 1), source(SOURCE), attribute(7, source(b"")), source(FOUR, 99)))),
        "[MDB]dev if5 port if6 grp 239.1.1.1 temp source_list 192.0.2.1/0.01,239.1.1.1/0.99",
    ),
    (
        groups(info(sources(source(SOURCE, 12345), b"\3\0\1\0"))),
        "[MDB]dev if5 port if6 grp 239.1.1.1 temp source_list 192.0.2.1/123.45",
    ),
    (groups(info(port=0), index=0), "[MDB]dev * port * grp 239.1.1.1 temp"),
    (groups(info(), kind=85), "[MDB]Deleted dev if5 port if6 grp 239.1.1.1 temp"),
]

# VLANs with each flag and state, ranges, and attributes that have no words.
OF_BRIDGE += [
    (vlan(6, 10), "[VLAN]if5 10 PVID Egress Untagged state disabled"),
    (vlan(0, 10, range_to(20), state(3), integer(6, 1, 1)), "[VLAN]if5 10-20 state forwarding mcast_router 1"),
    (vlan(0x12, 10, integer(6, 2, 1), state(0), range_to(20)), "[VLAN]if5 10-20 PVID state disabled mcast_router 2"),
    (vlan(4, 10, range_to(10), state(1)), "[VLAN]if5 10 Egress Untagged state listening"),
    (vlan(1, 4094, state(2)), "[VLAN]if5 4094 state learning"),
    (vlan(0xFFF9, 10, state(4), attribute(4 | NESTED, integer(1, 100))), "[VLAN]if5 10 state blocking"),
    (vlan(4, 10, state(9), kind=113), "[VLAN]Deleted if5 10 Egress Untagged state (9)"),
    (vlan(2, 0, range_to(65535), state(255)), "[VLAN]if5 0-65535 PVID state (255)"),
]

# Settings of VLANs: each by itself and all, with the largest numbers.
INTERVALS = [(8, "last_member"), (14, "startup_query"), (10, "membership"), (11, "querier"), (12, "query")]
INTERVALS += [(13, "query_response")]
OF_BRIDGE += [
    (options(integer(1, 10, 2)), "[VLAN]if5 10"),
    (options(integer(2, 20, 2), integer(1, 10, 2)), "[VLAN]if5 10-20"),
    (
        options(integer(6, 2), integer(1, 1, 2), integer(5, 2, 1), integer(4, 3, 1), integer(15, 1, 1), integer(3, 0, 1)),
        "[VLAN]if5 1 mcast_snooping 0 mcast_querier 1 mcast_igmp_version 3 mcast_mld_version 2 mcast_last_member_count 2",
    ),
    (
        options(integer(1, 1, 2), integer(5, 1, 1), integer(6, -1), integer(7, 2), integer(18, 3, 2), kind=113),
        "[VLAN]Deleted if5 1 mcast_mld_version 1 mcast_last_member_count 4294967295 mcast_startup_query_count 2",
    ),
    (
        options(integer(1, 1, 2), *[integer(kind, kind << 32, 8) for kind, _name in INTERVALS]),
        "[VLAN]if5 1 " + " ".join(f"mcast_{name}_interval {kind << 32}" for kind, name in INTERVALS),
    ),
]

# VNIs and ranges; addresses of both families, of zeros, and both at once.
OF_BRIDGE += [
    (vnis(integer(1, 100)), "[TUNNEL]if5 100"),
    (vnis(integer(2, 200), integer(1, 100)), "[TUNNEL]if5 100-200"),
    (vnis(integer(1, 100), integer(2, 100)), "[TUNNEL]if5 100"),
    (vnis(integer(1, 100), integer(2, 0)), "[TUNNEL]if5 100"),
    (vnis(integer(1, -1), attribute(3, FOUR)), "[TUNNEL]if5 4294967295 239.1.1.1"),
    (vnis(integer(1, 100), attribute(3, SOURCE)), "[TUNNEL]if5 100 192.0.2.1"),
    (vnis(integer(1, 100), integer(2, 101), attribute(4, SIX)), "[TUNNEL]if5 100-101 ff02::123"),
    (vnis(integer(1, 100), attribute(4, SIX), attribute(3, bytes(4))), "[TUNNEL]if5 100"),
    (vnis(integer(1, 100), attribute(4, SIX), attribute(3, FOUR)), "[TUNNEL]if5 100 239.1.1.1"),
    (vnis(integer(1, 100), attribute(4, bytes(16))), "[TUNNEL]if5 100"),
    (vnis(integer(1, 100), attribute(4, bytes(15) + b"\1")), "[TUNNEL]if5 100 ::1"),
    (vnis(), "[TUNNEL]if5 0"),
    (vnis(integer(1, 100), kind=121), "[TUNNEL]Deleted if5 100"),
]

# What `bridge` prints otherwise: several entries, sources of another family, lists that have no source or do not begin
# with one, sources and times of another size, router ports, databases without entries or that cannot be read, answers
# to RTM_GETMDB, VLANs without an id, a number of queries for the last member without a version of MLD and the other way
# round, and statistics of VNIs.
BY_HAND = [
    (groups(info(), info(port=7)), "[MDB]dev if5 port if6 grp 239.1.1.1 temp"),
    (groups(info() + info(port=7)), "[MDB]dev if5 port if6 grp 239.1.1.1 temp"),
    (groups(info(attribute(4, SIX))), "[MDB]dev if5 port if6 grp 239.1.1.1 src ff02::123 temp"),
    (
        groups(info(attribute(4, SOURCE), group=MAC, protocol=0)),
        "[MDB]dev if5 port if6 grp 01:00:5e:01:01:01 src 192.0.2.1 temp",
    ),
    (groups(info(sources())), "[MDB]dev if5 port if6 grp 239.1.1.1 temp"),
    (groups(info(sources(source(SOURCE)), INCLUDE)), "[MDB]dev if5 port if6 grp 239.1.1.1 temp filter_mode include"),
    (
        groups(info(sources(attribute(1, integer(2, 1)), source(SOURCE, 100)))),
        "[MDB]dev if5 port if6 grp 239.1.1.1 temp source_list 192.0.2.1/1.00",
    ),
    (
        groups(info(sources(source(SIX, 12345), source(MAC, 1), attribute(1, attribute(1, FOUR) + integer(2, 1, 2))))),
        "[MDB]dev if5 port if6 grp 239.1.1.1 temp source_list ff02::123/123.45",
    ),
    (
        groups(info(sources(source(SOURCE, 7)), group=MAC, protocol=0)),
        "[MDB]dev if5 port if6 grp 01:00:5e:01:01:01 temp source_list 192.0.2.1/0.07",
    ),
    (groups(info(integer(5, 77, 1))), "[MDB]dev if5 port if6 grp 239.1.1.1 temp proto 77"),
    (groups(info(integer(5, 0, 1))), "[MDB]dev if5 port if6 grp 239.1.1.1 temp proto unspec"),
    (groups(), "[MDB]dev if5"),
    (groups(b""), "[MDB]dev if5"),
    (of_link(84), "[MDB]dev if5"),
    (of_link(85), "[MDB]Deleted dev if5"),
    (of_link(84, attribute(1, bytes(3))), "[MDB]dev if5"),
    (groups(info(integer(3, 1))), "[MDB]dev if5 port if6 grp 239.1.1.1 temp filter_mode include"),
    (groups(info(attribute(4, MAC)), kind=85), "[MDB]Deleted dev if5 port if6 grp 239.1.1.1 temp"),
    (groups(attribute(1, bytes(27))), "[MDB]dev if5"),
    (router(PORT), "[MDB]router port dev if6 master if5"),
    (router(attribute(1, struct.pack("<I", 6) + integer(1, 0)), integer(1, 7)), "[MDB]router port dev if6 master if5"),
    (router(PORT, kind=85), "[MDB]Deleted router port dev if6 master if5"),
    (router(attribute(1, bytes(3))), "[MDB]dev if5"),
    (of_link(84, attribute(2, PORT), attribute(1, attribute(1, info()))), "[MDB]dev if5 port if6 grp 239.1.1.1 temp"),
    (groups(info(), kind=86), "[MDB]dev if5 port if6 grp 239.1.1.1 temp"),
    (router(PORT, kind=86), "[MDB]router port dev if6 master if5"),
    (of_link(112), "[VLAN]if5"),
    (of_link(112, attribute(1 | NESTED, state(4))), "[VLAN]if5 state blocking"),
    (of_link(112, *[attribute(1, attribute(1, bytes([0, 0, it, 0]))) for it in (1, 2)]), "[VLAN]if5 1 state disabled"),
    (
        of_link(112, attribute(2, integer(1, 2, 2)), attribute(1, attribute(1, b"\2\0\1\0"))),
        "[VLAN]if5 1 PVID state disabled 2",
    ),
    (options(integer(2, 20, 2), integer(3, 1, 1)), "[VLAN]if5 mcast_snooping 1"),
    (
        options(integer(1, 1, 2), integer(6, 2), integer(8, 100, 8), integer(7, 2), integer(14, 3125, 8)),
        "[VLAN]if5 1 mcast_last_member_count 2 mcast_last_member_interval 100 mcast_startup_query_count 2"
        " mcast_startup_query_interval 3125",
    ),
    (options(integer(1, 1, 2), integer(5, 1, 1)), "[VLAN]if5 1 mcast_mld_version 1"),
    (of_link(120), "[TUNNEL]if5"),
    (of_link(120, *[attribute(1, integer(1, it)) for it in (1, 2)]), "[TUNNEL]if5 1"),
    (vnis(integer(1, 100), attribute(5 | NESTED, integer(1, 1, 8))), "[TUNNEL]if5 100"),
]

# Statistics, of which `ip` prints the link, and what hardware collects.
BY_HAND += [
    (statistics(counts(1, 2, 3, 4, 5)), "[STATS]stats dev if5 rx_packets 1 rx_bytes 3 tx_packets 2 tx_bytes 4"),
    (
        statistics(counts(-1 % (1 << 64), 0, 1 << 32, 1 << 63), index=0),
        f"[STATS]stats dev * rx_packets {(1 << 64) - 1} rx_bytes {1 << 32} tx_packets 0 tx_bytes {1 << 63}",
    ),
    (statistics(), "[STATS]stats dev if5"),
    (statistics(attribute(4 | NESTED, b"")), "[STATS]stats dev if5"),
    (statistics(hardware()), "[STATS]stats dev if5"),
    (statistics(hardware(integer(1, 1, 1), integer(2, 0, 1))), "[STATS]stats dev if5 l3_stats on used off"),
    (statistics(hardware(integer(2, 1, 1), integer(1, 0, 1))), "[STATS]stats dev if5 l3_stats off used on"),
    (statistics(hardware(integer(1, 255, 1))), "[STATS]stats dev if5 l3_stats on"),
    (statistics(hardware(integer(2, 1, 1))), "[STATS]stats dev if5 used on"),
    (
        statistics(hardware(integer(1, 0, 1), integer(2, 0, 1)), counts(1, 2, 3, 4)),
        "[STATS]stats dev if5 rx_packets 1 rx_bytes 3 tx_packets 2 tx_bytes 4 l3_stats off used off",
    ),
]

# Requests, of which `bridge` prints those for a change as facts, and the others not at all.
BY_HAND += [
    (of_link(86, flags=DUMP), "[MDB]Get dev if5"),
    (message(86, b"\7", flags=DUMP), "[MDB]Get dev *"),
    (of_link(86, attribute(1, bytes(28)), flags=1), "[MDB]Get dev if5"),
    (groups(info(), flags=ASKED), "[MDB]request dev if5 port if6 grp 239.1.1.1 temp"),
    (of_link(84, attribute(1, b"\6" + bytes(27)), flags=ASKED), "[MDB]request dev if5"),
    (
        of_link(84, attribute(1, b"\6" + bytes(27)), attribute(2, attribute(1, SOURCE)), flags=ASKED),
        "[MDB]request dev if5",
    ),
    (of_link(85, attribute(1, b"\6" + bytes(27)), flags=ASKED), "[MDB]request delete dev if5"),
    (of_link(114, integer(1, 1), flags=DUMP), "[VLAN]Get if5"),
    (of_link(114, integer(1, 2), attribute(2, integer(1, 9, 2)), flags=DUMP), "[VLAN]Get if5"),
    (message(114, bytes(4), flags=DUMP), "[VLAN]Get *"),
    (vlan(6, 10, flags=ASKED), "[VLAN]request if5 10 PVID Egress Untagged state disabled"),
    (vlan(0, 10, kind=113, flags=ASKED), "[VLAN]request delete if5 10 state disabled"),
    (vnis(integer(1, 100), kind=122), "[TUNNEL]Get if5 100"),
    (message(122, b"\7\0\0", flags=DUMP), "[TUNNEL]Get *"),
    (vnis(integer(1, 100), flags=ASKED), "[TUNNEL]request if5 100"),
    (vnis(integer(1, 100), kind=121, flags=ASKED), "[TUNNEL]request delete if5 100"),
    (statistics(kind=94, flags=1), "[STATS]Get stats dev if5"),
    (statistics(hardware(integer(1, 1, 1)), kind=94, flags=1), "[STATS]Get stats dev if5"),
    (statistics(attribute(1, integer(4, 1)), kind=94, index=0, flags=DUMP), "[STATS]Get stats dev *"),
    (statistics(integer(2, 1, 1), kind=95, flags=ASKED), "[STATS]request Set stats dev if5"),
]

BRIDGE_LABELLED = [(data, f"{line}\n".encode()) for data, line in OF_BRIDGE + BY_HAND]
BRIDGE_LINES = [(data, re.sub(rb"^\[[A-Z]+\]", b"", line)) for data, line in BRIDGE_LABELLED]

# Messages about a link with the index 3, and their lines if its name is `a`.
ABOUT_3 = [groups(info(port=3)), groups(info(), index=3), router(integer(1, 3), index=3), vlan(0, 1, index=3)]
ABOUT_3 += [vnis(index=3), statistics(index=3)]
ABOUT_A = b"dev if5 port a grp 239.1.1.1 temp\ndev a port if6 grp 239.1.1.1 temp\nrouter port dev a master a\n"
ABOUT_A += b"a 1 state disabled\na 0\nstats dev a\n"

# Payloads that are shorter than their header, and its size.
SHORT_BRIDGES = [(message(kind, bytes(size)), 8) for kind, size in ((84, 0), (84, 4), (85, 7), (86, 0), (86, 5))]
SHORT_BRIDGES += [(message(kind, bytes(size)), 12) for kind, size in ((92, 4), (94, 5), (94, 11), (95, 0))]
SHORT_BRIDGES += [(message(kind, bytes(size)), 8) for kind, size in ((112, 4), (113, 7), (114, 0), (114, 6))]
SHORT_BRIDGES += [(message(kind, bytes(size)), 8) for kind, size in ((120, 4), (121, 1), (122, 0), (122, 7))]

# Malformed attributes: the offset of each in its payload, what is wrong with it, and its policy.
INVALID_BRIDGES = [
    (of_link(84, b"\3\0\1\0"), 8, "an attribute has length 3, less than 4"),
    (statistics(attribute(1, bytes(191))), 12, "attribute 1 has a value of 191 bytes instead of 192 or more"),
    (vlan(6, 10, integer(2, 20)), 20, "attribute 2 has a value of 4 bytes instead of 2", 1),
    (options(integer(1, 1)), 12, "attribute 1 has a value of 4 bytes instead of 2", 4),
    (of_link(114, integer(1, 1, 2)), 8, "attribute 1 has a value of 2 bytes instead of 4"),
    (vnis(integer(1, 100), attribute(3, bytes(16))), 20, "attribute 3 has a value of 16 bytes instead of 4", 1),
    (vnis(attribute(4, bytes(4)), kind=121), 12, "attribute 4 has a value of 4 bytes instead of 16", 1),
]
