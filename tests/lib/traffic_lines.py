"""Messages of traffic control, made by hand after linux/rtnetlink.h, pkt_sched.h and pkt_cls.h, and the lines and the
errors of `netlink_show` for them. tests/steps/show.py runs the program on them.

`tc monitor` of iproute2 6.1 prints the lines of OF_TC, apart from spaces. docs/FORMAT.md defines those of BY_HAND.
"""

import struct

ASKED, DUMP = 5, 0x301  # NLM_F_REQUEST, with NLM_F_ACK and with NLM_F_DUMP
ADDED, REPLACED = 0x600, 0x500  # NLM_F_CREATE, with NLM_F_EXCL and with NLM_F_REPLACE
NESTED = 0x8000  # NLA_F_NESTED
ROOT = 0xFFFFFFFF  # TC_H_ROOT, and TCM_IFINDEX_MAGIC_BLOCK in place of an index
INGRESS, EGRESS = 0xFFFFFFF2, 0xFFFFFFF3  # the two sides of a link


def message(kind, body, flags=0):
    return struct.pack("<IHHII", 16 + len(body), kind, flags, 0, 0) + body


def attribute(kind, value):
    return struct.pack("<HH", 4 + len(value), kind) + value + bytes(-len(value) % 4)


def integer(kind, value, size=4):
    return attribute(kind, value.to_bytes(size, "little"))


def traffic(kind, name, *attributes, index=5, handle=0, parent=0, info=0, flags=0):
    """Returns a message of traffic control with the kind `name`, unless that is None."""
    own = b"" if name is None else attribute(1, name.encode() + b"\0")
    header = struct.pack("<B3xIIII", 0, index, handle, parent, info)
    return message(kind, header + own + b"".join(attributes), flags)


def options(*attributes):
    return attribute(2 | NESTED, b"".join(attributes))


def discipline(name, *attributes, kind=36, handle=0x10000, parent=ROOT, info=1, **more):
    return traffic(kind, name, *attributes, handle=handle, parent=parent, info=info, **more)


def codel(*attributes):
    return discipline("fq_codel", options(*attributes))


def htb(*attributes):
    return discipline("htb", options(*attributes))


def quotient(*numbers):
    """Returns `TCA_HTB_INIT`: the version, the quotient of rate and quantum, the default class, 0, and the packets without a
    class."""
    return attribute(2, struct.pack("<5I", *numbers))


def protocol(number, preference=0):
    """Returns the `tcm_info` of a filter."""
    return int.from_bytes(struct.pack(">H", number), "little") + preference * 65536


def actions(kind, *attributes, flags=0):
    return message(kind, bytes(4) + b"".join(attributes), flags)


def action(name, *attributes, order=1):
    """Returns an action in a list. `order` is its number there."""
    return attribute(order, attribute(1, name.encode() + b"\0") + b"".join(attributes))


def count(number):
    return integer(3, number)


# Queueing disciplines at the root, below a class, and without a parent; how many use one; work of the hardware; blocks; and
# kinds whose options have no words.
OF_TC = [
    (discipline("fq_codel", info=2), "qdisc fq_codel 1: dev if5 root refcnt 2"),
    (discipline("noqueue", handle=0, parent=0), "qdisc noqueue 0: dev if5"),
    (
        discipline("noqueue", kind=37, handle=0xFFFF0000, parent=0xFFFFFFF1, info=0),
        "deleted qdisc noqueue ffff: dev if5 parent ffff:fff1 refcnt 0",
    ),
    (
        discipline("x", integer(12, 1, 1), integer(13, 7), integer(14, 8), handle=0xABCD0001, parent=0x10002, info=ROOT),
        "qdisc x abcd: dev if5 parent 1:2 refcnt 4294967295 offloaded ingress_block 7 egress_block 8",
    ),
    (discipline("x", integer(12, 0, 1), integer(13, 0), integer(14, 0), parent=2), "qdisc x 1: dev if5 parent :2"),
    (discipline("mq", options(), parent=0x20000, index=0), "qdisc mq 1: dev * parent 2:"),
    (discipline("pfifo", options(), index=ROOT), "qdisc pfifo 1: dev if4294967295 root"),
    (discipline("", parent=0x20000, info=0), "qdisc 1: dev if5 parent 2: refcnt 0"),
    (discipline("clsact", options(), handle=0xFFFF0000, parent=0xFFFFFFF1), "qdisc clsact ffff: dev if5 parent ffff:fff1"),
]

# Options of `fq_codel` and `htb`: all, none, and values that have no words.
OF_TC += [
    (
        codel(integer(2, 10240), integer(5, 1024), integer(6, 1514), integer(4, 1), integer(8, 64)),
        "qdisc fq_codel 1: dev if5 root limit 10240p flows 1024 quantum 1514 ecn drop_batch 64",
    ),
    (
        codel(integer(8, 1), integer(3, 100), integer(1, 999), integer(9, 1000), integer(7, 1)),
        "qdisc fq_codel 1: dev if5 root target 999us ce_threshold 1us interval 100us memory_limit 1000b drop_batch 1",
    ),
    (codel(integer(4, 0), integer(8, 0)), "qdisc fq_codel 1: dev if5 root"),
    (codel(integer(4, 2)), "qdisc fq_codel 1: dev if5 root ecn"),
    (codel(), "qdisc fq_codel 1: dev if5 root"),
    (
        htb(quotient(0x30011, 10, 0x20, 0, 5), integer(5, 1000)),
        "qdisc htb 1: dev if5 root r2q 10 default 0x20 direct_packets_stat 5 direct_qlen 1000",
    ),
    (
        htb(integer(5, 0), attribute(9, b""), quotient(0x30011, 0, 0, 0, ROOT)),
        "qdisc htb 1: dev if5 root r2q 0 default 0 direct_packets_stat 4294967295 direct_qlen 0 offload",
    ),
    (
        htb(attribute(2, struct.pack("<6I", 0, 1, ROOT, 3, 4, 5))),
        "qdisc htb 1: dev if5 root r2q 1 default 0xffffffff direct_packets_stat 4",
    ),
    (htb(integer(5, 1000)), "qdisc htb 1: dev if5 root direct_qlen 1000"),
    (htb(), "qdisc htb 1: dev if5 root"),
]

# Classes: ids with both numbers, with one of them and with none; and their parents and leaves.
OF_TC += [
    (traffic(40, "htb", handle=0x10001, parent=ROOT), "class htb 1:1 dev if5 root"),
    (traffic(40, "htb", handle=0x10000, info=0x20000), "class htb 1: dev if5 parent none leaf 2:"),
    (traffic(41, "htb", handle=1, parent=0x10001, info=1), "deleted class htb :1 dev if5 parent 1:1 leaf 0:"),
    (traffic(41, "htb", parent=ROOT, info=0xABCD0001), "deleted class htb dev if5 root leaf abcd:"),
    (traffic(40, "x", handle=ROOT, parent=0x20000, index=ROOT), "class x root dev if4294967295 parent 2:"),
    (traffic(40, "htb", options(), handle=0xFFFFABC0, parent=1), "class htb ffff:abc0 dev if5 parent :1"),
]

# Filters of a link, of its two sides and of a block, with each part and without; and chains.
OF_TC += [
    (traffic(44, "u32", parent=ROOT), "filter dev if5 root u32"),
    (
        traffic(44, "u32", integer(11, 0), info=protocol(0x800, 1)),
        "filter dev if5 parent none protocol ip pref 1 u32 chain 0",
    ),
    (traffic(44, "u32", integer(11, 5), parent=INGRESS, info=protocol(0, 1)), "filter dev if5 ingress pref 1 u32 chain 5"),
    (traffic(45, "x", integer(11, 5), parent=EGRESS, info=protocol(3)), "deleted filter dev if5 egress protocol all x chain 5"),
    (traffic(44, "x", parent=0xFFFFFFF1), "filter dev if5 parent ffff:fff1 x"),
    (
        traffic(44, "flower", index=ROOT, handle=1, parent=22, info=protocol(0x86DD, 0xFFFF)),
        "filter block 22 protocol ipv6 pref 65535 flower",
    ),
    (traffic(100, None, integer(11, 3), parent=ROOT, info=protocol(0x800, 1)), "chain dev if5 root chain 3"),
    (traffic(100, "flower", integer(11, 3), parent=INGRESS), "chain dev if5 ingress flower chain 3"),
    (traffic(101, "flower", parent=0x10000), "deleted chain dev if5 parent 1: flower"),
    (traffic(101, None, integer(11, ROOT), index=ROOT, parent=9), "deleted chain block 9 chain 4294967295"),
]

# Every protocol that has a name (`ll_proto_n2a`), and numbers beside them.
NAMES = {
    **{1: "802_3", 2: "ax25", 3: "all", 4: "802_2", 5: "snap", 6: "ddcmp", 7: "wan_ppp", 8: "ppp_mp", 9: "localtalk"},
    **{0xC: "can", 0x10: "ppptalk", 0x11: "tr_802_2", 0x15: "mobitex", 0x16: "control", 0x17: "irda", 0x18: "econet"},
    **{0x60: "loop", 0x200: "pup", 0x201: "pupat", 0x800: "ip", 0x805: "x25", 0x806: "arp", 0x8FF: "bpq"},
    **{0xA00: "ieeepup", 0xA01: "ieeepupat", 0x6000: "dec", 0x6001: "dna_dl", 0x6002: "dna_rc", 0x6003: "dna_rt"},
    **{0x6004: "lat", 0x6005: "diag", 0x6006: "cust", 0x6007: "sca", 0x6558: "teb", 0x8035: "rarp", 0x809B: "atalk"},
    **{0x80F3: "aarp", 0x8100: "802.1Q", 0x8137: "ipx", 0x86DD: "ipv6", 0x8847: "mpls_uc", 0x8848: "mpls_mc"},
    **{0x884C: "atmmpoa", 0x8863: "ppp_disc", 0x8864: "ppp_ses", 0x8884: "atmfate", 0x8892: "profinet", 0x88A2: "aoe"},
    **{0x88A4: "ethercat", 0x88A8: "802.1ad", 0x88CA: "tipc", 0x88CC: "LLDP"},
}
BESIDE = {number + step for number in NAMES for step in (-1, 1)} - {0, *NAMES} | {0xFF, 0x100, 0x7FFF, 0x8000, 0xFFFF}
WORDS = {**NAMES, **{number: f"[{number}]" for number in BESIDE}}
OF_TC += [
    (traffic(44, "x", parent=ROOT, info=protocol(number)), f"filter dev if5 root protocol {word} x")
    for number, word in sorted(WORDS.items())
]

# How many actions there are; `tc` has no other words for a message without a list.
OF_TC += [
    (actions(48), "total acts 0"),
    (actions(48, count(2)), "total acts 2"),
    (actions(48, attribute(1, b"")), "total acts 0"),
]

# What `tc` prints otherwise: words that depend on flags, times and sizes that are not small, a negative quotient, the
# threshold of a selector, options of other kinds, the dashes of `ingress`, messages without a kind, and bytes that are not
# printable.
BY_HAND = [
    (discipline("x", flags=ADDED), "qdisc x 1: dev if5 root"),
    (discipline("x", flags=REPLACED), "qdisc x 1: dev if5 root"),
    (traffic(44, "x", parent=ROOT, flags=ADDED | ASKED), "filter dev if5 root x"),
    (traffic(100, None, integer(11, 3), parent=ROOT, flags=ADDED), "chain dev if5 root chain 3"),
    (
        codel(integer(1, 4999), integer(7, 5000), integer(3, 99999), integer(9, 33554432)),
        "qdisc fq_codel 1: dev if5 root target 4999us ce_threshold 5000us interval 99999us memory_limit 33554432b",
    ),
    (codel(integer(10, 1, 1), integer(11, 3, 1)), "qdisc fq_codel 1: dev if5 root"),
    (
        htb(quotient(0, ROOT, 1, 0, 0)),
        "qdisc htb 1: dev if5 root r2q 4294967295 default 0x1 direct_packets_stat 0",
    ),
    (discipline("x", attribute(2, b"abcd")), "qdisc x 1: dev if5 root"),
    (discipline("ingress", options(), handle=0xFFFF0000, parent=0xFFFFFFF1), "qdisc ingress ffff: dev if5 parent ffff:fff1"),
    (discipline(None), "qdisc 1: dev if5 root"),
    (traffic(40, None, handle=0x10001, parent=ROOT), "class 1:1 dev if5 root"),
    (traffic(44, None, integer(11, 1), parent=ROOT, info=protocol(3, 2)), "filter dev if5 root protocol all pref 2 chain 1"),
    (discipline("a b\x7f"), "qdisc a\\x20b\\x7f 1: dev if5 root"),
    (traffic(44, "fw", options(integer(1, 1)), parent=ROOT), "filter dev if5 root fw"),
    (traffic(40, "htb", options(attribute(1, bytes(44))), handle=0x10001, parent=ROOT), "class htb 1:1 dev if5 root"),
]

# The first action of a list, by its number there, and what is missing of it.
LIST = action("gact", integer(3, 7)) + action("mirred", integer(3, 8), order=2)
BY_HAND += [
    (actions(48, attribute(1, LIST), count(2)), "total acts 2 action gact index 7"),
    (actions(48, attribute(1, LIST), count(2), flags=ADDED | ASKED), "total acts 2 action gact index 7"),
    (actions(49, count(1), attribute(1 | NESTED, action("gact", order=0) + LIST)), "deleted total acts 1 action gact"),
    (actions(48, attribute(1, action("gact", order=2))), "total acts 0"),
    (actions(48, attribute(1, attribute(1, integer(3, 9)))), "total acts 0 index 9"),
    (actions(49), "deleted total acts 0"),
]

# Requests. `tc` takes those for a change as facts, and prints no line of the others.
BY_HAND += [
    (discipline("htb", flags=ASKED | ADDED), "request qdisc htb 1: dev if5 root"),
    (discipline("htb", kind=37, flags=ASKED), "request delete qdisc htb 1: dev if5 root"),
    (traffic(41, "htb", handle=0x10010, flags=ASKED), "request delete class htb 1:10 dev if5 parent none"),
    (traffic(100, None, integer(11, 3), parent=ROOT, flags=ADDED | ASKED), "request chain dev if5 root chain 3"),
    (traffic(45, "x", parent=ROOT, flags=ASKED), "deleted filter dev if5 root x"),
    (actions(49, count(1), flags=ASKED), "deleted total acts 1"),
    (traffic(38, None, index=0, flags=DUMP), "Get qdisc 0: dev * refcnt 0"),
    (message(38, b"\0", flags=DUMP), "Get qdisc 0: dev * refcnt 0"),
    (traffic(42, None, flags=DUMP), "Get class dev if5 parent none"),
    (message(42, bytes(4), flags=DUMP), "Get class dev * parent none"),
    (traffic(46, "flower", parent=INGRESS, info=protocol(3, 1)), "Get filter dev if5 ingress protocol all pref 1 flower"),
    (message(46, bytes(4), flags=DUMP), "Get filter dev * parent none"),
    (traffic(102, None, integer(11, 1), index=ROOT, parent=2, flags=1), "Get chain block 2 chain 1"),
    (message(102, bytes(3), flags=DUMP), "Get chain dev * parent none"),
    (actions(50, attribute(1, action("gact")), flags=DUMP), "Get total acts 0 action gact"),
    (message(50, b"\0", flags=DUMP), "Get total acts 0"),
]

TRAFFIC_LINES = [(data, f"{line}\n".encode()) for data, line in OF_TC + BY_HAND]

# Payloads that are shorter than their header, and its size.
SHORT_TRAFFIC = [(message(kind, bytes(size)), 20) for kind, size in ((36, 4), (37, 19), (38, 0), (38, 5), (40, 1), (41, 0))]
SHORT_TRAFFIC += [(message(kind, bytes(size)), 20) for kind, size in ((42, 19), (44, 0), (45, 4), (46, 6), (100, 4), (101, 19))]
SHORT_TRAFFIC += [(message(102, bytes(0)), 20)] + [(message(kind, bytes(size)), 4) for kind, size in ((48, 0), (49, 3), (50, 0))]

# Malformed attributes: the offset of each in its payload, what is wrong with it, and its policy.
INVALID_TRAFFIC = [
    (traffic(36, None, attribute(1, b"a\0b\0")), 20, "attribute 1 is a string with a NUL before its last byte"),
    (traffic(40, None, integer(11, 1, 2)), 20, "attribute 11 has a value of 2 bytes instead of 4"),
    (discipline("x", integer(12, 1)), 28, "attribute 12 has a value of 4 bytes instead of 1"),
    (traffic(46, None, b"\3\0\1\0"), 20, "an attribute has length 3, less than 4"),
    (traffic(44, None, attribute(3, bytes(35))), 20, "attribute 3 has a value of 35 bytes instead of 36 or more"),
    (codel(integer(1, 1, 2)), 40, "attribute 1 has a value of 2 bytes instead of 4", 4),
    (htb(attribute(2, bytes(19))), 32, "attribute 2 has a value of 19 bytes instead of 20 or more", 5),
    (actions(48, integer(3, 1, 2)), 4, "attribute 3 has a value of 2 bytes instead of 4"),
    (actions(49, attribute(1, attribute(1, integer(3, 1, 2)))), 12, "attribute 3 has a value of 2 bytes instead of 4", 3),
]
