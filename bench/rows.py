"""What bench/calls counts: the calls, by their names in calls.c, and the bytes that they work on.

The inputs of COMPARED: a block has attributes i = 0 to N - 1 of kind i + 1 with values of i mod 40 bytes, and a
datagram has frames of type 18 with payloads of i mod 50 bytes.
"""

import os
from struct import pack

TOP = os.path.dirname(os.path.dirname(os.path.abspath(__file__)))


def captured(name):
    with open(os.path.join(TOP, "examples", "captured", name), "rb") as file:
        return file.read()


def frame(message_type, payload):
    """Returns a frame with its padding."""
    return pack("<IHHII", 16 + len(payload), message_type, 0, 0, 0) + payload + bytes(-len(payload) % 4)


def second(datagram):
    """Returns the second frame of two; the first has no padding."""
    return datagram[int.from_bytes(datagram[:4], "little") :]


def attribute(kind, value, padding=b"\0"):
    return pack("<HH", 4 + len(value), kind) + value + padding * (-len(value) % 4)


def attributes(count, sizes, padding=b"\0", first=0):
    return b"".join(attribute(first + i, bytes(sizes[i % len(sizes)]), padding) for i in range(count))


def block(count, padding=b"\0"):
    return attributes(count, range(40), padding, first=1)


def generic(size):
    """Returns a message of generic netlink's controller with this number of bytes after its fixed header: attributes of
    at most 32,768 bytes and of a kind that the controller's table does not have."""
    sizes = [min(size - at, 32768) for at in range(0, size, 32768)]
    return frame(16, b"\1\1\0\0" + b"".join(attribute(11, bytes(it - 4)) for it in sizes))


def tree():
    """Returns 8 nests, each of four nests of four nests of 6 or 7 leaves: 1,000 attributes. The leaves have values of 0
    to 39 bytes."""
    made = 0

    def nest(depth, index):
        nonlocal made
        if depth == 3:
            sizes = range(made, made + (7 if index % 2 else 6))
            made += len(sizes)
            return attribute(0x8000 | index + 1, b"".join(attribute(it % 16 + 1, bytes(it % 40)) for it in sizes))
        return attribute(0x8000 | index + 1, b"".join(nest(depth + 1, it) for it in range(4)))

    return b"".join(nest(1, it) for it in range(8))


MESSAGES = [
    ("one link", captured("link-by-name-0.bin")),
    ("16 links", captured("link-by-name-0.bin") * 16),
    ("7 addresses", captured("addresses-0.bin")),
]
FIVE = [("a veth", second(captured("links-0.bin"))), ("a bridge", captured("link-by-name-0.bin"))]
BLOCK, DATAGRAM = attributes(1000, (4, 5, 6, 7)), b"".join(frame(18, bytes(4 + i % 4)) for i in range(1000))
ROWS = [
    ("a message of 4 bytes decoded", "message_read", generic(4)),
    ("decoded, finalized and serialized", "message_rewrite", generic(4)),
    ("a done message of 4 bytes decoded", "message_read", frame(3, bytes(4))),
    ("an unknown type rejected", "message_read", frame(5, bytes(4))),
    *[(f"`normalize`, {it:,} bytes", "message_normalize", generic(it)) for it in (4, 1024, 32768, 131072)],
    ("of a done message, 32,768 bytes", "message_normalize", frame(3, bytes(32768))),
    *[(f"`is_canonical_frame`, {it:,} bytes", "message_is_canonical", generic(it)) for it in (64, 32768)],
    ("`is_canonical_nlas`, 1,000 attributes", "attributes_are_canonical", BLOCK),
    ("`normalize_nlas`, 1,000 attributes, canonical", "attributes_normalize", BLOCK),
]
# Whole runs of netlink_frame, compared with a run on no input.
RUNS = [
    ("program `nlas`, 1,000 attributes", "nlas", BLOCK),
    ("100 attributes of 1,020 bytes", "nlas", attributes(100, [1020])),
    ("program `normalize`, 32,768 bytes", "normalize", frame(18, bytes(32768))),
    ("program `show`, 32,768 bytes", "show", frame(18, bytes(32768))),
    ("program `frames`, 1,000 frames", "frames", DATAGRAM),
]


# A call, its case, its bytes, and the other library with its case, or None. All of them are in calls.c.
LINK, DIRTY = captured("link-by-name-0.bin"), block(1000, b"\xee")
COMPARED = [
    ("walk over 1,000 attributes", "attributes_walk", block(1000), ("libmnl", "libmnl_walk")),
    ("append 1,000 to a vector", "attributes_append", block(1000), ("libmnl", "libmnl_append")),
    ("append 10 to a vector", "attributes_append", block(10), ("libmnl", "libmnl_append")),
    ("normalize 1,000 with dirty padding", "attributes_normalize", DIRTY, ("netlink-packet-core", "rust_normalize")),
    ("append 1,000 frames to a datagram", "frames_append",
        b"".join(frame(18, bytes(i % 50)) for i in range(1000)), ("netlink-packet-core", "rust_append_frames")),
    ("read a tree of 1,000", "trees_read", tree(), ("netlink-packet-core", "rust_read_tree")),
    ("read and write a tree of 1,000", "trees_rewrite", tree(), ("netlink-packet-core", "rust_rewrite_tree")),
    ("read a message of 4 bytes", "raw_read", frame(18, bytes(4)), ("netlink-packet-core", "rust_read")),
    ("read an overrun of 4 bytes", "raw_read", frame(4, bytes(4)), ("netlink-packet-core", "rust_read")),
    ("an Ethernet number with a name, 0x0800", "ethernet_convert", pack("<H", 0x800), None),
    ("an Ethernet number with a name, 0x86dd", "ethernet_convert", pack("<H", 0x86dd), None),
    ("an Ethernet number without a name, 0x1234", "ethernet_convert", pack("<H", 0x1234), None),
    ("an Ethernet number without a name, 0xffff", "ethernet_convert", pack("<H", 0xffff), None),
    ("read a link message", "route_read", LINK, ("netlink-packet-route", "netlink_packet_route_read")),
    ("read a dump of 16 links", "route_read", LINK * 16, ("netlink-packet-route", "netlink_packet_route_read")),
]


# How calls grow: a call, its case, what its input is, and its bytes by the number of attributes or frames.
SIZES, LAST = (500, 2000, 8000), 0x3FFE
KIND, DATA, SLAVE_KIND, SLAVE_DATA, LINKINFO, MULTIPATH = 1, 2, 4, 5, 18, 9


def link(info):
    """Returns a message about a new link with these attributes in IFLA_LINKINFO."""
    return frame(16, bytes(16) + attribute(LINKINFO, info))


def by_turns(count):
    """Returns data of two kinds by turns, and the kinds at the end."""
    data = count // 2 * (attribute(DATA, b"") + attribute(SLAVE_DATA, b""))
    return data + attribute(KIND, b"vlan\0") + attribute(SLAVE_KIND, b"bond\0")


def last(count):
    """Returns empty attributes, the last of which has another kind."""
    return count * attribute(1, b"") + attribute(LAST, b"text")


def family(name):
    """Returns a message of the controller that describes a family."""
    return frame(16, b"\1\1\0\0" + attribute(2, name + b"\0"))


def nested(count):
    """Returns nests, each in the one before, and in the innermost one byte."""
    inner = b"\1"
    for _ in range(count):
        inner = attribute(1, inner)
    return inner


GROWTH = [
    ("`NlasIterator`", "attributes_walk", "attributes of 1 byte", lambda n: attributes(n, (1,))),
    ("`nla_find`", "attributes_find", "the kind is the last", last),
    ("`nla_place`", "attributes_place", "the last attribute", lambda n: attributes(n, (4,))),
    ("`nlas_fault`", "attributes_fault", "an error at the end", lambda n: n * attribute(1, b"") + b"\3\0\0\0"),
    ("`is_canonical_nlas`", "attributes_are_canonical", "canonical", lambda n: attributes(n, (1,))),
    ("`normalize_nlas`", "attributes_normalize", "dirty padding", lambda n: attributes(n, (1,), b"\xee")),
    ("`append_nla`, each attribute", "attributes_append", "empty attributes", lambda n: n * attribute(1, b"")),
    ("`Frames`", "frames_walk", "empty frames", lambda n: n * frame(18, b"")),
    ("`frames_fault`", "frames_error", "an error at the end", lambda n: n * frame(18, b"") + bytes(4)),
    ("`append_frame`, each frame", "frames_append", "empty frames", lambda n: n * frame(18, b"")),
    ("`read_tree`", "trees_read", "empty leaves", lambda n: n * attribute(1, b"")),
    ("`read_tree`, `write_tree`", "trees_rewrite", "empty leaves", lambda n: n * attribute(1, b"")),
    ("`Replies::read`", "replies_read", "frames of another answer", lambda n: n * frame(18, b"")),
    ("`ExtendedAck::text`", "ack_text", "the text is the last",
        lambda n: n * attribute(9, b"") + attribute(1, b"text\0")),
    ("`Path`", "path_count", "nests in nests", nested),
    ("`family_named`", "family_find", "the family is the last", lambda n: n * family(b"first") + family(b"last")),
    ("`family_groups`", "family_count", "empty groups",
        lambda n: frame(16, b"\1\1\0\0" + attribute(7, n * attribute(1, b"")))),
    ("`deserialize`", "route_read", "shapes chosen by turns", lambda n: link(by_turns(n))),
    ("`MessageView::new`", "route_view_read", "shapes chosen by turns", lambda n: link(by_turns(n))),
    ("the same", "route_view_read", "no kind", lambda n: link(n * attribute(DATA, b""))),
    ("its error", "route_error", "an error after shapes chosen by turns",
        lambda n: link(by_turns(n) + b"\3\0\0\0")),
    ("and an iteration", "route_view_look", "shapes chosen by turns", lambda n: link(by_turns(n))),
    ("and `show`", "route_show", "shapes chosen by turns", lambda n: link(by_turns(n))),
    ("and `first`", "route_first", "the kind is the last", lambda n: frame(16, bytes(16) + last(n))),
    ("and `indexed`, `first`", "route_indexed", "the kind is the last", lambda n: frame(16, bytes(16) + last(n))),
    ("and `NextHops`", "route_hops", "empty next hops",
        lambda n: frame(24, bytes(12) + attribute(MULTIPATH, n * pack("<HBBi", 8, 0, 0, 0)))),
    ("`CheckedAttributes`", "route_pass_look", "shapes chosen by turns", lambda n: link(by_turns(n))),
    ("`try_push` of a nest", "link_push", "shapes chosen by turns", by_turns),
]


# How a message of netlink_show grows with the links whose names are known: what some messages do, and they themselves.
LINKS, CHANGES = (1000, 8000, 65536), 500


def named(index, name):
    """Returns a message that a link has a name."""
    return frame(16, pack("<BxHiII", 0, 1, index, 0, 0) + attribute(3, name.encode() + b"\0"))


def deleted(index):
    return frame(17, pack("<BxHiII", 0, 1, index, 0, 0))


def known(count):
    """Returns messages after which this number of links is known."""
    return b"".join(named(it, f"link{it}") for it in range(1, count + 1))


NAMES = [
    ("the oldest link is renamed", lambda count: b"".join(named(it, f"new{it}") for it in range(1, CHANGES + 1))),
    ("the oldest link is deleted", lambda count: b"".join(deleted(it) for it in range(1, CHANGES + 1))),
    ("a link is new", lambda count: b"".join(named(count + it, f"new{it}") for it in range(1, CHANGES + 1))),
]
