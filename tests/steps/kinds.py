#!/usr/bin/env python3
"""Checks each field and each typed attribute of netlink_route, one attribute a frame, by tests/kinds.txt.

A frame with a valid value must come back unchanged, also with a flag bit and with the attribute twice, and its text must
be the one that this script makes: the names, and the values by their form and byte order. A frame whose value is one
byte short or long, or has another form, must be rejected, with the error text that this script makes: with the kind, the
offset of the attribute, the policy and the sizes. So must a frame whose nest is cut within an attribute.

The attributes of a kind of link are in IFLA_INFO_DATA, before or after IFLA_INFO_KIND. The first kind counts. So it is
with TCA_OPTIONS and TCA_KIND, which have the same numbers. The attributes of an encapsulation are in RTA_ENCAP, before or
after RTA_ENCAP_TYPE, and the first type counts.
"""

import os
import struct
import sys

sys.path.insert(0, os.path.join(sys.path[0], "..", "lib"))

from built import built, in_parallel, run, tally  # noqa: E402 (it is in that folder)
from expected import Expected, differs  # noqa: E402
from kind_table import INTEGERS, families, text_of  # noqa: E402

NORMALIZES = "tests::captured::standard_input_is_normalized"
SHOWS = "tests::captured::standard_input_is_shown"
RESULT = b"\ntest result: ok\n"
NESTED, QUERY = 0x8000, 0x4000  # NLA_F_NESTED and the other flag bit, NLA_F_NET_BYTEORDER
INFO_KIND, INFO_DATA, GATEWAY = 1, 2, 5  # IFLA_INFO_KIND or TCA_KIND, IFLA_INFO_DATA or TCA_OPTIONS, RTA_GATEWAY
NUMBERS = 0, 0x3FFF  # of attributes that may have any number
ENCAP_TYPE, ENCAP = 21, 22  # RTA_ENCAP_TYPE, RTA_ENCAP


def attribute(kind, value):
    return struct.pack("<HH", 4 + len(value), kind) + value + bytes(-len(value) % 4)


def values(kind, form, size):
    """Returns valid values, and invalid ones with the reason."""
    count = bytes(range(1, 256))
    if form == "bytes":
        return [b"", count[:3], count[:16]], []
    if form == "flag":
        return [b""], [(b"\1", f"attribute {kind} has a value of 1 bytes instead of 0")]
    if form == "string":
        return [b"", b"name", b"name\0"], [(b"na\0me", f"attribute {kind} is a string with a NUL before its last byte")]
    if form == "address":
        text = "attribute {} has an address of {} bytes instead of 4 or 16"
        return [count[:4], count[:16]], [(bytes(it), text.format(kind, it)) for it in (3, 5, 15, 17)]
    if form == "exact":
        text = "attribute {} has a value of {} bytes instead of {}"
        return [count[:size], b"\xff" * size], [(bytes(it), text.format(kind, it, size)) for it in (size - 1, size + 1)]
    if form == "least":
        text = f"attribute {kind} has a value of {size - 1} bytes instead of {size} or more"
        return [count[:size], count[: size + 1]], [(bytes(size - 1), text)]
    if form == "elements":
        text = "attribute {} has a value of {} bytes, no multiple of {}"
        return [b"", count[:size], count[: 3 * size]], [(bytes(it), text.format(kind, it, size)) for it in (size - 1, size + 1)]
    size, text = INTEGERS[form], "attribute {} has a value of {} bytes instead of {}"
    return [count[:size], b"\xff" * size], [(bytes(it), text.format(kind, it, size)) for it in (size - 1, size + 1)]


def indented(lines):
    return ["  " + it for it in lines]


def nests(kind, name, policy, inside, offset, header=b""):
    """Yields the cases of a nest with these kinds, after a header."""
    start = offset + 4 + len(header)
    for block, lines, error in blocks(inside, start, policy):
        for number in (kind, kind | NESTED):
            label = str(number) if name == "-" else name
            first = f"{label}: {header.hex()}" if header else f"{label}:"
            yield attribute(number, header + block), [first, *indented(lines)] if lines else None, error
    cut = attribute(1, bytes(4))[:-1]
    error = f"at byte {start}, in policy {policy}: an attribute of 8 bytes is truncated to 7"
    yield attribute(kind, header + cut), None, error


def links(name, policy, inside, offset, names):
    """Yields the cases of a kind of link, within IFLA_LINKINFO, or of a discipline. `names` has those of the kinds beside
    it."""
    with_nul, without, other = (attribute(INFO_KIND, it) for it in (name.encode() + b"\0", name.encode(), b"other"))
    data_name, kind_name = names[str(INFO_DATA)], names[str(INFO_KIND)]
    text = f"{kind_name}: {name}"
    for block, lines, error in blocks(inside, offset + len(with_nul) + 4, policy):
        lines = [text, f"{data_name}:", *indented(lines)] if lines else None
        yield with_nul + attribute(INFO_DATA, block), lines, error
    for block, lines, error in blocks(inside, offset + 4, policy):
        lines = [f"{data_name}:", *indented(lines), text] if lines else None
        yield attribute(INFO_DATA | NESTED, block) + without, lines, error
    data = attribute(INFO_DATA, b"\1")
    error = f"at byte {offset + len(without + other) + 4}, in policy {policy}: 1 bytes are too few for an attribute"
    yield without + other + data, None, error
    yield other + without + data, [f"{kind_name}: other", text, f"{data_name}: 01"], None


def encapsulations(number, policy, inside, offset):
    """Yields the cases of an encapsulation, within a route."""
    own, other = (attribute(ENCAP_TYPE, struct.pack("<H", it)) for it in (number, 256 + number))
    text, other_text = (f"RTA_ENCAP_TYPE: {it}" for it in (number, 256 + number))
    for block, lines, error in blocks(inside, offset + len(own) + 4, policy):
        lines = [text, "RTA_ENCAP:", *indented(lines)] if lines else None
        yield own + attribute(ENCAP, block), lines, error
    for block, lines, error in blocks(inside, offset + 4, policy):
        lines = ["RTA_ENCAP:", *indented(lines), text] if lines else None
        yield attribute(ENCAP | NESTED, block) + own, lines, error
    for kind, size in (ENCAP, 7), (ENCAP | NESTED, 5):
        cut = attribute(int(inside[0][0]), bytes(4))[:size]
        error = f"at byte {offset + len(own) + 4}, in policy {policy}: an attribute of 8 bytes is truncated to {size}"
        yield own + attribute(kind, cut), None, error
    data = attribute(ENCAP, b"\1")
    error = f"at byte {offset + len(own + other) + 4}, in policy {policy}: 1 bytes are too few for an attribute"
    yield own + other + data, None, error
    yield other + own + data, [other_text, text, "RTA_ENCAP: 01"], None


def hop(flags, hops, index, attributes=b"", size=8):
    """Returns a struct rtnexthop with attributes. `size` is that of the struct, in its length field."""
    return struct.pack("<HBBi", size + len(attributes), flags, hops, index) + attributes


def hops(kind, name, policy, offset):
    """Yields the cases of a list of next hops."""
    address, short = attribute(GATEWAY, bytes([192, 0, 2, 1])), attribute(GATEWAY, bytes(3))
    own = ["256: 02000000", "  RTA_GATEWAY: c0000201"]
    one, two = hop(0, 1, 2, address), hop(4, 0, -2, address)
    # RTA_PREF of one byte, without the padding after it
    odd = hop(0, 0, 3, attribute(20, b"\1")[:5])
    for value, lines in [
        (b"", []),
        (hop(0, 1, 2), own[:1]),
        (hop(255, 255, 2), ["65535: 02000000"]),
        (one, own),
        (one + two, [*own, "4: feffffff", own[1]]),
        (one + odd, [*own, "0: 03000000", "  RTA_PREF: 1"]),
    ]:
        yield attribute(kind, value), [f"{name}:", *indented(lines)], None
        yield attribute(kind | NESTED, value), [f"{name}:", *indented(lines)], None
    start, second = offset + 4, offset + 4 + len(one)
    for value, at, its_policy, reason in [
        (one[:-4], start, policy, "an attribute of 16 bytes is truncated to 12"),
        (one + one[:7], second, policy, "an attribute of 16 bytes is truncated to 7"),
        (one + one[:3], second, policy, "3 bytes are too few for an attribute"),
        (hop(0, 0, 2, size=3), start, policy, "an attribute has length 3, less than 4"),
        (hop(0, 0, 2, size=7)[:7], start, policy, "attribute 0 has a value of 3 bytes instead of 4 or more"),
        (one + hop(2, 1, 2, size=4)[:4], second, policy, "attribute 258 has a value of 0 bytes instead of 4 or more"),
        (one + hop(0, 0, 2, short), second + 8, 0, "attribute 5 has an address of 3 bytes instead of 4 or 16"),
        (one + hop(0, 0, 2, address[:-1]), second + 8, 0, "an attribute of 8 bytes is truncated to 7"),
    ]:
        yield attribute(kind, value), None, f"at byte {at}, in policy {its_policy}: {reason}"


def blocks(kinds, offset, policy):
    """Yields a block, and the lines of its text or None, and the text of its error or None, for each case of each kind.
    `offset` is that of the block."""
    names = {it[0]: it[1] for it in kinds}
    for kind, name, form, size, inside in kinds:
        if form == "link":
            yield from links(name, size, inside, offset, names)
            continue
        if form == "encapsulation":
            yield from encapsulations(int(kind[1:]), size, inside, offset)
            continue
        if form == "nest":
            for number in NUMBERS if kind == "*" else [int(kind)]:
                yield from nests(number, name, size, inside, offset)
            continue
        kind = int(kind)
        if form in ("header", "headed"):
            size, its_policy = size if form == "headed" else (size, 0)
            header = bytes(range(1, size + 1))
            yield from nests(kind, name, its_policy, inside, offset, header)
            yield attribute(kind, header), [f"{name}: {header.hex()}"], None
            reason = f"attribute {kind} has a value of {size - 1} bytes instead of {size} or more"
            yield attribute(kind, header[1:]), None, f"at byte {offset}, in policy {policy}: {reason}"
            continue
        if form == "hops":
            yield from hops(kind, name, size, offset)
            continue
        valid, invalid = values(kind, form, size)
        label, other_label = (str(it) if name == "-" else name for it in (kind, kind | QUERY))
        lines = [f"{label}: {text_of(form, it)}" for it in valid]
        for value, line in zip(valid, lines):
            yield attribute(kind, value), [line], None
        yield attribute(kind | QUERY, valid[-1]), [f"{other_label}: {text_of(form, valid[-1])}"], None
        yield attribute(kind, valid[-1]) + attribute(kind, valid[0]), [lines[-1], lines[0]], None
        for value, reason in invalid:
            yield attribute(kind, value), None, f"at byte {offset}, in policy {policy}: {reason}"


def rows():
    """Yields a name, a test, a frame, and what the test must write for it."""
    for message_type, size, fields, kinds in families():
        header = bytes(range(255, 255 - size, -1))
        for block, lines, error in blocks(kinds, size, 0):
            frame = struct.pack("<IHHII", 16 + size + len(block), message_type, 0, 1, 0) + header + block
            name = f"type {message_type}, block {block.hex()}"
            rejected = f"Failed to parse message with type {message_type}: {error}".encode()
            yield name, NORMALIZES, frame, rejected if error else frame
            if lines:
                own = [f"{it}: {text_of(form, header[at : at + INTEGERS[form]])}" for it, at, form in fields]
                text = "".join(f"{it}\n" for it in [f"type {message_type}", *own, *lines])
                yield f"text of {name}", SHOWS, frame, text.encode()


def main():
    # a kind of bytes is listed once for each policy that they may have
    program, all_rows = built("netlink_route_tests_tests", "netlink_route_tests"), list(dict.fromkeys(rows()))

    def difference(row):
        name, test, frame, text = row
        result = run([program, test], frame)
        return None if result == (0, text + RESULT, b"") else f"{name}: returned {result}"

    failures = [it for it in in_parallel(difference, all_rows) if it]
    passed = len(all_rows) - len(failures)
    why = differs("frames and texts", len(all_rows), Expected().lines["passes"].get("tests/steps/kinds.py", 0))
    failures += [why] * bool(why)
    tally("kinds", failures, passed)


if __name__ == "__main__":
    main()
