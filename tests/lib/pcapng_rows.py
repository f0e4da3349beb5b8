"""Makes pcapng files of a netlink monitor, after the draft "PCAP Now Generic (pcapng) Capture File Format", and computes
what the program must print for them. tests/steps/show.py runs the program on them; it passes its own helpers.

`pcapng_errors` compares what the program prints for a file that tshark wrote with what it prints for the same packets as
a pcap file. `tshark_errors` compares the made files with what tshark reads from them, if it is installed.
"""

import os
import random
import shutil
import struct
import tempfile

from built import TOP, row, run
from pcap_rows import BAD, BIG, DEVICE, ETHERNET, LITTLE, LONGEST, NAMES, NETLINK, datagram_lines

SECTION, INTERFACE, SIMPLE, ENHANCED, NAMES_BLOCK, STATISTICS = 0x0A0D0D0A, 1, 3, 6, 4, 5
MAGIC = 0x1A2B3C4D
# What a block of a type starts with, and its shortest length.
FIXED = {SECTION: 24, INTERFACE: 16, SIMPLE: 12, ENHANCED: 28}


def block(kind, body, order=LITTLE, size=None, end=None):
    """Returns a block. `size` and `end` are the lengths that it has at its start and its end, if they are others."""
    body += bytes(-len(body) % 4)
    size = 12 + len(body) if size is None else size
    return struct.pack(f"{order}II", kind, size) + body + struct.pack(f"{order}I", size if end is None else end)


def section(order=LITTLE, version=(1, 0), options=b"", magic=MAGIC):
    return block(SECTION, struct.pack(f"{order}IHHq", magic, *version, -1) + options, order)


def interface(order=LITTLE, link_type=NETLINK, snap=262144, options=b""):
    return block(INTERFACE, struct.pack(f"{order}HHI", link_type, 0, snap) + options, order)


def packed(datagram, family=0, device=DEVICE):
    """Returns a datagram with its header, which is that of a packet."""
    return struct.pack(">HH10xH", 4, device, family) + datagram


def enhanced(data, order=LITTLE, number=0, missing=0, options=b"", captured=None):
    head = struct.pack(f"{order}IIIII", number, 0x60000, 5, len(data) if captured is None else captured, len(data) + missing)
    return block(ENHANCED, head + data + bytes(-len(data) % 4) + options, order)


def simple(data, order=LITTLE, original=None):
    return block(SIMPLE, struct.pack(f"{order}I", len(data) if original is None else original) + data, order)


def option(kind, value, order=LITTLE):
    return struct.pack(f"{order}HH", kind, len(value)) + value + bytes(-len(value) % 4)


class Section:
    """What is known of a section: its byte order, and the number of bytes that each interface captures."""

    def __init__(self, order=LITTLE):
        self.order, self.snaps = order, []

    def number(self, data, at, size=4):
        return int.from_bytes(data[at : at + size], "little" if self.order == LITTLE else "big")


def order_of(data):
    return {MAGIC.to_bytes(4, "little"): LITTLE, MAGIC.to_bytes(4, "big"): BIG}.get(data[8:12])


def size_error(size, least):
    if size % 4:
        return f"the length of a block is {size}, no multiple of 4"
    return f"the length of a block is {size}, less than {least}" if size < least else None


def packet_error(of, number, captured, room):
    if number >= len(of.snaps):
        return f"a packet of interface {number} in a section with {len(of.snaps)}"
    if captured > LONGEST:
        return f"a packet of {captured} bytes is longer than {LONGEST}"
    return f"a block has room for {room} of the {captured} bytes of a packet" if captured > room else None


def read_block(of, data):
    """Returns an error, or the size of the block at the start of bytes, the section after it, and its packet: where its
    bytes start, how many were captured, and how many it had."""
    if len(data) < 8:
        return f"the header of a block is cut to {len(data)} of 8 bytes"
    kind, said = of.number(data, 0), of.number(data, 4)
    # The options of an interface are read, unless its length is out of bounds.
    fixed = said - 4 if kind == INTERFACE and 20 <= said <= LONGEST else FIXED.get(kind, 8)
    if len(data) < fixed:
        return f"the header of a block is cut to {len(data)} of {fixed} bytes"
    after, packet = of, None
    if kind == SECTION:
        if not (order := order_of(data)):
            return "a section has neither byte order"
        after = Section(order)
    size = after.number(data, 4)
    if error := size_error(size, FIXED.get(kind, 8) + 4):
        return error
    if kind == SECTION and (major := after.number(data, 12, 2)) != 1:
        return f"the major version of a section is {major} instead of 1"
    if kind == INTERFACE:
        if (link_type := of.number(data, 8, 2)) != NETLINK:
            return f"the link type of an interface is {link_type}{NAMES.get(link_type, '')} instead of 253 (NETLINK)"
        after = Section(of.order)
        after.snaps = [*of.snaps, of.number(data, 12)]
    if kind == ENHANCED:
        captured, original = of.number(data, 20), of.number(data, 24)
        if error := packet_error(of, of.number(data, 8), captured, size - 32):
            return error
        packet = 28, captured, original
    if kind == SIMPLE:
        original = of.number(data, 8)
        captured = min(original, of.snaps[0]) if of.snaps and of.snaps[0] else original
        if error := packet_error(of, 0, captured, size - 16):
            return error
        packet = 12, captured, original
    if len(data) < size:
        return f"a block is cut to {len(data)} of {size} bytes"
    if (end := after.number(data, size - 4)) != size:
        return f"the length of a block is {size} at its start and {end} at its end"
    return size, after, packet


def packet_lines(at, data, packet, shown):
    """Returns the lines of the packet in a block at an offset, and whether one is an error. `datagram_lines` knows those
    of a pcap file, whose header has 16 bytes: this moves the offset of the messages, and then that of the packet back."""
    start, captured, original = packet
    moved = at + start - 16
    found = datagram_lines(moved, data[start : start + captured], original, shown)
    if found is None:
        return None
    own = f"byte {moved}: "
    lines = found[0].splitlines(keepends=True)
    texts = ("of a packet of ", "a packet of ", "the device type of a packet ")
    if lines and lines[-1].startswith(own) and lines[-1][len(own) :].startswith(texts):
        lines[-1] = f"byte {at}: {lines[-1][len(own) :]}"
    return "".join(lines), found[1]


def blocks_shown(data, shown):
    """Returns what the program does with a pcapng file: its status, output and error. Returns None if `shown` does for a
    datagram in it."""
    at, lines, bad, of = 0, "", False, Section()
    while at < len(data):
        found = read_block(of, data[at:])
        if isinstance(found, str):
            return 1, lines.encode(), f"byte {at}: {found}"
        size, of, packet = found
        if packet:
            if (more := packet_lines(at, data[at : at + size], packet, shown)) is None:
                return None
            lines, bad = lines + more[0], bad or more[1]
        at += size
    return 1 if bad else 0, lines.encode(), BAD if bad else ""


def others(order):
    """Returns blocks without a packet, also of types that nobody has defined."""
    options = option(1, b"a comment", order) + option(0, b"", order)
    names = struct.pack(f"{order}HH", 1, 6) + b"\1\2\3\4a\0\0\0" + bytes(4)
    found = [block(NAMES_BLOCK, names, order), block(STATISTICS, struct.pack(f"{order}III", 0, 0, 0) + options, order)]
    found += [block(kind, b"", order) for kind in (0, 2, 7, 0x0BAD, 0x80000001)]
    return [*found, block(0x0BAD, bytes(range(256)) * 9, order)]


def made_section(message, order):
    """Returns the blocks of a section with packets of each kind. `message` makes a message by its type and its payload."""
    messages = [message(kind, bytes(kind % 5)) for kind in range(140, 148)]
    padded = b"".join(it + bytes(-len(it) % 4) for it in messages)
    datagrams = [messages[0], padded, b"", padded + messages[1][:-1], b"\1", messages[0] + bytes(25), padded + bytes(3)]
    datagrams += [messages[1] + bytes(18) + b"\1", message(56, b"", 15), message(56, b"", 1 << 21)]
    options = option(1, b"a comment", order) + option(2, bytes(4), order) + option(0, b"", order)
    blocks = [section(order, options=option(4, b"a program", order) + option(0, b"", order))]
    blocks += [*others(order)[:3], interface(order, options=option(2, b"nlmon0", order) + option(0, b"", order))]
    blocks += [enhanced(packed(it), order) for it in datagrams]
    blocks += [enhanced(packed(it), order, options=options) for it in datagrams[:3]]
    blocks += [*others(order), interface(order, snap=100), enhanced(packed(padded), order, 1)]
    blocks += [enhanced(packed(padded, family=family), order) for family in (16, 65535)]
    blocks += [enhanced(packed(padded, device=device), order) for device in (0, 1, 823)]
    blocks += [enhanced(packed(padded)[:-4], order, missing=missing) for missing in (1, 1 << 24)]
    blocks += [enhanced(packed(padded, family=16), order, missing=1), *[enhanced(bytes(size), order) for size in (0, 15)]]
    return blocks + [simple(packed(it), order) for it in datagrams[:4]]


def made_snapped(message, order, snap):
    """Returns a section whose first interface captures few bytes of a packet."""
    data = packed(message(56, b"") + message(57, b"abcd"))
    cut = data[:snap] if snap else data
    return [section(order, (1, 2)), interface(order, snap=snap), interface(order), simple(cut, order, len(data)), simple(data[:20], order)]


def damaged_blocks(order):
    """Yields a name and blocks of which the last one is damaged."""
    start, data = [section(order), interface(order)], packed(b"")
    for size in (0, 4, 8, 11, 12, 13, 16, 20, 24, 27, 28, 31, 33, 0xFFFFFFFF, 0xFFFFFFFC):
        yield f"a section of length {size}", [block(SECTION, section(order)[8:-4], order, size)]
        for kind, other in ((INTERFACE, interface(order)), (ENHANCED, enhanced(data, order)), (SIMPLE, simple(data, order)), (5, block(5, b"", order))):
            yield f"a block {kind} of length {size}", [*start, block(kind, other[8:-4], order, size)]
    for end in (0, 28, 0xFFFFFFFF):
        yield f"a section that ends with {end}", [block(SECTION, section(order)[8:-4], order, end=end)]
        for other in (interface(order), enhanced(data, order), simple(data, order), block(5, bytes(600), order)):
            yield f"a block that ends with {end}", [*start, other[:-4] + struct.pack(f"{order}I", end)]
    for version in ((0, 0), (2, 0), (256, 1)):
        yield f"version {version}", [section(order, version)]
    yield "no magic number", [section(order, magic=0x1A2B3C4E)]
    for link_type in (*NAMES, 252, 254, ETHERNET):
        yield f"link type {link_type}", [*start, interface(order, link_type)]
    for number in (1, 2, 0xFFFFFFFF):
        yield f"interface {number}", [*start, enhanced(data, order, number)]
    yield "no interface", [section(order), enhanced(data, order)]
    yield "no interface, a packet without its own header", [section(order), simple(data, order)]
    yield "no interface in a new section", [*start, enhanced(data, order), section(order), simple(data, order)]
    for captured in (17, 20, 21, LONGEST, LONGEST + 1, 0xFFFFFFFF):
        yield f"{captured} captured bytes", [*start, enhanced(data, order, captured=captured)]
    for original in (17, 20, LONGEST, LONGEST + 1, 0xFFFFFFFF):
        yield f"{original} bytes", [section(order), interface(order, snap=0), simple(data, order, original)]


def pcapng_rows(message, shown, streams):
    """Yields the runs over pcapng files: with blocks of each kind; every prefix of one; with damage; with sections of
    different byte orders; and with streams whose lines are given as one packet each."""
    for order in (LITTLE, BIG):
        whole = b"".join(made_section(message, order))
        yield row(f"blocks {order}", [], blocks_shown(whole, shown), whole)
        for other in (LITTLE, BIG):
            both = whole + b"".join(made_section(message, other))
            yield row(f"sections {order} {other}", [], blocks_shown(both, shown), both)
        for snap in (0, 16, 17, 32, 50, 51, 52, 1000):
            data = b"".join(made_snapped(message, order, snap))
            yield row(f"{snap} bytes of a packet {order}", [], blocks_shown(data, shown), data)
        parts = [section(order), interface(order)]
        for place, (data, _) in enumerate(streams):
            parts += [enhanced(packed(data), order), others(order)[place % 3]]
        wanted = 0, b"".join(lines for _, lines in streams), ""
        yield row(f"streams in blocks {order}", [], wanted, b"".join(parts))
        yield row(f"no packet {order}", [], (0, b"", ""), section(order) + b"".join(others(order)))
        for name, blocks in damaged_blocks(order):
            data = b"".join(blocks)
            yield row(f"{name} {order}", [], blocks_shown(data, shown), data)
    for size in (LONGEST, LONGEST + 1):
        data = section() + interface() + enhanced(packed(message(56, bytes(size - 32))))
        yield row(f"a packet of {size} bytes", [], blocks_shown(data, shown), data)
    whole = b"".join(made_snapped(message, BIG, 0)) + b"".join(made_section(message, LITTLE)[:9])
    for cut in range(4, len(whole)):
        yield row(f"the first {cut} bytes of blocks", [], blocks_shown(whole[:cut], shown), whole[:cut])
    made = random.Random(3)
    for place in range(300):
        at = made.randrange(4, len(whole) - 4)
        data = whole[:at] + made.randbytes(made.choice((1, 2, 4))) + whole[at + 4 :]
        if wanted := blocks_shown(data, shown):
            yield row(f"damaged blocks {place}", [], wanted, data)


def pcapng_errors(program):
    """Returns what the program prints otherwise for the file that editcap wrote than for the pcap file that it was made
    from, and the number of lines."""
    folder = os.path.join(TOP, "examples", "captured", "pcapng")
    outputs = []
    for name in ("packets.pcap", "packets.pcapng"):
        with open(os.path.join(folder, name), "rb") as file:
            outputs.append(run([program], file.read()))
    lines = outputs[0][1].count(b"\n")
    good = outputs[0] == outputs[1] and outputs[0][0] == 0 and lines
    return [] if good else ["packets.pcapng has other lines than packets.pcap"], lines if good else 0


SNAPS = (0, 17, 50, 1000)
FIELDS = ("frame.cap_len", "frame.len", "netlink.hatype", "netlink.family")


def tshark_errors(message):
    """Returns what tshark reads otherwise than `read_block` does, and how many files it read: none if it is not
    installed."""
    if not shutil.which("tshark"):
        return [], 0
    errors = []
    for order in (LITTLE, BIG):
        for snap in SNAPS:
            data, of, wanted = b"".join(made_snapped(message, order, snap)), Section(), ""
            data += enhanced(packed(message(56, b""), family=16), order, 1, missing=5, options=option(1, b"a comment", order))
            with tempfile.NamedTemporaryFile(suffix=".pcapng") as file:
                file.write(data)
                file.flush()
                words = [word for it in FIELDS for word in ("-e", it)]
                _, output, _ = run(["tshark", "-r", file.name, "-T", "fields", *words])
            while data:
                size, of, packet = read_block(of, data)
                if packet:
                    start, captured, original = packet
                    device, family = struct.unpack(">2xH10xH", data[start : start + 16])
                    wanted += f"{captured}\t{original}\t{device}\t0x{family:04x}\n"
                data = data[size:]
            if output.decode() != wanted:
                errors.append(f"tshark reads blocks {order} {snap} as {output.decode()!r}, not {wanted!r}")
    return errors, 2 * len(SNAPS)
