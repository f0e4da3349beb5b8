"""Makes pcap files of a netlink monitor, after pcap-savefile(5) and the page of LINKTYPE_NETLINK, and computes what the
program must print for them. tests/steps/show.py runs the program on them; it passes its own helpers.

`tshark_errors` compares the files with what tshark reads from them, if it is installed.
"""

import random
import shutil
import struct
import tempfile

from built import row, run

LITTLE, BIG = "<", ">"
MAGICS = {"microseconds": 0xA1B2C3D4, "nanoseconds": 0xA1B23C4D}
NETLINK, ETHERNET, DEVICE = 253, 1, 824
LONGEST = 1 << 20
NAMES = {0: " (NULL)", 1: " (ETHERNET)", 101: " (RAW)", 113: " (LINUX_SLL)", 276: " (LINUX_SLL2)"}
BAD = "a message is malformed"


def header(order=LITTLE, resolution="microseconds", link_type=NETLINK, version=(2, 4)):
    return struct.pack(f"{order}IHHiIII", MAGICS[resolution], *version, 0, 0, 262144, link_type)


def packet(datagram, order=LITTLE, family=0, device=DEVICE, missing=0):
    """Returns a packet with its headers, of which `missing` bytes were not captured."""
    data = struct.pack(">HH10xH", 4, device, family) + datagram
    return raw_packet(data, order, missing)


def raw_packet(data, order=LITTLE, missing=0):
    return struct.pack(f"{order}IIII", 1700000000, 5, len(data), len(data) + missing) + data


def header_error(data, order):
    """Returns the error of the header of a pcap file, or None."""
    if len(data) < 24:
        return f"byte 0: the header of a pcap file is cut to {len(data)} of 24 bytes"
    major, minor, link_type = struct.unpack(f"{order}4xHH12xI", data[:24])
    if (major, minor) != (2, 4):
        return f"byte 4: the version of the pcap file is {major}.{minor} instead of 2.4"
    if link_type != NETLINK:
        name = f"{link_type}{NAMES.get(link_type, '')}"
        return f"byte 20: the link type of the pcap file is {name} instead of 253 (NETLINK)"
    return None


def without_padding(datagram):
    """Returns a datagram without the zeros after its last message."""
    at = 0
    while any(datagram[at:]):
        size = int.from_bytes(datagram[at : at + 4], "little")
        if not 16 <= size <= len(datagram) - at:
            return datagram
        at += size + -size % 4
    return datagram[:at]


def whole_messages(datagram):
    """Returns the whole messages at the start of a datagram that was cut, and what follows them if it is damaged."""
    at = 0
    while len(datagram) - at >= 16 and any(datagram[at:]):
        size = int.from_bytes(datagram[at : at + 4], "little")
        if size < 16:
            return datagram
        if size > len(datagram) - at:
            break
        at += size + -size % 4
    return datagram[:at]


def is_route(data):
    """Returns whether the captured bytes of a packet have the header of a datagram of route netlink."""
    return len(data) >= 16 and struct.unpack(">2xH10xH", data[:16]) == (DEVICE, 0)


def cut_lines(at, data, shown):
    """Returns the lines of the messages in a packet that was cut, if it has a datagram of route netlink, or None."""
    if not is_route(data):
        return ""
    if not (result := shown(whole_messages(data[16:]), at + 32)):
        return None
    return result[1].decode() + (f"{result[2]}\n" if result[2] not in ("", BAD) else "")


def datagram_lines(at, data, original, shown):
    """Returns the lines of the captured bytes of a packet, whose header is at an offset, and whether one is an error.
    `shown` returns what the program does with the messages of a datagram. Returns None if it does."""
    if len(data) < original:
        line = f"byte {at}: of a packet of {original} bytes, {len(data)} were captured\n"
        lines = cut_lines(at, data, shown)
        return None if lines is None else (lines + line, True)
    if len(data) < 16:
        return f"byte {at}: a packet of {len(data)} bytes is shorter than its header of 16\n", True
    device, family = struct.unpack(">2xH10xH", data[:16])
    if device != DEVICE:
        return f"byte {at}: the device type of a packet is {device} instead of 824 (NETLINK)\n", True
    if family:
        return f"netlink family {family}, {len(data) - 16} bytes\n", False
    if not (result := shown(without_padding(data[16:]), at + 32)):
        return None
    status, lines, error = result
    return lines.decode() + (f"{error}\n" if error not in ("", BAD) else ""), status == 1


def file_shown(data, shown):
    """Returns what the program does with a pcap file: its status, output and error. Returns None if `shown` does for a
    datagram in it."""
    order = LITTLE if data[:4] in [struct.pack("<I", it) for it in MAGICS.values()] else BIG
    if error := header_error(data, order):
        return 1, b"", error
    at, lines, bad, error = 24, "", False, None
    while at < len(data):
        left = len(data) - at
        if left < 16:
            error = f"byte {at}: the header of a packet is cut to {left} of 16 bytes"
            break
        captured, original = struct.unpack(f"{order}8xII", data[at : at + 16])
        if captured > LONGEST:
            error = f"byte {at}: a packet of {captured} bytes is longer than {LONGEST}"
        elif captured > left - 16:
            error = f"byte {at}: a packet is cut to {left - 16} of {captured} bytes"
            if (more := cut_lines(at, data[at + 16 :], shown)) is None:
                return None
            lines += more
        if error:
            break
        if not (found := datagram_lines(at, data[at + 16 : at + 16 + captured], original, shown)):
            return None
        lines, bad, at = lines + found[0], bad or found[1], at + 16 + captured
    return 1 if error or bad else 0, lines.encode(), error or (BAD if bad else "")


def made_file(message, order, resolution):
    """Returns a file with packets of each kind. `message` makes a message by its type and its payload."""
    messages = [message(kind, bytes(kind % 5)) for kind in range(140, 148)]
    padded = b"".join(it + bytes(-len(it) % 4) for it in messages)
    datagrams = [messages[0], padded, b"", padded + messages[1][:-1], b"\1"]
    datagrams += [messages[0] + bytes(25), padded + bytes(3), bytes(16), messages[1] + bytes(18) + b"\1"]
    datagrams += [message(56, b"", length) for length in (15, 1 << 21)]
    packets = [packet(it, order) for it in datagrams]
    packets += [packet(padded, order, family=family) for family in (16, 65535)]
    packets += [packet(padded, order, device=it) for it in (0, 1, 823)]
    packets += [packet(padded, order, missing=missing) for missing in (1, 1 << 24)]
    packets += [packet(it, order, missing=1) for it in (padded[:-5], padded + bytes(20), messages[0] + bytes(18) + b"\1")]
    packets += [packet(padded, order, family=16, missing=1)]
    packets += [raw_packet(bytes(size), order) for size in (0, 15)]
    return header(order, resolution) + b"".join(packets) + packets[0]


def pcap_rows(message, shown, streams):
    """Yields the runs over pcap files: with packets of each kind; every prefix of one; with damage; with streams whose
    lines are given as one packet each; and files that are not read."""
    kinds = [(order, resolution) for order in (LITTLE, BIG) for resolution in MAGICS]
    for order, resolution in kinds:
        whole = made_file(message, order, resolution)
        yield row(f"a file {order} {resolution}", [], file_shown(whole, shown), whole)
        parts = [packet(data, order) for data, _ in streams]
        wanted = 0, b"".join(lines for _, lines in streams), ""
        yield row(f"streams {order} {resolution}", [], wanted, header(order, resolution) + b"".join(parts))
        for version in ((2, 3), (1, 4), (4, 2)):
            data = header(order, resolution, version=version)
            yield row(f"version {version}", [], file_shown(data, shown), data)
        for link_type in (*NAMES, 252, 254, 0x100000FD):
            data = header(order, resolution, link_type)
            yield row(f"link type {link_type}", [], file_shown(data, shown), data)
    for size in (LONGEST - 16, LONGEST - 15):
        data = header() + packet(message(56, bytes(size - 16)))
        yield row(f"a datagram of {size} bytes", [], file_shown(data, shown), data)
    whole = made_file(message, BIG, "nanoseconds")
    for cut in range(4, len(whole)):
        yield row(f"the first {cut} bytes of a file", [], file_shown(whole[:cut], shown), whole[:cut])
    made = random.Random(2)
    for place in range(300):
        at = made.randrange(4, len(whole) - 4)
        data = whole[:at] + made.randbytes(made.choice((1, 2, 4))) + whole[at + 4 :]
        if wanted := file_shown(data, shown):
            yield row(f"damaged file {place}", [], wanted, data)


# What tshark must read of a packet: its number, its lengths, the device type and the family.
FIELDS = ["frame.number", "frame.cap_len", "frame.len", "netlink.hatype", "netlink.family"]
TSHARK_FILES = 4


def tshark_errors(message):
    """Returns what tshark reads otherwise than it was written, and how many files it read: None without tshark."""
    if not shutil.which("tshark"):
        return [], None
    errors = []
    for order in (LITTLE, BIG):
        for resolution in MAGICS:
            messages = [message(56, bytes(size)) for size in range(8)]
            packets = [packet(it, order, len(it) % 2 * 16, missing=len(it) // 20) for it in messages]
            with tempfile.NamedTemporaryFile(suffix=".pcap") as file:
                file.write(header(order, resolution) + b"".join(packets))
                file.flush()
                words = [word for it in FIELDS for word in ("-e", it)]
                _, output, _ = run(["tshark", "-r", file.name, "-T", "fields", *words])
            sizes = [(len(it), len(it) // 20) for it in messages]
            wanted = "".join(
                f"{place}\t{16 + size}\t{16 + size + missing}\t824\t0x{size % 2 * 16:04x}\n"
                for place, (size, missing) in enumerate(sizes, 1)
            )
            if output.decode() != wanted:
                errors.append(f"tshark reads a file {order} {resolution} as {output.decode()!r}, not {wanted!r}")
    return errors, TSHARK_FILES
