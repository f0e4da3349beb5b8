"""Makes pcap and pcapng files with times, and computes what the program must print for them with `--time`, after
pcap-savefile(5) and the draft "PCAP Now Generic (pcapng) Capture File Format". tests/steps/show.py runs the program on
them. `time_errors` compares the times with those that tshark reads, if it is installed."""

import shutil
import struct
import tempfile

from built import row, run
from pcap_rows import BIG, LITTLE, MAGICS, header, packet
from pcapng_rows import block, enhanced, interface, option, others, packed, section, simple

RESOLUTION = 9  # if_tsresol
COUNTS = (0, 1, 999_999, 1_000_000, 1_700_000_000_123_456, 1_700_000_000_123_456_789, (1 << 64) - 1)
RESOLUTIONS = (0, 1, 3, 6, 7, 9, 12, 13, 14, 19, 20, 127, 128, 129, 138, 148, 172, 173, 192, 255)
PACKED = [(0, 0), (1, 999_999), (1_700_000_000, 42), (0xFFFFFFFF, 999_999_999), (2, 0xFFFFFFFF)]


def stamp(seconds, micros):
    return f"[{seconds}.{micros:06}] "


def clock(resolution, count):
    """Returns the time that an interface counts so, before a line; nothing if its unit is too small."""
    unit = 10**resolution if resolution < 128 else 2 ** (resolution - 128)
    if unit > (10**13 if resolution < 128 else 2**44):
        return ""
    return stamp(count // unit, count % unit * 10**6 // unit)


def counted(data, count, order, number=0):
    """Returns a block with a packet of this time."""
    head = struct.pack(f"{order}IIIII", number, count >> 32, count & 0xFFFFFFFF, len(data), len(data))
    return block(6, head + data, order)


def of_resolution(resolution, order):
    """Returns an interface with this resolution, or without one."""
    before = option(2, b"nlmon0", order) + option(1, b"abc", order)
    options = b"" if resolution is None else option(RESOLUTION, bytes([resolution]), order)
    return interface(order, options=before + options + option(0, b"", order))


def time_rows(message, link, line):
    """Yields runs with `--time`. `message` makes a message by its type and its payload; `link` is a message of a link, and
    `line` its line."""
    two, lines = message(56, b"") + message(57, b""), ("type 56, 16 bytes\n", "type 57, 16 bytes\n")
    for order in (LITTLE, BIG):
        for name in MAGICS:
            data, wanted = header(order, name), ""
            for seconds, fraction in PACKED:
                data += struct.pack(f"{order}II", seconds, fraction) + packet(two, order)[8:]
                time = stamp(seconds, fraction // 1000 if name == "nanoseconds" else fraction)
                wanted += "".join(time + it for it in lines)
            yield row(f"times {order} {name}", ["--time"], (0, wanted.encode(), ""), data)
            yield row(f"no times {order} {name}", [], (0, len(PACKED) * "".join(lines).encode(), ""), data)
        for resolution in (None, *RESOLUTIONS):
            data, wanted = section(order) + of_resolution(resolution, order), ""
            for count in COUNTS:
                data += counted(packed(two), count, order) + others(order)[0]
                time = clock(6 if resolution is None else resolution, count)
                wanted += "".join(time + it for it in lines)
            yield row(f"times of resolution {resolution} {order}", ["--time"], (0, wanted.encode(), ""), data)
        alike = [of_resolution(it, order) for it in (9, 9, 6, 9)]
        data = section(order) + b"".join(alike) + b"".join(counted(packed(two), 10**9, order, it) for it in range(4))
        data += simple(packed(two), order) + section(order) + interface(order) + counted(packed(two), 10**6, order)
        times = [stamp(1, 0), stamp(1, 0), "", "", "", stamp(1, 0)]
        wanted = "".join(time + it for time in times for it in lines)
        yield row(f"interfaces with times {order}", ["--time"], (0, wanted.encode(), ""), data)
    data = section() + interface() + counted(packed(link), 42, LITTLE)
    for words in (["--label", "--time"], ["--time", "--label"]):
        yield row(f"{words}", words, (0, stamp(0, 42).encode() + b"[LINK]" + line, ""), data)
    yield row("a stream with --time", ["--time"], (0, line, ""), link)


READ = (None, 0, 3, 6, 9, 12, 138, 148)


def time_errors(program, message):
    """Returns the times that the program prints otherwise than tshark, and how many files it read: none if tshark is not
    installed."""
    if not shutil.which("tshark"):
        return [], 0
    errors = []
    for order in (LITTLE, BIG):
        for resolution in READ:
            data = section(order) + of_resolution(resolution, order)
            data += b"".join(counted(packed(message(56, b"")), count, order) for count in COUNTS[:5])
            with tempfile.NamedTemporaryFile(suffix=".pcapng") as file:
                file.write(data)
                file.flush()
                _, output, _ = run(["tshark", "-r", file.name, "-T", "fields", "-e", "frame.time_epoch"])
            wanted = [f"[{it[:-3]}]" for it in output.decode().split()]
            found = [it.split()[0] for it in run([program, "--time"], data)[1].decode().splitlines()]
            if found != wanted or len(found) != 5:
                errors.append(f"times of resolution {resolution} {order}: {found}, and by tshark {wanted}")
    return errors, 2 * len(READ)
