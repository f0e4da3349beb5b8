"""Computes the lines of `netlink_show` for what `ip monitor all`, `tc monitor` and `bridge monitor` saw, of those that
`ip`, `tc` and `bridge` printed.

record.py of examples/captured/monitor states how the messages and their lines were made, and those of
examples/captured/traffic and examples/captured/bridge. tests/steps/show.py calls `monitor_errors`, and runs the program
on `monitor_rows`: all messages as a stream, as packets and with times, and each prefix of a few of them.
"""

import os
import re
import struct

from built import TOP, row, run
from ip_lines import ADDRESSES, LINKS, differences, escaped, first, items, label_of, line_error, lines_in, number
from ip_lines import kept_names, wanted_line, with_kept, with_kind
from pcap_rows import header, packet

# The folders of examples/captured, each with what the names of its runs say.
FOLDERS = {"monitor": "a monitor", "traffic": "tc", "bridge": "bridge"}
IFLA_TXQLEN, IFLA_LINKMODE, IFLA_IFALIAS = 13, 17, 20
MODES = {b"\0": "DEFAULT", b"\1": "DORMANT"}

# The types of the messages of which each prefix is read: the first of each that names no link but `lo`.
SHORT = (16, 20, 24, 29, 32, 33, 80, 88, 89)
OTHER_LINK = re.compile(r" (dev|iif|oif|master) (?!lo\b|if\d)|^(Deleted )?inet6? (?!all\b|if\d)")

# What the program prints of the first line of `tc` for a queueing discipline of a kind whose options it does not print,
# for a class, and for a filter or a chain of filters: no options, and no dashes of `ingress`.
OF_TC = [
    r"(deleted )?qdisc (?!fq_codel |htb )\S+ \S+ dev \S+( root| parent \S+)?( refcnt \d+)?( offloaded)?"
    r"( ingress_block \d+)?( egress_block \d+)?",
    r"(deleted )?class \S+ \S+ dev \S+ (root|parent \S+)( leaf \S+)?",
    r"(deleted )?(filter|chain) .*? chain \d+",
]
# And not what depends on the flags of a message, at the start of a line.
BY_FLAGS = re.compile(r"(added|replaced) ")
# The types of messages of traffic control, without the last two bits. They have no label.
TRAFFIC = (36, 40, 44, 48, 100)


def kind_of(frame):
    return number(frame[4:6])


def padded(frame):
    return frame + bytes(-len(frame) % 4)


def with_link_words(frame, line):
    """Returns a line of `ip monitor` for a link with what only `ip link` prints: the mode, the length of the queue and
    the alias, which are those of the message."""
    mode, queue, alias = (first(frame[32:], kind) for kind in (IFLA_LINKMODE, IFLA_TXQLEN, IFLA_IFALIAS))
    if mode:
        line = re.sub(r"( state \S+)", rf"\1 mode {MODES[mode]}", line, count=1)
    if number(queue):
        line = re.sub(r"( group \S+)", rf"\1 qlen {number(queue)}", line, count=1)
    if alias:
        line, mark, names = line.partition(" altname ")
        line += " alias " + alias.split(b"\0")[0].decode("latin-1") + mark + names
    return line


def program_line(frame, line):
    """Returns a line of `ip`, `tc` or `bridge`, without its label, as the program prints it."""
    if kind_of(frame) in LINKS:
        return with_kind(frame, with_link_words(frame, line))
    if kind_of(frame) & ~3 in TRAFFIC:
        line = BY_FLAGS.sub("", line) if BY_FLAGS.match(line) else line
        line = next((found[0] for form in OF_TC if (found := re.match(form, line))), line)
    return with_kind(frame, line) if kind_of(frame) in ADDRESSES else escaped(line)


def rows_of(name):
    """Yields each message of a folder, its label, the line of `ip`, `tc` or `bridge` for it as the program prints it,
    apart from a listed difference, and that difference."""
    folder = os.path.join(TOP, "examples", "captured", name)
    with open(os.path.join(folder, "stream.bin"), "rb") as file:
        frames = list(items(file.read(), 4))
    lines, listed = lines_in("lines.txt", folder), differences(folder)
    assert len(frames) == len(lines) and not listed.keys() - range(1, len(lines) + 1)
    for place, (frame, line, names) in enumerate(zip(frames, lines, kept_names(frames)), 1):
        label = label_of(frame)
        assert (label or kind_of(frame) & ~3 in TRAFFIC) and line.startswith(label), f"line {place}: {line}"
        yield frame, label, with_kept(program_line(frame, line[len(label) :]), names), listed.get(place)


def monitor_errors(program):
    """Passes each stream to the program with `--label`. Returns what is wrong, and the number of lines."""
    results = [stream_errors(program, name) for name in FOLDERS]
    return [it for errors, _ in results for it in errors], sum(count for _, count in results)


def stream_errors(program, name):
    """Passes the stream of a folder to the program. Returns what is wrong, and the number of lines."""
    rows = list(rows_of(name))
    status, output, error = run([program, "--label"], b"".join(padded(frame) for frame, *_ in rows))
    ours = output.decode("latin-1").split("\n")
    if (status, error, len(ours)) != (0, b"", len(rows) + 1):
        what = f"status {status}, error {error}, {len(ours) - 1} lines instead of {len(rows)}"
        return [f"the stream of {FOLDERS[name]}: {what}"], len(rows)
    errors = []
    for place, ((_, label, line, difference), own) in enumerate(zip(rows, ours), 1):
        known = own[len(label) :] if own.startswith(label) else f"without {label}: {own}"
        errors.append(line_error(place, line, known, difference))
    return [f"{name}: {it}" for it in errors if it], len(rows)


def timed(place, frame):
    """Returns a message after a time that depends on a place, as `rtmon` writes it; and the words of the time."""
    seconds, micros = 1_700_000_000 + place, place * 7919 % 1_000_000
    data = struct.pack("<IHHIIII", 24, 15, 0, 0, 0, seconds, micros)
    return data + padded(frame), f"[{seconds}.{micros:06}] "


def cut_rows(name, pieces, stop_of):
    """Yields every prefix of the pieces. Each is the bytes of a message, maybe after a time, and the line of the
    message. `stop_of` returns why bytes start with no whole message."""
    whole, lines, ends = b"", [], []
    for data, line in pieces:
        at = len(whole)
        for it in items(data, 4):
            ends.append((at, at + len(it)))
            at += (len(it) + 3) & ~3
        whole += data
        lines.append((ends[-1][1], line))
    for cut in range(len(whole) + 1):
        wanted = "".join(line for end, line in lines if end <= cut).encode("latin-1")
        at = next((start for start, end in ends if start < cut < end), None)
        error = f"byte {at}: {stop_of(whole[at:cut])}" if at is not None else ""
        yield row(f"the first {cut} bytes of {name}", ["--label"], (1 if error else 0, wanted, error), whole[:cut])


def short_rows(rows):
    """Returns the first message of each type of SHORT that names no link but `lo`, and its line with its label."""
    found = {}
    for frame, label, line, difference in rows:
        if kind_of(frame) in SHORT and not difference and not OTHER_LINK.search(line):
            found.setdefault(kind_of(frame), (frame, f"{label}{line}\n"))
    assert len(found) == len(SHORT)
    return list(found.values())


def whole_rows(name, all_rows):
    """Yields the runs over all messages of a folder, of which `all_rows` are the rows: as a stream without labels, as a
    pcap file with a packet for each, and with a time before each, as `rtmon` writes them."""
    lines = [(label, wanted_line(line, difference)) for _, label, line, difference in all_rows]
    frames = [padded(frame) for frame, *_ in all_rows]
    wanted = "".join(f"{line}\n" for _, line in lines).encode("latin-1")
    yield row(f"the stream of {name}", [], (0, wanted, ""), b"".join(frames))
    wanted = "".join(f"{label}{line}\n" for label, line in lines).encode("latin-1")
    data = header() + b"".join(packet(frame) for frame in frames)
    yield row(f"a pcap file of {name}", ["--label"], (0, wanted, ""), data)
    times = [timed(place, frame) for place, frame in enumerate(frames)]
    wanted = "".join(f"{time}{label}{line}\n" for (_, time), (label, line) in zip(times, lines)).encode("latin-1")
    yield row(f"an rtmon file of {name}", ["--label"], (0, wanted, ""), b"".join(data for data, _ in times))


def monitor_rows(stop_of):
    """Yields the runs over all messages of each folder, and over each prefix of a few messages of `ip monitor all`,
    without and with times."""
    for folder, name in FOLDERS.items():
        yield from whole_rows(name, list(rows_of(folder)))
    few = short_rows(rows_of("monitor"))
    yield from cut_rows("a stream of a monitor", [(padded(frame), line) for frame, line in few], stop_of)
    pieces = []
    for place, (frame, line) in enumerate(few):
        data, time = timed(place, frame)
        pieces.append((data, time + line))
    yield from cut_rows("an rtmon file of a monitor", pieces, stop_of)
