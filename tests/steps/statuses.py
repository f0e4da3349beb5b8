#!/usr/bin/env python3
"""Runs the built program `netlink_frame` to each of its ends, and compares status, standard output and standard error.

It gets inputs with each error that a command can report, wrong arguments, and inputs and outputs that fail. The
expected error texts are those of docs/FORMAT.md, and the expected lines are written by hand.
"""

import os
import sys

sys.path.insert(0, os.path.join(sys.path[0], "..", "lib"))

from built import FailingDevices, built, error_of, in_parallel, row, silent, tally  # noqa: E402 (it is in that folder)

COMMANDS = ["normalize", "show", "nlas", "canon", "frames"]

USAGE = "usage: netlink_frame normalize|show|nlas|canon|frames"

PING = bytes.fromhex("1400000012000000000000000000000000010203")
PONG = bytes.fromhex("1400000014000000000000000000000000010203")
BLOCK = bytes.fromhex("05000100aa000000")
LINES = b"length 20\ntype 18\nflags 0\nsequence 0\nport 0\npayload ping 00010203\n"

# A valid input of each command, and the output for it.
GOOD = {
    "normalize": (PING, PING),
    "show": (PING, LINES),
    "nlas": (BLOCK, b"0001 1 aa\n"),
    "canon": (BLOCK, BLOCK),
    "frames": (PING, b"20 18\n"),
}


def header(length, kind):
    return length.to_bytes(4, "little") + kind.to_bytes(2, "little") + bytes(10)


def short_body(prefix, name, size):
    line = f"{prefix} caused by invalid {name} length caused by invalid {name}: "
    return f"{line}length is {size} but {name} are at least 4 bytes"


def unknown_type(kind):
    line = f"Failed to parse message with type {kind}: "
    return f"{line}invalid ping-pong message: invalid message type"


MINIMUM = "netlink packets are at least 16 bytes"
FRAME = "invalid netlink buffer length caused by invalid netlink buffer: "
INSIDE = "failed deserializing NetlinkMessage caused by "
DONE, ERROR = "failed to parse NLMSG_DONE", "failed parsing NLMSG_ERROR"

# Bytes that are not a frame, and the error text for each.
NO_FRAMES = [
    (b"\0", f"{FRAME}length is 1 but {MINIMUM}"),
    (PING[:4], f"{FRAME}length is 4 but {MINIMUM}"),
    (PING[:15], f"{FRAME}length is 15 but {MINIMUM}"),
    (PING[:16], f"{FRAME}length field says 20 the buffer is 16 bytes long"),
    (PING[:19], f"{FRAME}length field says 20 the buffer is 19 bytes long"),
    (header(0xFFFFFFFF, 18), f"{FRAME}length field says 4294967295 the buffer is 16 bytes long"),
    (header(0, 18), f"{FRAME}length field says 0 but {MINIMUM}"),
    (header(15, 18) + bytes(8), f"{FRAME}length field says 15 but {MINIMUM}"),
]

# Frames that are not messages, and the error text for each.
NO_MESSAGES = [
    *[(header(16 + n, 3) + bytes(n), short_body(DONE, "DoneBuffer", n)) for n in (1, 2, 3)],
    *[(header(16 + n, 2) + bytes(n), short_body(ERROR, "ErrorBuffer", n)) for n in range(4)],
    *[(header(16, kind), unknown_type(kind)) for kind in (0, 5, 17, 19, 21, 65535)],
]

# Bytes that are not an attribute, and the error text for each.
NO_ATTRIBUTES = [
    (b"\5", "buffer has length 1, but an NLA header is 4 bytes"),
    (b"\5\0", "buffer has length 2, but an NLA header is 4 bytes"),
    (b"\5\0\1", "buffer has length 3, but an NLA header is 4 bytes"),
    (b"\5\0\1\0", "buffer has length: 4, but the NLA is 5 bytes"),
    (b"\x08\0\1\0\xaa\0\0", "buffer has length: 7, but the NLA is 8 bytes"),
    (b"\xff\xff\1\0\xaa", "buffer has length: 5, but the NLA is 65535 bytes"),
    *[
        (bytes([n, 0, 1, 0, 0xAA]), f"NLA has invalid length: {n} (should be at least 4 bytes)")
        for n in range(4)
    ],
]

# No command, two commands, additional and unknown words, and words that are capitalized, truncated, too long, empty or
# not UTF-8.
WRONG_ARGUMENTS = [
    [],
    ["normalize", "show"],
    ["normalize", ""],
    ["", "normalize"],
    ["frames", "frames", "frames"],
    ["normalize", b"\xff"],
    *[[word] for word in ("", " ", "help", "--help", "-h", "-", "normalise", "payload", "read")],
    *[[word] for it in COMMANDS for word in (it.upper(), it.title(), it[:-1], f"{it}s")],
    *[[word] for it in COMMANDS for word in (f"{it} ", f" {it}", f"{it}\n", f"--{it}")],
    *[[it, "extra"] for it in COMMANDS],
    [b"\xff"],
    [b"normalize\xff"],
    [b"sh\xc3w"],
    ["x" * 100000],
]


def good_rows():
    for command, (data, output) in GOOD.items():
        yield row(f"{command} of a valid input", [command], (0, output, ""), data)
    for command in ("nlas", "canon", "frames"):
        yield row(f"{command} of nothing", [command], (0, b"", ""))


def rejected_rows():
    for command in ("normalize", "show"):
        for data, error in NO_FRAMES:
            yield row(f"{command} of {data.hex()}", [command], (1, b"", INSIDE + error), data)
        for data, error in NO_MESSAGES:
            yield row(f"{command} of {data.hex()}", [command], (1, b"", error), data)
        error = f"{INSIDE}{FRAME}length is 0 but {MINIMUM}"
        yield row(f"{command} of nothing", [command], (1, b"", error))
    for data, error in NO_FRAMES:
        yield row(f"frames of {data.hex()}", ["frames"], (1, b"", error), data)
        longer = PING + PONG + data
        yield row(f"frames of {longer.hex()}", ["frames"], (1, b"20 18\n20 20\n", error), longer)
    for data, error in NO_ATTRIBUTES:
        longer = BLOCK + data
        yield row(f"nlas of {data.hex()}", ["nlas"], (1, b"", error), data)
        yield row(f"nlas of {longer.hex()}", ["nlas"], (1, b"0001 1 aa\n", error), longer)
        yield row(f"canon of {data.hex()}", ["canon"], (1, b"", error), data)
        yield row(f"canon of {longer.hex()}", ["canon"], (1, b"", error), longer)


def usage_rows():
    for words in WRONG_ARGUMENTS:
        yield row(f"arguments {str(words)[:80]}", words, (2, b"", USAGE), PING)


def failing_rows(devices):
    """Yields runs whose input cannot be read or whose output cannot be written."""
    for command, (data, _) in GOOD.items():
        yield from devices.unread(command, [command])
        yield from devices.unwritten(command, [command], data)
    for command, data in (("nlas", BLOCK + b"\5"), ("frames", PING + b"\0")):
        yield from devices.unwritten(f"{command} with an error after its lines", [command], data)
    for command in ("nlas", "canon", "frames"):
        yield from devices.unwritten(f"{command} of nothing", [command], b"", (0, b"", ""))
    truncated = (1, b"", f"{INSIDE}{FRAME}length is 4 but {MINIMUM}")
    yield from devices.unwritten("a truncated frame", ["normalize"], PING[:4], truncated)
    usage = (2, b"", USAGE)
    yield from devices.unwritten("a wrong word", ["help"], PING, usage)
    yield row("a wrong word and a closed input", ["help"], usage, closed="0<&-")


def silent_rows():
    """Yields runs whose standard error is closed. Only the status shows the error."""
    yield silent("normalize", ["normalize"], (0, PING), PING)
    yield silent("normalize of a truncated frame", ["normalize"], (1, b""), PING[:4])
    yield silent("nlas with an error after its lines", ["nlas"], (1, b"0001 1 aa\n"), BLOCK + b"\5")
    yield silent("a wrong word", ["help"], (2, b""), PING)


def main():
    program = built("netlink_frame")
    failing = failing_rows(FailingDevices())
    rows = [*good_rows(), *rejected_rows(), *usage_rows(), *failing, *silent_rows()]
    errors = [it for it in in_parallel(lambda it: error_of(program, it), rows) if it]
    print(f"{len(rows)} runs of the program were checked")
    tally("statuses", errors, len(rows) - len(errors))


main()
