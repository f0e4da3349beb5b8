"""Tests for c/test what the examples that are ported from libmnl, and that of the header, do with answers that fail.
tests/feed.c takes the place of their socket."""

import os
import re
import struct
import subprocess

from kit import HERE, OUT, captured, compile_object, link_program
from tally import note

# The program around the example of the header.
BEFORE = """#include <netlink_packet.h>
#include <stdio.h>
#include <sys/socket.h>
static uint8_t bytes[1 << 16];
static void use(const uint8_t *frame, size_t size)
{
    printf("%zu bytes of type %u\\n", size, (unsigned)nlp_u16(frame + 4));
}
int main(void)
{
    const struct nlp_header header = { 0, 18, 0x301, 1, 0 };
    const int fd = socket(16, 3, 0);
    struct nlp_replies replies;
    struct nlp_reply reply;
    struct nlp_fault fault;
    uint32_t result;
    ssize_t size;
    size_t at;
"""
FLAGS = ["-std=gnu11", "-O1", "-g", "-Wall", "-Wextra", "-Werror", "-I", OUT]
MULTI, TORN, ERROR, DONE = 2, 0x10, 2, 3


def frame(message_type, flags, payload):
    """Returns a frame with sequence number 1, in native byte order (little-endian)."""
    return struct.pack("<IHHII", 16 + len(payload), message_type, flags, 1, 0) + payload


def answers(message):
    """Yields the name of each answer, its datagrams, and how what is printed as its error ends: by the examples that are
    ported from libmnl, and by that of the header. A datagram is bytes, or a word of tests/feed.c. `message` is a message of
    a whole answer."""
    end, torn = frame(DONE, MULTI, bytes(4)), frame(DONE, MULTI | TORN, bytes(4))
    refused = frame(ERROR, 0, struct.pack("<i", -1) + frame(18, 1, b""))
    early = frame(message[4] + 256 * message[5], MULTI | TORN, message[16:])
    again, malformed = "changed during the dump: request it again", "the answer: a frame is malformed"
    yield "a whole answer", [message, end], "", ""
    yield "an answer that was torn", [message, torn], again, again
    yield "an answer that was torn early", [early, end], again, again
    yield "an error", [refused], "the answer: Operation not permitted", "error -1: Operation not permitted"
    failed = [message, frame(DONE, MULTI, struct.pack("<i", -12))]
    yield "a dump that fails later", failed, "the answer: Cannot allocate memory", "error -12: Cannot allocate memory"
    yield "a frame that is cut", [message + end[:-1]], malformed, "the answer is malformed: result 10"
    yield "a length of 8", [b"\x08" + message[1:]], malformed, "the answer is malformed: result 11"
    short = [message, frame(ERROR, 0, b"\xff\xff")]
    yield "an error without a code", short, malformed, "the answer is malformed: result 13"
    yield "an overrun of the socket", ["ENOBUFS"], "messages were lost: request it again", "No buffer space available"
    yield "an answer without its end", [message, "EIO"], "the answer: Input/output error", "the answer: Input/output error"


def example_of_header(folder):
    """Writes the header's example of an answer as a program. Returns its path."""
    with open(os.path.join(OUT, "netlink_packet.h")) as file:
        found = re.search(r"/\* Reads the answer to a dump:\n \*\n((?: \*     .*\n)+)", file.read())
    path = os.path.join(folder, "header-example.c")
    with open(path, "w") as file:
        file.write(BEFORE + re.sub(r"(?m)^ \*", "", found[1] if found else "") + "}\n")
    return path


def outcome(program, datagrams, folder):
    """Runs the program on these datagrams."""
    names = []
    for at, it in enumerate(datagrams):
        names.append(it if isinstance(it, str) else os.path.join(folder, f"{at}.bin"))
        if not isinstance(it, str):
            with open(names[-1], "wb") as file:
                file.write(it)
    how = {"stdin": subprocess.DEVNULL, "capture_output": True, "text": True, "timeout": 60}
    return subprocess.run([program], env={**os.environ, "FEED": ":".join(names)}, **how)


def fed_program(source, flags, folder):
    """Compiles a program with tests/feed.c. Returns its path."""
    name = os.path.basename(source)
    objects = [os.path.join(folder, f"{it}.o") for it in (name, "feed")]
    made = [compile_object([*FLAGS, *flags], path, it) for path, it in zip((source, os.path.join(HERE, "tests", "feed.c")), objects)]
    program = os.path.join(folder, f"{name}-fed")
    made.append(link_program(flags, [*objects, os.path.join(OUT, "libnetlink_packet.a")], program))
    note(f"compiles with tests/feed.c: {name}", all(it.returncode == 0 for it in made), "".join(it.stderr[:500] for it in made))
    return program


def run_captured(program, folder):
    """Tests that the links of a captured dump are printed."""
    with open(os.path.join(HERE, "examples", "rtnl-link-dump.stdout")) as file:
        wanted = file.read()
    run = outcome(program, captured("links-0", "links-1", "links-2"), folder)
    note("captured links are printed", run.returncode == 0 and run.stdout == wanted, run.stdout + run.stderr[:2000])


def run_fed(ways, folder):
    """Runs each example on each answer, compiled in each way."""
    with open(captured("links-0")[0], "rb") as file:
        link = file.read()
    family = frame(16, MULTI, bytes([1, 2, 0, 0]) + struct.pack("<HH8s", 11, 2, b"nlctrl\0"))
    link = frame(16, MULTI, link[16 : struct.unpack_from("<I", link)[0]])
    links, families = (os.path.join(HERE, "examples", f"{name}.c") for name in ("rtnl-link-dump", "genl-family-get"))
    for flags in ways:
        header = example_of_header(folder)
        for source, message in {links: link, families: family, header: link}.items():
            program = fed_program(source, flags, folder)
            for what, datagrams, *ends in answers(message):
                why = ends[source == header]
                run = outcome(program, datagrams, folder)
                holds = run.returncode == (1 if why else 0) and run.stderr.strip().endswith(why) and (why or not run.stderr)
                note(f"{os.path.basename(source)} on {what}", holds, f"{run.returncode} {run.stderr}")
            if source == links:
                run_captured(program, folder)
