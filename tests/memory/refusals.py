#!/usr/bin/env python3
"""Makes each allocation of a run fail in turn, by its number, and checks the result.

It preloads the library of refuse.c into the two programs and into the built tests of the crates, each in a process of
its own. netlink_frame runs each command on a dozen inputs, and netlink_show runs on captured datagrams, a pcap
file and a pcapng file. Code that allocates is run once per allocation, with that allocation failing: it must give its
usual result or report out of memory. Code that must not allocate is run with every allocation failing, starting at its
marker: it must give its usual result and allocate nothing after the marker.
"""

import os
import struct
import subprocess
import sys
import tempfile

sys.path.insert(0, os.path.join(sys.path[0], "..", "lib"))

from built import TOP, built, in_parallel, run, tally
from pcap_rows import header, packet
from pcapng_rows import enhanced, interface, packed, section, simple
from toolchain import compiler

# Other functions that allocate. The programs must not use them, because refuse.c does not count them.
OTHER_ALLOCATORS = "aligned_alloc posix_memalign memalign valloc reallocarray mmap mmap64 brk".split()

# The result if an allocation fails while a program reads its arguments, and the result if one fails later.
FRAME_USAGE = (2, b"", b"usage: netlink_frame normalize|show|nlas|canon|frames\n")
SHOW_USAGE = (2, b"", b"usage: netlink_show [--time] [--json | [--label] [--bytes]] < FILE\n")
OUT_OF_MEMORY = (1, b"", b"out of memory\n")

# The result of a test that passes, and the results of a test that returns out of memory by `?`.
PASSES = (0, b"\ntest result: ok\n", b"")
ENDS = b"\nthe test failed: its result gives status 1\n"
TEST_OUT_OF_MEMORY = [
    (101, b"", b"error: " + error + ENDS)
    for error in (b"OutOfMemory", b"AllocError", b"Decode(OutOfMemory)")
]

# The modules of the tests that this script runs, in any crate.
ALLOCATES, DOES_NOT_ALLOCATE = "::memory_refused::", "::memory_not_asked::"

COMMANDS = ["normalize", "show", "nlas", "canon", "frames"]

# Messages, blocks and datagrams in hexadecimal: complete, damaged, long and empty.
INPUTS = {
    "a ping": "1400000012000000000000000000000000010203",
    "a pong and more": "140000001400000000000000000000000001020321",
    "a message of no known type": "10000000130000000000000000000000",
    "an error with its request": "24000000020000000000000000000000" + "edffffff10000000120005030100000000000000",
    "a done message of no bytes": "10000000030000000000000000000000",
    "a done message of three bytes": "13000000030000000000000000000000010203",
    "an overrun of three bytes": "13000000040000000000000000000000070809",
    "a no-op of eight bytes": "180000000100000000000000000000000102030405060708",
    "two attributes": "05000100aa0000000800020001020304",
    "an attribute and a damaged one": "0400010003000700ff",
    "two frames": "1400000012000000000000000000000000010203" + "11000000040000000000000000000000ff",
    "a long datagram": "captured",
    "no bytes": "",
}

# The inputs of netlink_show, besides a pcap file: captured datagrams, each with the end of the part that the program
# gets; or a message type of examples/captured/ip, and how many of its messages.
DATAGRAMS = {
    "links": ("links-0.bin", None),
    "links, the last one truncated": ("links-0.bin", -1),
    "addresses": ("addresses-0.bin", None),
    "an error with its request": ("link-mtu-refused-0.bin", None),
    "an error that names an attribute": ("replies/option-short-0.bin", None),
    "neighbours": ("neighbours-0.bin", None),
    "routes": ("routes-0.bin", None),
    "rules": ("rules-0.bin", None),
    "neighbour tables": (64, 2),
    "ids of network namespaces": (88, 2),
    "a message of no known type": ("type-unknown-request.bin", None),
    "no bytes": ("links-0.bin", 0),
}


def compiled(folder):
    """Compiles refuse.c in the folder, and returns the path of the library."""
    library = os.path.join(folder, "refuse.so")
    source = os.path.join(TOP, "tests", "memory", "refuse.c")
    words = ["-shared", "-fPIC", "-O1", "-Wall", "-Wextra", "-Werror", "-nostdlib", "-o", library, source]
    subprocess.run([compiler(), *words], check=True)
    return library


def run_failing(library, words, stdin, failing):
    """Runs a program with these allocations failing. Returns its result, how many allocations it tried, and how many of
    them failed."""
    here, there = os.pipe()
    with os.fdopen(here, "rb") as report:
        try:
            environment = {"LD_PRELOAD": library, "REPORT": str(there), "FAIL": str(failing)}
            result = run(words, stdin, env=environment, pass_fds=[there])
        finally:
            os.close(there)
        numbers = report.read().split()
    # A run that exceeded its time limit has reported nothing.
    allocations, failures = map(int, numbers) if len(numbers) == 2 else (-1, -1)
    return result, allocations, failures


def other_allocators_of(program):
    """Returns a failure for each other function by which the program allocates."""
    with open(program, "rb") as file:
        names = file.read()
    used = [it for it in OTHER_ALLOCATORS if it.encode() + b"\0" in names]
    return [f"{os.path.relpath(program, TOP)} allocates by {it}" for it in used]


class Sweep:
    """The runs of one command or test, each with a different allocation failing, and the failures of this script."""

    def __init__(self, library, name, words, stdin=b""):
        self.library, self.name, self.words, self.stdin = library, name, words, stdin
        self.runs, self.failures = 0, []

    def run(self, failing):
        self.runs += 1
        return run_failing(self.library, self.words, self.stdin, failing)

    def expect(self, is_right, failing, result):
        if not is_right:
            self.failures.append(f"{self.name}, {failing} failing: (result, allocations, failures) {result}")

    def each_in_turn(self, usual, early, later):
        """Makes the allocations fail one by one. If one of the first fails, the result must be that of its place in
        `early`. If another one fails, the result must be the usual one or one of `later`."""
        result = self.run(0)
        minimum = max(1, len(early))
        self.expect(result[0] == usual and result[1] >= minimum and result[2] == 0, "none", result)
        for number in range(1, result[1] + 1):
            failed = self.run(number)
            allowed = [early[number - 1]] if number <= len(early) else [usual, *later]
            self.expect(failed[0] in allowed and failed[2] == 1, f"allocation {number}", failed)
        last = self.run(result[1] + 1)
        self.expect(last == result, "none", last)
        return self

    def none_after_marker(self):
        result = self.run("marker")
        self.expect(result[0] == PASSES and result[2] == 1, "all from the marker on", result)
        return self


def of_frame(library):
    """Returns the sweeps of netlink_frame: each command on each input."""
    program = built("netlink_frame")
    # How many allocations the program makes to read its arguments, by the size of the word: those of an unknown word.
    reading = {}
    for size in {len(command) for command in COMMANDS}:
        result, reading[size], _ = run_failing(library, [program, "x" * size], b"", 0)
        assert result == FRAME_USAGE, result
    rows = [(command, name) for command in COMMANDS for name in INPUTS]

    def sweep_of(row):
        command, name = row
        data = bytes_of(INPUTS[name])
        early = [FRAME_USAGE] * reading[len(command)]
        sweep = Sweep(library, f"{command} of {name}", [program, command], data)
        return sweep.each_in_turn(run([program, command], data), early, [OUT_OF_MEMORY])

    return in_parallel(sweep_of, rows)


def of_show(library):
    """Returns the sweeps of netlink_show: each of its datagrams, an empty input, for which it allocates to read its
    arguments, then its buffer, and then the room for the first bytes, a pcap file and a pcapng file, some with --bytes,
    and all with --json.

    The program writes the line of a message before it reads on, so the lines before a failed allocation are there."""
    program = built("netlink_show", "netlink_show")

    def early(command):
        _, allocations, _ = run_failing(library, command, b"", 0)
        return [SHOW_USAGE] * (allocations - 2) + [OUT_OF_MEMORY] * 2

    inputs = {}
    for name, (source, end) in DATAGRAMS.items():
        inputs[name] = messages_of(source, end) if isinstance(source, int) else captured(source)[:end]
    packets = [packet(inputs["links"]), packet(inputs["links, the last one truncated"]), packet(b"", family=16)]
    inputs["a pcap file"] = header() + b"".join(packets)
    blocks = [enhanced(packed(inputs["links"])), simple(packed(inputs["an error with its request"]))]
    for name in ("links", "an error that names an attribute", "links, the last one truncated"):
        inputs[f"bytes of {name}"] = inputs[name]
    inputs["a pcapng file"] = section() + interface() + b"".join(blocks)
    inputs |= {f"objects of {name}": data for name, data in inputs.items() if not name.startswith("bytes of ")}

    def sweep_of(name):
        data, option = inputs[name], {"bytes": "--bytes", "objects": "--json"}.get(name.partition(" of ")[0])
        command = [program, *filter(None, [option])]
        sweep = Sweep(library, f"netlink_show of {name}", command, data)
        usual = run(command, data)
        lines = usual[1].splitlines(keepends=True)
        later = [(1, b"".join(lines[:number]), OUT_OF_MEMORY[2]) for number in range(len(lines) + 1)]
        return sweep.each_in_turn(usual, early(command), later)

    return in_parallel(sweep_of, inputs)


def captured(name):
    with open(os.path.join(TOP, "examples", "captured", name), "rb") as file:
        return file.read()


def messages_of(message_type, number):
    """Returns the first messages of a type in the frames for which `ip` printed lines."""
    frames, found = captured("ip/frames.bin"), []
    while frames and len(found) < number:
        length, kind = struct.unpack_from("<IH", frames)
        size = (length + 3) // 4 * 4
        if kind == message_type:
            found.append(frames[:size])
        frames = frames[size:]
    return b"".join(found)


def bytes_of(digits):
    return captured("links-0.bin") if digits == "captured" else bytes.fromhex(digits)


def tests_of_crates():
    """Yields each crate that has tests, the program of its tests, and their names."""
    for crate in sorted(os.listdir(os.path.join(TOP, "crates"))):
        program = os.path.join(TOP, "crates", crate, "out", f"{crate}_tests")
        if os.path.isfile(program):
            listed = run([program, "--list"])[1].decode().splitlines()
            yield crate, program, [it.removesuffix(": test") for it in listed if it.endswith(": test")]


def of_tests(library):
    """Returns the sweeps of the tests of code that allocates, and those of the tests of code that must not."""
    built("netlink_frame_tests")
    rows = [(crate, program, name) for crate, program, names in tests_of_crates() for name in names]
    allocating = [it for it in rows if ALLOCATES in it[2]]
    others = [it for it in rows if DOES_NOT_ALLOCATE in it[2]]

    def sweep_of(row):
        crate, program, name = row
        return Sweep(library, f"{crate}, {name}", [program, name])

    return (
        in_parallel(lambda row: sweep_of(row).each_in_turn(PASSES, [], TEST_OUT_OF_MEMORY), allocating),
        in_parallel(lambda row: sweep_of(row).none_after_marker(), others),
    )


def main():
    if not compiler():
        print("skipped: compiler (the machine has no C compiler)")
        tally("memory", [], 0)
    with tempfile.TemporaryDirectory() as folder:
        library = compiled(folder)
        commands = of_frame(library) + of_show(library)
        allocating, others = of_tests(library)

    def count(sweeps):
        return sum(it.runs for it in sweeps)

    print(f"each allocation failing in turn: {len(commands)} commands with their inputs, in {count(commands)} runs")
    print(f"each allocation failing in turn: {len(allocating)} tests, in {count(allocating)} runs")
    print(f"every allocation failing: {len(others)} tests of code that must not allocate")
    sweeps = [*commands, *allocating, *others]
    failures = [failure for sweep in sweeps for failure in sweep.failures]
    passed = count(sweeps) - len(failures)
    if not (commands and allocating and others):
        failures.append("the tests that this script must run were not found")
    for program in {sweep.words[0] for sweep in sweeps}:
        failures += other_allocators_of(program)
    tally("memory", failures, passed)


main()
