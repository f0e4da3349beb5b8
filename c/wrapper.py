"""Tests the Rust wrapper for c/test: its tests, its documentation, its examples, and what its build prints without a
library."""

import os
import re
import shutil
import socket
import subprocess
import tempfile

from kit import HERE, TOP, captured, has_route_socket, lines_of
from tally import add, note, skip

RUST = os.path.join(TOP, "rust")


def cargo(*words, folder=RUST, text=True, **variables):
    """Runs cargo, offline."""
    words = ["cargo", words[0], "--offline", "--quiet", *words[1:]]
    return subprocess.run(words, cwd=folder, capture_output=True, text=text, env={**os.environ, **variables})


def run_tests():
    """Counts each test of the wrapper that passed in a run of cargo, which prints a result for each file."""
    run = cargo("test")
    counts = list(map(int, re.findall(r"(?m)^test result: ok\. (\d+) passed; 0 failed; 0 ignored;", run.stdout)))
    add(sum(counts))
    note("the tests of the wrapper", run.returncode == 0 and sum(counts), run.stdout[-2000:] + run.stderr[-2000:])


def run_documentation():
    """Tests that the wrapper's documentation has the block of Rust in README.md, and no warnings."""
    with open(os.path.join(RUST, "src", "lib.rs")) as file:
        documentation = re.sub(r"(?m)^//! ?", "", file.read())
    lines = lines_of("README.md", "rust")
    note("the wrapper's documentation has the block of Rust in README.md", lines != "" and lines in documentation)
    run = cargo("doc", "--no-deps", RUSTDOCFLAGS="-D warnings")
    note("the wrapper's documentation", run.returncode == 0, run.stderr[-2000:])


def run_examples():
    """Tests what the examples print."""
    run = cargo("run", "--example", "links", "--", *captured("links-0", "links-1", "links-2"))
    with open(os.path.join(HERE, "examples", "links.stdout")) as file:
        holds = run.returncode == 0 and run.stdout == file.read()
    note("links are printed from Rust", holds, run.stdout + run.stderr[-2000:])
    run = cargo("run", "--example", "request", text=False)
    with open(captured("link-mtu-request")[0], "rb") as file:
        holds = run.returncode == 0 and run.stdout == file.read()
    note("the request from Rust is the captured one", holds, run.stdout.hex())
    if has_route_socket():
        run_dump(lambda: cargo("run", "--example", "dump"))


def run_dump(program):
    """Tests that a program prints the links of this machine. A dump that another program interrupts fails, and is tried
    again."""
    for _ in range(5):
        before = [f"{index} {name}\n" for index, name in socket.if_nameindex()]
        run = program()
        if run.returncode == 0 and run.stdout == "".join(before):
            break
    note("the links of the kernel", run.returncode == 0 and run.stdout == "".join(before), run.stdout + run.stderr[-2000:])


def run_without_library():
    """Tests what the build prints if there is no library: what to do, or which folder has none."""
    with tempfile.TemporaryDirectory() as folder:
        copy = shutil.copytree(RUST, os.path.join(folder, "rust"), ignore=shutil.ignore_patterns("target"))
        run = cargo("build", folder=copy, PKG_CONFIG_LIBDIR=folder)
        note("without a library, the build names c/build", run.returncode != 0 and "run `c/build`" in run.stderr, run.stderr)
        run = cargo("build", folder=copy, NETLINK_PACKET_DIR=folder)
        wanted = f"NETLINK_PACKET_DIR is {folder}, but neither"
        note("a folder without a library", run.returncode != 0 and wanted in run.stderr, run.stderr)


def run_rust():
    """Runs all, if cargo and the linker that it calls are installed."""
    missing = [it for it in ("cargo", "cc") if not shutil.which(it)]
    if missing:
        skip("rust", f"the machine has no {' and no '.join(missing)}")
        return
    run_tests()
    run_documentation()
    run_examples()
    run_without_library()
