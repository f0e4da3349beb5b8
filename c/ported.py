"""Tests the examples that are ported from libmnl, and the socket of netlink_packet_socket.h, for c/test: as C11 and as
C++17, without the sanitizers and with them, with the kernel of this machine."""

import os
import shutil
import socket
import subprocess

from kit import HERE, OUT, compiler, has_route_socket
from tally import note, skip

LINKS, FAMILIES = (os.path.join("examples", f"{name}.c") for name in ("rtnl-link-dump", "genl-family-get"))
PLUS = ["c++", "-x", "c++", "-std=c++17", "-O1", "-g", "-Wall", "-Wextra", "-Wpedantic", "-Werror", "-I", OUT]


def has_headers(folder):
    """Returns whether the C compiler has the kernel's headers."""
    source = os.path.join(folder, "has_headers.c")
    with open(source, "w") as file:
        file.write("#include <linux/genetlink.h>\n#include <linux/rtnetlink.h>\n")
    return subprocess.run([compiler(), "-fsyntax-only", source], capture_output=True).returncode == 0


def plus_program(flags, source, folder):
    """Compiles a source file as C++17, which counts as a test. Returns the program, or None."""
    program = os.path.join(folder, os.path.basename(source)[:-2] + "-plus")
    words = [*PLUS, *flags, os.path.join(HERE, source), "-x", "none", os.path.join(OUT, "libnetlink_packet.a"), "-o", program]
    made = subprocess.run(words, capture_output=True, text=True)
    note(f"compiles as C++17: {source} {' '.join(flags)}", made.returncode == 0, made.stderr[:2000])
    return program if made.returncode == 0 else None


def is_alike(words, other):
    """Returns whether two commands print the same and succeed. The kernel may change what they print between them, so
    they are tried again."""
    for _ in range(5):
        runs = [subprocess.run(it, capture_output=True, timeout=60) for it in (words, other)]
        if all(it.returncode == 0 for it in runs) and runs[0].stdout == runs[1].stdout != b"":
            return True
    return False


def is_names(words):
    """Returns whether a command prints the names of this machine's links in order."""
    for _ in range(5):
        names = [f"name={name}" for _, name in socket.if_nameindex()]
        run = subprocess.run(words, capture_output=True, text=True, timeout=60)
        if run.returncode == 0 and [it for it in run.stdout.split() if it.startswith("name=")] == names:
            return True
    return False


def run_links(program, libmnl):
    """Tests the links of this machine."""
    if has_route_socket():
        alike = is_names([program]) and (not libmnl or is_alike([program], [libmnl, "links"]))
        note("the links of the kernel are those of libmnl", alike)


def run_families(program, libmnl):
    """Tests the families of this machine."""
    if not has_route_socket(socket_of=16):
        return
    run = subprocess.run([program, "nlctrl"], capture_output=True, text=True, timeout=60)
    alike = run.stdout.startswith("name=nlctrl\tid=16\t") and (not libmnl or is_alike([program, "nlctrl"], [libmnl, "families", "nlctrl"]))
    note("a family of the kernel is that of libmnl", run.returncode == 0 and alike, run.stdout)
    run = subprocess.run([program], capture_output=True, text=True, timeout=60)
    alike = "name=nlctrl\tid=16\t" in run.stdout and (not libmnl or is_alike([program], [libmnl, "families"]))
    note("the families of the kernel are those of libmnl", run.returncode == 0 and alike, run.stdout)
    run = subprocess.run([program, "no such family"], capture_output=True, timeout=60)
    note("a family that does not exist", run.returncode == 1 and run.stdout == b"")


def run_ported(compiled, ways, libmnl, folder):
    """Runs all. `compiled` compiles a source file as C11, and counts it; `libmnl` is the program that prints the same by
    libmnl, or None."""
    if not has_headers(folder):
        skip("kernel-headers", "the C compiler has no headers of Linux")
        return
    if not has_route_socket(socket_of=16):
        skip("generic-socket", "the machine opens no socket of generic netlink")
    for flags in ways:
        for source, run in (LINKS, run_links), (FAMILIES, run_families):
            for make in (compiled, plus_program) if shutil.which("c++") else (compiled,):
                program = make(flags, source, folder)
                if program is not None:
                    run(program, libmnl)
