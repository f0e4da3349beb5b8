"""What the scripts of this folder share: how they compile and link C, and what the tests read."""

import os
import re
import socket
import subprocess
import sys

HERE = os.path.dirname(os.path.abspath(__file__))
OUT = os.path.join(HERE, "out")
# The calls of the system that tests/socket.c replaces, as the linker wants them.
WRAPPED = [f"-Wl,--wrap={name}" for name in "recvmsg send times poll fcntl socket bind getsockname setsockopt close".split()]
sys.path.append(os.path.join(os.path.dirname(HERE), "tests", "lib"))

from libraries import TOP  # noqa: E402 (it is in that folder)
from toolchain import compiler  # noqa: E402


def compile_object(flags, source, made):
    """Compiles a source file into an object file."""
    words = [compiler(), *flags, "-fPIC", "-c", source, "-o", made]
    return subprocess.run(words, stdin=subprocess.DEVNULL, capture_output=True, text=True)


def link_program(flags, files, program):
    """Links object files and archives into a program."""
    words = [compiler(), *flags, *files, "-o", program]
    return subprocess.run(words, stdin=subprocess.DEVNULL, capture_output=True, text=True)


def version():
    """Returns the version of the library."""
    with open(os.path.join(HERE, "VERSION")) as file:
        return file.read().strip()


def captured(*names):
    """Returns the paths of captured datagrams."""
    return [os.path.join(TOP, "examples", "captured", name + ".bin") for name in names]


def has_route_socket(socket_of=0):
    """Returns whether this machine can open a socket of route netlink, or of another kind of netlink (16: generic)."""
    try:
        with socket.socket(socket.AF_NETLINK, socket.SOCK_RAW, socket_of):
            return True
    except OSError:
        return False


def lines_of(page, language):
    """Returns the first block of this language in a page, or "" if there is none."""
    with open(os.path.join(TOP, page)) as file:
        found = re.search(rf"```{language}\n(.*?)```", file.read(), re.DOTALL)
    return found[1] if found else ""
