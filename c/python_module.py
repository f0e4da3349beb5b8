"""Tests the Python module and its examples for c/test: what it writes and reads, answers that fail
(python_fed.py), and answers of the kernel.

    python_module.py PART    (bytes, kernel, generic, or namespace, which changes the network namespace)

run_python starts a process for each part, so that one that hangs can be ended.
"""

import errno
import importlib.util
import os
import re
import select
import shutil
import signal
import socket
import struct
import subprocess
import sys
import time
from unittest.mock import patch

from kit import HERE, has_route_socket, lines_of
from python_fed import DUMP, MTU, attribute, error_of, frame, is_error, outcome, run_fed_python, u32
from python_views import run_views
from tally import add, end, note, skip
from wrapper import run_dump

# linux/netlink.h
ROUTE, GENERIC, SOL_NETLINK, CREATE, EXCL, NESTED, NET_BYTEORDER = 0, 16, 270, 0x400, 0x200, 0x8000, 0x4000
OPTIONS = {"NETLINK_EXT_ACK": 11, "NETLINK_CAP_ACK": 10, "NETLINK_GET_STRICT_CHK": 12}
# linux/rtnetlink.h: messages, the sizes of their fixed headers, and the group of IPv4 addresses
NEW_LINK, GET_LINK, NEW_ADDRESS, GET_ADDRESS, IFINFOMSG, IFADDRMSG, OF_ADDRESSES = 16, 18, 20, 22, 16, 8, 5
# linux/if_link.h and linux/if_addr.h
NAME, LINK_INFO, LOCAL = 3, 18, 2
# linux/genetlink.h
CONTROLLER, GET_FAMILY, FAMILY_ID, FAMILY_NAME = 16, 3, 1, 2
# How many addresses have a dump of more than the 40,000 bytes that the kernel makes at once.
MANY = 1000


def loaded(folder, name):
    """Returns a module or an example of this folder."""
    spec = importlib.util.spec_from_file_location(name, os.path.join(HERE, folder, f"{name}.py"))
    module = sys.modules[name] = importlib.util.module_from_spec(spec)
    spec.loader.exec_module(module)
    return module


def example(name, *words):
    """Runs an example."""
    words = [sys.executable, os.path.join(HERE, "examples", name), *words]
    return subprocess.run(words, capture_output=True, text=True, timeout=60)


def run_written(netlink):
    """Tests the bytes of frames, and what no frame can have."""
    kind = attribute(1, b"veth\0") + attribute(2 | NESTED, attribute(1, b""))
    block = attribute(NAME, b"veth-b\0") + attribute(LINK_INFO | NESTED, kind) + attribute(MTU, u32(1400))
    pairs = [(NAME, b"veth-b\0"), (LINK_INFO, [(1, b"veth\0"), (2, [(1, b"")])]), (MTU, u32(1400))]
    for name, words, payload in [
        ("a frame", (NEW_LINK, 0x600, bytes(16), pairs), bytes(16) + block),
        ("a header", (GET_LINK, DUMP), b""),
        ("a payload of 1 byte", (GET_LINK, DUMP, b"\x11"), b"\x11"),
        ("a fixed header of 5 bytes", (20, 0, b"12345", [(1, b"")]), b"12345\0\0\0" + attribute(1, b"")),
        ("the longest value", (20, 0, b"", [(1, bytes(65531))]), attribute(1, bytes(65531))),
        ("many short values", (20, 0, b"", [(1, b"x")] * 100), attribute(1, b"x") * 100),
    ]:
        made = netlink.frame(*words)
        note(f"Python writes {name}", made == frame(words[0], words[1], payload, 0, 0), made.hex()[:1000])
    for name, words in [
        ("a value that is too long", (20, 0, b"", [(1, bytes(65532))])),
        ("a nest that is too long", (20, 0, b"", [(1, [(1, bytes(40000)), (1, bytes(40000))])])),
        ("a kind of 17 bits", (20, 0, b"", [(65536, b"")])),
        ("a nest of a kind of 17 bits", (20, 0, b"", [(65536, [])])),
        ("a type below 0", (-1, 0)),
        ("flags of 17 bits", (20, 65536)),
    ]:
        error = error_of(netlink.frame, *words)
        note(f"Python does not write {name}", isinstance(error, ValueError), f"{error!r}")


def run_read(netlink):
    """Tests what is read of messages and attributes."""
    nest = attribute(1, b"veth\0") + attribute(2, b"")
    block = attribute(NAME, b"lo\0") + attribute(LINK_INFO | NESTED, nest)
    block += attribute(13 | NET_BYTEORDER, b"\xff\xfe") + attribute(5, b"\x07")
    block += attribute(MTU, u32(65536)) + attribute(6, bytes(range(1, 9)))
    first, second = netlink.messages_in(frame(NEW_LINK, 2, b"12345\0\0\0" + block) + frame(3, 4, u32(5)))
    found = [(it.type, it.flags, it.payload) for it in (first, second)]
    note("Python reads messages", found == [(NEW_LINK, 2, b"12345\0\0\0" + block), (3, 4, u32(5))], f"{found}")
    link, info, words, byte, mtu, number = first.attributes(5)
    found = [(it.kind, it.value) for it in (link, info, words, byte)]
    wanted = [(NAME, b"lo\0"), (LINK_INFO, nest), (13, b"\xff\xfe"), (5, b"\x07")]
    note("Python reads attributes", found == wanted, f"{found}")
    found = [(it.kind, it.text()) for it in info.inside()]
    note("Python reads a nest", found == [(1, "veth"), (2, "")], f"{found}")
    found = link.text(), words.text()
    note("Python reads texts", found == ("lo", "\udcff\udcfe"), f"{found}")
    found = byte.u8(), words.u16(), mtu.u32(), number.u64()
    note("Python reads integers", found == (7, 0xFEFF, 65536, 0x0807060504030201), f"{found}")
    for name, wanted, call, *words in [
        ("an integer of another size", "the value of an attribute of kind 3 has 3 bytes", link.u32),
        ("no fixed header", "the payload has 4 bytes, and its fixed header 5", second.attributes, 5),
        ("a cut value", "buffer has length: 7, but the NLA is 8 bytes", netlink.attributes_in, b"\b\0\1\0abc"),
        ("3 bytes", "buffer has length 3, but an NLA header is 4 bytes", netlink.attributes_in, b"\4\0\1\0abc"),
    ]:
        error = error_of(call, *words)
        holds = isinstance(error, netlink.Malformed) and str(error) == wanted
        note(f"Python does not read {name}", holds, f"{error!r}")


def run_reason(netlink):
    """Tests what add_address.py prints of an error."""
    request = frame(NEW_ADDRESS, 0, bytes(IFADDRMSG) + attribute(LOCAL, bytes(3)))
    text, offset = attribute(1, b"wrong length\0"), attribute(2, u32(16 + IFADDRMSG))
    reason = loaded("examples", "add_address").reason
    found = [reason(netlink.Rejected(-22, it, request)) for it in (text + offset, b"")]
    wanted = ["EINVAL: wrong length: attribute 2", "EINVAL"]
    note("add_address.py names the attribute", found == wanted, f"{found}")


def run_bytes(netlink):
    """Tests what needs no kernel."""
    run_written(netlink)
    run_read(netlink)
    run_fed_python(netlink)
    run_views(loaded("python", "netlink_packet_route"))
    run_reason(netlink)


def route_socket():
    return socket.socket(socket.AF_NETLINK, socket.SOCK_RAW, ROUTE)


def option_of(kernel, option):
    """Returns the value of an option of a socket: 0 if the kernel lacks it."""
    with socket.socket(fileno=os.dup(kernel.fileno())) as same:
        try:
            return same.getsockopt(SOL_NETLINK, option)
        except OSError:
            return 0


def lacking():
    """Returns the names of the options that a plain socket cannot switch on."""
    names = []
    with route_socket() as plain:
        for name, option in OPTIONS.items():
            if error_of(plain.setsockopt, SOL_NETLINK, option, 1):
                names.append(name)
    return names


def run_options(netlink):
    """Tests how a socket is opened and closed."""
    with netlink.Socket(ROUTE, buffer=5000, limit=5) as kernel:
        with socket.socket(fileno=os.dup(kernel.fileno())) as same:
            port, size = same.getsockname()[0], same.getsockopt(socket.SOL_SOCKET, socket.SO_RCVBUF)
        note("Python: the port of a socket", kernel.port == port != 0, f"{kernel.port} {port}")
        note("Python: the buffer of a socket, which Linux doubles", size == 10000, f"{size}")
        are_on, lacks = [option_of(kernel, it) for it in OPTIONS.values()], lacking()
        holds = kernel.lacks == lacks and are_on == [int(it not in lacks) for it in OPTIONS]
        note("Python: the options of a socket", holds, f"{kernel.lacks} {are_on} {lacks}")
        note("Python: a socket is closed on exec", not os.get_inheritable(kernel.fileno()))
    note("Python: a socket is closed", kernel.fileno() == -1)
    with patch.dict(netlink.OPTIONS, {"NETLINK_NEW": 999}), netlink.Socket(ROUTE) as kernel:
        note("Python: an option that the kernel lacks", "NETLINK_NEW" in kernel.lacks, f"{kernel.lacks}")


def links_of(netlink, kernel):
    """Returns the index and the name of each link, and whether they are those of this machine. Repeats a dump
    that another program interrupts."""
    for _ in range(5):
        wanted, found = socket.if_nameindex(), []
        try:
            for message in kernel.request(netlink.frame(GET_LINK, DUMP, bytes(IFINFOMSG))):
                names = [it.text() for it in message.attributes(IFINFOMSG) if it.kind == NAME]
                found.append((struct.unpack_from("i", message.payload, 4)[0], *names))
        except netlink.Interrupted:
            continue
        if found == wanted:
            break
    return found, found == wanted


def run_time(netlink):
    """Tests that a call ends within its time limit, which a signal does not change."""
    with netlink.Socket(ROUTE, limit=0.2) as kernel:
        signals, begun = [], time.monotonic()
        signal.signal(signal.SIGALRM, lambda *words: signals.append(words))
        signal.setitimer(signal.ITIMER_REAL, 0.05)
        error = error_of(kernel.receive)
        taken = time.monotonic() - begun
        holds = is_error(error, ("TimeoutError", "0.2 seconds")) and 0.2 <= taken < 5 and len(signals) == 1
        note("Python: a time limit without events", holds, f"{error!r} {taken} {signals}")
        kernel.limit = 0
        error = error_of(kernel.receive)
        note("Python: no event is there", is_error(error, ("TimeoutError", "0 seconds")), f"{error!r}")


def run_answers(netlink):
    """Tests answers of the kernel."""
    with netlink.Socket(ROUTE, limit=5) as kernel:
        for name in "a dump", "a second dump":
            found, holds = links_of(netlink, kernel)
            note(f"Python: the links in {name}", holds, f"{found}")
        unknown = struct.pack("BxHiII", 0, 0, 0x7FFFFFFF, 0, 0)
        found, error = outcome(kernel, netlink.frame(GET_LINK, 0, unknown))
        holds = found == [] and is_error(error, ("Rejected", "")) and error.errno == errno.ENODEV
        note("Python: an unknown link", holds, f"{found} {error!r}")
        first = kernel.request(netlink.frame(GET_LINK, DUMP, bytes(IFINFOMSG)))
        note("Python: the first of the links", next(first).type == NEW_LINK)
        first.close()
        found, holds = links_of(netlink, kernel)
        note("Python: a dump after a generator that was closed", holds, f"{found}")


def run_kernel(netlink):
    """Tests what needs a socket, and changes nothing."""
    run_options(netlink)
    run_answers(netlink)
    run_time(netlink)


def run_generic(netlink):
    """Tests answers about families of generic netlink."""
    with netlink.Socket(GENERIC, limit=5) as kernel:
        for name in b"nlctrl", b"no such family":
            request = netlink.frame(CONTROLLER, 0, bytes([GET_FAMILY, 1, 0, 0]), [(FAMILY_NAME, name + b"\0")])
            try:
                attributes = [it for message in kernel.request(request) for it in message.attributes(4)]
                found = [it.u16() for it in attributes if it.kind == FAMILY_ID]
            except netlink.Rejected as error:
                found = error.errno
            wanted = [CONTROLLER] if name == b"nlctrl" else errno.ENOENT
            note(f"Python: the family {name.decode()}", found == wanted, f"{found}")


def addresses_of(messages):
    """Returns the addresses in messages about addresses."""
    return [it.value for message in messages for it in message.attributes(IFADDRMSG) if it.kind == LOCAL]


def run_add_address(netlink, kernel):
    """Tests that the example adds an address, and prints why it cannot."""
    run = example("add_address.py", "lo", "192.0.2.1/24")
    note("add_address.py adds an address", (run.returncode, run.stdout, run.stderr) == (0, "", ""), f"{run}")
    found = addresses_of(kernel.request(netlink.frame(GET_ADDRESS, DUMP, bytes(IFADDRMSG))))
    note("the address that add_address.py added", found == [bytes([192, 0, 2, 1])], f"{found}")
    run = example("add_address.py", "lo", "192.0.2.1/24")
    holds = run.returncode == 1 and run.stdout == "" and re.fullmatch(r"EEXIST(: \S.*)?\n", run.stderr)
    note("add_address.py prints why it adds no address", holds, f"{run}")


def new_addresses(netlink, start, count):
    """Returns requests for addresses of the first link, from 10.1.0.0 on."""
    fixed, first = struct.pack("BBBBi", socket.AF_INET, 32, 0, 0, 1), 0x0A010000 + start
    blocks = [[(LOCAL, struct.pack(">I", it))] for it in range(first, first + count)]
    return b"".join(netlink.frame(NEW_ADDRESS, CREATE | EXCL, fixed, it) for it in blocks)


def run_events(netlink, kernel):
    """Tests events, events that are lost, and datagrams of another program."""
    with netlink.Socket(ROUTE, limit=5) as listener, route_socket() as other:
        listener.join(OF_ADDRESSES)
        for _ in range(3):
            other.sendto(frame(NEW_ADDRESS, 0, bytes(8)), (listener.port, 0))
        list(kernel.request(new_addresses(netlink, 0, 1)))
        ready, _, _ = select.select([listener], [], [], 5)
        found = netlink.messages_in(listener.receive())
        holds = ready == [listener] and [it.type for it in found] == [NEW_ADDRESS]
        note("Python: an event", holds and addresses_of(found) == [bytes([10, 1, 0, 0])], f"{found}")
        listener.limit = 0.1
        listener.leave(OF_ADDRESSES)
        list(kernel.request(new_addresses(netlink, 1, 1)))
        other.sendto(frame(NEW_ADDRESS, 0, bytes(8)), (listener.port, 0))
        error = error_of(listener.receive)
        note("Python: no event of a group that was left", is_error(error, ("TimeoutError", "")), f"{error!r}")
    with netlink.Socket(ROUTE, buffer=1, limit=5) as listener:
        listener.join(OF_ADDRESSES)
        found = list(kernel.request(new_addresses(netlink, 2, MANY)))
        note("Python: many requests in one call", found == [], f"{found}")
        error = None
        while error is None:
            error = error_of(listener.receive)
        note("Python: events that are lost", is_error(error, ("Overrun", "repeat the dump")), f"{error!r}")


def run_long_dump(netlink, kernel):
    """Tests a dump of several datagrams: the whole, one that is left, and one that a new address interrupts."""
    request = netlink.frame(GET_ADDRESS, DUMP, bytes(IFADDRMSG))

    class Hasty(netlink.Socket):
        """A socket that does not read the rest of a dump."""

        def _finish(self):
            pass

    # The kernel makes longer datagrams on a socket that had a dump, so each part opens a socket.
    with netlink.Socket(ROUTE, limit=5) as fresh:
        found = addresses_of(fresh.request(request))
        note("Python: a dump of several datagrams", len(set(found)) == len(found) == MANY + 3, f"{len(found)}")
    with Hasty(ROUTE, limit=5) as fresh:
        next(fresh.request(request))
        error = outcome(fresh, request)[1]
        holds = is_error(error, ("Rejected", "")) and error.errno == errno.EBUSY
        note("Python: a dump whose rest is not read", holds, f"{error!r}")
    with netlink.Socket(ROUTE, limit=5) as fresh:
        next(fresh.request(request))
        found, error = outcome(fresh, request)
        holds = len(found) == MANY + 3 and error is None
        note("Python: a dump whose rest is read", holds, f"{len(found)} {error!r}")
    with netlink.Socket(ROUTE, limit=5) as fresh:
        torn = fresh.request(request)
        next(torn)
        list(kernel.request(new_addresses(netlink, MANY + 2, 1)))
        error = error_of(list, torn)
        note("Python: a dump that is interrupted", is_error(error, ("Interrupted", "repeat it")), f"{error!r}")


def run_namespace(netlink):
    """Tests what changes a network namespace."""
    with netlink.Socket(ROUTE, limit=5) as kernel:
        run_add_address(netlink, kernel)
        run_events(netlink, kernel)
        run_long_dump(netlink, kernel)


PARTS = {"bytes": run_bytes, "kernel": run_kernel, "generic": run_generic, "namespace": run_namespace}


def run_part(part, library, before=()):
    """Runs a part with this library, and counts its tests."""
    words = [*before, sys.executable, os.path.abspath(__file__), part]
    variables = {**os.environ, "NETLINK_PACKET_LIBRARY": library}
    try:
        run = subprocess.run(words, capture_output=True, text=True, timeout=60, env=variables)
    except subprocess.TimeoutExpired:
        note(f"Python: the part {part}", False, "it does not end")
        return
    *lines, last = run.stdout.splitlines() or [""]
    print("".join(f"{line}\n" for line in lines), end="")
    found = re.fullmatch(r"(\d+) passed, (\d+) failed", last)
    if found:
        add(int(found[1]), int(found[2]))
    note(f"Python: the part {part}", run.returncode == 0 and found, run.stdout[-2000:] + run.stderr[-2000:])


def run_manual(library):
    """Tests that the Python in docs/C.md prints the names of links. A dump that another program interrupts fails, and is
    tried again."""
    variables = {**os.environ, "NETLINK_PACKET_LIBRARY": library, "PYTHONPATH": os.path.join(HERE, "python")}
    for _ in range(5):
        words = [sys.executable, "-c", lines_of("docs/C.md", "python")]
        run = subprocess.run(words, capture_output=True, text=True, timeout=60, env=variables)
        if run.returncode == 0:
            break
    note("the Python in docs/C.md prints the links", run.returncode == 0 and "['lo']\n" in run.stdout, run.stdout + run.stderr)


def run_python(library):
    """Runs all with this shared library. What needs a socket is not run on a machine that opens none."""
    run_part("bytes", library)
    if has_route_socket(socket_of=GENERIC):
        run_part("generic", library)
    if not has_route_socket():
        return
    run_dump(lambda: example("links.py", library))
    run_manual(library)
    run_part("kernel", library)
    unshare = ["unshare", "-n" if os.geteuid() == 0 else "-rn"]
    if shutil.which("unshare") and subprocess.run([*unshare, "true"], capture_output=True).returncode == 0:
        run_part("namespace", library, unshare)
    else:
        skip("namespace", "unshare makes no network namespace")


if __name__ == "__main__":
    PARTS[sys.argv[1]](loaded("python", "netlink_packet"))
    sys.exit(end())
