#!/usr/bin/env python3
"""Records what `ip monitor all` sees while the commands of commands.txt run, in namespaces that this script makes, and
what `ip` of iproute2 6.1 prints for it. In ../traffic: what `tc monitor` sees beside links and neighbours, and what `tc`
and `ip` print. In ../bridge: what `bridge monitor all` sees, notifications of statistics and answers to dumps, and what
`bridge` and `ip` print.

    ./record.py [traffic|bridge]          (as root; needs iproute2, unshare and bash)
    ./record.py lines [traffic|bridge]    (makes lines.txt anew, of stream.bin)

stream.bin: the datagrams, one after another. The kernel sends each message in a datagram of its own, except that of a
queueing discipline that another one replaces, and the answers to a dump.
lines.txt: the line of `ip -o monitor label file` for each message, with the spaces of ../ip/README.md. For this, `ip`
runs in namespaces without these links and without lists of names.
objects.jsonl: the object of `ip -j` for each message (../json).
differences.tsv, written by hand: the lines in which `netlink_show` differs on purpose, as in ../ip.

Of ../traffic, lines.txt has the first line of `tc monitor file` for messages of traffic control, and else that of `ip`;
of ../bridge, the first line of `bridge -d monitor all file` for multicast groups, VLANs and VNIs, and else that of `ip`,
which has all that it prints of statistics. There, the programs run beside empty links that come and go as in the
stream, since they ask the kernel for a name. refused.txt has the commands that the kernel of the recording refused, each
with the error: a kernel with more modules records more.

`bridge monitor` sees neither statistics nor the answers to dumps. The kernel's answer to RTM_GETMDB has that type, which
`bridge` does not print, so this script gives it that of a notification before it asks `bridge` for the line.

The namespaces hold made-up links, addresses, routes, next hops, neighbours and rules alone. The script prints the
commands that fail here, and the number of messages of each type.
"""

import os
import socket
import struct
import subprocess
import sys
import tempfile
import time
from collections import Counter

HERE = os.path.dirname(os.path.abspath(__file__))
sys.path.append(os.path.join(HERE, "..", "ip"))

from compare import LINKS, frames_in, kind_of, spaced  # noqa: E402 (it is in that folder)

# The groups that `ip monitor all` joins (RTNLGRP_* of linux/rtnetlink.h): links, neighbours, addresses, routes,
# multicast routes, rules, prefixes, settings, MPLS, ids of namespaces, next hops and statistics.
GROUPS = (1, 3, 5, 6, 7, 8, 9, 10, 11, 18, 19, 24, 25, 27, 28, 29, 32, 36)

# Links and neighbours; with traffic control, and with multicast groups, VLANs, VNIs and statistics.
OTHER_GROUPS = {"traffic": (1, 3, 4), "bridge": (1, 3, 26, 33, 35, 36)}

# The program that prints a message, by its type without the last two bits; `ip` prints the others.
TC, BRIDGE = ("tc", "monitor", "file"), ("bridge", "-d", "monitor", "all", "file")
PROGRAMS = {36: TC, 40: TC, 44: TC, 48: TC, 100: TC, 84: BRIDGE, 112: BRIDGE, 120: BRIDGE}
RTM_NEWMDB, RTM_GETMDB, STATISTICS = 84, 86, 92

AF_BRIDGE, IFLA_IFNAME = 7, 3
SOL_NETLINK, NETLINK_ADD_MEMBERSHIP, SO_RCVBUFFORCE = 270, 1, 33

# Programs that commands run. The first enters a multicast route of each protocol, from d0 to br0; both go as it ends.
# The second sends from the link `there` what a router advertises: a prefix, a route and an MTU.
MULTICAST = """
from socket import *
from struct import pack
four, at = socket(AF_INET, SOCK_RAW, IPPROTO_IGMP), inet_aton
four.setsockopt(0, 200, 1)
for number, address in enumerate(("10.1.0.1", "10.3.0.1")):
    four.setsockopt(0, 202, pack("=HBBI4s4x", number, 0, 1, 0, at(address)))
four.setsockopt(0, 204, pack("=4s4sHBB48x", at("10.1.0.9"), at("239.1.1.1"), 0, 0, 1))
six = socket(AF_INET6, SOCK_RAW, IPPROTO_ICMPV6)
six.setsockopt(IPPROTO_IPV6, 200, 1)
for number, name in enumerate(("d0", "br0")):
    six.setsockopt(IPPROTO_IPV6, 202, pack("=HBBHxxI", number, 0, 1, if_nametoindex(name), 0))
ends = [pack("=HHI16sI", AF_INET6, 0, 0, inet_pton(AF_INET6, it), 0) for it in ("2001:db8:1::9", "ff0e::9")]
six.setsockopt(IPPROTO_IPV6, 204, b"".join(ends) + pack("=HxxI28x", 0, 2))
"""
ADVERTISE = """
from socket import *
from struct import pack
at = lambda address: inet_pton(AF_INET6, address)
router = socket(AF_INET6, SOCK_RAW, IPPROTO_ICMPV6)
router.setsockopt(IPPROTO_IPV6, IPV6_MULTICAST_HOPS, 255)
message = pack(">BBHBBHII", 134, 0, 0, 64, 0, 1800, 0, 0)
message += pack(">BBBBIII16s", 3, 4, 64, 0xC0, 7200, 600, 0, at("2001:db8:9::"))
message += pack(">BBBBI8s", 24, 2, 64, 8, 900, at("2001:db8:99::")[:8]) + pack(">BBHI", 5, 1, 0, 1400)
router.sendto(message, ("ff02::1", 0, 0, if_nametoindex("there")))
"""


def listener(groups):
    """Returns a socket that receives the notifications of the groups."""
    kernel = socket.socket(socket.AF_NETLINK, socket.SOCK_RAW, 0)
    kernel.setsockopt(socket.SOL_SOCKET, SO_RCVBUFFORCE, 1 << 23)
    kernel.bind((0, 0))
    for group in groups:
        kernel.setsockopt(SOL_NETLINK, NETLINK_ADD_MEMBERSHIP, group)
    kernel.setblocking(False)
    return kernel


def pending(kernel):
    """Yields the datagrams that have arrived."""
    time.sleep(0.02)
    while True:
        try:
            yield kernel.recv(1 << 18)
        except BlockingIOError:
            return


def answers(kind, header):
    """Returns the answers to a request for a dump, in one datagram, and the error or nothing."""
    body, found = bytes.fromhex(header), b""
    with socket.socket(socket.AF_NETLINK, socket.SOCK_RAW, 0) as kernel:
        kernel.send(struct.pack("<IHHII", len(body) + 16, int(kind), 0x301, 1, 0) + body)
        while True:
            for frame in frames_in(kernel.recv(1 << 18)):
                if kind_of(frame) in (2, 3):  # NLMSG_ERROR and NLMSG_DONE, with a negative errno
                    error = struct.unpack_from("<i", frame, 16)[0]
                    return found, os.strerror(-error) if error else ""
                found += frame


def run(words, folder):
    """Runs a command in a folder. Returns what it received, and the error or nothing."""
    if words.startswith("ask "):
        return answers(*words.split()[1:])
    environment = {**os.environ, "MULTICAST": MULTICAST, "ADVERTISE": ADVERTISE}
    ended = subprocess.run(["sh", "-c", words], cwd=folder, env=environment, stderr=subprocess.PIPE, check=False)
    return b"", " ".join(ended.stderr.decode("latin-1").split()) or "failed" if ended.returncode else ""


def record(folder, groups):
    """Runs the commands, and writes stream.bin; and in the other folders, refused.txt."""
    subprocess.run(["mount", "-t", "tmpfs", "none", "/run"], check=True)
    with open(os.path.join(folder, "commands.txt"), encoding="utf-8") as file:
        commands = [line for line in file.read().splitlines() if line and line[0] != "#"]
    datagrams, refused = [], []
    with listener(groups) as kernel:
        for words in commands:
            answer, error = run(words, folder)
            if error:
                refused.append(f"{words}: {error}")
                print(f"failed: {refused[-1]}")
            datagrams += [*pending(kernel), answer]
        time.sleep(1)
        datagrams += pending(kernel)
    frames = [frame for datagram in datagrams for frame in frames_in(datagram)]
    if any(len(it) != (struct.unpack_from("<I", it)[0] + 3) & ~3 for it in frames):
        sys.exit("a datagram ends within a message or its padding")
    with open(os.path.join(folder, "stream.bin"), "wb") as file:
        file.write(b"".join(frames))
    if folder != HERE:
        with open(os.path.join(folder, "refused.txt"), "w", encoding="latin-1") as file:
            file.write("".join(f"{it}\n" for it in refused))
    print(len(frames), "messages, by type:", dict(sorted(Counter(map(kind_of, frames)).items())))


def frames_of(folder):
    with open(os.path.join(folder, "stream.bin"), "rb") as file:
        return list(frames_in(file.read()))


def printed_by(words, data):
    """Returns the lines that a program prints for a file of messages."""
    with tempfile.NamedTemporaryFile() as file:
        file.write(data)
        file.flush()
        result = subprocess.run([*words, file.name], stdout=subprocess.PIPE, check=True)
    return result.stdout.decode("latin-1").removesuffix("\n").split("\n")


def lines_of_ip(frames):
    """Returns the label and the line of `ip` for each message."""
    script = "mount -t tmpfs none /etc/iproute2; mount -t tmpfs none /run; mount --bind /dev/null /etc/protocols; "
    words = ["unshare", "-nm", "sh", "-c", f'{script} exec ip -o monitor label file "$0"']
    printed = printed_by(words, b"".join(frames))
    if len(printed) != len(frames):
        sys.exit(f"ip printed {len(printed)} lines for {len(frames)} messages")
    parts = [line.partition("]") for line in printed]
    return [f"{label}]{spaced(frame, rest)}" for frame, (label, _, rest) in zip(frames, parts)]


def lines():
    """Writes lines.txt, of stream.bin."""
    with open(os.path.join(HERE, "lines.txt"), "w", encoding="latin-1") as file:
        file.write("".join(f"{it}\n" for it in lines_of_ip(frames_of(HERE))))


def follow(frame):
    """Adds or deletes a link, with its index and name, as a message about links states. Ports of bridges stay."""
    if kind_of(frame) not in LINKS or frame[16] == AF_BRIDGE:
        return
    index, name = struct.unpack_from("<I", frame, 20)[0], name_of(frame)
    words = ["add", name, "index", str(index), "type", "ifb"] if kind_of(frame) == LINKS[0] else ["del", name]
    subprocess.run(["ip", "link", *words], stderr=subprocess.DEVNULL, check=False)


def name_of(frame):
    """Returns `IFLA_IFNAME`, which is the first attribute of a message about a link."""
    length, kind = struct.unpack_from("<HH", frame, 32)
    if kind != IFLA_IFNAME:
        sys.exit("a link does not begin with its name")
    return frame[36 : 32 + length].rstrip(b"\0").decode("latin-1")


def is_of_others(frame):
    """Returns whether the line of a message is made beside empty links."""
    return kind_of(frame) & ~3 in (*PROGRAMS, STATISTICS)


def line_beside_links(frame):
    """Returns the first line that a program prints for a message; of statistics, all."""
    if kind_of(frame) & ~3 == STATISTICS:
        printed = printed_by(["ip", "-o", "monitor", "label", "file"], frame)
        return "]".join(spaced(frame, it) for it in " ".join(printed).split("]"))
    if kind_of(frame) == RTM_GETMDB:
        frame = frame[:4] + struct.pack("<H", RTM_NEWMDB) + frame[6:]
    return " ".join(printed_by(PROGRAMS[kind_of(frame) & ~3], frame)[0].split())


def lines_beside_links(folder):
    """Writes lines.txt of another folder. This runs in namespaces of its own."""
    for words in ("-t tmpfs none /run", "-t tmpfs none /etc/iproute2", "--bind /dev/null /etc/protocols"):
        subprocess.run(["mount", *words.split()], check=True)
    frames = frames_of(folder)
    from_ip = iter(lines_of_ip([it for it in frames if not is_of_others(it)]))
    with open(os.path.join(folder, "lines.txt"), "w", encoding="latin-1") as file:
        for frame in frames:
            follow(frame)
            file.write(f"{line_beside_links(frame) if is_of_others(frame) else next(from_ip)}\n")


def in_namespaces(*words):
    """Runs this script with other words, in namespaces of its own."""
    subprocess.run(["unshare", "-nm", sys.executable, os.path.abspath(__file__), *words], check=True)


def main():
    words = sys.argv[1:]
    verb = words.pop(0) if words[:1] in (["record"], ["lines"], ["print"]) else ""
    if words not in ([], ["traffic"], ["bridge"]):
        sys.exit("arguments: `lines` or nothing, and then `traffic`, `bridge` or nothing")
    folder = os.path.join(HERE, "..", *words) if words else HERE
    if verb == "record":
        record(folder, OTHER_GROUPS[words[0]] if words else GROUPS)
    elif verb == "print":
        lines_beside_links(folder)
    else:
        if verb != "lines":
            in_namespaces("record", *words)
        if words:
            in_namespaces("print", *words)
        else:
            lines()


main()
