#!/usr/bin/env python3
"""Captures datagrams of the kernel's route and generic netlink in a network namespace of its own.

    unshare -n python3 capture.py        (as root; needs iproute2)

The namespace holds made-up interfaces alone: lo, two ends of a veth pair, a bridge, with fixed
addresses. Writes NAME.bin beside itself, one datagram a file, and INDEX.tsv: name, protocol number
(0 route, 16 generic), sent or received, size of the family's header in each reply, bytes.

The folder replies has answers of other forms: errors that name an attribute, dumps that fail or are
interrupted, and answers on a socket that gets other messages too.
"""
import os
import socket
import struct
import subprocess

OUT = os.path.dirname(os.path.abspath(__file__))
REQUEST, ACK, DUMP = 1, 4, 0x300
CREATE, EXCL = 0x400, 0x200
CAP_ACK, EXT_ACK, STRICT_CHECK = 10, 11, 12
index = []


def attr(kind, value):
    return struct.pack("<HH", 4 + len(value), kind) + value + b"\0" * (-len(value) % 4)


def message(kind, flags, body, sequence):
    return struct.pack("<IHHII", 16 + len(body), kind, flags, sequence, 0) + body


def save(name, data, way, protocol, header):
    with open(os.path.join(OUT, name + ".bin"), "wb") as f:
        f.write(data)
    index.append((name, protocol, way, header, len(data)))


def exchange(name, protocol, kind, flags, body, header, options=()):
    s = socket.socket(socket.AF_NETLINK, socket.SOCK_RAW, protocol)
    s.bind((0, 0))
    s.settimeout(2)
    for option in options:
        s.setsockopt(270, option, 1)
    request = message(kind, flags, body, 1)
    save(name + "-request", request, "sent", protocol, "-")
    s.send(request)
    for n in range(20):
        try:
            data = s.recv(65536)
        except OSError:
            break
        save(f"{name}-{n}", data, "received", protocol, header)
        last, at = None, 0
        while at + 16 <= len(data):
            size, last = struct.unpack_from("<IH", data, at)
            at += (size + 3) & ~3
        if last in (2, 3) or not flags & (DUMP | ACK):
            break
    s.close()


def ip(*words):
    subprocess.run(["ip", *words], check=True)


def answers(name, header, requests, options=(), groups=0, after_send=None, after_first=None):
    """Sends requests on one socket, and saves what arrives until nothing does for half a second.

    A request has a type, flags and a body. The sequence numbers are 1, 2 and so on. `after_send` and
    `after_first` are the words of `ip` commands, which run before and after the first datagram is
    received. The kernel makes the next datagram of a dump when a program receives one.
    """
    s = socket.socket(socket.AF_NETLINK, socket.SOCK_RAW, 0)
    s.bind((0, groups))
    s.settimeout(0.5)
    for option in options:
        s.setsockopt(270, option, 1)
    for number, (kind, flags, body) in enumerate(requests, 1):
        request = message(kind, flags, body, number)
        save(f"replies/{name}-request" + (f"-{number}" if len(requests) > 1 else ""), request, "sent", 0, "-")
        s.send(request)
    if after_send:
        ip(*after_send)
    for n in range(20):
        try:
            save(f"replies/{name}-{n}", s.recv(65536), "received", 0, header)
        except OSError:
            break
        if n == 0 and after_first:
            ip(*after_first)
    s.close()


def capture_replies(ifinfo):
    os.makedirs(os.path.join(OUT, "replies"), exist_ok=True)
    links, mtu = ifinfo() + attr(29, struct.pack("<I", 1)), attr(4, struct.pack("<I", 1300))
    # IFLA_BR_STP_STATE of one byte: the policy wants four.
    nest = attr(0x8000 | 18, attr(1, b"bridge\0") + attr(0x8000 | 2, attr(5, b"\1")))
    short = (16, REQUEST | ACK | CREATE | EXCL, ifinfo() + attr(3, b"bridge-2\0") + nest)
    answers("option-short", 16, [short], (EXT_ACK,))
    answers("option-short-capped", 16, [short], (EXT_ACK, CAP_ACK))
    # A strict socket accepts no index in the request of a dump.
    answers("dump-refused", 16, [(18, REQUEST | DUMP, ifinfo(0, 7))], (EXT_ACK, STRICT_CHECK))
    answers("dump-with-ack", 8, [(22, REQUEST | ACK | DUMP, bytes(8))])
    change = (16, REQUEST | ACK, ifinfo() + attr(3, b"veth-b\0") + mtu)
    answers("event-before-ack", 16, [change], (), 1)
    alias = ("link", "set", "veth-b", "alias", "the other end")
    answers("event-in-dump", 16, [(18, REQUEST | DUMP, links)], (), 1, None, alias)
    route = struct.pack("<BBBBBBBBI", 2, 32, 0, 0, 0, 0, 0, 0, 0) + attr(1, bytes([198, 51, 100, 9]))
    answers("two-requests", "-", [(22, REQUEST | DUMP, bytes(8)), (26, REQUEST | ACK, route)])
    added = ("link", "add", "bridge-3", "address", "02:00:00:00:00:03", "type", "bridge")
    answers("dump-interrupted", 16, [(18, REQUEST | DUMP, links)], (), 0, added)


def main():
    ip("link", "set", "lo", "up")
    ip("link", "add", "veth-a", "address", "02:00:00:00:00:0a", "type", "veth",
       "peer", "name", "veth-b", "address", "02:00:00:00:00:0b")
    ip("link", "add", "bridge-0", "address", "02:00:00:00:00:01", "type", "bridge")
    ip("link", "set", "veth-a", "master", "bridge-0")
    ip("link", "set", "veth-a", "alias", "one end of a pair")
    for name in ("veth-a", "veth-b", "bridge-0"):
        ip("link", "set", name, "up")
    ip("addr", "add", "192.0.2.1/24", "dev", "bridge-0")
    ip("addr", "add", "2001:db8::1/64", "dev", "bridge-0", "nodad")
    ip("route", "add", "198.51.100.0/24", "via", "192.0.2.254")
    ip("neigh", "add", "192.0.2.7", "lladdr", "02:00:00:00:00:07", "dev", "bridge-0")

    ifinfo = lambda family=0, number=0, flags=0, change=0: struct.pack("<BBHiII", family, 0, 0, number, flags, change)
    events = socket.socket(socket.AF_NETLINK, socket.SOCK_RAW, 0)
    events.bind((0, 1 | 0x10 | 0x100 | 0x40))
    events.settimeout(1)
    exchange("links", 0, 18, REQUEST | DUMP, ifinfo() + attr(29, struct.pack("<I", 1)), 16)
    exchange("link-by-name", 0, 18, REQUEST, ifinfo() + attr(3, b"bridge-0\0"), 16)
    exchange("bridge-ports", 0, 18, REQUEST | DUMP, ifinfo(7), 16)
    exchange("link-unknown", 0, 18, REQUEST | ACK, ifinfo(0, 99), 16, (11,))
    exchange("link-mtu", 0, 16, REQUEST | ACK, ifinfo() + attr(3, b"veth-b\0") + attr(4, struct.pack("<I", 1400)), 16)
    exchange("link-mtu-refused", 0, 16, REQUEST | ACK, ifinfo() + attr(3, b"veth-b\0") + attr(4, struct.pack("<I", 7)), 16, (11, 10))
    nest = attr(0x8000 | 18, attr(1, b"bridge\0") + attr(0x8000 | 2, attr(5, struct.pack("<I", 1))))
    exchange("link-new-bridge", 0, 16, REQUEST | ACK | CREATE | EXCL, ifinfo() + attr(3, b"bridge-1\0") + nest, 16, (11,))
    exchange("link-delete", 0, 17, REQUEST | ACK, ifinfo() + attr(3, b"bridge-1\0"), 16)
    exchange("addresses", 0, 22, REQUEST | DUMP, bytes(8), 8)
    exchange("routes", 0, 26, REQUEST | DUMP, bytes(12), 12)
    exchange("route-get", 0, 26, REQUEST, struct.pack("<BBBBBBBBI", 2, 32, 0, 0, 0, 0, 0, 0, 0) + attr(1, bytes([198, 51, 100, 9])), 12)
    exchange("neighbours", 0, 30, REQUEST | DUMP, bytes(12), 12)
    exchange("rules", 0, 34, REQUEST | DUMP, bytes(12), 12)
    exchange("type-unknown", 0, 254, REQUEST | ACK, bytes(4), "-", (11,))
    exchange("noop", 0, 1, REQUEST | ACK, b"", "-")
    exchange("families", 16, 16, REQUEST | DUMP, struct.pack("<BBH", 3, 1, 0), 4)
    exchange("family-by-name", 16, 16, REQUEST, struct.pack("<BBH", 3, 1, 0) + attr(2, b"nlctrl\0"), 4)
    exchange("family-unknown", 16, 16, REQUEST, struct.pack("<BBH", 3, 1, 0) + attr(2, b"no-such-family\0"), 4, (11,))
    for n in range(40):
        try:
            save(f"event-{n}", events.recv(65536), "received", 0, "-")
        except OSError:
            break
    capture_replies(ifinfo)
    with open(os.path.join(OUT, "INDEX.tsv"), "w") as f:
        f.write("# name\tprotocol\tway\tbytes of the family's header\tbytes\n")
        for row in index:
            f.write("\t".join(map(str, row)) + "\n")
    print(len(index), "datagrams")


main()
