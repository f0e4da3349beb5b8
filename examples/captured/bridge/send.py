#!/usr/bin/env python3
"""Sends what `bridge` of iproute2 6.1 cannot: requests for multicast groups with a mode, sources or a protocol, and
those of VXLAN links; and packets of members and routers, which arrive at a port of a bridge. commands.txt calls it.

    ./send.py add|replace|delete BRIDGE PORT GROUP [permanent] [KEY=VALUE..]   (the keys of ATTRIBUTES)
    ./send.py report LINK TYPE GROUP [SOURCE..]    (IGMPv3 or MLDv2; the type of the record is that of RFC 3376)
    ./send.py leave LINK GROUP                     (IGMPv2)
    ./send.py query LINK 4|6
    ./send.py hello LINK                           (PIM)

A request that the kernel refuses ends the script with status 1 and the error.
"""

import os
import socket
import struct
import sys

RTM_NEWMDB, RTM_DELMDB = 84, 85
ASKED, REPLACE, CREATE = 5, 0x100, 0x400  # NLM_F_REQUEST with NLM_F_ACK, NLM_F_REPLACE and NLM_F_CREATE
NESTED = 0x8000
ETH_P_IP, ETH_P_IPV6 = 0x800, 0x86DD
IP_OPTIONS, IPV6_HOPOPTS = 4, 54
ROUTER_ALERT, ROUTER_ALERT_6 = bytes([148, 4, 0, 0]), bytes([0, 0, 5, 2, 0, 0, 1, 0])
IPPROTO_PIM = 103


def packed(address):
    """Returns the bytes of an IP address."""
    return socket.inet_pton(socket.AF_INET6 if ":" in address else socket.AF_INET, address)


def attribute(kind, value):
    return struct.pack("<HH", len(value) + 4, kind) + value + bytes(-len(value) % 4)


def number(form):
    return lambda text: struct.pack(form, int(text))


def index(name):
    return struct.pack("<I", socket.if_nametoindex(name))


def sources(text):
    """Returns MDBE_SRC_LIST_ENTRY for each address, with commas between them."""
    return b"".join(attribute(1 | NESTED, attribute(1, packed(it))) for it in text.split(","))


# MDBE_ATTR_* of linux/if_bridge.h.
ATTRIBUTES = {
    "src": (1, packed),
    "sources": (2 | NESTED, sources),
    "mode": (3, number("B")),
    "proto": (4, number("B")),
    "dst": (5, packed),
    "dst_port": (6, number("<H")),
    "vni": (7, number("<I")),
    "via": (8, index),
    "src_vni": (9, number("<I")),
}


def request(verb, bridge, port, group, *words):
    """Asks the kernel for a change of an entry."""
    address, state = packed(group), words[:1] == ("permanent",)
    protocol = (ETH_P_IP if len(address) == 4 else ETH_P_IPV6).to_bytes(2, "big")
    entry = index(port) + struct.pack("<BBH", state, 0, 0) + address.ljust(16, b"\0") + protocol + bytes(2)
    body = struct.pack("<BBHI", socket.AF_BRIDGE, 0, 0, socket.if_nametoindex(bridge)) + attribute(1, entry)
    given = [word.split("=") for word in words if "=" in word]
    attributes = [attribute(kind, value(text)) for key, text in given for kind, value in (ATTRIBUTES[key],)]
    body += attribute(2 | NESTED, b"".join(attributes)) if attributes else b""
    kind = RTM_DELMDB if verb == "delete" else RTM_NEWMDB
    flags = ASKED | {"add": CREATE, "replace": CREATE | REPLACE, "delete": 0}[verb]
    with socket.socket(socket.AF_NETLINK, socket.SOCK_RAW, 0) as kernel:
        kernel.send(struct.pack("<IHHII", len(body) + 16, kind, flags, 1, 0) + body)
        error = struct.unpack_from("<i", kernel.recv(4096), 16)[0]
    if error:
        sys.exit(os.strerror(-error))


def checked(message):
    """Returns a message of IGMP or PIM with its checksum, which is zeros so far."""
    total = sum(struct.unpack(f"!{len(message) // 2}H", message))
    total = (total & 0xFFFF) + (total >> 16)
    return message[:2] + struct.pack("!H", ~(total + (total >> 16)) & 0xFFFF) + message[4:]


def send(link, group, message, protocol=socket.IPPROTO_IGMP):
    """Sends a message to a group, with the option of RFC 2113 or RFC 2711. The kernel adds the checksum of ICMPv6."""
    family = socket.AF_INET6 if ":" in group else socket.AF_INET
    with socket.socket(family, socket.SOCK_RAW, protocol) as link_socket:
        link_socket.setsockopt(socket.SOL_SOCKET, socket.SO_BINDTODEVICE, link.encode())
        if family == socket.AF_INET:
            link_socket.setsockopt(socket.IPPROTO_IP, IP_OPTIONS, ROUTER_ALERT)
            link_socket.sendto(checked(message), (group, 0))
        else:
            link_socket.setsockopt(socket.IPPROTO_IPV6, IPV6_HOPOPTS, ROUTER_ALERT_6)
            link_socket.sendto(message, (group, 0, 0, socket.if_nametoindex(link)))


def report(link, kind, group, *from_them):
    """Sends a report of one record."""
    record = struct.pack("!BBH", int(kind), 0, len(from_them)) + b"".join(map(packed, (group, *from_them)))
    if ":" in group:
        send(link, "ff02::16", struct.pack("!BBHHH", 143, 0, 0, 0, 1) + record, socket.IPPROTO_ICMPV6)
    else:
        send(link, "224.0.0.22", struct.pack("!BBHHH", 0x22, 0, 0, 0, 1) + record)


def leave(link, group):
    send(link, "224.0.0.2", struct.pack("!BBH", 0x17, 0, 0) + packed(group))


def query(link, version):
    """Sends a general query of IGMPv2 or MLDv1."""
    if version == "6":
        send(link, "ff02::1", struct.pack("!BBHHH", 130, 0, 0, 1000, 0) + bytes(16), socket.IPPROTO_ICMPV6)
    else:
        send(link, "224.0.0.1", struct.pack("!BBH", 0x11, 100, 0) + bytes(4))


def hello(link):
    send(link, "224.0.0.13", struct.pack("!BBH", 0x20, 0, 0), IPPROTO_PIM)


def main():
    verb, *words = sys.argv[1:]
    if verb in ("add", "replace", "delete"):
        request(verb, *words)
    else:
        {"report": report, "leave": leave, "query": query, "hello": hello}[verb](*words)


main()
