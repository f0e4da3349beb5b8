"""Lists the links of this machine: links.py [LIBRARY], by default libnetlink_packet.so.2."""

import os
import struct
import sys

if len(sys.argv) > 1:
    os.environ["NETLINK_PACKET_LIBRARY"] = sys.argv[1]
sys.path.insert(0, os.path.join(sys.path[0], "..", "python"))

import netlink_packet as netlink  # noqa: E402 (it is in that folder)

NETLINK_ROUTE, RTM_GETLINK, IFINFOMSG, IFLA_IFNAME = 0, 18, 16, 3


def line_of(message):
    """Returns the index and the name of a link."""
    index = struct.unpack_from("i", message.payload, 4)[0]
    name = next(it.text() for it in message.attributes(IFINFOMSG) if it.kind == IFLA_IFNAME)
    return f"{index} {name}"


def links(kernel):
    """Returns a line for each link. Asks again if the links change during the answer."""
    request = netlink.frame(RTM_GETLINK, netlink.NLM_F_DUMP, bytes(IFINFOMSG))
    while True:
        try:
            return [line_of(message) for message in kernel.request(request)]
        except netlink.Interrupted:
            continue


with netlink.Socket(NETLINK_ROUTE, limit=5) as kernel:
    for line in links(kernel):
        print(line)
