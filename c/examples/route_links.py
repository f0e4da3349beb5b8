"""Prints index, name, MTU, state and kind of each link, and then the addresses by the index of their link."""

import ipaddress
import os
import sys

sys.path.insert(0, os.path.join(sys.path[0], "..", "python"))

import netlink_packet as netlink  # noqa: E402 (it is in that folder)
from netlink_packet_route import View, request_header  # noqa: E402
from netlink_packet_tables import *  # noqa: E402, F403


def dump(kernel, message_type):
    """Yields a view of each message of a dump."""
    request = netlink.frame(message_type, netlink.NLM_F_DUMP, request_header(message_type))
    for message in kernel.request(request):
        yield View(message.type, message.payload)


with netlink.Socket(0, limit=5) as kernel:  # NETLINK_ROUTE
    for link in dump(kernel, RTM_GETLINK):
        info = link.nest(IFLA_LINKINFO)
        kind = info and info.text(IFLA_INFO_KIND)
        mtu = link.u32(IFLA_MTU)
        state = link.u8(IFLA_OPERSTATE)
        print(f"{link.header_i32(IFI_INDEX)} {link.text(IFLA_IFNAME)} mtu {mtu} state {state} kind {kind or ''}")
    for address in dump(kernel, RTM_GETADDR):
        ip = ipaddress.ip_address(address.ip(IFA_LOCAL) or address.ip(IFA_ADDRESS))
        print(f"{address.header_u32(IFA_INDEX)} {ip}/{address.header_u8(IFA_PREFIXLEN)}")
