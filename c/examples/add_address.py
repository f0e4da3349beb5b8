"""Adds an address to a link: add_address.py NAME ADDRESS/LENGTH. If the kernel refuses, prints its reason."""

import errno
import ipaddress
import os
import socket
import struct
import sys

sys.path.insert(0, os.path.join(sys.path[0], "..", "python"))

import netlink_packet as netlink  # noqa: E402 (it is in that folder)

NETLINK_ROUTE, RTM_NEWADDR, IFA_ADDRESS, IFA_LOCAL = 0, 20, 1, 2


def request_for(name, interface):
    """Returns the request: a struct ifaddrmsg, and the address twice, since it is not that of a peer."""
    family = socket.AF_INET if interface.version == 4 else socket.AF_INET6
    fixed = struct.pack("BBBBi", family, interface.network.prefixlen, 0, 0, socket.if_nametoindex(name))
    attributes = [(IFA_LOCAL, interface.packed), (IFA_ADDRESS, interface.packed)]
    return netlink.frame(RTM_NEWADDR, netlink.NLM_F_CREATE | netlink.NLM_F_EXCL, fixed, attributes)


def reason(rejected):
    """Returns the name of the error, the kernel's text, and the kind of the attribute concerned."""
    words = [errno.errorcode.get(rejected.errno, str(rejected.errno))]
    words += [rejected.text] if rejected.text else []
    words += [f"attribute {rejected.kind}"] if rejected.kind is not None else []
    return ": ".join(words)


if __name__ == "__main__":
    with netlink.Socket(NETLINK_ROUTE, limit=5) as kernel:
        try:
            list(kernel.request(request_for(sys.argv[1], ipaddress.ip_interface(sys.argv[2]))))
        except netlink.Rejected as rejected:
            sys.exit(reason(rejected))
