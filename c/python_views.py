"""Tests for c/python_module.py what the Python module of views reads, on messages after the kernel's headers."""

from python_fed import MTU, NEW_LINK, attribute, error_of, u32
from tally import note

NESTED = 0x8000  # linux/netlink.h
# linux/rtnetlink.h, linux/if_link.h and linux/veth.h
NEW_ROUTE, MULTIPATH, GATEWAY, ADDRESS, LINK_INFO, INFO_KIND, INFO_DATA, PEER = 24, 9, 5, 1, 18, 1, 2, 1


def shown(view):
    """Returns the attributes of a view as tuples."""
    return [(it.raw_kind, it.shape, it.value, it.nest is not None) for it in view.items()]


def run_link(views):
    """Tests the attributes of a link and of its nests. The data of a link come before their kind."""
    peer = attribute(PEER, bytes(16) + attribute(MTU, u32(9)))
    info = attribute(INFO_DATA, peer) + attribute(INFO_KIND, b"veth\0")
    block = attribute(ADDRESS, b"\2\0\0\0\0\1") + attribute(LINK_INFO | NESTED, info) + attribute(1000, b"")
    link = views.View(NEW_LINK, bytes(16) + block)
    wanted = [(1, "bytes", b"\2\0\0\0\0\1", False), (LINK_INFO | NESTED, "nest", info, True), (1000, "bytes", b"", False)]
    note("Python walks a link", shown(link) == wanted, f"{shown(link)}")
    nest = [*link.items()][1]
    wanted = [(INFO_DATA, "nest", peer, True), (INFO_KIND, "str", b"veth\0", False)]
    note("Python walks a nest", nest.kind == LINK_INFO and shown(nest.nest) == wanted, f"{nest.kind} {shown(nest.nest)}")
    first = next(next(nest.nest.items()).nest.items())
    found = first.shape, first.nest.header_i32(4 * 256 + 4), shown(first.nest)
    note("Python walks a peer", found == ("header nest", 0, [(MTU, "u32", u32(9), False)]), f"{found}")


def run_hops(views):
    """Tests the hops of a route: struct rtnexthop has a length, flags, hops and an index."""
    hops = [u32(8 | 0xC1 << 24) + u32(2), attribute(4, u32(3) + attribute(GATEWAY, b"\n\0\0\1"))]
    route = views.View(NEW_ROUTE, bytes(12) + attribute(MULTIPATH, b"".join(hops)))
    found = [(it.kind, it.raw_kind, it.nest.header_i32(4), shown(it.nest)) for it in next(route.items()).nest.items()]
    wanted = [(0x0100, 0xC100, 2, []), (4, 4, 3, [(GATEWAY, "ip", b"\n\0\0\1", False)])]
    note("Python walks hops", found == wanted, f"{found}")


def run_views(views):
    """Runs all."""
    run_link(views)
    run_hops(views)
    error = error_of(views.View, NEW_LINK, bytes(16) + attribute(MTU, b"ab"))
    wanted = "at byte 16, in policy 0: attribute 4 has a value of 2 bytes instead of 4"
    note("Python views no number of another size", str(error) == wanted, f"{error!r}")
