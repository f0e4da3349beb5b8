"""What may differ between the objects of `netlink_show --json` and those of `ip -j`, by docs/FORMAT.md. Each row has a
reason, and two functions that make an object of `ip` and one of the program equal."""

import re

# The members of `ip` for a number without a name, and the member and the word of the program.
NUMBERED = {"operstate_index": ("operstate", "0x{:x}"), "linkmode_index": ("linkmode", "{}"), "event": ("event", "{}")}
NUMBERED["family_index"] = ("family", "family {}")


def same(members):
    return members


def without(*keys):
    return lambda members: {key: it for key, it in members.items() if key not in keys}


def without_value(is_left_out, *keys):
    """Returns a function that leaves out members with these keys if their value is such a one."""
    return lambda members: {key: it for key, it in members.items() if key not in keys or not is_left_out(it)}


def without_down(link):
    flags = link.get("flags", [])
    return {**link, "flags": [it for it in flags if it != "M-DOWN"]} if "M-DOWN" in flags else link


def without_encapsulation(members):
    """Returns a route without the members from `encap` to those of the next hop, or a next hop without those after
    `encap`."""
    keys = list(members)
    if "encap" not in keys:
        return members
    at = keys.index("encap") + ("NEXTHOP" in members["message"])
    end = min(keys.index(it) for it in ("gateway", "via", "dev", "scope", "protocol", "flags") if it in keys)
    return {key: members[key] for key in keys[:at] + keys[end:]}


def with_kind_last(link):
    """Returns a link with its kind after the members of `ip -j link`."""
    last = {key: link[key] for key in ("linkinfo", "raw") if key in link}
    return {**without(*last)(link), **last}


def with_words(members):
    found = {}
    for key, it in members.items():
        name, form = NUMBERED.get(key, (key, None))
        found[name] = form.format(it) if form else it
    return found


def unsigned(members):
    keys = ("preferred_life_time", "txqlen")
    return {key: it % (1 << 32) if key in keys else it for key, it in members.items()}


def without_own_name(link):
    """Returns a link without its name if that is made of its index."""
    return without("ifname")(link) if link.get("ifname") == f"if{link.get('ifindex')}" else link


def without_prefix(address):
    return address if "local" in address or "index" not in address else without("prefixlen", "metric")(address)


def with_source(route):
    """Returns a route with an unknown destination or source, `0/128`, without the space and under the key of any other."""
    found = {}
    for key, it in route.items():
        is_unknown = key in ("dst", "src") and re.fullmatch(r"0/\d+ ?", str(it))
        found["from" if is_unknown and key == "src" else key] = it.rstrip(" ") if is_unknown else it
    return found


LISTED_MEMBERS = [
    ("M-DOWN of a lower link", without_down, same),
    ("the reasons of protodown", without("proto_down_reason"), same),
    ("the encapsulation of a route or a next hop", without_encapsulation, same),
    ("the place of the kind of a link", with_kind_last, same),
]

# What a kernel does not send, or rarely.
LISTED_REPLAYED = [
    *LISTED_MEMBERS,
    ("the word for a number without a name", with_words, same),
    ("members that only the line of `ip` has", same, without("new_netnsid", "new_ifindex")),
    ("the prefix and the metric without an address", same, without_prefix),
    ("a number of 2^31 or more", unsigned, same),
    ("the link 0", *2 * [without_value(lambda it: it == "*", "dev", "master")]),
    ("the name of a link that its message lacks", without_own_name, same),
    ("an id of no namespace", same, without_value(lambda it: it < 0, "nsid", "current-nsid")),
    ("an unknown destination or source", with_source, same),
    ("a link address of no bytes", without_value(lambda it: it == "08", "lladdr"), same),
]
