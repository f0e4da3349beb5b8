"""Fills network namespaces, asks their kernel for dumps, and reads what the installed `ip` prints for the same as JSON.

tests/beside_ip.py, and record.py and replay.py of examples/captured/json, use this as root in new namespaces.
"""

import json
import os
import re
import socket
import struct
import subprocess
import tempfile

from built import TOP, run
from ip_lines import FOLDER, escaped, first, items, number
from json_lines import with_raw

NLM_F_DUMP = 0x300
NLMSG_ERROR, NLMSG_DONE = 2, 3
RTM_GETLINK, RTM_GETADDR, RTM_GETROUTE, RTM_GETNEIGHTBL = 18, 22, 26, 66

LINK_REQUEST = bytes(16) + struct.pack("<HHI", 8, 29, 1)  # IFLA_EXT_MASK, as `ip link` sends it: RTEXT_FILTER_VF
PROXIES = b"\0\0\0\0\0\0\0\0\0\0\x08\0"  # NTF_PROXY

# The words of `ip`, and the type and the body of the request for the same dump. The first two letters of the words give
# the family, which is the first byte of the body.
FAMILIES = {"-4": socket.AF_INET, "-6": socket.AF_INET6, "-f": 7}
DUMPS = [("link show", RTM_GETLINK, LINK_REQUEST), ("-f bridge neigh show nud all", 30, bytes(12))]
DUMPS += [("ntable show", RTM_GETNEIGHTBL, bytes(4)), ("netns list-id", 90, bytes(4)), ("nexthop show", 106, bytes(8))]
for version in ("-4", "-6"):
    DUMPS += [(f"{version} addr show", RTM_GETADDR, bytes(8)), (f"{version} route show table all", RTM_GETROUTE, bytes(12))]
    DUMPS += [(f"{version} neigh show nud all", 30, bytes(12)), (f"{version} neigh show proxy", 30, PROXIES)]
    DUMPS += [(f"{version} rule show", 34, bytes(12)), (f"{version} netconf show", 82, bytes(4))]
DUMPS = [(words, kind, bytes([FAMILIES.get(words[:2], 0)]) + body[1:]) for words, kind, body in DUMPS]

SCRIPTS = ("setup.sh", "links.sh")


def shell(words, **how):
    return run([b"ip", *words.encode("latin-1").split()], **how)


def fill(section):
    """Runs the commands of a section of beside_ip.txt, and prints those that failed."""
    with open(os.path.join(TOP, "tests", "beside_ip.txt")) as file:
        commands = file.read().split(f"\n[{section}]\n")[1].split("\n\n")[0].splitlines()
    for words in commands:
        status, _, _ = shell(re.sub(r"\\x(..)", lambda it: chr(int(it[1], 16)), words))
        if status:
            print(f"skipped: ip {words}")


def prepare(script):
    """Fills new namespaces by a script of examples/captured/ip and by its section, and prints the commands that failed.
    `ip` then knows no name of a namespace but those of that section."""
    with tempfile.TemporaryFile() as errors:
        subprocess.run(["sh", os.path.join(FOLDER, script)], stdout=errors, stderr=errors, check=False)
        errors.seek(0)
        for words in re.findall(r"failed: (.*)", errors.read().decode("latin-1")):
            print(f"skipped: {escaped(words)}")
    subprocess.run(["mount", "-t", "tmpfs", "none", "/run"], check=True)
    fill(script)


def ask(kind, body, flags=NLM_F_DUMP):
    """Returns the messages of the kernel's answer to a request, without the one that ends a dump."""
    found = []
    with socket.socket(socket.AF_NETLINK, socket.SOCK_RAW, 0) as kernel:
        kernel.settimeout(5)
        kernel.send(struct.pack("<IHHII", 16 + len(body), kind, 1 | flags, 1, 0) + body)
        while True:
            frames = list(items(kernel.recv(1 << 18), 4))
            found += [it for it in frames if number(it[4:6]) not in (NLMSG_ERROR, NLMSG_DONE)]
            if not flags or len(frames) == 0 or number(frames[-1][4:6]) in (NLMSG_ERROR, NLMSG_DONE):
                return found


def firsts(pairs):
    """Returns pairs of a key and a value as a dictionary. Of those with one key, the first counts."""
    found = {}
    for key, value in pairs:
        found.setdefault(key, value)
    return found


def printed(words, **how):
    """Returns what `ip` prints as JSON. Each byte of a string is a character, since names of links are any bytes. The
    encapsulation of a route has a second `dst`."""
    _, output, _ = shell(words, **how)
    return json.loads(output.decode("latin-1") or "[]", strict=False, object_pairs_hook=firsts)


def of_link(link, detailed):
    """Returns an object of `ip -j link` with the kind of the link at its place, which `ip` prints only with `-d`."""
    kind = detailed.get("linkinfo", {}).get("info_kind")
    words = {**detailed, "linkinfo": {"info_kind": kind}}
    return {key: it for key, it in words.items() if key in link or (key == "linkinfo" and kind is not None)}


def objects_of_ip(words, **how):
    """Returns the objects of `ip` for a dump, a message each, with a member `raw` where `netlink_show` has one. `how` is
    how `ip` is run."""
    objects = printed(f"-o -j {words}", **how)
    if words == "link show":
        objects = list(map(of_link, objects, printed(f"-d -j {words}", **how)))
    if "addr show" in words:
        objects = [it for link in objects for it in link.get("addr_info", [])]
    if words == "netns list-id":
        objects = [{key: it for key, it in one.items() if key != "name"} for one in objects]  # no name is in the message
    if words == "ntable show":
        objects = firsts(((it["family"], it["name"], it.get("dev")), it) for it in objects).values()
    return [with_raw(it) for it in objects]


def messages(words, kind, body, flags=NLM_F_DUMP):
    """Returns the messages of the kernel's answer in the order of `objects_of_ip`."""
    frames = ask(kind, body, flags)
    if kind == RTM_GETADDR:  # `ip` prints the addresses of one link after another
        return sorted(frames, key=lambda it: number(it[20:24]))
    if kind == RTM_GETNEIGHTBL:  # the kernel repeats that of a table in each datagram
        return [*firsts(((it[16], first(it[20:], 1), first(first(it[20:], 6), 1)), it) for it in frames).values()]
    return frames


def paired(words, kind, body, flags=NLM_F_DUMP):
    """Returns the messages of the kernel's answer, and the object of `ip` for each. `ip` prints them before and after,
    until both are equal, so that no time and no state changed in between."""
    for _ in range(20):
        before, frames = objects_of_ip(words), messages(words, kind, body, flags)
        if before == objects_of_ip(words):
            break
    return frames, before
