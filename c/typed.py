"""Runs the examples of messages by tables for c/test, in C, Rust and Python, and the programs over libmnl that do the same,
in a network namespace of its own: they print what `ip -j` prints there. So it does with what tests/route_kernel.c writes.

    c/typed.py LANGUAGE=FOLDER ..    in that namespace: runs the examples in these folders

c/test calls run_typed, which makes the namespace. The examples in Python use the library that make builds.
"""

import json
import os
import shutil
import signal
import subprocess
import sys
import time

from kit import HERE, OUT, has_route_socket, version
from tally import add, end, note, skip
from wrapper import RUST, cargo

EXAMPLES = ["route_links", "route_add_address", "route_watch", "generic_family"]
STATES = ["UNKNOWN", "NOTPRESENT", "DOWN", "LOWERLAYERDOWN", "TESTING", "DORMANT", "UP"]
# The links and addresses of the namespace.
COMMANDS = """link set lo up
link add left mtu 1400 type veth peer name right
link add quiet type veth peer name silent
link set left up
addr add 192.0.2.1/24 dev left
addr add 198.51.100.1 peer 198.51.100.2/32 dev left
addr add 2001:db8::1/64 dev right nodad"""


def run(*words, **how):
    """Runs a command."""
    return subprocess.run(words, capture_output=True, text=True, timeout=300, **how)


def ip(*words):
    """Returns what `ip -j` prints."""
    return json.loads(run("ip", "-j", "-d", *words).stdout)


def lines_of_ip():
    """Returns the lines that route_links prints, by `ip -j`."""
    lines = []
    for link in ip("link"):
        kind = link.get("linkinfo", {}).get("info_kind", "")
        lines.append(f"{link['ifindex']} {link['ifname']} mtu {link['mtu']} state {STATES.index(link['operstate'])} kind {kind}")
    for family in "-4", "-6":
        for link in ip(family, "addr"):
            lines += [f"{link['ifindex']} {it['local']}/{it['prefixlen']}" for it in link.get("addr_info", [])]
    return lines


def check_links(program, name):
    """Tests that a program prints the links and addresses of the namespace."""
    made = run(*program)
    wanted = lines_of_ip()
    alike = sorted(made.stdout.splitlines()) == sorted(wanted) and len(wanted) > 8
    note(f"links and addresses are those of ip: {name}", made.returncode == 0 and alike, f"{made.stdout}{made.stderr}\n{wanted}")


def check_added(program, name):
    """Tests that a program adds addresses, and prints why the kernel refuses one."""
    for address in "203.0.113.9/24", "2001:db8:1::9/64":
        made = run(*program, "quiet", address)
        there = [f"{it['local']}/{it['prefixlen']}" for it in ip("addr", "show", "dev", "quiet")[0]["addr_info"]]
        note(f"an address is added: {name}", made.returncode == 0 and address in there, f"{made.stderr}{there}")
        again = run(*program, "quiet", address)
        note(f"an address is refused: {name}", again.returncode == 1 and ("File exists" in again.stderr or "already" in again.stderr), again.stderr)
        run("ip", "addr", "del", address, "dev", "quiet")


def check_watched(program, name):
    """Tests that a program prints a link and an address that are added meanwhile, and stops at Ctrl-C."""
    # A shell that starts a command in the background lets it ignore SIGINT.
    how = {"stdout": subprocess.PIPE, "stderr": subprocess.PIPE, "text": True}
    with subprocess.Popen(program, preexec_fn=lambda: signal.signal(signal.SIGINT, signal.SIG_DFL), **how) as watch:
        time.sleep(1)
        run("ip", "link", "add", "seen", "type", "veth", "peer", "name", "other")
        run("ip", "addr", "add", "192.0.2.77/24", "dev", "seen")
        run("ip", "link", "del", "seen")
        time.sleep(1)
        watch.send_signal(signal.SIGINT)
        try:
            out, errors = watch.communicate(timeout=10)
        except subprocess.TimeoutExpired:
            watch.kill()
            out, errors = watch.communicate()
    found = "seen" in out and ("192.0.2.77" in out or "c000024d" in out)
    note(f"events are printed: {name}", found and watch.returncode in (0, -signal.SIGINT), out + errors)


def check_family(program, name):
    """Tests that a program prints the controller's id and its group, and an error for a name that no family has."""
    made = run(*program, "nlctrl")
    holds = made.returncode == 0 and made.stdout.startswith("nlctrl 16\ngroup ") and made.stdout.endswith(" notify\n")
    note(f"a family and its groups: {name}", holds, made.stdout + made.stderr)
    note(f"no such family: {name}", run(*program, "no-such").returncode == 1, "")


def check_kernel(program, name):
    """Tests that the kernel accepts the requests of tests/route_kernel.c, and what `ip` prints then."""
    made = run(*program)
    pair = next((it for it in ip("link") if it["ifname"] == "pair"), {})
    found = pair.get("link"), pair.get("mtu"), pair.get("address"), pair.get("linkinfo", {}).get("info_kind")
    holds = made.returncode == 0 and found == ("other", 1300, "02:00:00:00:00:07", "veth")
    note(f"links are made: {name}", holds, f"{made.stderr}{pair}")
    routes = [(it["metrics"], it["nexthops"]) for it in ip("route", "show", "198.18.0.0/15")]
    hops = [("10.1.0.9", "pair", 3, []), ("10.2.0.9", "other", 200, ["onlink"])]
    wanted = [dict(zip(["gateway", "dev", "weight", "flags"], it)) for it in hops]
    note(f"a route of two hops is added: {name}", routes == [([{"mtu": 1200}], wanted)], f"{made.stderr}{routes}")
    run("ip", "link", "del", "pair")


CHECKS = dict(zip([*EXAMPLES, "route_kernel"], [check_links, check_added, check_watched, check_family, check_kernel]))


def run_typed(folders):
    """Runs the examples in these folders, each with a name, in a namespace."""
    unshare = ["unshare", "-n" if os.geteuid() == 0 else "-rn"]
    has_namespace = shutil.which("unshare") and shutil.which("ip") and run(*unshare, "true").returncode == 0
    if not has_namespace or not has_route_socket():
        skip("typed", "unshare makes no network namespace, or there is no ip")
        return
    words = [f"{name}={folder}" for name, folder in folders.items()]
    made = run(*unshare, sys.executable, os.path.join(HERE, "typed.py"), *words)
    *lines, last = made.stdout.splitlines() or [""]
    print("\n".join(lines))
    parts = last.split()
    if len(parts) == 4:
        add(int(parts[0]), int(parts[2]))
    note("the examples run in a namespace", made.returncode == 0 and len(parts) == 4, made.stdout[-3000:] + made.stderr[-3000:])


def python_examples():
    """Makes the shared library for the examples in Python. Returns their folder, or None if make is missing."""
    if not shutil.which("make"):
        return None
    made = run("make", "-C", HERE)
    note("the shared library for Python", made.returncode == 0, made.stderr)
    os.environ["NETLINK_PACKET_LIBRARY"] = os.path.join(OUT, "installed", f"libnetlink_packet.so.{version()}")
    return os.path.join(HERE, "examples")


def rust_examples():
    """Builds the examples in Rust. Returns their folder, or None if cargo is missing."""
    if not shutil.which("cargo") or not shutil.which("cc"):
        return None
    made = cargo("build", "--examples")
    note("the examples in Rust", made.returncode == 0, made.stderr[-2000:])
    return os.path.join(RUST, "target", "debug", "examples") if made.returncode == 0 else None


def main():
    for line in COMMANDS.splitlines():
        made = run("ip", *line.split())
        note(f"ip {line}", made.returncode == 0, made.stderr)
    time.sleep(0.5)
    for word in sys.argv[1:]:
        name, _, folder = word.partition("=")
        for example, check in CHECKS.items():
            path = os.path.join(folder, example)
            program = [sys.executable, f"{path}.py"] if name == "Python" else [path]
            if os.path.exists(program[-1]):
                check(program, f"{example}, {name}")
    return end()


if __name__ == "__main__":
    sys.exit(main())
