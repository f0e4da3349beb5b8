"""Tests the constants of netlink_packet_tables.h for c/test: they are those of the tables, and those of the kernel's headers
that have the name."""

import importlib.machinery
import importlib.util
import os
import re
import subprocess
import sys

from kit import HERE, OUT, compile_object
from ported import has_headers
from tally import note

INCLUDES = ["linux/rtnetlink.h", "linux/if_link.h", "linux/if_tunnel.h", "linux/veth.h", "linux/if_addr.h", "linux/neighbour.h",
            "linux/fib_rules.h", "linux/net_namespace.h", "linux/netconf.h", "linux/nexthop.h", "linux/pkt_sched.h",
            "linux/pkt_cls.h", "linux/gen_stats.h", "linux/if_bridge.h", "linux/if_bonding.h", "linux/mpls.h",
            "linux/genetlink.h", "linux/netlink.h", "linux/lwtunnel.h", "linux/mpls_iptunnel.h", "linux/ila.h",
            "linux/seg6_iptunnel.h", "linux/seg6_local.h", "linux/rpl_iptunnel.h", "linux/ioam6_iptunnel.h"]
# The structs of the headers of nests, by how the names of their fields begin. That of a router port has none.
STRUCTS = {"RTNH_": "rtnexthop", "MDB_ENTRY_": "br_mdb_entry", "ROUTER_PORT_": None}
# Fewer than this are a failure. The headers of Linux 6.1 have 787 of the 831 constants, and later ones more.
KNOWN_AT_LEAST = 777


def tables():
    """Returns the module of c/tables."""
    loader = importlib.machinery.SourceFileLoader("tables", os.path.join(HERE, "tables"))
    module = importlib.util.module_from_spec(importlib.util.spec_from_loader("tables", loader))
    loader.exec_module(module)
    return module


def rows():
    """Yields what the kernel calls each constant, and an expression of C that holds if the two are equal."""
    for _what, struct, types, fields, kinds in tables().constants():
        for name, _value in types + kinds:
            yield name, f"(unsigned)NLP_{name} == (unsigned){name}"
        for name, field, _at, shape in fields:
            of = next((STRUCTS[it] for it in STRUCTS if name.startswith(it)), struct)
            if of is None:
                continue
            # The header of a next hop as a nest begins after its length and the bytes that are its kind.
            start = 4 if of == "rtnexthop" else 0
            at, size = f"offsetof(struct {of}, {field})", f"sizeof(((struct {of} *)0)->{field})"
            yield f"{of}.{field}", f"NLP_{name} / 256 + {start} == {at} && {size} == {int(shape[1:]) // 8}"


def failing(folder, tests):
    """Returns the numbers of the tests that do not compile, each with the first error."""
    source = os.path.join(folder, "constants.c")
    with open(source, "w") as file:
        file.writelines(f"#include <{it}>\n" for it in INCLUDES)
        file.write("#include <stddef.h>\n#include <netlink_packet_tables.h>\n#line 1\n")
        file.writelines(f'_Static_assert({holds}, "{name}");\n' for name, holds in tests)
    made = compile_object(["-std=c11", "-fmax-errors=0", "-I", OUT], source, os.path.join(folder, "constants.o"))
    found = {}
    for at, why in re.findall(r"constants\.c:(\d+):\d+: error: (.*)", made.stderr):
        found.setdefault(int(at) - 1, why)
    return found


def run_constants(folder):
    """Tests the constants."""
    check = subprocess.run([sys.executable, os.path.join(HERE, "tables"), "--check"], capture_output=True, text=True)
    note("the constants are those of the tables", check.returncode == 0, check.stdout + check.stderr)
    if not has_headers(folder):
        return
    tests = [*rows()]
    wrong = failing(folder, tests)
    unknown = [at for at, why in wrong.items() if "undeclared" in why or "no member" in why]
    other = [f"{tests[at][0]}: {why}" for at, why in wrong.items() if at not in unknown]
    note("the constants are those of the kernel", not other, "\n".join(other))
    note("the kernel's headers have most of the constants", len(tests) - len(wrong) >= KNOWN_AT_LEAST, f"{len(wrong)} of {len(tests)}")
