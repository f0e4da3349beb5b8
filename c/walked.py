"""Tests for c/test that a walk over views finds the attributes of captured messages, with the shapes of tests/kinds.txt."""

import csv
import os
import struct
import subprocess

from constants import tables
from kit import TOP
from kind_table import families
from tally import note

CAPTURED = os.path.join(TOP, "examples", "captured")
# The name of the shape of a form, if it has another one.
NAMES = {"S32": "i32", "S64": "i64", "STRING": "str", "ADDRESS": "ip", "LEAST": "min", "HEADER": "header nest"}
INFO_KIND, INFO_DATA = 1, 2  # IFLA_INFO_KIND or TCA_KIND, IFLA_INFO_DATA or TCA_OPTIONS
ENCAP_TYPE, ENCAP = 21, 22  # RTA_ENCAP_TYPE, RTA_ENCAP, of policy 0
ANY_KIND = 0xFFFF
LINES_AT_LEAST = 20000


def attributes(block):
    """Yields the kind and the value of each attribute."""
    at = 0
    while at < len(block):
        size, kind = struct.unpack_from("<HH", block, at)
        yield kind, block[at + 4 : at + size]
        at += (size + 3) // 4 * 4


class Family:
    """The rows of a family: the form, its number and the policy of a nest, by the policy and the kind."""

    def __init__(self, size, kinds):
        self.size = size
        found = [*tables().rows_of(kinds, 0)]
        self.rows = {it[:2]: it[2:] for it in found if len(it) == 5}
        self.links = {(it[3], it[1]): it[2] for it in found if it[0] == "="}
        self.encapsulations = {it[1]: it[2] for it in found if it[0] == "&"}

    def row(self, policy, kind, block):
        """Returns the row of a kind in a block."""
        if self.links and kind == INFO_DATA:
            first = next((value for it, value in attributes(block) if it & 0x3FFF == INFO_KIND), b"")
            name = first.partition(b"\0")[0].decode("latin-1")
            if (policy, name) in self.links:
                return "FORM_NEST", 0, self.links[policy, name]
        if self.encapsulations and (policy, kind) == (0, ENCAP):
            first = next((value for it, value in attributes(block) if it & 0x3FFF == ENCAP_TYPE), b"")
            if len(first) == 2 and (chosen := self.encapsulations.get(int.from_bytes(first, "little"))):
                return "FORM_NEST", 0, chosen
        return self.rows.get((policy, kind)) or self.rows.get((policy, ANY_KIND)) or ("FORM_BYTES", 0, 0)

    def lines(self, policy, block):
        """Yields the lines of the attributes of a block."""
        for kind, value in attributes(block):
            form, size, inner = self.row(policy, kind & 0x3FFF, block)
            form = form.removeprefix("FORM_")
            yield f"{kind} {NAMES.get(form, form.lower())} {size} {inner} {len(value)}"
            if form in ("NEST", "HEADER"):
                yield from (f"  {it}" for it in self.lines(inner, value[size:]))


def message_lines(datagram, known):
    """Yields the lines of the messages of a datagram. Each family has the message types from its first one to the next
    multiple of four, except those of a later family."""
    at = 0
    while at < len(datagram):
        size, message_type = struct.unpack_from("<IH", datagram, at)
        yield f"type {message_type}"
        first = max((it for it in known if message_type // 4 * 4 <= it <= message_type), default=None)
        if family := known.get(first):
            yield from (f"  {it}" for it in family.lines(0, datagram[at + 16 + family.size : at + size]))
        at += (size + 3) // 4 * 4


def files():
    """Returns the paths of the datagrams of route netlink that a program received, and of two files of many."""
    with open(os.path.join(CAPTURED, "INDEX.tsv")) as file:
        rows = [it for it in csv.reader(file, delimiter="\t") if it[1:3] == ["0", "received"]]
    return [os.path.join(CAPTURED, f"{it}.bin") for it in [*(row[0] for row in rows), "ip/frames", "monitor/stream"]]


def run_items(program):
    """Runs all."""
    known = {message_type: Family(size, kinds) for message_type, size, _fields, kinds in families()}
    lines = []
    for path in files():
        with open(path, "rb") as file:
            lines += message_lines(file.read(), known)
    run = subprocess.run([program, *files()], capture_output=True, text=True)
    note("there are captured attributes", len(lines) >= LINES_AT_LEAST, f"{len(lines)}")
    printed = run.stdout.splitlines()
    wrong = [f"{found} instead of {wanted}" for found, wanted in zip(printed, lines) if found != wanted]
    note("the attributes of captured messages", run.returncode == 0 and printed == lines, "\n".join(wrong[:9]))
