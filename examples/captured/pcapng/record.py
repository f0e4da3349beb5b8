#!/usr/bin/env python3
"""Writes packets.pcap, with each captured datagram of examples/captured/*.bin as a packet of a netlink monitor, and runs
`tshark -r packets.pcap -w packets.pcapng`, which writes the same packets as a pcapng file."""

import os
import struct
import subprocess

HERE = os.path.dirname(os.path.abspath(__file__))
# The families of datagrams that are not of route netlink: those of generic netlink (16).
GENERIC = ("families-", "family-")


def main():
    above = os.path.dirname(HERE)
    parts = [struct.pack("<IHHiIII", 0xA1B2C3D4, 2, 4, 0, 0, 262144, 253)]
    for place, name in enumerate(sorted(it for it in os.listdir(above) if it.endswith(".bin"))):
        with open(os.path.join(above, name), "rb") as file:
            data = struct.pack(">HH10xH", 4, 824, 16 if name.startswith(GENERIC) else 0) + file.read()
        parts.append(struct.pack("<IIII", 1_700_000_000 + place, 1_000 * place + 42, len(data), len(data)) + data)
    with open(os.path.join(HERE, "packets.pcap"), "wb") as file:
        file.write(b"".join(parts))
    subprocess.run(["tshark", "-r", "packets.pcap", "-w", "packets.pcapng"], cwd=HERE, check=True)


main()
