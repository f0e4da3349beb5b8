#!/usr/bin/env python3
"""Asks the kernel for a dump, and prints each frame of the reply as a constant for a test.

    dump.py [--raw] TYPE HEADER [PROTOCOL]

TYPE is the message type of the request, such as 30 (RTM_GETNEIGH). HEADER is the size of the family's fixed header,
which the request fills with zeros, or 0x and the header's bytes in hexadecimal. PROTOCOL is 0, route netlink, unless
another is given. With --raw, writes the bytes of the frames to standard output. Needs no privileges for most types.

If the kernel rejects the request, prints its error and its words to standard error. The status is then 1.
"""

import errno
import os
import socket
import struct
import sys

NLM_F_REQUEST, NLM_F_DUMP = 1, 0x300
NLM_F_CAPPED, NLM_F_ACK_TLVS = 0x100, 0x200
NLMSG_ERROR, NLMSG_DONE = 2, 3
SOL_NETLINK, NETLINK_EXT_ACK = 270, 11
NLMSGERR_ATTR_MSG = 1


def frames(kind, header, protocol=0):
    """Yields the frames of the reply. A rejection is the last: one of type NLMSG_ERROR, or of NLMSG_DONE with an error."""
    with socket.socket(socket.AF_NETLINK, socket.SOCK_RAW, protocol) as kernel:
        kernel.settimeout(2)
        kernel.setsockopt(SOL_NETLINK, NETLINK_EXT_ACK, 1)
        kernel.send(struct.pack("<IHHII", 16 + len(header), kind, NLM_F_REQUEST | NLM_F_DUMP, 1, 0) + header)
        while True:
            datagram, at = kernel.recv(65536), 0
            while at < len(datagram):
                length, kind = struct.unpack_from("<IH", datagram, at)
                if kind != NLMSG_DONE or code_of(datagram[at:]) < 0:
                    yield datagram[at : at + length]
                if kind in (NLMSG_ERROR, NLMSG_DONE):
                    return
                at += length + -length % 4


def code_of(frame):
    """Returns the code of a frame of type NLMSG_ERROR or NLMSG_DONE: 0, or a negative errno."""
    return struct.unpack_from("<i", frame, 16)[0] if len(frame) >= 20 else 0


def words_of(frame):
    """Returns the kernel's words in a rejection, or an empty text. An error is followed by the request or its header."""
    kind, flags = struct.unpack_from("<HH", frame, 4)
    at = 20
    if kind == NLMSG_ERROR:
        (size,) = struct.unpack_from("<I", frame, 20)
        at = 36 if flags & NLM_F_CAPPED else 20 + size + -size % 4
    while flags & NLM_F_ACK_TLVS and at + 4 <= len(frame):
        length, kind = struct.unpack_from("<HH", frame, at)
        if kind == NLMSGERR_ATTR_MSG:
            return frame[at + 4 : at + length].rstrip(b"\0").decode()
        at += max(4, length + -length % 4)
    return ""


def failed(frame):
    """Returns whether a frame is a rejection, and prints its error."""
    if struct.unpack_from("<H", frame, 4)[0] not in (NLMSG_ERROR, NLMSG_DONE):
        return False
    code = code_of(frame)
    name, words = errno.errorcode.get(-code, str(code)), words_of(frame)
    print(f"the kernel rejects the request: {name} ({os.strerror(-code)}){words and ': ' + words}", file=sys.stderr)
    return True


def show(frame):
    """Prints a frame as a constant."""
    print(f"// message type {struct.unpack_from('<H', frame, 4)[0]}")
    print(f"const FRAME: [u8; {len(frame)}] = [")
    for at in range(0, len(frame), 16):
        print("    " + " ".join(f"{it}," for it in frame[at : at + 16]))
    print("];")


def main(words):
    is_raw = words[:1] == ["--raw"]
    kind, header, *protocol = words[is_raw:]
    header = bytes.fromhex(header[2:]) if header.startswith("0x") else bytes(int(header))
    for frame in frames(int(kind), header, *map(int, protocol)):
        if failed(frame):
            return 1
        if is_raw:
            sys.stdout.buffer.write(frame + bytes(-len(frame) % 4))
        else:
            show(frame)
    return 0


if __name__ == "__main__":
    sys.exit(main(sys.argv[1:]) if len(sys.argv) > 2 else __doc__)
