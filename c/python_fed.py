"""Tests for c/python_module.py what the Python module does with answers that fail. A subclass takes the place
of its socket, so the tests need no kernel."""

import errno
import os
import socket
import struct
import time
from itertools import repeat
from unittest.mock import patch

from tally import note

# linux/netlink.h
NOOP, ERROR, DONE, OVERRUN = 1, 2, 3, 4
REQUEST, MULTI, ACK, TORN, DUMP = 1, 2, 4, 0x10, 0x300
CAPPED, WITH_REASON = 0x100, 0x200
TEXT, OFFSET, MISSING = 1, 2, 5
# linux/rtnetlink.h and linux/if_link.h
NEW_LINK, GET_LINK, SET_LINK, MTU, LINK_INFO, LINK_KIND = 16, 18, 19, 4, 18, 1
# The port of the socket, and that of another sender.
PORT, FOREIGN = 77, 99


def u32(number):
    return struct.pack("<I", number)


def attribute(kind, value):
    """Returns the bytes of an attribute with its padding, in native byte order (little-endian)."""
    return struct.pack("<HH", 4 + len(value), kind) + value + bytes(-len(value) % 4)


def frame(message_type, flags, payload=b"", number=1, port=PORT):
    """Returns the bytes of a frame with its padding. Its numbers are those of the answer to a first request."""
    header = struct.pack("<IHHII", 16 + len(payload), message_type, flags, number, port)
    return header + payload + bytes(-len(payload) % 4)


def asked(message_type, flags, payload):
    """Returns a frame without numbers, as a program passes it to the module."""
    return frame(message_type, flags, payload, 0, 0)


ALL_LINKS, ONE_LINK = asked(GET_LINK, DUMP, bytes(16)), asked(GET_LINK, 0, bytes(16))
SET_MTU = asked(SET_LINK, 0, bytes(16) + attribute(MTU, u32(1)))
SET_KIND = asked(SET_LINK, 0, bytes(16) + attribute(LINK_INFO | 0x8000, attribute(LINK_KIND, b"none\0")))
LINK, END = frame(NEW_LINK, MULTI, b"link"), frame(DONE, MULTI, bytes(4))
EVENT = frame(NEW_LINK, 0, b"event", 0, 0)
LONG = bytes(range(256)) * 500


def refused(code, *reason, number=1):
    """Returns an error message: a code, the header of a request, and the attributes of a reason."""
    payload = struct.pack("<i", -code) + ONE_LINK[:16] + b"".join(reason)
    return frame(ERROR, CAPPED | WITH_REASON, payload, number)


def acknowledged(number):
    return frame(ERROR, CAPPED, bytes(4) + ONE_LINK[:16], number)


def answers():
    """Yields for answers to a dump what the socket receives, and what the module makes of it: the payloads of
    the messages, and the name of the error and a part of its text, or None."""
    torn, torn_end = frame(NEW_LINK, MULTI | TORN, b"torn"), frame(DONE, MULTI | TORN, bytes(4))
    others = frame(DONE, MULTI, bytes(4), 1, FOREIGN), frame(DONE, MULTI, bytes(4), 2)
    cut = "invalid netlink buffer: length field says 20 the buffer is 19 bytes long"
    short = "invalid ErrorBuffer: length is 2 but ErrorBuffer are at least 4 bytes"
    one = [b"link"]
    yield "a whole answer", [LINK + END], one, None
    yield "tiny datagrams", [b"", LINK, frame(NOOP, 0), LINK, END], [b"link"] * 2, None
    yield "a datagram that is longer than the buffer", [frame(NEW_LINK, MULTI, LONG) + END], [LONG], None
    yield "a foreign sender", [(LINK + END, FOREIGN), LINK, (END, FOREIGN), END], one, None
    yield "frames with other numbers", [EVENT, *others, LINK + END], one, None
    yield "an interrupted dump", [LINK, torn, END], [b"link", b"torn"], ("Interrupted", "repeat it")
    yield "an interrupted end", [LINK, torn_end], one, ("Interrupted", "repeat it")
    yield "ENOBUFS", [LINK, errno.ENOBUFS, END], one, ("Overrun", "repeat the dump")
    yield "a message about an overrun", [LINK, frame(OVERRUN, 0), END], one, ("Overrun", "lost a part")
    yield "another error of the socket", [LINK, errno.EBADF], one, ("OSError", "Bad file descriptor")
    yield "no answer", [], [], ("TimeoutError", "nothing")
    yield "nothing there", [errno.EAGAIN], [], ("TimeoutError", "nothing")
    yield "an answer without an end", [LINK], one, ("TimeoutError", "nothing")
    yield "only foreign senders", [(LINK + END, FOREIGN)] * 3, [], ("TimeoutError", "nothing")
    yield "a malformed frame", [LINK + END[:-1]], one, ("Malformed", cut)
    yield "an error without a code", [LINK, frame(ERROR, 0, b"\xff\xff")], one, ("Malformed", short)


def refusals():
    """Yields requests, the answers, and what the errors state: number, text, offset, kind and missing kind."""
    words = "mtu less than device minimum"
    text, nothing = attribute(TEXT, words.encode() + b"\0"), (None, None, None, None)
    at_32, at_36, at_40 = (attribute(OFFSET, u32(offset)) for offset in (32, 36, 40))
    late = frame(DONE, MULTI | WITH_REASON, struct.pack("<i", -12) + text)
    yield "no reason", SET_MTU, refused(1), (1, *nothing)
    yield "the whole request", SET_MTU, frame(ERROR, 0, struct.pack("<i", -22) + SET_MTU), (22, *nothing)
    yield "a text", SET_MTU, refused(22, text), (22, words, None, None, None)
    yield "an offset", SET_MTU, refused(34, at_32), (34, None, 32, MTU, None)
    yield "a text and an offset", SET_MTU, refused(22, text, at_32), (22, words, 32, MTU, None)
    yield "the offset of a nest", SET_KIND, refused(95, at_32), (95, None, 32, LINK_INFO, None)
    yield "an offset in a nest", SET_KIND, refused(95, at_36), (95, None, 36, LINK_KIND, None)
    yield "an offset after the request", SET_MTU, refused(22, at_40), (22, None, 40, None, None)
    yield "a missing attribute", ONE_LINK, refused(22, attribute(MISSING, u32(3))), (22, None, None, None, 3)
    yield "a refused dump", ALL_LINKS, refused(95), (95, *nothing)
    yield "a dump that fails later", ALL_LINKS, late, (12, words, None, None, None)


def fed_class(netlink):
    """Returns a class of sockets without a kernel."""

    class Fed(netlink.Socket):
        """Receives what the steps say: bytes of the kernel; bytes and the port of another sender; or the number
        of an error. After the last step, the time is over. `sent` has the requests, and `log` the calls."""

        def __init__(self, steps, limit=None):
            self.steps, self.step, self.sent, self.log = iter(steps), None, [], ""
            super().__init__(0, limit=limit)

        def _open(self, protocol, buffer):
            return PORT

        def _send(self, request):
            self.sent.append(request)
            self.log += "s"

        def _receive_message(self, buffer, flags, seconds):
            step = self.step = next(self.steps, None) if self.step is None else self.step
            if not flags & socket.MSG_PEEK or isinstance(step, int):
                self.step = None
                self.log += "r"
            if step is None:
                raise socket.timeout()
            if isinstance(step, int):
                raise OSError(step, os.strerror(step))
            data, sender = step if isinstance(step, tuple) else (step, 0)
            size = min(len(data), len(buffer))
            buffer[:size] = data[:size]
            return len(data) if flags & socket.MSG_TRUNC else size, sender

    return Fed


def outcome(kernel, request):
    """Returns the payloads of the messages of an answer, and the error that ends it, or None."""
    payloads = []
    try:
        for message in kernel.request(request):
            payloads.append(message.payload)
    except Exception as error:
        return payloads, error
    return payloads, None


def error_of(call, *words):
    """Returns the error that a call raises, or None."""
    try:
        call(*words)
    except Exception as error:
        return error
    return None


def is_error(error, wanted):
    """Returns whether an error has this name, and this in its text."""
    return error is None if wanted is None else type(error).__name__ == wanted[0] and wanted[1] in str(error)


def run_answers(fed):
    """Tests what each answer leads to, and what `receive` returns."""
    for name, steps, payloads, wanted in answers():
        found, error = outcome(fed(steps), ALL_LINKS)
        note(f"Python: {name}", found == payloads and is_error(error, wanted), f"{found} {error!r}")
    foreign, late = (b"foreign", FOREIGN), ("TimeoutError", "nothing")
    for name, steps, data, wanted in [
        ("a long datagram", [LONG, b"short"], [LONG, b"short"], late),
        ("no foreign datagrams", [foreign, b"", foreign, EVENT, foreign], [b"", EVENT], late),
        ("lost events", [EVENT, errno.ENOBUFS, EVENT], [EVENT], ("Overrun", "repeat the dump")),
    ]:
        kernel = fed(steps)
        found = [kernel.receive() for _ in data]
        error = error_of(kernel.receive)
        note(f"Python receives {name}", found == data and is_error(error, wanted), f"{error!r}")


def run_refusals(fed):
    """Tests what an error states that the kernel sends."""
    for name, request, answer, wanted in refusals():
        _, error = outcome(fed([answer]), request)
        found = [getattr(error, it, None) for it in ("errno", "text", "offset", "kind", "missing")]
        words = os.strerror(wanted[0]) + (f": {wanted[1]}" if wanted[1] else "")
        holds = is_error(error, ("Rejected", words)) and tuple(found) == wanted
        note(f"Python: refused with {name}", holds, f"{found} {error!r}")


def run_requests(fed):
    """Tests what is sent, and when, and what a refusal leaves unsent."""
    payload = b"\x11\x22\x33\x44\x55"
    requests = asked(SET_LINK, 0x600, payload) + asked(GET_LINK, DUMP, bytes(16)) + asked(SET_LINK, 0, b"")
    wanted = [frame(SET_LINK, 0x600 | REQUEST | ACK, payload, 1), frame(GET_LINK, DUMP | REQUEST, bytes(16), 2)]
    steps = [acknowledged(1), frame(NEW_LINK, MULTI, b"link", 2), refused(1, number=2)]
    kernel = fed(steps)
    found, error = outcome(kernel, requests)
    holds = found == [b"link"] and is_error(error, ("Rejected", "Operation not permitted"))
    note("Python: the second of three requests is refused", holds, f"{found} {error!r}")
    holds = kernel.sent == wanted and kernel.log == "srsrr"
    note("Python sends two of three requests", holds, f"{kernel.sent} {kernel.log}")
    kernel = fed([frame(NEW_LINK, 0, b"one"), acknowledged(1), frame(NEW_LINK, 0, b"two", 2) + acknowledged(2)])
    found = outcome(kernel, ONE_LINK + ONE_LINK)
    holds = found == ([b"one", b"two"], None) and kernel.log == "srrsr"
    note("Python: two requests that are granted", holds, f"{found} {kernel.log}")
    kernel = fed([acknowledged(0xFFFFFFFF), acknowledged(1)])
    kernel._sequence_number = 0xFFFFFFFE
    found = outcome(kernel, ONE_LINK + ONE_LINK)
    numbers = [struct.unpack_from("<I", it, 8)[0] for it in kernel.sent]
    note("Python: no sequence number is 0", found == ([], None) and numbers == [0xFFFFFFFF, 1], f"{numbers}")
    for name, request in ("a cut request", ONE_LINK + ALL_LINKS[:-1]), ("no request", b""):
        kernel = fed([])
        found, error = outcome(kernel, request)
        holds = is_error(error, ("Malformed", "the buffer is 31 bytes long") if request else None)
        note(f"Python sends nothing of {name}", holds and kernel.log == "" and found == [], f"{error!r}")


def run_left(fed):
    """Tests generators that are closed early: the rest of a dump is read before the next request is sent."""
    second = frame(NEW_LINK, MULTI, b"second", 2) + frame(DONE, MULTI, bytes(4), 2)
    for name, steps, wanted in [
        ("in a datagram", [LINK + LINK + END, second], "srsr"),
        ("in others", [LINK, LINK, END, second], "srrrsr"),
        ("which fails", [LINK, frame(DONE, MULTI | TORN, struct.pack("<i", -12)), second], "srrsr"),
    ]:
        kernel = fed(steps)
        first = kernel.request(ALL_LINKS)
        next(first)
        first.close()
        found = outcome(kernel, ALL_LINKS)
        holds = found == ([b"second"], None) and kernel.log == wanted
        note(f"Python reads a rest {name}", holds, f"{found} {kernel.log}")
    kernel = fed([LINK, LINK, errno.ENOBUFS, END, second])
    first = kernel.request(ALL_LINKS)
    next(first)
    errors = [outcome(kernel, ALL_LINKS)[1] for _ in range(2)]
    holds = is_error(errors[0], ("Overrun", "")) and errors[1] is None and kernel.log == "srrrrsr"
    note("Python reads a rest after an overrun", holds, f"{errors} {kernel.log}")
    error = error_of(next, first)
    holds = is_error(error, ("RuntimeError", "took the rest"))
    note("Python: no generator goes on after that", holds, f"{error!r}")
    kernel = fed([frame(NEW_LINK, 0, b"one"), acknowledged(1), second])
    first = kernel.request(ONE_LINK)
    next(first)
    found = outcome(kernel, ALL_LINKS)
    holds = found == ([b"second"], None) and kernel.log == "srsrr"
    note("Python: only dumps have a rest", holds, f"{found} {kernel.log}")


def run_limits(netlink, fed):
    """Tests that no flood outlasts the time limit, and that the limit does not count the time of the caller."""
    floods = {"foreign datagrams": (LINK + END, FOREIGN), "events": EVENT, "empty datagrams": b""}
    for name, step in floods.items():
        begun = time.monotonic()
        error = outcome(fed(repeat(step), limit=0.05), ALL_LINKS)[1]
        taken = time.monotonic() - begun
        holds = is_error(error, ("TimeoutError", "0.05")) and 0.05 <= taken < 5
        note(f"Python: a flood of {name}", holds, f"{error!r} {taken}")
    error = error_of(fed(repeat((EVENT, FOREIGN)), limit=0.05).receive)
    note("Python receives no foreign flood", is_error(error, ("TimeoutError", "0.05")), f"{error!r}")
    payloads = []
    with patch.object(netlink, "monotonic", lambda: 100 * len(payloads)):
        for message in fed([LINK, LINK, LINK + END], limit=5).request(ALL_LINKS):
            payloads.append(message.payload)
    note("Python: a caller that is slow", payloads == [b"link"] * 3, f"{payloads}")
    found = outcome(fed([(END, FOREIGN), LINK + END], limit=0), ALL_LINKS)
    note("Python takes what is there", found == ([b"link"], None), f"{found}")


def run_shared(fed):
    """Tests a datagram that is not the one whose size was learned."""

    class Shared(fed):
        """A socket from which another thread takes what was only looked at."""

        def _receive_message(self, buffer, flags, seconds):
            return super()._receive_message(buffer, flags & ~socket.MSG_PEEK, seconds)

    error = error_of(Shared([EVENT, LONG]).receive)
    note("Python: a socket of two threads", is_error(error, ("OSError", "another thread")), f"{error!r}")


def run_fed_python(netlink):
    """Runs all with this module."""
    fed = fed_class(netlink)
    run_answers(fed)
    run_refusals(fed)
    run_requests(fed)
    run_left(fed)
    run_limits(netlink, fed)
    run_shared(fed)
