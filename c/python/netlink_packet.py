# SPDX-License-Identifier: MIT
"""Netlink for Python: a socket, messages and attributes, over the library libnetlink_packet.

The socket is plain Python, and nothing is proved of it. Each step that reads or writes the bytes of messages
and attributes is a call of the library, whose functions are proved; netlink_packet.h is its header. The library
is the file that the environment variable NETLINK_PACKET_LIBRARY names, else libnetlink_packet.so.2.

    import netlink_packet as netlink

    with netlink.Socket(0, limit=5) as kernel:  # NETLINK_ROUTE
        for message in kernel.request(netlink.frame(18, netlink.NLM_F_DUMP, bytes(16))):  # RTM_GETLINK
            print([it.text() for it in message.attributes(16) if it.kind == 3])  # IFLA_IFNAME
"""

import errno
import os
import socket
from ctypes import CDLL, POINTER, Structure, create_string_buffer
from ctypes import c_char_p, c_int32, c_size_t, c_uint8, c_uint16, c_uint32, c_uint64
from time import monotonic

__all__ = ["Socket", "Message", "Attribute", "Rejected", "Interrupted", "Overrun", "Malformed", "frame"]
__all__ += ["messages_in", "attributes_in", "NLM_F_REPLACE", "NLM_F_EXCL", "NLM_F_CREATE", "NLM_F_DUMP"]

# The flags of a request, what joins and leaves a group, and the options of a socket (linux/netlink.h).
NLM_F_REQUEST, NLM_F_ACK, NLM_F_REPLACE, NLM_F_EXCL, NLM_F_CREATE, NLM_F_DUMP = 1, 4, 0x100, 0x200, 0x400, 0x300
SOL_NETLINK, ADD_MEMBERSHIP, DROP_MEMBERSHIP = 270, 1, 2
OPTIONS = {"NETLINK_EXT_ACK": 11, "NETLINK_CAP_ACK": 10, "NETLINK_GET_STRICT_CHK": 12}

# Results of the library's functions, and what a frame means to a request (netlink_packet.h).
NLP_OK, NLP_END, NLP_KIND_MASK = 0, 32, 0x3FFF
NLP_MESSAGE, NLP_OVERRUN, NLP_OTHER = 1, 5, 6


def struct(name, *fields):
    """Returns the type of a struct of the header."""
    return type(name, (Structure,), {"_fields_": fields})


Fault = struct("Fault", ("cause", c_uint32), ("inside", c_uint32), ("size", c_size_t), ("wanted", c_size_t))
Part = struct("Part", ("offset", c_size_t), ("size", c_size_t))
NUMBERS = ("sequence_number", c_uint32), ("port_number", c_uint32)
Header = struct("Header", ("length", c_uint32), ("message_type", c_uint16), ("flags", c_uint16), *NUMBERS)
Attr = struct("Attr", ("kind", c_uint16), ("offset", c_size_t), ("size", c_size_t))
Place = struct("Place", ("header", Header), ("payload", Part))
STATE = ("is_dump", c_uint32), ("wants_ack", c_uint32), ("ended", c_uint32), ("interrupted", c_uint32)
Replies = struct("Replies", *NUMBERS, *STATE)
PARTS = ("frame", Part), ("request", Part), ("attributes", Part)
Reply = struct("Reply", ("what", c_uint32), ("code", c_int32), *PARTS)

INTEGERS = {"u8": c_uint8, "u16": c_uint16, "u32": c_uint32, "u64": c_uint64}
BYTES, CURSOR, FAULT = (c_char_p, c_size_t), POINTER(c_size_t), POINTER(Fault)
CALLS = {
    "nlp_message_read": (*BYTES, CURSOR, POINTER(Place), FAULT),
    "nlp_message_attrs": (POINTER(Place), c_size_t, POINTER(Part)),
    "nlp_attrs_next": (*BYTES, CURSOR, POINTER(Attr), FAULT),
    **{f"nlp_get_{name}": (*BYTES, POINTER(Attr), POINTER(number)) for name, number in INTEGERS.items()},
    "nlp_get_str": (*BYTES, POINTER(Attr), POINTER(Part)),
    "nlp_replies_begin": (POINTER(Header), c_uint32, POINTER(Replies)),
    "nlp_replies_next": (*BYTES, CURSOR, POINTER(Replies), POINTER(Reply), FAULT),
    "nlp_ext_ack_text": (*BYTES, POINTER(Part)),
    "nlp_ext_ack_offset": (*BYTES, POINTER(c_uint32)),
    "nlp_ext_ack_missing_type": (*BYTES, POINTER(c_uint32)),
    "nlp_frame_put": (*BYTES, CURSOR, POINTER(Header), *BYTES),
    "nlp_frame_end": (*BYTES, c_size_t, c_size_t),
    "nlp_attr_put": (*BYTES, CURSOR, c_uint16, *BYTES),
    "nlp_nest_begin": (*BYTES, CURSOR, c_uint16),
    "nlp_nest_end": (*BYTES, c_size_t, c_size_t),
    "nlp_fault_text": (FAULT, *BYTES, POINTER(c_size_t)),
}

library = CDLL(os.environ.get("NETLINK_PACKET_LIBRARY") or "libnetlink_packet.so.2")
for name, types in CALLS.items():
    getattr(library, name).argtypes = types
    getattr(library, name).restype = None if name == "nlp_replies_begin" else c_uint32


class Malformed(ValueError):
    """Bytes are no messages or no attributes, with the library's text; or a value has another size."""


class Overrun(OSError):
    """The socket's queue was full and events were lost. Repeat the dump, since what is known is out of date."""


class Interrupted(Exception):
    """Something changed during the dump, so that its messages do not fit together: repeat the dump."""


class Rejected(OSError):
    """The kernel rejected a request, or a dump failed later. What the kernel does not state is None:

    text     the kernel's text
    offset   where in the request the attribute concerned begins
    kind     the kind of that attribute
    missing  the kind of an attribute that the request lacks
    """

    def __init__(self, code, block, request):
        part, offset, missing, attr = Part(), c_uint32(), c_uint32(), Attr()
        self.text = self.offset = self.kind = self.missing = None
        if library.nlp_ext_ack_text(block, len(block), part) == NLP_OK:
            self.text = slice_of(block, part).decode("utf-8", "replace")
        if library.nlp_ext_ack_offset(block, len(block), offset) == NLP_OK:
            self.offset, at = offset.value, c_size_t(offset.value)
            if library.nlp_attrs_next(request, len(request), at, attr, Fault()) == NLP_OK:
                self.kind = attr.kind & NLP_KIND_MASK
        if library.nlp_ext_ack_missing_type(block, len(block), missing) == NLP_OK:
            self.missing = missing.value
        super().__init__(-code, os.strerror(-code) + (f": {self.text}" if self.text else ""))


class Attribute:
    """An attribute: its `kind` without flag bits, and the bytes of its `value`. `u8` to `u64` return the value
    as an integer in native byte order."""

    def __init__(self, block, attr):
        self.kind, self.value = attr.kind & NLP_KIND_MASK, slice_of(block, attr)
        self._block, self._attr = block, Attr(attr.kind, attr.offset, attr.size)

    def u8(self):
        return self._integer("u8")

    def u16(self):
        return self._integer("u16")

    def u32(self):
        return self._integer("u32")

    def u64(self):
        return self._integer("u64")

    def _integer(self, size):
        number = INTEGERS[size]()
        if getattr(library, f"nlp_get_{size}")(self._block, len(self._block), self._attr, number) != NLP_OK:
            raise Malformed(f"the value of an attribute of kind {self.kind} has {len(self.value)} bytes")
        return number.value

    def text(self):
        """Returns the value up to its first zero, decoded as Python decodes the names of files and of links."""
        part = Part()
        library.nlp_get_str(self._block, len(self._block), self._attr, part)
        return os.fsdecode(slice_of(self._block, part))

    def inside(self):
        """Returns the attributes of a nest."""
        return attributes_in(self.value)


class Message:
    """A message: its `type`, its `flags`, and the bytes of its `payload`."""

    def __init__(self, data, place):
        self.type, self.flags = place.header.message_type, place.header.flags
        self.payload = slice_of(data, place.payload)

    def attributes(self, fixed):
        """Returns the attributes after a fixed header of this many bytes (16: struct ifinfomsg)."""
        place, rest = Place(payload=Part(0, len(self.payload))), Part()
        if library.nlp_message_attrs(place, fixed, rest) != NLP_OK:
            raise Malformed(f"the payload has {len(self.payload)} bytes, and its fixed header {fixed}")
        return attributes_in(slice_of(self.payload, rest))


def slice_of(data, place):
    """Returns the bytes at a place."""
    return data[place.offset : place.offset + place.size]


def malformed(fault):
    """Returns an error with the library's text."""
    text, size = create_string_buffer(300), c_size_t()
    result = library.nlp_fault_text(fault, text, len(text), size)
    return Malformed(text.raw[: size.value].decode() if result == NLP_OK else f"error {fault.cause}")


def all_of(call, data, item, made):
    """Returns what a function of the library reads from bytes, one after another."""
    at, fault, found = c_size_t(), Fault(), []
    while (result := call(data, len(data), at, item, fault)) == NLP_OK:
        found.append(made(data, item))
    if result != NLP_END:
        raise malformed(fault)
    return found


def attributes_in(block):
    """Returns the attributes of a block of bytes."""
    return all_of(library.nlp_attrs_next, block, Attr(), Attribute)


def messages_in(data):
    """Returns the messages of a datagram."""
    return all_of(library.nlp_message_read, data, Place(), Message)


def sixteen(number):
    """Returns a number of 16 bits. Of any other, ctypes would drop bits without an error."""
    if not 0 <= number <= 0xFFFF:
        raise ValueError(f"{number} does not fit in 16 bits")
    return number


def written(result):
    """Raises the one error that a function that writes can return, since the buffer has room."""
    if result != NLP_OK:
        raise ValueError("a value has more than 65531 bytes, or a nest more than 65535")


def room_for(attributes):
    """Returns how many bytes are enough for attributes."""
    return sum(8 + (room_for(value) if isinstance(value, list) else len(value)) for _, value in attributes)


def put(buffer, at, attributes):
    """Writes attributes at the cursor."""
    for kind, value in attributes:
        start = at.value
        if isinstance(value, list):
            written(library.nlp_nest_begin(buffer, len(buffer), at, sixteen(kind)))
            put(buffer, at, value)
            written(library.nlp_nest_end(buffer, len(buffer), at.value, start))
        else:
            written(library.nlp_attr_put(buffer, len(buffer), at, sixteen(kind), value, len(value)))


def begun(header, fixed, room=0):
    """Returns a buffer with a header, a fixed header and room for more, and a cursor after what is written."""
    buffer, at = create_string_buffer(20 + len(fixed) + room), c_size_t()
    written(library.nlp_frame_put(buffer, len(buffer), at, header, fixed, len(fixed)))
    return buffer, at


def frame(message_type, flags, fixed=b"", attributes=()):
    """Returns a frame: a header, the bytes of a fixed header such as struct ifinfomsg, and attributes. These
    are pairs of a kind and bytes; in a nest, a list of such pairs takes the place of the bytes."""
    buffer, at = begun(Header(0, sixteen(message_type), sixteen(flags)), fixed, room_for(attributes))
    if attributes:
        put(buffer, at, attributes)
        written(library.nlp_frame_end(buffer, len(buffer), at.value, 0))
    return buffer.raw[: at.value]


class Answer:
    """The answer to a request, as far as it was read: its state, and where in which datagram it goes on."""

    def __init__(self, header, is_dump, sent):
        self.is_dump, self.sent, self.is_left = is_dump, sent, False
        self.state, self.data, self.at = Replies(), b"", c_size_t()
        library.nlp_replies_begin(header, is_dump, self.state)


class Socket:
    """A bound socket of a netlink protocol (0: NETLINK_ROUTE, 16: NETLINK_GENERIC), for one thread at a time.

    Extended acknowledgements, capped ones and strict checks are on, except for those in `lacks`, which the
    kernel lacks. `port` is the number that the kernel gave. `buffer` is the size of the receive buffer. `limit`
    is how many seconds a call waits for the kernel; 0 takes what is there, and None waits for ever. Use one
    socket for requests and another for events: a request skips the events before the end of its answer.
    """

    def __init__(self, protocol, buffer=None, limit=None):
        self.limit, self.lacks = limit, []
        self._sequence_number, self._answer, self._buffer = 0, None, bytearray(1 << 15)
        self.port = self._open(protocol, buffer)

    def _open(self, protocol, buffer):
        """Opens the socket and returns its port."""
        self._socket = socket.socket(socket.AF_NETLINK, socket.SOCK_RAW | socket.SOCK_CLOEXEC, protocol)
        for option in OPTIONS:
            try:
                self._socket.setsockopt(SOL_NETLINK, OPTIONS[option], 1)
            except OSError as error:
                if error.errno != errno.ENOPROTOOPT:
                    raise
                self.lacks.append(option)
        if buffer is not None:
            self._socket.setsockopt(socket.SOL_SOCKET, socket.SO_RCVBUF, buffer)
        self._socket.bind((0, 0))
        return self._socket.getsockname()[0]

    def __enter__(self):
        return self

    def __exit__(self, *_):
        self.close()

    def close(self):
        self._socket.close()

    def fileno(self):
        return self._socket.fileno()

    def join(self, group):
        """Joins a multicast group by its number (1: RTNLGRP_LINK)."""
        self._socket.setsockopt(SOL_NETLINK, ADD_MEMBERSHIP, group)

    def leave(self, group):
        self._socket.setsockopt(SOL_NETLINK, DROP_MEMBERSHIP, group)

    def receive(self):
        """Returns a datagram of the kernel, whole; `messages_in` reads it. Skips those of other senders. Raises
        Overrun if the kernel dropped events, and TimeoutError."""
        return self._received(self._deadline())

    def request(self, requests):
        """Yields the messages of the answers to frames, which are bytes, one frame after another.

        A frame is sent when the answer to the one before is complete, and the first when the first message is
        asked for: `list(kernel.request(..))` sends all. If its flags have both bits of NLM_F_DUMP, it is a
        dump. The numbers, NLM_F_REQUEST and, unless it is a dump, NLM_F_ACK are set here. Raises Rejected,
        Interrupted, Overrun, TimeoutError and Malformed; the frames after that are not sent.
        """
        for message in messages_in(requests):
            self._finish()
            answer = self._begin(message)
            for reply in self._replies(answer):
                if reply.what == NLP_OVERRUN:
                    raise Overrun(errno.ENOBUFS, "the kernel lost a part of the answer")
                if reply.code:
                    raise Rejected(reply.code, slice_of(answer.data, reply.attributes), answer.sent)
                if reply.what == NLP_MESSAGE:
                    yield messages_in(slice_of(answer.data, reply.frame))[0]
                if answer.is_left:
                    raise RuntimeError("a later request of the socket took the rest of this answer")
            if answer.state.interrupted:
                raise Interrupted("something changed during the dump: repeat it")

    def _begin(self, message):
        """Sends a message as a request. Returns its answer, of which nothing was read."""
        is_dump = message.flags & NLM_F_DUMP == NLM_F_DUMP
        flags = message.flags | NLM_F_REQUEST | (0 if is_dump else NLM_F_ACK)
        self._sequence_number = self._sequence_number % 0xFFFFFFFF + 1
        header = Header(0, message.type, flags, self._sequence_number, self.port)
        buffer, at = begun(header, message.payload)
        answer = Answer(header, is_dump, buffer.raw[: at.value])
        self._send(answer.sent)
        self._answer = answer
        return answer

    def _finish(self):
        """Leaves the answer before. Reads the rest of a dump, since the kernel answers EBUSY to another."""
        if self._answer:
            self._answer.is_left = True
            if self._answer.is_dump:
                for _ in self._replies(self._answer):
                    pass

    def _replies(self, answer):
        """Yields what each frame of an answer means, up to its end. Each must come within the time limit."""
        reply, fault, deadline = Reply(), Fault(), self._deadline()
        while not answer.state.ended:
            data = answer.data
            result = library.nlp_replies_next(data, len(data), answer.at, answer.state, reply, fault)
            if result == NLP_END:
                answer.data, answer.at = self._received(deadline), c_size_t()
            elif result != NLP_OK:
                raise malformed(fault)
            elif reply.what != NLP_OTHER:
                yield reply
                deadline = self._deadline()

    def _deadline(self):
        return None if self.limit is None else monotonic() + self.limit

    def _received(self, deadline):
        """Returns the next datagram of the kernel, whole: learns its size first."""
        while True:
            size, _ = self._next(bytearray(), socket.MSG_PEEK, deadline)
            if size > len(self._buffer):
                self._buffer = bytearray(size)
            size, sender = self._next(self._buffer, 0, deadline)
            if size > len(self._buffer):
                raise OSError(errno.EMSGSIZE, "another thread received from the socket meanwhile")
            if sender == 0:
                return bytes(memoryview(self._buffer)[:size])

    def _next(self, buffer, flags, deadline):
        """Returns what `_receive_message` returns before a deadline, and names its errors."""
        seconds = None if deadline is None else max(deadline - monotonic(), 0)
        try:
            if seconds == 0 and self.limit > 0:
                raise socket.timeout()
            return self._receive_message(buffer, flags | socket.MSG_TRUNC, seconds)
        except (BlockingIOError, socket.timeout):
            raise TimeoutError(errno.ETIMEDOUT, f"the kernel sent nothing in {self.limit} seconds") from None
        except OSError as error:
            if error.errno == errno.ENOBUFS:
                raise Overrun(errno.ENOBUFS, "events were lost: repeat the dump") from None
            raise

    def _receive_message(self, buffer, flags, seconds):
        """Receives into a buffer. Returns the size of the datagram and the port of its sender."""
        self._socket.settimeout(seconds)
        size, _, _, sender = self._socket.recvmsg_into([buffer], 0, flags)
        return size, sender[0]

    def _send(self, request):
        self._socket.send(request)
