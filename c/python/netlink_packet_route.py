# SPDX-License-Identifier: MIT
"""Messages of route netlink and of generic netlink's controller for Python, read by tables, over netlink_packet.

    from netlink_packet_route import View
    from netlink_packet_tables import IFI_INDEX, IFLA_IFNAME, IFLA_MTU

    link = View(message.type, message.payload)
    print(link.header_i32(IFI_INDEX), link.text(IFLA_IFNAME), link.u32(IFLA_MTU))
    for item in link.items():
        print(item.kind, item.shape, item.value.hex())

netlink_packet_tables has the constants, with the kernel's names.
"""

from ctypes import POINTER, byref, c_char_p, c_int32, c_int64, c_size_t, c_uint8, c_uint16, c_uint32, c_uint64, create_string_buffer

from netlink_packet import NLP_KIND_MASK, NLP_OK, Malformed, Part, library, slice_of, struct

__all__ = ["Item", "View", "request_header"]

Place = struct("Place", ("message_type", c_uint16), ("policy", c_uint16), ("missing", c_size_t), ("header", Part), ("attributes", Part))
SIZES = ("offset", c_size_t), ("expected", c_size_t), ("received", c_size_t)
Error = struct("Error", ("reason", c_uint32), ("kind", c_uint16), ("policy", c_uint16), *SIZES)
Shape = struct("Shape", ("shape", c_uint16), ("size", c_uint16), ("policy", c_uint16))
Kept = struct("Kept", ("kept", c_uint16), ("by", c_uint16), ("policy", c_uint16), ("shape", Shape))
Walk = struct("Walk", ("at", c_size_t), ("last", Kept), ("before", Kept))
Found = struct("Found", ("kind", c_uint16), ("shape", Shape), ("value", Part), ("nest", Place))
# The names of the shapes by their numbers.
SHAPES = ["bytes", "u8", "u16", "u32", "i32", "u64", "i64", "be16", "be32", "be64", "flag", "ip", "nul_str", "str", "exact", "min"]
SHAPES += ["nest", "header nest", "chosen", "be_i32", "elements", "chosen by number"]

PAYLOAD = (c_char_p, c_size_t)
NUMBERS = {"u8": c_uint8, "u16": c_uint16, "u32": c_uint32, "u64": c_uint64, "i32": c_int32, "i64": c_int64}
NUMBERS |= {"be16": c_uint16, "be32": c_uint32, "be64": c_uint64}
FIELDS = {"u8": c_uint8, "u16": c_uint16, "u32": c_uint32, "i32": c_int32}
VALUES = {**NUMBERS, **dict.fromkeys(["str", "ip", "exact", "bytes", "first"], Part), "nest": Place}
CALLS = {
    "nlp_route_view": (c_uint16, *PAYLOAD, POINTER(Place), POINTER(Error)),
    "nlp_generic_view": (*PAYLOAD, POINTER(Place), POINTER(Error)),
    "nlp_route_error_text": (POINTER(Error), *PAYLOAD, POINTER(c_size_t)),
    "nlp_route_header_size": (c_uint16, POINTER(c_size_t)),
    "nlp_view_next": (*PAYLOAD, POINTER(Place), POINTER(Walk), POINTER(Found)),
    **{f"nlp_view_{name}": (*PAYLOAD, POINTER(Place), c_uint16, POINTER(value)) for name, value in VALUES.items()},
    **{f"nlp_view_header_{name}": (*PAYLOAD, POINTER(Place), c_uint32, POINTER(value)) for name, value in FIELDS.items()},
}
for name, types in CALLS.items():
    getattr(library, name).argtypes = types
    getattr(library, name).restype = c_uint32


def checked(result, error):
    """Raises Malformed with the library's text of an error."""
    if result != NLP_OK:
        text, size = create_string_buffer(300), c_size_t()
        result = library.nlp_route_error_text(error, text, len(text), size)
        raise Malformed(text.raw[: size.value].decode() if result == NLP_OK else f"error {error.reason}")


def request_header(message_type):
    """Returns the fixed header of a request of this type, which is zeros."""
    size = c_size_t()
    checked(library.nlp_route_header_size(message_type, byref(size)), Error(40, message_type))
    return bytes(size.value)


class Item:
    """An attribute of a view: its `kind` without flag bits, `raw_kind` with them, the name of its `shape` in the table,
    such as `u32` or `nest`, the bytes of its `value`, and, if the shape is a nest, a view of its `nest`, else None."""

    def __init__(self, payload, found):
        self.kind, self.raw_kind, self.shape = found.kind & NLP_KIND_MASK, found.kind, SHAPES[found.shape.shape]
        self.value = slice_of(payload, found.value)
        self.nest = View._of(payload, found.nest) if self.shape.endswith("nest") else None


class View:
    """A view of a message, or of a nest. `u8` and so on return the first attribute of a kind as a number, and
    `header_u8` and so on a field of the fixed header; None if there is none or it has another shape."""

    def __init__(self, message_type, payload):
        """Checks the payload of a message of route netlink. Raises Malformed with its first error."""
        self.payload, self.place, error = payload, Place(), Error()
        checked(library.nlp_route_view(message_type, payload, len(payload), self.place, error), error)

    @classmethod
    def generic(cls, payload):
        """Checks the payload of a message of generic netlink's controller."""
        place, error = Place(), Error()
        checked(library.nlp_generic_view(payload, len(payload), place, error), error)
        return cls._of(payload, place)

    @classmethod
    def _of(cls, payload, place):
        view = cls.__new__(cls)
        view.payload, view.place = payload, place
        return view

    def _get(self, call, value, kind):
        result = getattr(library, call)(self.payload, len(self.payload), self.place, kind, value)
        return value if result == NLP_OK else None

    def __getattr__(self, name):
        """The getters of numbers: u8 to u64, i32, i64, be16 to be64, and header_u8 to header_u32 and header_i32."""
        numbers = FIELDS if name.startswith("header_") else NUMBERS
        number = numbers.get(name.removeprefix("header_"))
        if number is None:
            raise AttributeError(name)
        return lambda kind: getattr(self._get(f"nlp_view_{name}", number(), kind), "value", None)

    def _bytes(self, name, kind):
        part = self._get(f"nlp_view_{name}", Part(), kind)
        return part and slice_of(self.payload, part)

    def text(self, kind):
        """Returns a string without its zero, decoded as UTF-8; other bytes become surrogates, as in names of files."""
        found = self._bytes("str", kind)
        return found if found is None else found.decode("utf-8", "surrogateescape")

    def ip(self, kind):
        """Returns the 4 or 16 bytes of an IP address."""
        return self._bytes("ip", kind)

    def bytes(self, kind):
        """Returns any bytes, such as a hardware address."""
        return self._bytes("bytes", kind)

    def first(self, kind):
        """Returns the value of any shape."""
        return self._bytes("first", kind)

    def items(self):
        """Yields the attributes in order."""
        walk, found = Walk(), Found()
        while library.nlp_view_next(self.payload, len(self.payload), self.place, walk, found) == NLP_OK:
            yield Item(self.payload, found)
            found = Found()

    def nest(self, kind):
        """Returns a view of a nest."""
        place = self._get("nlp_view_nest", Place(), kind)
        return place and View._of(self.payload, place)
