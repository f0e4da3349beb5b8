"""Computes the lines of `netlink_show --bytes` for the bytes of a message, by tests/kinds.txt.

The kinds and their forms are written after the kernel's headers; the walk over a block, the first fault and the lines are
written here, after docs/FORMAT.md. `lines_of(frame)` returns the lines of a frame. tests/steps/show.py calls
`byte_errors`.
"""

import os
import re

from built import TOP, run
from ip_lines import items, number
from kind_table import INTEGERS, families, text_of

HEADER = [("nlmsg_len", 0, "u32"), ("nlmsg_type", 4, "u16"), ("nlmsg_flags", 6, "u16"), ("nlmsg_seq", 8, "u32")]
HEADER += [("nlmsg_pid", 12, "u32")]
ERROR = [("error", 0, "s32"), *((f"msg.{name}", 4 + at, form) for name, at, form in HEADER)]
DONE = ERROR[:1]

# The attributes of extended acknowledgements: enum nlmsgerr_attrs and netlink_policy_type_attr of linux/netlink.h.
U32S = {6: "MIN_LENGTH", 7: "MAX_LENGTH", 8: "POLICY_IDX", 9: "POLICY_MAXTYPE", 10: "BITFIELD32_MASK", 1: "TYPE"}
NUMBERS = {2: ("MIN_VALUE_S", "s64"), 3: ("MAX_VALUE_S", "s64"), 4: ("MIN_VALUE_U", "u64"), 5: ("MAX_VALUE_U", "u64")}
NUMBERS |= {12: ("MASK", "u64"), 11: ("PAD", "bytes"), **{kind: (name, "u32") for kind, name in U32S.items()}}
POLICY = [[str(kind), f"NL_POLICY_TYPE_ATTR_{name}", form, 0, []] for kind, (name, form) in NUMBERS.items()]
ACKS = [("MSG", "string"), ("OFFS", "u32"), ("COOKIE", "bytes"), ("POLICY", "nest"), ("MISS_TYPE", "u32")]
ACKS = [
    [str(kind), f"NLMSGERR_ATTR_{name}", form, 0, POLICY]
    for kind, (name, form) in enumerate([*ACKS, ("MISS_NEST", "u32")], 1)
]
CAPPED, TLVS = 0x100, 0x200  # NLM_F_CAPPED, NLM_F_ACK_TLVS

# The families by their message types, of which the one with the lowest bits 2 asks, and may have a short payload.
FAMILIES = {it[0]: it[1:] for it in families()}
TYPES = {base + step: base for base in FAMILIES for step in range(4 - base % 4)}
for unused in (23, 27, 31, 35, 39, 43, 47, 51, 53, 54, 55, 65, 83, 87, 91, 93, 103, 107, 115, 119, 123):
    del TYPES[unused]
# The families of messages about addresses, routes and neighbours that a table describes.
DESCRIBED = (0, 2, 7, 10, 28, 128, 129)
REQUEST, DUMP, KIND_BITS = 1, 0x300, 3
INFO_KIND, INFO_DATA = "1", "2"
ENCAP_TYPE, ENCAP = "21", "22"


def whole_at(block):
    """Returns whether a block starts with a whole attribute."""
    return len(block) >= 4 and 4 <= number(block[:2]) <= len(block)


def attributes(block):
    """Yields the offset, the kind with its flag bits and the value of each attribute, up to what is none."""
    at = 0
    while whole_at(block[at:]):
        size = number(block[at : at + 2])
        yield at, number(block[at + 2 : at + 4]), block[at + 4 : at + size]
        at += (size + 3) & ~3


def value_of(block, kind):
    """Returns the value of the first attribute of a kind in a block, or None."""
    return next((it for _at, one, it in attributes(block) if str(one & 0x3FFF) == kind), None)


def row_of(kinds, block, kind, top):
    """Returns the name, the form, its number and the kinds inside of a kind among others in a block. The kind of a link
    decides what IFLA_INFO_DATA has, TCA_KIND what TCA_OPTIONS has, which have the same numbers, and the type of an
    encapsulation what RTA_ENCAP has: the first one."""
    if kinds is None:  # a next hop, whose kind is its flags and its hops
        return None, "header", 4, top
    kind &= 0x3FFF
    found = next((it for it in kinds if it[0] in (str(kind), "*")), None)
    if found is None:
        return None, "bytes", 0, None
    _number, name, form, size, inside = found
    links = [it for it in kinds if it[2] == "link"]
    if links and found[0] == INFO_DATA:
        value = value_of(block, INFO_KIND)
        chosen = [it for it in links if value is not None and it[1].encode() == value.split(b"\0")[0]]
        if chosen:  # kinds of links that share a policy share its kinds, each of which is listed with one of them
            form, inside = "nest", [kind for it in links if it[3] == chosen[0][3] for kind in it[4]]
    encapsulations = {it[0]: it[4] for it in kinds if it[2] == "encapsulation"}
    if encapsulations and found[0] == ENCAP:
        value = value_of(block, ENCAP_TYPE) or b""
        chosen = encapsulations.get(f"&{number(value)}") if len(value) == 2 else None
        if chosen:
            form, inside = "nest", chosen
    if form == "header":
        inside = top
    if form == "headed":
        form, size = "header", size[0]
    return None if name == "-" else name, form, size, inside


def has_form(form, size, value):
    if form in INTEGERS:
        return len(value) == INTEGERS[form]
    if form == "string":
        return b"\0" not in value[:-1]
    if form == "address":
        return len(value) in (4, 16)
    if form == "elements":
        return len(value) % size == 0
    return {"flag": not value, "exact": len(value) == size}.get(form, len(value) >= size if form in ("least", "header") else True)


def nest_of(form, size, inside, value):
    """Returns the kinds in a nest and the offset of its attributes in its value, or None if it is none."""
    return {"nest": (inside, 0), "hops": (None, 0), "header": (inside, size)}.get(form)


def fault_in(kinds, block, at, top):
    """Returns the offset of the first fault of a block at an offset, or None."""
    end = 0
    for start, kind, value in attributes(block):
        _name, form, size, inside = row_of(kinds, block, kind, top)
        if not has_form(form, size, value):
            return at + start
        if nest := nest_of(form, size, inside, value):
            fault = fault_in(nest[0], value[nest[1] :], at + start + 4 + nest[1], top)
            if fault is not None:
                return fault
        end = start + ((4 + len(value) + 3) & ~3)
    return at + end if end < len(block) else None


def escaped(text):
    return "".join(chr(it) if 32 <= it < 127 and it != 92 else f"\\{it:02x}" for it in text)


def value_text(form, size, value):
    if form == "string" and has_form(form, size, value):
        return escaped(value.split(b"\0")[0])
    return text_of(form if has_form(form, size, value) and form != "string" else "bytes", value)


class Lines:
    """The lines of a message, of which the one at an offset is marked."""

    def __init__(self, fault):
        self.fault, self.lines = fault, []

    def add(self, depth, at, data, rest):
        """Adds a line, if it has bytes."""
        if data:
            mark = "! " if at == self.fault else "  "
            self.lines.append(f"{mark}{'  ' * depth}{at}  {data.hex(' ')}{rest}\n")

    def fields(self, fields, data, at):
        """Adds the fields of a header, and the bytes between and after them."""
        end = 0
        for name, offset, form in fields:
            self.add(0, at + end, data[end:offset], "")
            part = data[offset : offset + INTEGERS[form]]
            self.add(0, at + offset, part, f"  {name}: {value_text(form, 0, part)}")
            end = offset + len(part)
        self.add(0, at + end, data[end:], "")

    def block(self, kinds, block, at, top, depth=0):
        """Adds the attributes of a block, and what follows them."""
        end = 0
        for start, kind, value in attributes(block):
            name, form, size, inside = row_of(kinds, block, kind, top)
            end = min(start + ((4 + len(value) + 3) & ~3), len(block))
            label = name or str(kind)
            nest = nest_of(form, size, inside, value)
            if nest is None:
                self.add(depth, at + start, block[start:end], f"  {label}: {value_text(form, size, value)}")
                continue
            head = block[start : start + 4 + nest[1]]
            self.add(depth, at + start, head, f"  {label}: {value[: nest[1]].hex()}" if nest[1] else f"  {label}:")
            self.block(nest[0], value[nest[1] :], at + start + 4 + nest[1], top, depth + 1)
        self.add(depth, at + end, block[end:], "")


def described(kind, flags, payload):
    """Returns the size of the header, the fields, the kinds and the fault of a payload that a table describes, or None."""
    if kind not in TYPES:
        return None
    size, fields, kinds = FAMILIES[TYPES[kind]]
    asks = kind & KIND_BITS == 2
    if len(payload) < size:
        fault = None if asks and 1 <= len(payload) <= 4 else 16
    else:
        fault = fault_in(kinds, payload[size:], 16 + size, kinds)
    is_foreign = 20 <= kind <= 30 and payload and payload[0] not in DESCRIBED
    if fault is not None and (is_foreign or (asks and flags & REQUEST and flags & DUMP)):
        return None
    return size, fields, kinds, fault


def acknowledged(kind, flags, payload):
    """Returns the size of what precedes the attributes of an error or done message; all of any other."""
    if kind not in (2, 3) or len(payload) < 4 or not flags & TLVS:
        return len(payload)
    size, body = 0, payload[4:]
    if kind == 2:
        size = 16 if flags & CAPPED or len(body) < 16 else max(16, number(body[:4]))
    return min(len(payload), 4 + ((size + 3) & ~3))


def lines_of(frame):
    """Returns the lines of the bytes of a frame, which is whole."""
    kind, flags, payload = number(frame[4:6]), number(frame[6:8]), frame[16:]
    size, fields, kinds, fault = described(kind, flags, payload) or (0, [], None, None)
    lines = Lines(fault)
    lines.fields(HEADER, frame[:16], 0)
    if kinds is None:
        end = acknowledged(kind, flags, payload)
        lines.fields({2: ERROR, 3: DONE}.get(kind, []), payload[:end], 16)
        lines.block(ACKS, payload[end:], 16 + end, ACKS)
    else:
        lines.fields(fields, payload[:size], 16)
        lines.block(kinds, payload[size:], 16 + size, kinds)
    return "".join(lines.lines)


def byte_errors(program, frames):
    """Runs the program on these frames, one after another, without and with --bytes. Yields what differs from the first
    output with the lines of bytes after the line of each message, by the first message that does."""
    stream = b"".join(it + bytes(-len(it) % 4) for it in frames)
    status, plain, _error = run([program], stream)
    with_bytes = run([program, "--bytes"], stream)
    if with_bytes[0] != status:
        yield f"--bytes: status {with_bytes[0]}, {status} without it"
    rest, lines = with_bytes[1], iter(plain.splitlines(keepends=True))
    for frame in frames:
        line = next(lines, b"")
        if line == b"interrupted\n":
            line += next(lines, b"")
        wanted = line + lines_of(frame).encode()
        if not rest.startswith(wanted):
            pairs = zip(rest.splitlines(), wanted.splitlines())
            ours, other = next((it for it in pairs if it[0] != it[1]), (rest[:200], wanted[:200]))
            yield f"--bytes: {frame.hex()[:200]}: {ours} instead of {other}"
            return
        rest = rest[len(wanted) :]
    if rest or next(lines, None):
        yield f"--bytes: {rest[:200]} is left"


def frames_of(name):
    """Returns the frames of a file of examples/captured."""
    with open(os.path.join(TOP, "examples", "captured", name), "rb") as file:
        return list(items(file.read(), 4))


def request_error(program):
    """Compares the lines of the request of docs/FORMAT.md with its bytes and its table there, which are written by hand.
    Returns what differs, or None."""
    with open(os.path.join(TOP, "docs", "FORMAT.md"), encoding="utf-8") as file:
        part = file.read().partition("\n## One request\n")[2].partition("\n## ")[0]
    data = bytes.fromhex("".join(re.findall(r"(?m)^ ?\d+((?:  ?[0-9a-f]{2})+)$", part)).replace(" ", ""))
    _status, output, _error = run([program, "--bytes"], data)
    lines = re.findall(r"(?m)^  (\d+)  ([0-9a-f ]+)(?:  (\S+): (.*))?$", output.decode())
    told = {int(at): (name, value) for at, _data, name, value in lines}
    table = re.findall(r"(?m)^\| (\d+) \| (?:length|message type|sequence number|port number): (\d+)", part)
    same = all(told.get(int(at), ("", ""))[1] == value for at, value in table) and len(table) == 4
    same = same and (told.get(32), told.get(44)) == (("IFLA_IFNAME", "veth-b"), ("IFLA_MTU", "1400"))
    joined = bytes.fromhex("".join(it[1] for it in lines))
    return None if same and joined == data and len(data) == 52 else f"the request of docs/FORMAT.md: {output.decode()}"
