"""Reads the objects of `netlink_show --json`, and compares them with those of `ip -j` and with the lines of text.

README.md of examples/captured/json states how the messages and the objects of `ip` were made. tests/steps/show.py calls
`object_errors`, `replayed_errors`, `text_errors` and `packet_errors`, and runs the program on `json_cases`.
"""

import json
import os
import re

from built import TOP, run
from byte_lines import frames_of
from ip_lines import joined, kept_names, number
from json_listed import LISTED_MEMBERS, LISTED_REPLAYED

NEWLINK, TIME = 16, 15

# The names of types: enum of linux/rtnetlink.h and NLMSG_* of linux/netlink.h.
TABLES = {16: "LINK", 20: "ADDR", 24: "ROUTE", 28: "NEIGH", 32: "RULE", 52: "PREFIX", 64: "NEIGHTBL", 80: "NETCONF"}
TABLES |= {88: "NSID", 104: "NEXTHOP", 116: "NEXTHOPBUCKET"}
TABLES |= {36: "QDISC", 40: "TCLASS", 44: "TFILTER", 48: "ACTION", 100: "CHAIN"}
TABLES |= {84: "MDB", 92: "STATS", 112: "VLAN", 120: "TUNNEL"}
TYPES = {base + at: f"RTM_{word}{name}" for base, name in TABLES.items() for at, word in enumerate(("NEW", "DEL", "GET"))}
TYPES |= {19: "RTM_SETLINK", 67: "RTM_SETNEIGHTBL", 95: "RTM_SETSTATS"}
TYPES |= {1: "NLMSG_NOOP", 2: "NLMSG_ERROR", 3: "NLMSG_DONE", 4: "NLMSG_OVERRUN"}
for unused in (53, 54, 65, 93):
    del TYPES[unused]

NUMBERS = {"nlmsg_flags": (6, 8), "nlmsg_seq": (8, 12), "nlmsg_pid": (12, 16)}

# What a pcap or pcapng file starts with, in either byte order.
MAGICS = {it.to_bytes(4, order) for it in (0xA1B2C3D4, 0xA1B23C4D, 0x0A0D0D0A) for order in ("little", "big")}


def strict_members(pairs):
    """Returns the members of an object, which have different keys."""
    if len({key for key, _ in pairs}) < len(pairs):
        raise ValueError(f"a key twice: {pairs}")
    return dict(pairs)


def no_constant(word):
    raise ValueError(f"{word} is no JSON")


def object_in(line):
    """Returns the object in a line, which is UTF-8 and strict JSON without a space between its words."""
    text = line.decode()
    found = json.loads(text, object_pairs_hook=strict_members, parse_constant=no_constant)
    if not isinstance(found, dict) or re.search(r"\s", re.sub(r'"([^"\\]|\\.)*"', "", text)):
        raise ValueError(f"no compact object: {text}")
    json.dumps(found, ensure_ascii=False).encode()  # no half of a surrogate pair
    return found


def read_object(line):
    """Returns the object in a line, or one with the reason why there is none."""
    try:
        return object_in(line)
    except ValueError as why:
        return {"no object": f"{why}: {line}"}


def raw_of(value):
    """Returns the bytes of a string that is not UTF-8 in hexadecimal, or of each such string in an array, or nothing. A
    string has a character for each byte."""
    if isinstance(value, list):
        return [it for it in map(raw_of, value) if isinstance(it, str)]
    if isinstance(value, str):
        try:
            value.encode("latin-1").decode()
        except UnicodeDecodeError:
            return value.encode("latin-1").hex()
    return None


def with_raw(value):
    """Returns a value of JSON as `netlink_show --json` writes it: strings of UTF-8 are decoded, and the bytes of any other
    are in the last member `raw` of their object. Before, a string has a character for each byte."""
    if isinstance(value, list):
        return [with_raw(it) for it in value]
    if isinstance(value, str):
        return value if raw_of(value) else value.encode("latin-1").decode()
    if not isinstance(value, dict):
        return value
    raw = {key: raw_of(it) for key, it in value.items() if raw_of(it)}
    return {key: with_raw(it) for key, it in value.items()} | ({"raw": raw} if raw else {})


def reason_for(own, theirs, listed):
    """Returns the listed reasons for which what the program and `ip` print differs, or nothing."""
    reasons = []
    for reason, of_ip, of_own in listed:
        if not is_equal([of_ip(theirs), of_own(own)], [theirs, own]):
            theirs, own = of_ip(theirs), of_own(own)
            reasons.append(reason)
    return ", ".join(reasons) if is_equal(own, theirs) else ""


def is_equal(own, theirs):
    """Returns whether two values are equal, with the members of objects in one order."""
    return json.dumps(own) == json.dumps(theirs)


def kind_of(frame):
    return number(frame[4:6])


def numbers_of(frame):
    return {key: number(frame[at:end]) for key, (at, end) in NUMBERS.items()}


def own_objects(program, links, frames):
    """Returns the objects of the program for messages that follow those of links."""
    _, output, error = run([program, "--json"], joined([*links, *frames]))
    return [read_object(it) for it in (output + error).split(b"\n")[len(links) : -1]]


def wanted_object(frame, theirs):
    """Returns the object of `ip` for a message with the members that the program puts before it."""
    return {"message": TYPES[kind_of(frame)], **numbers_of(frame), **theirs}


def with_names(members, kept):
    """Returns an object of `ip` with the names of links that it has forgotten, as `with_kept` returns a line."""
    if members is None:
        return None
    names, others = kept
    keys = ("dev", "master") if "link_netnsid" in members else ("dev", "link", "master")
    found = {key: others.get(it, it) if key in keys else it for key, it in members.items()}
    is_own = "index" in members and members.get("dev") == f"if{members['index']}"
    return {**found, "dev": names.get(members["dev"], members["dev"])} if is_own else found


def objects_in(folder):
    """Returns the rows of objects.jsonl in a folder of examples/captured."""
    with open(os.path.join(TOP, "examples", "captured", folder, "objects.jsonl"), encoding="utf-8") as file:
        return [json.loads(line) for line in file]


def differences(what, ours, frames, theirs, listed):
    """Yields how objects of the program differ from those of `ip`, apart from what is listed. `ip` may have none."""
    if len({len(ours), len(frames), len(theirs)}) > 1:
        yield f"objects of {what}: {len(ours)} of the program and {len(theirs)} of ip for {len(frames)} messages"
    for place, (own, frame, it) in enumerate(zip(ours, frames, theirs), 1):
        wanted = it and wanted_object(frame, it)
        if it and not is_equal(own, wanted) and not reason_for(own, wanted, listed):
            yield f"objects of {what}, message {place}: {json.dumps(own)}, not {json.dumps(wanted)}"


def object_errors(program):
    """Compares objects of the recorded dumps with those of `ip`. Returns what is wrong, and the number of objects."""
    pairs, errors = list(zip(frames_of("json/frames.bin"), objects_in("json"), strict=True)), []
    for script in dict.fromkeys(it["of"] for _, it in pairs):
        frames = [frame for frame, it in pairs if it["of"] == script]
        links = [it for it in frames if kind_of(it) == NEWLINK]
        theirs = [it["object"] for _, it in pairs if it["of"] == script]
        errors += differences(script, own_objects(program, links, frames), frames, theirs, LISTED_MEMBERS)
    return errors, len(pairs)


def replayed_errors(program):
    """Compares objects for frames of two other folders with those that `ip` printed for the same frames (replay.py).
    Returns what is wrong, and the number of objects."""
    errors, count = [], 0
    for folder, name in (("ip", "frames.bin"), ("monitor", "stream.bin")):
        frames = frames_of(f"{folder}/{name}")
        theirs = [with_names(*it) for it in zip(objects_in(folder), kept_names(frames), strict=True)]
        errors += differences(folder, own_objects(program, [], frames), frames, theirs, LISTED_REPLAYED)
        count += len(theirs) - theirs.count(None)
    return errors, count


# The start of a line of text: a time and a label, as the options add them.
STAMP, LABEL = re.compile(r"\[(\d+)\.(\d{6,})\] "), re.compile(r"\[[A-Z]+\]")
# What the error of a message begins with, unlike that of a packet.
MALFORMED = re.compile(r"Failed to parse message with type |failed parsing NLMSG_ERROR |failed to parse NLMSG_DONE ")
SAID = re.compile(r"(ack|error|done)(?: (-\d+))?(?: \(([^)]*)\))?(?:[:;] (.*))?")
CONTROLS = {"ack": TYPES[2], "error": TYPES[2], "done": TYPES[3], "noop": TYPES[1], "overrun": TYPES[4]}


def is_unshown(frame):
    """Returns whether a message is a route of a family without lines, which has an object if it has no error."""
    return kind_of(frame) in (24, 25) and frame[16] not in (2, 10, 28, 128, 129)


def wanted_members(line, name, numbers, has_object):
    """Returns the members that an object begins with, by its line of text, and whether others follow. `name` is that of
    the type, and `numbers` are those of the header. `has_object` is whether the message has more than its line says."""
    if found := re.fullmatch(r"byte (\d+): (.*)", line):
        return {"byte": int(found[1]), "error": found[2], **(numbers if MALFORMED.match(found[2]) else {})}, False
    found = re.fullmatch(r"type (\d+), (\d+) bytes", line)
    if found and not has_object:
        return {"type": int(found[1]), "bytes": int(found[2]), **numbers}, False
    if found := re.fullmatch(r"netlink family (\d+), (\d+) bytes", line):
        return {"netlink_family": int(found[1]), "bytes": int(found[2])}, False
    if line in ("noop", "overrun"):
        return {"message": CONTROLS[line], **numbers}, False
    if found := SAID.fullmatch(line):
        word, code, error, said = found.groups()
        rest = {"strerror": error, "text": said}
        members = {"message": CONTROLS[word], **numbers, "code": int(code or 0)}
        return members | {key: it for key, it in rest.items() if it}, False
    return {"message": name, **numbers, **({"request": True} if line.startswith("request ") else {})}, True


def line_errors(text, output, frames=None):
    """Yields how objects differ from the lines of text for the same messages. `frames` are the messages, if known."""
    before, objects = {}, iter(output.split(b"\n")[:-1])
    frames = None if frames is None else iter([it for it in frames if not is_time(it)])
    for line in text.decode().split("\n")[:-1]:
        if found := STAMP.match(line):
            before, line = {"sec": int(found[1]), "usec": int(found[2])}, line[found.end() :]
        line = LABEL.sub("", line, count=1) if LABEL.match(line) else line
        if line == "interrupted":
            before["interrupted"] = True
            continue
        own = read_object(next(objects, b"(no line)"))
        frame = frames and next(frames, None)
        name = TYPES.get(kind_of(frame)) if frame else own.get("message")
        numbers = numbers_of(frame) if frame else {key: own.get(key) for key in NUMBERS}
        members, has_more = wanted_members(line, name, numbers, bool(frame and is_unshown(frame) and "message" in own))
        members, before = {**before, **members}, {}
        found = dict(list(own.items())[: len(members)]) if has_more else own
        is_good = not has_more or name in TYPES.values()
        if not is_good or not is_equal(found, members) or not all(isinstance(members.get(it, 0), int) for it in NUMBERS):
            yield f"{line}: {json.dumps(own)}, not {json.dumps(members)}"
    if rest := list(objects):
        yield f"objects without a line: {rest[:3]}"


def is_time(frame):
    return kind_of(frame) == TIME and len(frame) == 24


def text_errors(program, what, data, frames=None):
    """Runs the program on messages or a file, without and with `--json`. Yields how the objects differ from the lines."""
    lines, objects = (run([program, *words], data) for words in ([], ["--json"]))
    if lines[::2] != objects[::2]:
        yield f"objects of {what}: {objects[::2]}, not {lines[::2]}"
    yield from (f"objects of {what}: {it}" for it in line_errors(lines[1], objects[1], frames))


def packet_errors(program):
    """Does so for two captured files. Returns what is wrong, and the number of files."""
    errors, names = [], ("packets.pcap", "packets.pcapng")
    for name in names:
        with open(os.path.join(TOP, "examples", "captured", "pcapng", name), "rb") as file:
            errors += text_errors(program, name, file.read())
    return errors, len(names)


def walked(data):
    """Returns the messages at the start of a stream, or None for a pcap or pcapng file."""
    if data[:4] in MAGICS:
        return None
    found, at = [], 0
    while 16 <= number(data[at : at + 4]) <= len(data) - at:
        found.append(data[at : at + number(data[at : at + 4])])
        at += (number(data[at : at + 4]) + 3) & ~3
    return found


def json_cases(rows):
    """Returns the inputs of rows whose options are none, `--time` and `--label`, with their results, and the options for
    the objects of these."""
    found = {}
    for name, words, wanted, stdin, how in rows:
        if set(words) <= {"--time", "--label"} and isinstance(stdin, bytes) and not how and wanted[0] != 2:
            options = ["--json", "--time"] if "--time" in words else ["--json"]
            found[" ".join(options), stdin] = name, options, wanted, stdin
    return list(found.values())


def case_error(program, case):
    """Runs the program on an input of `json_cases`. Returns how its objects differ from the lines, or None."""
    name, options, (status, text, error), stdin = case
    result = run([program, *options], stdin)
    if result[::2] != (status, error):
        return f"{name} {options}: returned {result}, not {status} and {error}"
    why = next(line_errors(text, result[1], walked(stdin)), None)
    return why and f"{name} {options}: {why}"
