"""Compares the lines of the built program `netlink_show` with those of `ip`, for the frames of examples/captured/ip.

README.md of that folder states how the frames and the lines were made. tests/steps/show.py calls `ip_errors`.
"""

import os
import re
import sys

from built import TOP, run

FOLDER = os.path.join(TOP, "examples", "captured", "ip")
sys.path.append(FOLDER)

from compare import label_of  # noqa: E402 (it is in that folder)

LINKS, ADDRESSES = (16, 17), (20, 21)
IFLA_IFNAME, IFLA_LINKINFO, IFLA_INFO_KIND = 3, 18, 1
AF_BRIDGE = 7


def lines_in(name, folder=FOLDER):
    """Returns the lines of a file. Each byte is a character, since names of links are any bytes."""
    with open(os.path.join(folder, name), "rb") as file:
        return file.read().decode("latin-1").split("\n")[:-1]


def number(data):
    return int.from_bytes(data, "little")


def items(data, size):
    """Yields the items of a walk. Each begins with a length field of `size` bytes and is padded to a multiple of 4."""
    at = 0
    while at < len(data):
        length = number(data[at : at + size])
        yield data[at : at + length]
        at += (length + 3) & ~3


def joined(frames):
    return b"".join(it + bytes(-len(it) % 4) for it in frames)


def first(block, kind):
    """Returns the value of the first attribute of a kind, or nothing."""
    return next((it[4:] for it in items(block, 2) if number(it[2:4]) & 0x3FFF == kind), b"")


def escaped(text):
    """Returns a text in which each byte that is not printing ASCII, and each backslash, is `\\x` and two digits."""
    return re.sub(r"[^ -~]|\\", lambda it: f"\\x{ord(it[0]):02x}", text)


def with_kind(frame, theirs):
    """Returns a line of `ip` for a frame as the program prints it. Bytes of names and labels that are not printing
    ASCII are escaped, and the kind of a link, which `ip` prints only with `-d`, ends the line."""
    if number(frame[4:6]) in ADDRESSES:
        return escaped(theirs)
    if number(frame[4:6]) not in LINKS:
        return theirs
    kind = first(first(frame[32:], IFLA_LINKINFO), IFLA_INFO_KIND).split(b"\0")[0].decode("ascii")
    return escaped(theirs) + (f" kind {kind}" if kind else "")


def differences(folder=FOLDER):
    """Returns the words of `ip` and of the program in each line that may differ, by the number of the line."""
    found = {}
    for line in lines_in("differences.tsv", folder):
        place, theirs, ours, _reason = line.split("\t")
        found[int(place)] = theirs, ours
    return found


def wanted_line(theirs, difference):
    """Returns the line that the program must print. Returns None if `ip` does not print the listed words once."""
    if not difference:
        return theirs
    words, (of_ip, own) = f" {theirs} ", difference
    return words.replace(f" {of_ip} ", f" {own} ")[1:-1] if words.count(f" {of_ip} ") == 1 else None


def line_error(place, theirs, ours, difference):
    """Returns what is wrong with the program's line for a frame, or None."""
    if difference and ours == theirs:
        return f"line {place} of ip: is equal, but listed in differences.tsv"
    wanted = wanted_line(theirs, difference)
    return None if ours == wanted else f"line {place} of ip: {ours!r}, not {wanted!r}; ip prints {theirs!r}"


def kept_names(frames):
    """Yields for each message the names that the program knows and `ip` has forgotten, by the words of `ip` for them, and
    those whose words are the name of no link. To `ip`, a port that leaves its bridge is gone; the program keeps its
    name."""
    ours, its = {}, {}
    for frame in frames:
        kind, index = number(frame[4:6]), number(frame[20:24])
        if kind == LINKS[0]:
            name = first(frame[32:], IFLA_IFNAME).split(b"\0")[0].decode("latin-1")
            if 0 < len(name) < 16:
                ours[index] = its[index] = name
        elif kind == LINKS[1]:
            its.pop(index, None)
            if frame[16] != AF_BRIDGE:
                ours.pop(index, None)
        names = {f"if{it}": name for it, name in ours.items() if it not in its}
        yield names, {it: name for it, name in names.items() if it not in ours.values()}


def with_kept(line, kept):
    """Returns a line of `ip` with the names that it has forgotten: of the link itself, of a lower link in the same
    namespace, and of another link, unless there is a link with such a name as `if9`."""
    names, others = ({it: escaped(name) for it, name in found.items()} for found in kept)
    line = re.sub(r"^((?:Deleted )?(\d+): )(if\2)\b", lambda it: it[1] + names.get(it[3], it[3]), line)
    if " link-netnsid " not in line:
        line = re.sub(r"@(if\d+):", lambda it: f"@{others.get(it[1], it[1])}:", line)
    return re.sub(r"\b(dev|master) (if\d+)\b", lambda it: f"{it[1]} {others.get(it[2], it[2])}", line)


def label_errors(program, data, frames, lines):
    """Passes all frames to the program with `--label`. Returns what is wrong: each line must have the label of `ip`
    before it, and nothing else may change."""
    wanted = "".join(f"{label_of(frame)}{line}\n" for frame, line in zip(frames, lines)).encode("latin-1")
    result = run([program, "--label"], data)
    return [] if result == (0, wanted, b"") else ["the frames of ip: the lines with labels are others"]


def ip_errors(program):
    """Passes all frames to the program, without and with labels. Returns what is wrong, and the number of lines."""
    listed = differences()
    with open(os.path.join(FOLDER, "frames.bin"), "rb") as file:
        data = file.read()
    lines, frames = lines_in("lines.txt"), list(items(data, 4))
    status, output, error = run([program], data)
    ours = output.decode("latin-1").split("\n")
    if (status, error, len(ours), ours[-1], len(frames)) != (0, b"", len(lines) + 1, "", len(lines)):
        what = f"status {status}, error {error}, {len(ours) - 1} lines instead of {len(lines)} for {len(frames)} frames"
        return [f"the frames of ip: {what}"], 2 * len(lines)
    theirs = [with_kept(with_kind(*it), names) for *it, names in zip(frames, lines, kept_names(frames))]
    errors = [f"differences.tsv lists line {it}, which does not exist" for it in listed if not 0 < it <= len(theirs)]
    for place, (line, own) in enumerate(zip(theirs, ours), 1):
        errors.append(line_error(place, line, own, listed.get(place)))
    errors += label_errors(program, data, frames, ours)
    return [it for it in errors if it], 2 * len(theirs)
