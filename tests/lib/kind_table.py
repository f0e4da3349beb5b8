"""The kinds of attributes of netlink_route, by tests/kinds.txt, and values as text."""

import os

from built import TOP

TABLE = os.path.join(TOP, "tests", "kinds.txt")

INTEGERS = {"u8": 1, "u16": 2, "u32": 4, "u64": 8, "s32": 4, "s64": 8, "be16": 2, "be32": 4, "be64": 8}


def families():
    """Returns the first message type, the size of the header, the fields and the kinds of each family, and the same for
    each line `also` of a family. A kind is a list: its number, or `*` for any, its name, its form, the number after that,
    and the kinds in it. The number of an encapsulation follows a `&`, so that it is no kind. Of a kind `headed`, the number
    is a pair: the size of the header and the policy."""
    found = []
    with open(TABLE, encoding="utf-8") as file:
        for line in file:
            words = line.partition("#")[0].split()
            if words[:1] == ["family"]:
                fields = [(name, int(at), form) for name, at, form in (it.split(":") for it in words[3:])]
                found.append((int(words[1]), int(words[2]), fields, []))
            elif words[:1] == ["also"]:
                found.append((int(words[1]), *found[-1][1:]))
            elif words:
                kinds = found[-1][3]
                for _level in range((len(line) - len(line.lstrip(" "))) // 2):
                    kinds = kinds[-1][4]
                if words[0] == "=":
                    words = [*words[:2], "link", words[2]]
                if words[0] == "&":
                    words = [f"&{words[2]}", words[1], "encapsulation", words[3]]
                number = (words + ["0"])[3]
                number = tuple(map(int, number.split(":"))) if words[2] == "headed" else int(number)
                kinds.append([words[0], words[1], words[2], number, []])
    return found


def text_of(form, value):
    """Returns a value as text."""
    if form in INTEGERS:
        order = "big" if form.startswith("be") else "little"
        return str(int.from_bytes(value, order, signed=form.startswith("s")))
    if form == "string":
        return value.removesuffix(b"\0").decode()
    if form == "flag":
        return "set"
    return value.hex() or "-"
