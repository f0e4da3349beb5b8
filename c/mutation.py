"""Makes mutants: copies of a header or of a source of the Rust wrapper with one small mistake."""

import os
import re
from collections import namedtuple

from kit import HERE, TOP

HEADER, SOCKET, ROUTE, WRITE = (f"c/include/netlink_packet{it}.h" for it in ("", "_socket", "_route", "_route_write"))
LIST = os.path.join(HERE, "mutants.txt")

# A file, its text with the mistake, and a line that shows the mistake.
Mutant = namedtuple("Mutant", "file text shown")

# Functions of the library that have the same type. Each is replaced by the next.
ALIKE = [
    ["nlp_frame_end", "nlp_nest_end"],
    ["nlp_ext_ack_text", "nlp_ext_ack_cookie", "nlp_ext_ack_policy"],
    ["nlp_ext_ack_offset", "nlp_ext_ack_missing_type", "nlp_ext_ack_missing_nest"],
    ["nlp_attrs_normalize", "nlp_frame_normalize"],
    *([f"nlp_attr_put_u{width}", f"nlp_attr_put_be{width}"] for width in (16, 32, 64)),
    ["Refusal::NoRoom", "Refusal::TooLong", "Refusal::NoPlace"],
    ["Fault::Refused", "Fault::TooLong", "Fault::OutOfMemory"],
    ["Fault::FrameShort", "Fault::DoneShort", "Fault::ErrorShort"],
    ["Reply::Message", "Reply::Other"],
    ["from_ne_bytes", "from_be_bytes"],
    ["true", "false"],
    ["OK", "NO_ROOM"],
]
# What replaces a part of a line of Rust or C.
PARTS = [
    (re.compile(r"(?<![\w.\"'])(0x[0-9a-f]+|\d+)(?=[^\w.\"']|\.\.|u\b|$)"), lambda it: f"{int(it, 0) + 1}"),
    *((re.compile(rf"(?<!\w){name}\b"), lambda it, to=(names * 2)[at + 1]: to) for names in ALIKE for at, name in enumerate(names)),
    (re.compile(r"=="), lambda it: "!="),
    (re.compile(r"!="), lambda it: "=="),
    (re.compile(r"!(?=[a-z])"), lambda it: ""),
    (re.compile(r" \+ "), lambda it: " - "),
    (re.compile(r" - "), lambda it: " + "),
    (re.compile(r" & "), lambda it: " | "),
    (re.compile(r" \| "), lambda it: " & "),
    (re.compile(r" << "), lambda it: " >> "),
    (re.compile(r"\bif (?!let\b|!)"), lambda it: "if !"),
    (re.compile(r"\((?:u?int\d+_t)\)"), lambda it: ""),
    (re.compile(r'"(?=[^"]+")'), lambda it: '"~'),
    (re.compile(r"(?<=\b(?:part|item)\.)(?:offset|size)\b"), lambda it: "size" if it == "offset" else "offset"),
    (re.compile(r"(?<=\bitem\.)(?:request|attributes|frame)\b"), lambda it: "frame" if it == "request" else "request"),
    (re.compile(r"(?<=\bbody\.)(?:request|attributes)\b"), lambda it: "request" if it == "attributes" else "attributes"),
    (re.compile(r"(?<=\w: )(?:self|fields|item|body|why|header)\.[\w.]+(?:\(\))?"), lambda it: "Default::default()"),
]
# The first value of a variable that only the library writes. It stays, because no test can see another one.
WRITTEN = re.compile(r" +let mut \w+ = 0;")
# A statement that is left out. A line of an example in the documentation is none.
STATEMENT = re.compile(r"^ +(?=\S)(?!//|let |return |use |type |const |pub |mod |break|#)[^\n{}]*;$")
FUNCTION = re.compile(r"^ *(?:pub(?:\(crate\))? )?fn \w+.*?(?:-> (.*))? \{$")
# What a function returns instead, by its type.
RESULTS = {
    "bool": ["true", "false"],
    "usize": ["0", "1"],
    "u16": ["0", "1"],
    "u32": ["0", "8"],
    "Vec<u16>": ["Vec::new()"],
    "Result<(), Refusal>": ["Ok(())", "Err(Refusal::NoRoom)"],
    "Result<(), Fault>": ["Ok(())"],
    "Result<bool, Fault>": ["Ok(true)", "Ok(false)"],
    "Result<Vec<u8>, Fault>": ["Ok(Vec::new())", "Ok(bytes.to_vec())"],
    "fmt::Result": ["Ok(())"],
    None: [""],
}
# The end of what replaces two lines.
TWO = "\n\n"
FIELD_TYPES = {"uint32_t": "uint16_t", "uint16_t": "uint32_t", "size_t": "uint32_t", "int32_t": "uint32_t", "const uint8_t": "uint8_t"}


def results_of(kind):
    """Returns the values that a function of this type returns instead of its own."""
    if kind in RESULTS or kind is None:
        return RESULTS[kind]
    if re.fullmatch(r"Option<.*>", kind):
        return ["None"]
    if re.fullmatch(r"Result<Option<.*", kind):
        return ["Ok(None)"]
    if re.fullmatch(r"Result<[ui]\d+, Fault>", kind):
        return ["Ok(0)", "Ok(1)"]
    return ["&[]"] if re.fullmatch(r"&('\w+ )?\[u8\]", kind) else []


def changed_parts(line):
    """Yields the line with each part replaced. Comments stay, and so do the arguments that the compiler checks for NULL:
    they only add warnings."""
    code = re.split(r"//|/\*|NLP_(?:CHECKED|NONNULL)\(", line)[0]
    for pattern, change in PARTS:
        for found in pattern.finditer(code):
            yield line[: found.start()] + change(found[0]) + line[found.end() :]


def exchanged(lines, at):
    """Yields the line at `at` and the field of a struct after it, exchanged, if both are fields."""
    first, second = lines[at : at + 2] if at + 1 < len(lines) else ("", "")
    if first.startswith("    pub ") and second.startswith("    pub ") and first[-1] == second[-1] == ",":
        yield at, f"{second}\n{first}{TWO}"


def rust_lines(lines):
    """Yields for each mutant of a Rust source the line that it changes, and what it has instead."""
    for at, line in enumerate(lines):
        words = line.strip()
        yield from exchanged(lines, at)
        if WRITTEN.fullmatch(line) or words.startswith(("//", "#", "use ", "mod ", "pub use ", "impl", "fn ", "pub fn ")):
            pass
        else:
            yield from ((at, it) for it in changed_parts(line))
        if STATEMENT.match(line) and words.count("(") == words.count(")"):
            yield at, ""
        if found := FUNCTION.match(line):
            yield from ((at, f"{line} return {it};") for it in results_of(found[1]))


def header_lines(lines):
    """Yields the same for a header: other values, other types of fields and functions, fields that are exchanged, and
    statements that are left out. An #error stays: where these tests run, it is not compiled."""
    in_comment, in_struct = False, False
    for at, line in enumerate(lines):
        in_comment = in_comment or line.startswith("/*")
        if not in_comment and not line.startswith(("#if", "#error", "#endif", "#include", "extern", '}')):
            yield from ((at, it) for it in changed_parts(line))
            code = line.partition("/*")[0]
            for old, new in FIELD_TYPES.items():
                for found in re.finditer(rf"(?<![\w(]){old}\b(?!\))", code):
                    yield at, line[: found.start()] + new + line[found.end() :]
        in_struct = line.startswith("struct ") and line.endswith("{") or in_struct and line != "};"
        if not in_comment and not in_struct and STATEMENT.match(line) and line.count("(") == line.count(")"):
            yield at, ""
        if in_struct and lines[at + 1].startswith("    ") and line.startswith("    "):
            yield at, f"{lines[at + 1]}\n{line}{TWO}"
        in_comment = in_comment and "*/" not in line


def mutants_of(file):
    """Returns the mutants of a file."""
    with open(os.path.join(TOP, file), encoding="utf-8") as source:
        text = source.read()
    lines, made = text.split("\n"), {}
    for at, new in header_lines(lines) if file in (HEADER, SOCKET, ROUTE, WRITE) else rust_lines(lines):
        after = lines[at + 2 :] if new.endswith(TWO) else lines[at + 1 :]
        mutated = "\n".join([*lines[:at], new.removesuffix(TWO), *after])
        shown = f"{file}:{at + 1}: {lines[at].strip()} ==> {' '.join(new.split()) or 'nothing'}"
        if mutated != text:
            made.setdefault(mutated, Mutant(file, mutated, shown))
    return [*made.values()]


def listed():
    """Returns the mutants of mutants.txt, each with the reason why no test can reject it, or "" if one must."""
    found, file, old = [], "", ""
    with open(LIST, encoding="utf-8") as lines:
        for line in lines.read().split("\n"):
            word, _, text = line.partition(":")
            text = text.removeprefix(" ")
            if word == "file":
                file = text
            elif word == "old":
                old = text
            elif word == "new":
                with open(os.path.join(TOP, file), encoding="utf-8") as source:
                    before = source.read()
                if before.count(old) != 1:
                    raise SystemExit(f"mutants.txt: `{old}` must occur exactly once in {file}, but occurs {before.count(old)} times")
                found.append([Mutant(file, before.replace(old, text), f"{file}: {old} ==> {text}"), ""])
            elif word == "reason":
                found[-1][1] = text
    return found
