"""Finds the parts of a Rattle source file: code, comments, contracts, ghost items and attributes."""

import re

CODE, COMMENT, CONTRACT, GHOST, ATTRIBUTE = "code", "a comment", "a contract", "a ghost item", "an attribute"

TOKEN = re.compile(
    r"""(?P<comment> //[^\n]* | /\*.*?\*/)
    | (?P<literal> b?"(?:\\.|[^"\\])*" | \br\#*"[^"]*"\#* | b?'(?:\\[^\n']+|[^'\\\n])')
    | (?P<word> [^\W\d]\w*)
    | (?P<opens> [\[({]) | (?P<closes> [\])}])
    | (?P<attribute> \#!?\[)
    | (?P<other> \S)""",
    re.S | re.X,
)

# The words that begin a clause, such as `ensures* name { .. }`.
CLAUSES = {"requires", "ensures", "invariant", "also_owns"}
CLAUSE = re.compile(r"\*?\s*(?:[^\W\d]\w*\s*)?\{")


def parts(text):
    """Returns the parts of the text that are not code, in order: the start, the end and the kind of each."""
    found, at = [], 0
    while token := TOKEN.search(text, at):
        at = token.end()
        kind = kind_of(token, text)
        if kind != CODE:
            at = end_of(token, kind, text)
            found.append((token.start(), at, kind))
    return found


def kind_of(token, text):
    """Returns the kind of the part that begins with this token."""
    word = token["word"]
    if token["comment"]:
        return COMMENT
    if token["attribute"]:
        return CODE if text.startswith("derive(", token.end()) else ATTRIBUTE
    if word == "ghost":
        return GHOST
    if word == "prove" and text.startswith("!", token.end()):
        return CONTRACT
    return CONTRACT if word in CLAUSES and CLAUSE.match(text, token.end()) else CODE


def end_of(token, kind, text):
    """Returns where that part ends: a comment with its token, an attribute or a contract with its closing bracket, and
    a ghost item with the `;` or `,` after it."""
    if kind == COMMENT:
        return token.end()
    depth, at = int(kind == ATTRIBUTE), token.end()
    while inner := TOKEN.search(text, at):
        at = inner.end()
        depth += bool(inner["opens"]) + bool(inner["attribute"]) - bool(inner["closes"])
        is_end = inner["other"] in (";", ",") if kind == GHOST else bool(inner["closes"])
        if depth < 0 or (depth == 0 and is_end):
            return at - (depth < 0)
    return len(text)


def kind_between(text, start, end):
    """Returns the kind of the first part between these offsets that is not code, or CODE. White space has no kind."""
    for first, last, kind in parts(text):
        if first < end and start < last and text[max(first, start) : min(last, end)].strip():
            return kind
    return CODE
