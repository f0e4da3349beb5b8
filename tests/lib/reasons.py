"""Reads why the prover rejected an edit, in the lines of `rt check` and `rt ci`."""

import re

# A goal of an `ensures` for which no proof file has an answer, and where in the code it arises.
OPEN_GOAL = re.compile(r"(?m)^note: (src/\S+?):(\d+):\d+: it is not proved that what the function ensures holds")
# A goal that its answer in a proof file does not prove: the function's folder in proofs/, the goal, and the reason.
WRONG_ANSWER = re.compile(r"(?m)^(?:\./)?proofs/(\S+)/Answers\.antt:\d+:\d+: error: `([^`]+)`: (.*)$")
# The name of a goal of an `ensures`. If functions call one another, it begins with the function's name.
ENSURES = re.compile(r"(?:(\w+)-)?returns(?:-.*)?")
# If an answer fails because the edit removed a name, that shows little about the contract.
NAME_GONE = re.compile(r"has no field|is not in scope|has no `|was not admitted|is no name|names nothing")

# What `rt ci` prints for an edit: its crate, its name, and the first reason for which the prover rejected it.
REFUSED = re.compile(r"rt: must-fail (\w+)/(\w+)\.edit: refused, as it must be: (.*)")


def open_goals(output):
    """Yields the file and the line of each goal of an `ensures` that has no answer and is not proved."""
    for it in OPEN_GOAL.finditer(output):
        yield it[1], int(it[2])


def wrong_answers(output):
    """Yields the path in its crate of each function for which an answer to a goal of an `ensures` fails."""
    for it in WRONG_ANSWER.finditer(output):
        goal, path = ENSURES.fullmatch(it[2]), re.sub(r"(^|::)\+", r"\1", it[1].replace("/", "::"))
        if goal and not NAME_GONE.search(re.sub(r"`[^`]*`", "`", it[3])):
            yield "::".join([*path.split("::")[:-1], goal[1]]) if goal[1] else path


def is_of_ensures(reason):
    """Returns whether a reason is a goal of an `ensures` that is not proved."""
    return any(open_goals(reason)) or any(wrong_answers(reason))
