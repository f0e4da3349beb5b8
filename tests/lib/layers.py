#!/usr/bin/env python3
"""Prints what docs/ shows of the crates: the picture of their layers, or the table of their sizes.

    tests/lib/layers.py picture > docs/crates.svg
    tests/lib/layers.py table

tests/steps/documents.py compares both with the documents, so neither is older than the code.
"""

import glob
import os
import re
import sys

from expected import Expected
from libraries import TOP, below, dependencies, folder_of

FUNCTION = re.compile(r"(?m)^ *(?:pub(?:\([^)]*\))? )?(?:extern \"C\" )?fn ")
# The size of a box of the picture, and the space between boxes, in pixels.
WIDTH, HEIGHT, GAP, ROW = 158, 40, 12, 84


def is_shown(crate):
    """Returns whether the picture shows a crate: it is neither for tests nor for measuring."""
    return not crate.endswith("_tests") and crate not in Expected(TOP).lines["measures"]


def texts_of(crate, part):
    """Yields the texts of the files of a part of a crate, without its tests."""
    folder = os.path.join(folder_of(crate), part)
    for path in sorted(glob.glob(os.path.join(glob.escape(folder), "**", "*.*"), recursive=True)):
        if not os.path.relpath(path, folder).startswith("tests"):
            with open(path, encoding="utf-8") as file:
                yield file.read()


def lines_in(crate):
    """Returns the number of lines of a crate's code, definitions and proofs."""
    return sum(text.count("\n") for part in ("src", "specs", "proofs") for text in texts_of(crate, part))


def functions_in(crate):
    return sum(len(FUNCTION.findall(text)) for text in texts_of(crate, "src"))


def table():
    """Returns the lines of the table of sizes."""
    expected = Expected(TOP)
    yield "| crate | lines | functions | edits | mistakes |"
    yield "|---|--:|--:|--:|--:|"
    for crate in filter(is_shown, dependencies()):
        edits, mistakes = expected.edits_of(crate), expected.mistakes_of(crate)
        yield f"| `{crate}` | {lines_in(crate):,} | {functions_in(crate)} | {edits} | {mistakes} |"


def layers():
    """Returns the crates by layer, the lowest first: a crate is one layer above the highest that it depends on."""
    names, layer = dependencies(), {}
    for crate in names:
        for it in [*below(crate, names), crate]:
            layer[it] = 1 + max((layer[low] for low in names[it]), default=-1)
    rows = [[] for _ in range(1 + max(layer.values()))]
    for crate in filter(is_shown, names):
        rows[layer[crate]].append(crate)
    return [row for row in rows if row]


def direct(crate, names):
    """Returns the crates that a crate depends on, without those that another one of them depends on."""
    return [it for it in names[crate] if not any(it in below(other, names) for other in names[crate])]


def picture():
    """Yields the lines of the picture, an SVG: a row of boxes for each layer, the programs at the top."""
    rows, names = layers()[::-1], dependencies()
    # Each second row is moved by half a box, so that a line over a row between two others passes its boxes.
    shift = (WIDTH + GAP) // 4
    width = max(len(row) for row in rows) * (WIDTH + GAP) + GAP + 2 * shift
    places = {}
    for y, row in enumerate(rows):
        left = (width - len(row) * (WIDTH + GAP) + GAP) // 2 + (shift if y % 2 else -shift)
        places |= {crate: (left + x * (WIDTH + GAP), GAP + y * ROW) for x, crate in enumerate(row)}
    height = len(rows) * ROW - (ROW - HEIGHT) + 2 * GAP
    yield f'<svg xmlns="http://www.w3.org/2000/svg" viewBox="0 0 {width} {height}" font-family="sans-serif">'
    yield f'<rect width="{width}" height="{height}" fill="white"/>'
    for crate, (x, y) in places.items():
        for low in filter(is_shown, direct(crate, names)):
            to, under = places[low]
            ends = f'x1="{x + WIDTH // 2}" y1="{y + HEIGHT}" x2="{to + WIDTH // 2}" y2="{under}"'
            yield f'<line {ends} stroke="#999"/>'
    for crate, (x, y) in places.items():
        middle = x + WIDTH // 2
        yield f'<rect x="{x}" y="{y}" width="{WIDTH}" height="{HEIGHT}" rx="5" fill="#eef3fa" stroke="#357"/>'
        yield f'<text x="{middle}" y="{y + 17}" font-size="13" text-anchor="middle">{crate}</text>'
        size = f"{lines_in(crate):,} lines, {functions_in(crate)} functions"
        yield f'<text x="{middle}" y="{y + 32}" font-size="10" text-anchor="middle" fill="#555">{size}</text>'
    yield "</svg>"


if __name__ == "__main__":
    if sys.argv[1:] not in (["picture"], ["table"]):
        sys.exit("usage: tests/lib/layers.py picture|table")
    print("\n".join(picture() if sys.argv[1] == "picture" else table()))
