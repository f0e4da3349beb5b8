#!/usr/bin/env python3
"""Records dumps of the kernel, and what `ip -j` of iproute2 6.1 prints for the same, in namespaces that this script makes.

    ./record.py          (as root; needs iproute2 and unshare)

README.md describes the files. The script prints the commands that fail here, and the number of messages of each type.
"""

import json
import os
import subprocess
import sys
from collections import Counter

HERE = os.path.dirname(os.path.abspath(__file__))
sys.path.insert(0, os.path.join(HERE, "..", "..", "..", "tests", "lib"))

from ip_lines import joined, number  # noqa: E402 (it is in that folder)
from json_lines import TYPES  # noqa: E402
from kernel import DUMPS, SCRIPTS, paired, prepare  # noqa: E402


def record(script):
    """Fills new namespaces, and appends their messages and objects to the files."""
    prepare(script)
    with open(os.path.join(HERE, "frames.bin"), "ab") as frames, open(os.path.join(HERE, "objects.jsonl"), "a") as objects:
        for words, kind, body in DUMPS:
            found, printed = paired(words, kind, body)
            if len(found) != len(printed):
                sys.exit(f"ip {words}: {len(printed)} objects for {len(found)} messages")
            frames.write(joined(found))
            for frame, it in zip(found, printed):
                row = {"of": script, "message": TYPES[number(frame[4:6])], "object": it}
                objects.write(json.dumps(row, separators=(",", ":"), ensure_ascii=False) + "\n")
            print(script, words, dict(Counter(number(it[4:6]) for it in found)))


def main():
    if sys.argv[1:]:
        record(sys.argv[1])
        return
    for name in ("frames.bin", "objects.jsonl"):
        with open(os.path.join(HERE, name), "wb"):
            pass
    for script in SCRIPTS:
        subprocess.run(["unshare", "-nm", sys.executable, os.path.abspath(__file__), script], check=True)


main()
