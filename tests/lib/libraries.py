"""What the scripts that call the prover share: the crates, which crates each depends on, and how a library is built."""

import os
import subprocess

TOP = os.path.dirname(os.path.dirname(os.path.dirname(os.path.abspath(__file__))))


def folder_of(crate, top=TOP):
    return os.path.join(top, "crates", crate)


def dependencies():
    """Returns for each crate the crates that it depends on, according to crates.txt."""
    with open(os.path.join(TOP, "crates.txt")) as file:
        parts = [line.partition(":") for line in file]
    return {head.split()[0]: names.split() for head, colon, names in parts if colon}


def below(crate, names):
    """Returns all crates that a crate depends on, directly or not. Each follows its own dependencies."""
    found = []
    for name in names[crate]:
        found += [it for it in [*below(name, names), name] if it not in found]
    return found


def is_built(crate):
    """Proves and builds a static library, out/libNAME.a in the crate's folder, and shows the output. Returns whether it
    succeeds and prints that all is proved."""
    how = {"stdin": subprocess.DEVNULL, "stdout": subprocess.PIPE, "stderr": subprocess.STDOUT, "text": True}
    verdict = False
    with subprocess.Popen(["rt", "lib"], cwd=folder_of(crate), **how) as run:
        for line in run.stdout:
            print(line, end="", flush=True)
            verdict = verdict or line.startswith("logic=proved ")
    return run.returncode == 0 and verdict
