"""Runs a program of this repository: ./netlink_frame and ./netlink_show call `main`.

The program gets the arguments, standard input and standard output unchanged, and its exit status is the script's.
Before that, the script proves and builds the program and the crates below it, if they changed, and prints on standard
error which crate it proves. `--quick` or `--verbose` as the first argument changes this. The program does not get that
word:

--verbose  also shows what the toolchain prints for each crate, when its proof ends. Without it, only the output of a
           failed proof is shown.
--quick    runs the program without proofs, by `rt try`. The input is at most 64 MiB, ends when nothing arrives for
           two seconds, and cannot be a terminal. The output is at most 1 MiB. The program has 60 seconds and no
           environment.

Status 3: there is no result, because the toolchain is missing or is another one, a crate is not proved, or `rt try`
did not run the program to its end. Standard output is then empty.
"""

import hashlib
import os
import re
import signal
import subprocess
import sys
import tempfile
import time

from libraries import below, dependencies, folder_of
from toolchain import NO_RESULT, kit_found, need_kit

# What `rt try` prints after the program's own standard error, if the program ended.
ENDED = re.compile(rb"(interpreter: .*\n)?(checked: .*\n)?(races: .*\n)?run=ended .*\n\Z")


def say(text):
    print(text, file=sys.stderr, flush=True)


def write(stream, data):
    stream.buffer.write(data)
    stream.flush()


def quick(program, words):
    """Runs the program by `rt try` and returns its status. Writes its output only if it ended."""
    say(f"{program}: this build is not proved")
    how = {"cwd": folder_of(program), "stdout": subprocess.PIPE, "stderr": subprocess.PIPE}
    with subprocess.Popen(["rt", "try", "--", *words], **how) as run:
        try:
            output, error = run.communicate()
        finally:
            run.terminate()
    ended = ENDED.search(error)
    if not ended:
        write(sys.stderr, error)
        say(f"{program}: no result, for the reason above")
        return NO_RESULT
    error = error[: ended.start()]
    if output[-1:] not in (b"", b"\n"):
        # `rt try` then ends the line on standard error, before the program's own lines.
        error = re.sub(rb"\A((?:rt: .*\n)*)\n", rb"\1", error)
    write(sys.stderr, error)
    write(sys.stdout, output)
    return run.returncode


def bytes_of(path):
    with open(path, "rb") as file:
        return file.read()


def sums_of(crates, names):
    """Returns for each crate a hash of everything it is built from: the kit, its sources and the crates below it."""
    sums = {}
    for crate in crates:
        made = hashlib.sha256(repr([kit_found(), crate, [sums[it] for it in names[crate]]]).encode())
        for part in ("src", "specs", "proofs"):
            for at, folders, files in os.walk(f"{folder_of(crate)}/{part}"):
                folders.sort()
                for path in (f"{at}/{it}" for it in sorted(files)):
                    made.update(repr((os.path.relpath(path, folder_of(crate)), bytes_of(path))).encode())
        sums[crate] = made.hexdigest()
    return sums


def kept_at(crate):
    return f"{folder_of(crate)}/out/{crate}.sum"


def kept_text(crate, sum):
    """Returns what the file `kept_at` contains after a proof of the sources with this sum, as long as the built
    program, if the crate is one, is unchanged."""
    path = f"{folder_of(crate)}/out/{crate}"
    return f"{sum} {hashlib.sha256(bytes_of(path)).hexdigest() if os.path.isfile(path) else ''}".encode()


def is_kept(crate, sum):
    return os.path.isfile(kept_at(crate)) and bytes_of(kept_at(crate)) == kept_text(crate, sum)


def chain(crate, names):
    """Returns the longest chain of crates, each the next one's library, that ends in this one."""
    return [*max((chain(it, names) for it in names[crate]), key=len, default=[]), crate]


def start(crate, program, names):
    """Starts the proof of a crate. Returns the run and the file with what it prints.

    `rt` locks the crate and those below it, so crates that do not depend on each other are proved in parallel. A crate
    must wait for the libraries below it, because `rt` needs them built. So the longest chain of crates determines the
    total time, and the other crates get only the processor time that it leaves.
    """
    is_in_chain = crate in chain(program, names)
    words = [] if is_in_chain else ["nice", "-n", "19"]
    # No command of `rt` builds a program without running it.
    words += ["rt", "run" if crate == program else "lib", "--jobs", "4" if is_in_chain else "2"]
    output = tempfile.TemporaryFile()
    how = {"stdin": subprocess.DEVNULL, "stdout": output, "stderr": subprocess.STDOUT}
    return subprocess.Popen(words, cwd=folder_of(crate), **how), output


def prove(program, is_verbose):
    """Proves the crates that changed and builds the program. Returns whether all are proved."""
    names = dependencies()
    crates = [*below(program, names), program]
    sums = sums_of(crates, names)
    stale = [it for it in crates if not is_kept(it, sums[it])]
    waiting, running = [*stale], {}
    try:
        while waiting or running:
            for crate in [it for it in waiting if not {*waiting, *running} & {*below(it, names)}]:
                waiting.remove(crate)
                running[crate] = start(crate, program, names)
                say(f"proving {crate} ({len(stale) - len(waiting)} of {len(stale)})")
            time.sleep(0.05)
            for crate in [it for it, (run, _) in running.items() if run.poll() is not None]:
                run, output = running.pop(crate)
                output.seek(0)
                # `rt run` prints this right before it runs the program.
                printed, line, _ = output.read().partition(b"rt: running out/")
                is_proved = bool(line) if crate == program else not run.returncode
                if is_verbose or not is_proved:
                    write(sys.stderr, printed)
                if not is_proved:
                    say(f"{program}: no result, because {crate} is not proved")
                    return False
                if sums_of(crates, names)[crate] == sums[crate]:
                    with open(kept_at(crate), "wb") as file:
                        file.write(kept_text(crate, sums[crate]))
    finally:
        for run, _ in running.values():
            run.terminate()
    return True


def main(program):
    words = sys.argv[1:]
    # Python ignores these two signals, and the program would inherit that.
    for it in (signal.SIGPIPE, signal.SIGXFSZ):
        signal.signal(it, signal.SIG_DFL)
    for it in (signal.SIGINT, signal.SIGTERM, signal.SIGHUP):
        if signal.getsignal(it) != signal.SIG_IGN:
            signal.signal(it, lambda number, _: sys.exit(128 + number))
    option = words.pop(0) if words[:1] in (["--quick"], ["--verbose"]) else None
    need_kit(program)
    if option == "--quick":
        return quick(program, words)
    if not prove(program, option == "--verbose"):
        return NO_RESULT
    path = f"{folder_of(program)}/out/{program}"
    os.execv(path, [path, *words])
