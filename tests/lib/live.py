"""Runs a program on pipes that stay open, that are closed early, and that carry many messages."""

import os
import selectors
import subprocess

PIPES = {"stdin": subprocess.PIPE, "stdout": subprocess.PIPE, "stderr": subprocess.PIPE}


def live_error(program, pieces, wanted, *words):
    """Runs a program with these arguments, and writes pieces of input to a pipe that stays open. A piece is bytes that come
    before it, its own bytes and their lines, which must be there as soon as the last byte was written, and not before.
    `wanted` is the status and the error in the end. Returns what differs, or None."""
    with subprocess.Popen([program, *words], **PIPES) as run:
        os.set_blocking(run.stdout.fileno(), False)
        with selectors.DefaultSelector() as ready:
            ready.register(run.stdout, selectors.EVENT_READ)
            for before, data, lines in pieces:
                os.write(run.stdin.fileno(), before + data[:-1])
                if ready.select(0.05):
                    return f"a line before the last byte of {data.hex()}"
                os.write(run.stdin.fileno(), data[-1:])
                if not ready.select(10):
                    return f"no line after the last byte of {data.hex()}"
                wrote = os.read(run.stdout.fileno(), 4096)
                if wrote != lines:
                    return f"{data.hex()} on a pipe: wrote {wrote}, not {lines}"
        rest = run.communicate(timeout=10)
    ended = run.returncode, *rest
    status, error = wanted
    return None if ended == (status, b"", error) else f"an open pipe: ended with {ended}"


def closed_error(program, data, line):
    """Closes the output after the first line. Returns what differs, or None."""
    with subprocess.Popen([program], **PIPES) as run:
        os.write(run.stdin.fileno(), data)
        wrote = run.stdout.readline()
        run.stdout.close()
        os.write(run.stdin.fileno(), data)
        said = run.stderr.read()
    ended = run.returncode, wrote, said
    return None if ended == (1, line, b"write failed\n") else f"an output that is closed: ended with {ended}"


def memory_error(program, start, many, times):
    """Passes a start and many megabytes of messages. The program may take 8 MB of memory. Returns what differs, or
    None."""
    with subprocess.Popen([program], stdin=subprocess.PIPE, stdout=subprocess.DEVNULL) as run:
        run.stdin.write(start)
        for _ in range(times):
            run.stdin.write(many)
        run.stdin.flush()
        with open(f"/proc/{run.pid}/status") as file:
            peak = next(int(line.split()[1]) for line in file if line.startswith("VmHWM:"))
    size = f"{times * len(many) >> 20} MiB"
    return None if run.returncode == 0 and peak <= 8_000 else f"{size}: status {run.returncode}, {peak} kB of memory"
