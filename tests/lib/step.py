"""Runs a step of the gate: shows what it prints, reads its tally, measures it, and stops it at its time limit."""

import contextlib
import os
import re
import signal
import subprocess
import sys
import time
from threading import Lock, Thread, Timer

TALLY = re.compile(r"(?:.* )?(\d+) passed, (\d+) failed")
SKIPPED = re.compile(r"skipped: ([\w-]+) \((.+)\)")

# How long a step has to end, in seconds, before it is killed.
GRACE = 10

PRINTING = Lock()


def show(line):
    """Prints a line at once."""
    with PRINTING:
        print(line, flush=True)


class Step:
    """A step: a command, its time limit, and the result of the run. Its processes are a session and a process group of
    their own."""

    def __init__(self, name, words, minutes, on_line=lambda line: None):
        self.name, self.words, self.minutes, self.on_line = name, words, minutes, on_line
        self.passed, self.failed, self.has_tally = 0, 0, False
        self.skips, self.failures, self.last = [], [], ""
        self.wall, self.processor = 0.0, 0.0
        self.leader, self.has_ended, self.why_stopped, self.stopping = None, False, None, Lock()

    def fail(self, why):
        """Counts one failure of the step itself, and prints why."""
        self.failed += 1
        self.failures.append(f"FAILED: {why}")
        show(self.failures[-1])

    def read(self, output):
        """Shows what the step prints. If that fails, stops the step, because nothing would read its output."""
        try:
            for line in output:
                self.take(line.rstrip("\n"))
        except Exception as why:
            self.stop(f"was stopped, because its output could not be shown: {why}")

    def take(self, line):
        """Shows a line and passes it to `on_line`."""
        show(line)
        self.last = line.strip()
        if line.startswith("skipped: "):
            found = SKIPPED.fullmatch(self.last)
            self.skips.append(found.groups() if found else (line[9:], "no name and reason"))
        self.on_line(line)

    def stop(self, why):
        """Stops the processes of the step, unless it has ended: by SIGTERM, and some seconds later by SIGKILL. A step
        that has not begun will not begin."""
        with self.stopping:
            if self.has_ended or self.why_stopped:
                return
            self.why_stopped = why
            self.signal(signal.SIGTERM)
        killer = Timer(GRACE, self.kill)
        killer.daemon = True
        killer.start()

    def kill(self):
        with self.stopping:
            self.signal(signal.SIGKILL)

    def signal(self, number):
        """Sends a signal to the process group of the step. Its number is not reused until the leader is reaped."""
        if self.leader is not None:
            with contextlib.suppress(ProcessLookupError, PermissionError):
                os.killpg(self.leader, number)

    def begin(self, folder):
        """Starts the command in that folder, and returns its process, or None if it does not start."""
        how = {"stdin": subprocess.DEVNULL, "stdout": subprocess.PIPE, "encoding": "utf-8", "errors": "replace"}
        with self.stopping:
            if self.why_stopped:
                self.fail(f"{self.name} {self.why_stopped}")
                return None
            try:
                process = subprocess.Popen(self.words, cwd=folder, start_new_session=True, **how)
            except OSError as why:
                self.fail(f"{self.name} did not start: {why}")
                return None
            self.leader = process.pid
            return process

    def run(self, folder):
        """Runs the command in that folder until it ends or reaches its time limit."""
        begun, process = time.monotonic(), self.begin(folder)
        if process is None:
            return
        reader = Thread(target=self.read, args=[process.stdout], daemon=True)
        timer = Timer(60 * self.minutes, self.stop, [f"took longer than {self.minutes:g} minutes"])
        timer.daemon = True
        reader.start()
        timer.start()
        os.waitid(os.P_PID, process.pid, os.WEXITED | os.WNOWAIT)
        timer.cancel()
        timer.join()
        self.kill()
        reader.join(GRACE)
        with self.stopping:
            self.leader, self.has_ended, (_, status, usage) = None, True, os.wait4(process.pid, 0)
        process.returncode = os.waitstatus_to_exitcode(status)
        self.wall, self.processor = time.monotonic() - begun, usage.ru_utime + usage.ru_stime
        self.judge(process.returncode, reader.is_alive())

    def judge(self, status, is_held):
        """Reads the tally, and fails the step if it was stopped or if its end does not agree with the tally."""
        found = TALLY.fullmatch(self.last)
        if self.why_stopped:
            self.fail(f"{self.name} {self.why_stopped}")
        elif is_held:
            self.fail(f"{self.name} ended, but a process that it left still holds its output")
        elif found:
            self.passed, self.failed = map(int, found.groups())
            self.has_tally = True
            self.failures += [f"FAILED: {self.name}: {self.failed} failed"] * bool(self.failed)
        if not self.failed and (status or not found):
            self.fail(f"{self.name} ended with status {status}: {self.last}")


def table(steps, wall):
    """Yields the lines of a table: for each step, what passed and failed, and its wall and processor time."""
    rows = [(it.name, it.passed, it.failed, it.wall, it.processor) for it in steps]
    sums = [sum(column) for column in list(zip(*rows))[1:]]
    rows.append(("all", *sums[:2], wall, sums[3]))
    yield f"{'step':26}{'passed':>8}{'failed':>8}{'wall s':>10}{'processor s':>13}"
    for name, passed, failed, wall_time, processor in rows:
        yield f"{name:26}{passed:8}{failed:8}{wall_time:10.1f}{processor:13.1f}"


def end_on_signals():
    """Makes the signals that end the gate raise SystemExit, so that it stops its steps."""
    for number in (signal.SIGINT, signal.SIGTERM, signal.SIGHUP):
        signal.signal(number, lambda got, _: sys.exit(128 + got))
