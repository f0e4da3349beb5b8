"""The workloads of bench/workloads.txt in built checkouts: their times, by turns, and their instructions. bench/run and
bench/all call this."""
import os
import re
import statistics
import subprocess
import sys
import time

HERE = os.path.dirname(os.path.abspath(__file__))
TURNS = 7
# The instructions are counted at a tenth of a workload's size, or at this part of it.
PARTS = {"links": 15}


def workloads():
    """Returns the workloads: each has a name, a crate, and the words of its program."""
    with open(os.path.join(HERE, "workloads.txt"), encoding="utf-8") as file:
        lines = [line.split() for line in file if line.strip() and not line.startswith("#")]
    return [(name, crate, words) for name, crate, *words in lines]


def run(folder, crate, words, **how):
    """Runs a program in the folder bench/ of a checkout, under the words of `under`. Returns the ended process."""
    under = how.pop("under", [])
    program = os.path.join(folder, "crates", crate, "out", crate)
    bench = os.path.join(folder, "bench")
    stdin = subprocess.DEVNULL
    if words and words[-1].startswith("<"):
        *words, file = words
        stdin = open(os.path.join(bench, file[1:]), "rb")
    try:
        done = subprocess.run([*under, program, *words], cwd=bench, stdin=stdin, stdout=subprocess.PIPE, **how)
    except OSError as why:
        sys.exit(f"{program}: {why.strerror}; `rt run` in crates/{crate} builds it")
    finally:
        if stdin is not subprocess.DEVNULL:
            stdin.close()
    if done.returncode:
        sys.exit(f"{program} {' '.join(words)} ends with status {done.returncode}")
    return done


def once(folder, crate, words):
    """Runs a workload in a checkout. Returns the seconds that it took, and its output."""
    begun = time.perf_counter()
    done = run(folder, crate, words)
    return time.perf_counter() - begun, done.stdout


def seeded(words, seed):
    return [str(seed) if word == "SEED" else word for word in words]


def timed(folders, seed):
    """Yields for each workload its name, the medians of its times in each of the two folders, and whether their outputs
    are the same."""
    for name, crate, words in workloads():
        times = {folder: [] for folder in folders}
        outputs = set()
        for turn in range(TURNS):
            for folder in folders if turn % 2 == 0 else folders[::-1]:
                seconds, output = once(folder, crate, seeded(words, seed))
                times[folder].append(seconds)
                outputs.add(output)
        yield name, *(statistics.median(times[folder]) for folder in folders), len(outputs) == 1


def counted(folder, name, seed):
    """Returns the instructions of a part of a workload in a checkout."""
    crate, words = next((crate, words) for it, crate, words in workloads() if it == name)
    job, size, *rest = seeded(words, seed)
    part = str(int(size) // PARTS.get(name, 10))
    under = ["valgrind", "--tool=callgrind", "--callgrind-out-file=/dev/null"]
    done = run(folder, crate, [job, part, *rest], under=under, stderr=subprocess.PIPE, text=True)
    return int(re.search(r"Collected : (\d+)", done.stderr)[1])


def compare(folders, seed):
    """Prints a row for each workload: the median of its times in each of the two folders, and their ratio. Ends the
    script with status 1 if outputs differ, and names the workloads. That of `decode` does if more kinds have shapes."""
    differing = []
    print("| workload | seconds at the start | seconds now | start over now |")
    print("|---|--:|--:|--:|", flush=True)
    for name, old, new, is_same in timed(folders, seed):
        print(f"| {name} | {old:.3f} | {new:.3f} | {old / new:.2f} |", flush=True)
        differing += [] if is_same else [name]
    if differing:
        sys.exit(f"the outputs differ: {', '.join(differing)}")
