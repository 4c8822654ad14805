#!/usr/bin/env python3
"""Times `rmmcheck check` beside `wc -l` of the same two files in the same run, and prints the first table of docs/SPEED.md.

usage: speed.py [--load LOAD] [LINES ..]

Without words it takes 10000, 100000 and 1000000 lines. Each size is measured under each load of generate.py, or under
the one named. The files are generated anew, and each time is the least of twenty runs, taken in turns. Memory is the greatest
resident size of one further run of the checker under `/usr/bin/time`, and beside it that size over the history's lines.
"""
import argparse
import os
import subprocess
import sys
import tempfile
import time

sys.dont_write_bytecode = True
from loads import LOADS

HERE = os.path.dirname(os.path.abspath(__file__))
TOP = os.path.dirname(HERE)
PROGRAM = os.path.join(TOP, "crates", "rmmcheck", "out", "rmmcheck")
RUNS = 20


def run(words):
    """What the words print, how long they take in seconds, and their exit status."""
    begin = time.perf_counter()
    child = subprocess.run(words, stdout=subprocess.PIPE)
    return child.stdout.decode(), time.perf_counter() - begin, child.returncode


def memory_of(words):
    """The most memory that the words have resident, in bytes. A child's count begins with what its parent has resident when
    it starts, so the parent here is a small program and not this one."""
    measured = subprocess.run(["/usr/bin/time", "-f", "%M", *words], stdout=subprocess.DEVNULL, stderr=subprocess.PIPE, check=True)
    return int(measured.stderr.split()[-1]) * 1024


def row(load, lines, folder):
    prefix = os.path.join(folder, f"{load}-{lines}")
    subprocess.run([sys.executable, os.path.join(HERE, "generate.py"), load, str(lines), prefix], check=True)
    files = [f"{prefix}.history", f"{prefix}.certificate"]
    check_time = count_time = float("inf")
    for _ in range(RUNS):
        _, taken, _ = run(["wc", "-l", *files])
        count_time = min(count_time, taken)
        printed, taken, status = run([PROGRAM, "check", *files])
        if status != 0 or not printed.startswith("yes "):
            sys.exit(f"{lines} lines of {load}: {printed!r} with status {status}")
        check_time = min(check_time, taken)
    memory = memory_of([PROGRAM, "check", *files])
    size = sum(os.path.getsize(file) for file in files)
    return (f"| {load} | {lines:,} | {size / 1e6:.1f} MB | {count_time * 1e3:.1f} ms | {check_time * 1e3:.1f} ms "
            f"| {check_time / count_time:.1f} | {check_time / lines * 1e9:.0f} ns | {memory / 1e6:.1f} MB "
            f"| {memory / lines:.0f} |")


def main():
    parser = argparse.ArgumentParser(usage=__doc__)
    parser.add_argument("--load", choices=LOADS)
    parser.add_argument("lines", type=int, nargs="*", default=[10_000, 100_000, 1_000_000])
    words = parser.parse_args()
    # Builds the program where it isn't built yet.
    subprocess.run([os.path.join(TOP, "tools", "built"), "rmmcheck"], check=True, stdout=subprocess.DEVNULL)
    print("| Load | History lines | Both texts | `wc -l` | `rmmcheck check` | Times `wc -l` | A line | Peak memory | Bytes a line |")
    print("|---|---|---|---|---|---|---|---|---|")
    with tempfile.TemporaryDirectory() as folder:
        for load in [words.load] if words.load else LOADS:
            for count in words.lines:
                print(row(load, count, folder), flush=True)


main()
