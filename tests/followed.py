#!/usr/bin/env python3
"""Runs rmmfind on histories that it doesn't decide soon, for some seconds, and looks at what is told meanwhile.

usage: followed.py [--find PATH] [SEED]

Of a history of 1,000 lines with another reading of a measurement in the middle (`recs` of bench/others.py), and with two realms that ask for RECs of
one granule, `gave up` has to come once the seconds have passed, and of its report no later than once more as many. Where standard error is a terminal, lines there have to tell how far the search is,
the last of them erased; where it is a pipe, nothing. It stops at the first answer that is another, or that comes at another time.
"""
import argparse
import os
import pty
import random
import re
import subprocess
import sys
import tempfile
import time

from places import built
from others import MEASUREMENT_READ, REC_CREATE, lines_of

LINES = 1000
# the granules of the first REC, and one of no realm
REC, AUX0, AUX1, OTHER = 0x4000, 0x5000, 0x6000, 0x3F000
LATE = 1.5
TOLD = re.compile(r"\r\x1b\[Krmmfind: line (\d+) of (\d+), orders kept: (\d+)")


def run(command):
    """What is printed, what a terminal as standard error shows, the status, and how long it takes."""
    start = time.time()
    ours, theirs = pty.openpty()
    with subprocess.Popen(command, stdout=subprocess.PIPE, stderr=theirs) as process:
        os.close(theirs)
        printed = process.stdout.read().decode()
    took = time.time() - start
    shown = b""
    try:
        while piece := os.read(ours, 4096):
            shown += piece
    except OSError:
        pass
    os.close(ours)
    return printed, shown.decode(), process.returncode, took


def expect(holds, what, *values):
    if not holds:
        sys.exit(f"{what}: {values}")


def read_otherwise(history, place):
    """The history with another word in the first reading that returns at the place or after it."""
    calls = [line.split() for line in history if line.startswith("c ")]
    reads = {(cpu, number) for _, cpu, number, function, *_ in calls if function == MEASUREMENT_READ}
    for at in range(place, len(history)):
        kind, cpu, number, *reply = history[at].split()
        if kind == "r" and (cpu, number) in reads and reply[0] == "ok":
            other = " ".join([kind, cpu, number, "ok", f"{int(reply[1], 16) ^ 1:x}", *reply[2:]])
            return [*history[:at], other, *history[at + 1:]]
    raise ValueError("no reading returns there")


def asked_for_before(history):
    """The history where another realm is asked for a REC of the first one's granule before all."""
    header, *lines = history
    later = []
    for line in lines:
        kind, cpu, number, *rest = line.split()
        later.append(" ".join([kind, cpu, str(int(number) + 1) if cpu == "7" else number, *rest]))
    return [header, f"c 7 0 {REC_CREATE} {OTHER:x} {REC:x} 0 1 {AUX0:x} {AUX1:x}", "r 7 0 err 1 0", *later]


def main():
    parser = argparse.ArgumentParser(usage=__doc__)
    parser.add_argument("--find", default=built("rmmfind"))
    parser.add_argument("seed", type=int, nargs="?", default=1)
    words = parser.parse_args()
    draw = random.Random(words.seed)
    history = asked_for_before(read_otherwise(lines_of("recs", LINES, draw), LINES // 2))
    with tempfile.NamedTemporaryFile("w", encoding="ascii", newline="\n", suffix=".history") as file:
        file.write("".join(f"{line}\n" for line in history))
        file.flush()
        start = time.time()
        done = subprocess.run([words.find, "--limit", str(10**12), "--seconds", "2", file.name], capture_output=True, text=True, check=False)
        took = time.time() - start
        expect((done.stdout, done.stderr, done.returncode) == ("gave up\n", "", 4), "without a terminal", done)
        expect(2 <= took <= 2 + LATE, "seconds", took)
        printed, shown, status, took = run([words.find, "--limit", str(10**12), "--seconds", "3", "--explain", file.name])
    expect(status == 4 and printed.startswith("gave up\n\nk "), "explained", status, printed)
    expect(3 <= took <= 6 + LATE, "seconds with the report", took)
    told = TOLD.findall(shown)
    expect(len(told) >= 2 and all(1 <= int(line) <= int(lines) == len(history) for line, lines, _ in told), "told", shown)
    expect(shown.endswith("\r\x1b[K"), "the last line stays", shown)
    print(f"gave up in time, after {len(told)} lines on the terminal, the last at line {told[-1][0]} of {len(history)} with orders: {told[-1][2]}")


if __name__ == "__main__":
    main()
