#!/usr/bin/env python3
"""Plays random scenarios in which one CPU folds a table while another maps, reads and unmaps below it, and counts how they met.

usage: folds.py [--program PATH] [RUNS [SEED]]

CPU 0 makes a realm with tables down to level 3 in the upper half. Then it folds the lowest table and makes it again, while CPU 1
maps pages of one of its entries, reads it and takes them back; who takes which turn is drawn. It stops with status 1 at a run whose
verdict isn't `yes`, and prints how often each of the four commands had each reply.
"""
import argparse
import collections
import os
import random
import subprocess
import sys
import tempfile

from places import built

HALF = 0x40_0000_0000
MAKE, READ, MAP, UNMAP, FOLD = "c400015d", "c4000161", "c400015f", "c4000162", "c4000166"
NAMES = {FOLD: "RTT_FOLD", MAP: "RTT_MAP_UNPROTECTED", READ: "RTT_READ_ENTRY", UNMAP: "RTT_UNMAP_UNPROTECTED"}
MADE = [f"c4000151 {granule}000" for granule in range(1, 5)] + [
    "c4000158 1000 2000 27 1 1 0", f"{MAKE} 1000 3000 {HALF:x} 2", f"{MAKE} 1000 4000 {HALF:x} 3"]
# more turns than making all that takes
FIRST = 100


def scenario(draw):
    ipa = HALF + draw.randrange(512) * 0x1000
    folds = [f"{FOLD} 1000 {HALF:x} 3", f"{MAKE} 1000 4000 {HALF:x} 3"] * 4
    below = [draw.choice([f"{MAP} 1000 {ipa:x} 5000", f"{READ} 1000 {ipa:x} 3", f"{UNMAP} 1000 {ipa:x}"]) for _ in range(8)]
    turns = ["0"] * FIRST + [draw.choice("01") for _ in range(120)]
    programs = [MADE + folds, below]
    return f"granules = 16\ncpus = 2\nprograms = {programs}\nturns = {turns}\n".replace("'", '"')


def told(history):
    """Each of the four commands with its reply."""
    called = {}
    for line in history:
        kind, cpu, number, *rest = line.split()
        if kind == "c":
            called[cpu, number] = rest[0]
        elif kind == "r" and called[cpu, number] in NAMES:
            yield NAMES[called[cpu, number]], " ".join(rest if rest[0] == "err" else rest[:1])


def main():
    parser = argparse.ArgumentParser(usage=__doc__)
    parser.add_argument("--program", default=built("rmmcheck"))
    parser.add_argument("runs", nargs="?", type=int, default=1000)
    parser.add_argument("seed", nargs="?", type=int, default=1)
    given = parser.parse_args()
    draw, replies = random.Random(given.seed), collections.Counter()
    with tempfile.TemporaryDirectory() as folder:
        file = os.path.join(folder, "scenario.toml")
        for run in range(given.runs):
            with open(file, "w") as out:
                out.write(scenario(draw))
            printed = subprocess.run([given.program, "run", file], stdout=subprocess.PIPE, text=True).stdout.splitlines()
            if not printed or not printed[-1].startswith("yes "):
                sys.exit(f"run {run}: {printed[-1:]}")
            replies.update(told(printed[1:printed.index("")]))
    for (name, reply), count in sorted(replies.items()):
        print(f"{name}: {reply}: {count}")


if __name__ == "__main__":
    main()
