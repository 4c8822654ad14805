#!/usr/bin/env python3
"""Gives rmmfind histories of eight CPUs whose calls overlap all the time, each with a changed last reply, and times it.

usage: wrong_last.py [--program PATH] [--granules COUNT] [--load LOAD] [LINES [SEED]]

The load is one of loads.py, or `explore`, which is that of explore.py. What was found is printed with the processor time and the peak of
memory. A changed reply may be right in another order, so an order may be found.
"""
import argparse
import os
import random
import subprocess
import sys
import tempfile

sys.dont_write_bytecode = True
sys.path.append(os.path.join(os.path.dirname(os.path.abspath(__file__)), "../tests"))
from compare import changed_reply
from explore import Explorer
from generate import run
from lives import CPUS
from loads import LOADS
from machine import Machine

PROGRAM = os.path.join(os.path.dirname(os.path.abspath(__file__)), "../crates/rmmfind/out/rmmfind")


def history_of(load, granules, lines, draw):
    machine = Machine(granules)
    source = Explorer(machine, draw) if load == "explore" else LOADS[load](machine, draw)
    history, _ = run(machine, source, CPUS, lines, draw)
    while not history[-1].startswith("r "):
        history.pop()
    cpu, number, reply = history[-1][2:].split(" ", 2)
    history[-1] = f"r {cpu} {number} {changed_reply(reply, draw)}"
    return history


def main():
    parser = argparse.ArgumentParser(usage=__doc__)
    parser.add_argument("--program", default=PROGRAM)
    parser.add_argument("--granules", type=int, default=4096)
    parser.add_argument("--load", choices=[*LOADS, "explore"], default="granules")
    parser.add_argument("lines", type=int, nargs="?", default=2000)
    parser.add_argument("seed", type=int, nargs="?", default=1)
    words = parser.parse_args()
    history = history_of(words.load, words.granules, words.lines, random.Random(words.seed))
    with tempfile.NamedTemporaryFile("w", encoding="ascii", newline="\n", suffix=".history") as file:
        file.write("".join(f"{line}\n" for line in history))
        file.flush()
        timed = ["/usr/bin/time", "-q", "-f", "%U s, %M kB", words.program, file.name]
        done = subprocess.run(timed, stdout=subprocess.PIPE, stderr=subprocess.PIPE, text=True, check=False)
    found = "order" if done.returncode == 0 else done.stdout.strip() or f"status {done.returncode}"
    print(f"{len(history)} lines: {found}, {done.stderr.strip()}")


if __name__ == "__main__":
    main()
