#!/usr/bin/env python3
"""Writes a history and a certificate that rmmcheck accepts.

usage: generate.py [--version 2] LOAD LINES PREFIX [SEED]
       generate.py [--twice] guest LINES PREFIX [SEED]

Eight CPUs work on 4096 granules. Under the load `granules` they delegate and undelegate them. Under the other loads each
CPU makes realms and destroys them all the time, on 512 granules of its own: `realms` with RECs and with VMIDs that all CPUs
draw from 256; `tables` with tables four levels deep in both halves, which are filled, read and emptied; `measure` with
pages and extensions that are measured; `mixed` with all of this and with RECs that ask for memory, so that all functions come.

Under `guest` two CPUs of a machine of 1048576 granules live the life of guest.py, of which LINES are written, or all where it is
over before (about 480000). With --twice one page is given twice, to which the reply is `ok`; no order explains that.

Each CPU calls, commits and returns in turns that are drawn at random, so that up to eight calls overlap; the certificate's
order is that of the commits, and a reply is what the machine of machine.py gives at the commit. PREFIX.history has LINES
lines, its header counted. Calls that are open at the end stand in PREFIX.certificate as unfinished lines where they have
committed, and not at all where they haven't. Under version 2 each realm's hash is drawn, and version 1 draws nothing for it.
"""
import argparse
import random
import sys

sys.dont_write_bytecode = True
from guest import GRANULES as MANY_GRANULES, GUEST_CPUS, Guest
from lives import CPUS, GRANULES
from loads import LOADS
from machine import Machine
from records import LARGE, MARKS

IDLE, CALLED, COMMITTED, OVER = range(4)


class Cpu:
    def __init__(self, number):
        self.number = number
        self.calls = 0
        self.stage = IDLE
        self.command = None
        self.reply = None
        self.commit = None


def run(machine, source, count, lines, draw, choose=max):
    """The lines of both texts where so many CPUs call what the source tells, until the history has so many lines, or none calls."""
    answer = getattr(source, "answer", machine.answer)
    history = [f"{MARKS[machine.version]} {machine.granules} {count}"]
    certificate = []
    cpus = [Cpu(number) for number in range(count)]
    while len(history) < lines and any(cpu.stage != OVER for cpu in cpus):
        cpu = draw.choice(cpus)
        if cpu.stage == OVER:
            continue
        if cpu.stage == IDLE:
            cpu.command = source.command(cpu.number)
            if cpu.command is None:
                cpu.stage = OVER
                continue
            function, words = cpu.command
            history.append(" ".join(["c", str(cpu.number), str(cpu.calls), function, *(f"{word:x}" for word in words)]))
            cpu.calls += 1
            cpu.stage = CALLED
        elif cpu.stage == CALLED:
            cpu.reply = answer(cpu.number, *cpu.command, choose)
            cpu.commit = len(certificate)
            certificate.append(f"k {cpu.number} {cpu.calls - 1}")
            cpu.stage = COMMITTED
        else:
            history.append(f"r {cpu.number} {cpu.calls - 1} {cpu.reply}")
            cpu.stage = IDLE
    for cpu in cpus:
        if cpu.stage == COMMITTED:
            certificate[cpu.commit] = f"u {cpu.number} {cpu.calls - 1} {cpu.reply}"
    return history, certificate


def main():
    parser = argparse.ArgumentParser(usage=__doc__)
    parser.add_argument("--version", type=int, choices=[1, 2], default=1)
    parser.add_argument("--twice", action="store_true")
    parser.add_argument("load", choices=[*LOADS, "guest"])
    parser.add_argument("lines", type=int)
    parser.add_argument("prefix")
    parser.add_argument("seed", type=int, nargs="?", default=1)
    words = parser.parse_args()
    draw = random.Random(words.seed)
    if words.load == "guest":
        machine = Machine(MANY_GRANULES, LARGE)
        texts = run(machine, Guest(machine, draw, words.twice), GUEST_CPUS, words.lines, draw)
    else:
        machine = Machine(GRANULES, words.version)
        texts = run(machine, LOADS[words.load](machine, draw), CPUS, words.lines, draw)
    for name, text in zip(("history", "certificate"), texts):
        with open(f"{words.prefix}.{name}", "w", encoding="ascii", newline="\n") as out:
            out.write("".join(f"{line}\n" for line in text))


if __name__ == "__main__":
    main()
