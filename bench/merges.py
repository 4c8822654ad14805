#!/usr/bin/env python3
"""Merges events by rmmmerge, in several orders of their lines and with one left out, and compares what comes of it.

usage: merges.py [--program PROGRAM] [--cuts N] HISTORY CERTIFICATE
       merges.py [--program PROGRAM] [--cuts N] EVENTS
       merges.py [--program PROGRAM] [--cuts N] --wide FUNCTION EVENTS CPUS
       merges.py [--program PROGRAM] --full

The events are those of a recorder's text; or a history is taken apart with a certificate that is a linearization of it, each commit right
before the first return that needs it, of its own call or of a later line of the certificate; or they are drawn, so many, with words of 16
digits alone, as calls of DATA_CREATE, MEASUREMENT_EXTEND, MEASUREMENT_READ or REC_CREATE on so many CPUs, with the longest replies that these
have. No machine need give such replies.

The lines are written in the order of their stamps, CPU by CPU, and CPU by CPU with the last CPU first. Each time rmmmerge has to give the same
two files, which are made here once more; its processor time and its peak of memory are printed, and those of a merge that renames. Then one event is
left out, N times: a call, a commit, a return, and so on. Without --prefix rmmmerge has to name the stamp, and with it to give back what
comes before. With --full a history of a million lines has to be written, and the next return refused.
"""
import argparse
import os
import random
import subprocess
import sys
import tempfile

PROGRAM = os.path.join(os.path.dirname(os.path.abspath(__file__)), "../crates/rmmmerge/out/rmmmerge")

# Runs a program, and prints its seconds of a processor and its peak of memory in KB. A child of a large process would begin with that
# one's peak.
MEASURE = """
import os, subprocess, sys
child = subprocess.Popen(sys.argv[1:])
_, _, usage = os.wait4(child.pid, 0)
print(usage.ru_utime + usage.ru_stime, usage.ru_maxrss)
"""


# A function's number, and how many words a call and a reply have.
WIDE = {
    "DATA_CREATE": ("c4000153", 9, 0),
    "MEASUREMENT_EXTEND": ("c4000193", 10, 0),
    "MEASUREMENT_READ": ("c4000192", 1, 8),
    "REC_CREATE": ("c400015a", 6, 0),
}


def wide(function, count, cpus):
    """The header's sizes, and so many events."""
    number, of_call, of_reply = WIDE[function]
    words = lambda some: "".join(f" {random.randrange(2**60, 2**64):x}" for _ in range(some))
    events, replies, stages = [], [""] * cpus, [0] * cpus
    for _ in range(count):
        cpu = random.randrange(cpus)
        if stages[cpu] == 0:
            replies[cpu] = "ok" + words(of_reply)
        events.append((cpu, (f"call {number}{words(of_call)}", f"commit {replies[cpu]}", f"return {replies[cpu]}")[stages[cpu]]))
        stages[cpu] = (stages[cpu] + 1) % 3
    return ["4096", str(cpus)], events


def recorded(text):
    """The same of a recorder's text."""
    header, *lines = text.splitlines()
    by_stamp = sorted((int(stamp), int(cpu), rest) for stamp, cpu, rest in (line.split(" ", 2) for line in lines))
    return header.split(" ")[1:], [(cpu, rest) for _, cpu, rest in by_stamp]


def texts_of(sizes, events):
    """The history and the certificate of events."""
    history, commits, calls, returned = [f"rmh1 {' '.join(sizes)}"], [], {}, set()
    for cpu, rest in events:
        moment, what = rest.split(" ", 1)
        calls[cpu] = calls.get(cpu, -1) + (moment == "call")
        if moment == "commit":
            commits.append((cpu, calls[cpu], what))
        else:
            history.append(f"{moment[0]} {cpu} {calls[cpu]} {what}")
        if moment == "return":
            returned.add((cpu, calls[cpu]))
    lines = [f"k {cpu} {call}" if (cpu, call) in returned else f"u {cpu} {call} {reply}" for cpu, call, reply in commits]
    return ["".join(f"{line}\n" for line in text) for text in (history, lines)]


def events_of(history, certificate):
    """The header's sizes, and the CPU and the rest of each event, in the order of their stamps."""
    header, *lines = history
    replies = {tuple(line.split(" ", 3)[1:3]): line.split(" ", 3)[3] for line in lines if line[0] == "r"}
    commits = [line.split(" ", 3) for line in certificate]
    places = {(cpu, number): place for place, (_, cpu, number, *_) in enumerate(commits)}
    events, done = [], 0

    def commit_to(end):
        for kind, cpu, number, *reply in commits[done:end]:
            events.append((int(cpu), "commit " + (reply[0] if kind == "u" else replies[cpu, number])))
        return max(done, end)

    for line in lines:
        kind, cpu, number, rest = line.split(" ", 3)
        if kind == "r":
            done = commit_to(places[cpu, number] + 1)
        events.append((int(cpu), ("call " if kind == "c" else "return ") + rest))
    commit_to(len(commits))
    return header.split(" ")[1:], events


def merged(program, folder, sizes, lines, words=()):
    """What rmmmerge prints and writes, with its seconds and its peak of memory in MB."""
    paths = [os.path.join(folder, name) for name in ("events", "history", "certificate")]
    with open(paths[0], "w") as out:
        out.write("".join([f"rme1 {' '.join(sizes)}\n", *lines]))
    for path in paths[1:]:
        if os.path.exists(path):
            os.remove(path)
    measured = subprocess.run([sys.executable, "-c", MEASURE, program, *words, *paths], stdout=subprocess.PIPE, text=True, check=True)
    *printed, usage = measured.stdout.splitlines(keepends=True)
    seconds, kilobytes = usage.split()
    texts = [open(path).read() if os.path.exists(path) else None for path in paths[1:]]
    return "".join(printed), texts, float(seconds), int(kilobytes) / 1024


def see_full(program, folder):
    """A history that has a million lines, and one that would have more."""
    call = ["call c4000151 0", "commit ok", "return ok"]
    events = [(0, rest) for rest in call * 499_999 + call]
    lines = [f"{stamp} {cpu} {rest}\n" for stamp, (cpu, rest) in enumerate(events)]
    printed, found, _, _ = merged(program, folder, ["1", "1"], lines[:-2])
    expect("a million lines", (printed, found), ("", texts_of(["1", "1"], events[:-2])))
    printed, found, _, _ = merged(program, folder, ["1", "1"], lines)
    expect("a line more", (printed, found), (f"fault events: line {len(lines) + 1}: the history or the certificate has a million lines\n", [None, None]))
    print("a history of a million lines, and no line more")


def expect(what, found, wanted):
    if found != wanted:
        sys.exit(f"merges.py: {what} differs")


def main():
    parser = argparse.ArgumentParser()
    parser.add_argument("--program", default=PROGRAM)
    parser.add_argument("--cuts", type=int, default=0)
    parser.add_argument("--full", action="store_true")
    parser.add_argument("--wide", nargs=3, metavar=("FUNCTION", "EVENTS", "CPUS"))
    parser.add_argument("texts", nargs="*", metavar="TEXT")
    given = parser.parse_args()
    if given.full:
        with tempfile.TemporaryDirectory() as folder:
            return see_full(given.program, folder)
    if given.wide:
        sizes, events = wide(given.wide[0], int(given.wide[1]), int(given.wide[2]))
    elif len(given.texts) == 1:
        sizes, events = recorded(open(given.texts[0]).read())
    else:
        sizes, events = events_of(*(open(path).read().splitlines() for path in given.texts))
    texts = texts_of(sizes, events)
    if len(given.texts) == 2:
        expect("what is taken apart", texts, [open(path).read() for path in given.texts])
    granules = int(sizes[0])
    lines = [f"{stamp} {cpu} {rest}\n" for stamp, (cpu, rest) in enumerate(events)]
    cpus = [cpu for cpu, _ in events]
    by_cpu = sorted(range(len(lines)), key=lambda at: (cpus[at], at))
    by_last = sorted(range(len(lines)), key=lambda at: (-cpus[at], at))
    with tempfile.TemporaryDirectory() as folder:
        for name, order in (("in order", range(len(lines))), ("by CPU", by_cpu), ("last CPU first", by_last)):
            printed, found, seconds, peak = merged(given.program, folder, sizes, [lines[at] for at in order])
            expect(f"{name}: what is printed", printed, "")
            expect(f"{name}: the history", found[0], texts[0])
            expect(f"{name}: the certificate", found[1], texts[1])
            print(f"{len(lines)} events {name}: {seconds:.2f} s, {peak:.0f} MB, {peak * 2**20 / len(lines):.0f} bytes an event")
        printed, found, seconds, peak = merged(given.program, folder, sizes, lines, ["--rename", "--memory", f"{granules << 12:x}"])
        expect("renamed: what is printed", printed, "")
        print(f"{len(lines)} events renamed: {seconds:.2f} s, {peak:.0f} MB, {peak * 2**20 / len(lines):.0f} bytes an event")
        for cut in range(given.cuts):
            moment = ("call", "commit", "return")[cut % 3]
            hole = random.choice([at for at, (_, rest) in enumerate(events[:-1]) if rest.startswith(moment)])
            rest = [lines[at] for at in by_cpu if at != hole]
            expect("a hole", merged(given.program, folder, sizes, rest)[0], f"fault events: no event has the stamp {hole}\n")
            front = merged(given.program, folder, sizes, lines[:hole])
            printed, found, _, _ = merged(given.program, folder, sizes, rest, ["--prefix"])
            expect("a prefix", (printed, found), (f"merged the events before stamp {hole}\n", front[1]))
        print(f"{given.cuts} cuts")


if __name__ == "__main__":
    main()
