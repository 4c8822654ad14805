#!/usr/bin/env python3
"""Sends the built program each command with words that a hostile host would send, in each state of the examples.

usage: hostile_words.py [--program PATH] [--jobs COUNT] [EXAMPLE..]

The states are those that the examples with the verdict `yes` pass through. In each of them every CPU sends each of the
commands with fitting words, of which one word, and then each pair of words, is each of EDGES. The reply of machine.py stands in a
history, with a certificate that names the calls in their order, so that the program's verdict is `yes` where it agrees on all of
them. Refused commands change nothing and share a history; each accepted one is the last of its own. It prints how many there
were, and ends with status 1 at a history with another verdict.
"""
import argparse
import collections
import itertools
import multiprocessing
import os
import re
import subprocess
import sys
import tempfile

from places import EXAMPLES, built
from functions import GRANULE_UNDELEGATE, MEASUREMENT_READ, NAMES, REALM_CREATE, REC_CREATE, RTT_CREATE, RTT_DESTROY, WORDS
from judge import gives, read_certificate, read_history
from machine import Machine
from records import DELEGATED, UNDELEGATED
from tables import PAGE_BYTES

PROGRAM = built("rmmcheck")
EDGES = [0, 1, PAGE_BYTES - 1, PAGE_BYTES, 1 << 52, 1 << 63, (1 << 64) - 1]
HIGH = 1 << 38


def examples():
    """The pairs of the examples' table whose verdict is yes."""
    with open(os.path.join(EXAMPLES, "README.md"), encoding="ascii") as file:
        return re.findall(r"^\| `([^`]*)` \| `([^`]*)` \| `yes", file.read(), re.MULTILINE)


def steps_of(history, certificate):
    """The machine at its beginning, how many CPUs there are, and each step as (cpu, function, words, reply), in the certificate's order."""
    with open(os.path.join(EXAMPLES, f"{history}.history"), encoding="ascii") as file:
        text = file.read()
    machine, calls = read_history(text)
    with open(os.path.join(EXAMPLES, f"{certificate}.certificate"), encoding="ascii") as file:
        lines = list(read_certificate(file.read()))
    steps = [(cpu, *calls[cpu, n][1:3], claimed or calls[cpu, n][4]) for cpu, n, claimed in lines]
    return machine, int(text.split()[2]), steps


def replayed(opening, steps):
    machine = Machine(opening.granules, opening.version)
    for step in steps:
        if not gives(machine, *step):
            sys.exit(f"{step}: another reply")
    return machine


def texts_of(opening, cpus, steps):
    """A history in which each step is answered before the next, and its certificate."""
    history, certificate, made = [f"rmh{opening.version} {opening.granules} {cpus}"], [], collections.Counter()
    for cpu, function, words, reply in steps:
        history.append(" ".join(["c", str(cpu), str(made[cpu]), function, *(f"{word:x}" for word in words)]))
        history.append(f"r {cpu} {made[cpu]} {reply}")
        certificate.append(f"k {cpu} {made[cpu]}")
        made[cpu] += 1
    return ["".join(f"{line}\n" for line in lines) for lines in (history, certificate)]


def fitting_words(machine):
    """Words for each function that fit the state, or nearly: by their names, but where a function means another by one."""
    tags = {granule: machine.tags.get(granule, UNDELEGATED) for granule in range(0, machine.granules * PAGE_BYTES, PAGE_BYTES)}
    free = [granule for granule, tag in tags.items() if tag == DELEGATED] + [3 * PAGE_BYTES, 4 * PAGE_BYTES, 5 * PAGE_BYTES]
    host = [granule for granule, tag in tags.items() if tag == UNDELEGATED and granule] + [0]
    rd, rec = min(machine.realms, default=PAGE_BYTES), min(machine.recs, default=5 * PAGE_BYTES)
    words = {
        "g": host[0], "src": host[0], "pa": host[0], "rd": rd, "rec": rec, "data": free[0], "rtt": free[0], "root": free[1],
        "aux0": free[1], "aux1": free[2], "mpidr": machine.realms[rd].made_recs if rd in machine.realms else 0, "width": 0x27,
        "level": 3, "vmid": 0xFE, "top": PAGE_BYTES, "flags": 1, "ripas": 1, "i": 1, "size": 0x40,
        **{f"digest{number}": number + 1 for number in range(4)}, **{f"values{number}": number + 1 for number in range(8)},
    }
    own = {
        GRANULE_UNDELEGATE: {"g": free[0]}, REALM_CREATE: {"rd": free[0], "level": 1}, REC_CREATE: {"rec": free[0]},
        RTT_CREATE: {"level": 2}, RTT_DESTROY: {"level": 2}, MEASUREMENT_READ: {"i": 0},
    }
    of_host = {number: {"ipa": HIGH} for number, name in NAMES.items() if name.endswith("UNPROTECTED")}
    return {
        function: [{**words, **own.get(function, {}), **of_host.get(function, {})}.get(name, 0) for name in names]
        for function, names in WORDS.items() if names
    }


def own_words(steps, place):
    """The words of each function's next step, or of its last one before."""
    found = {function: words for _, function, words, _ in steps[:place]}
    found.update({function: words for _, function, words, _ in reversed(steps[place:])})
    return found


def with_edges(words):
    """The words, with one or two of them replaced in each way."""
    yield tuple(words)
    for count in (1, 2):
        for places in itertools.combinations(range(len(words)), count):
            for edges in itertools.product(EDGES, repeat=count):
                changed = list(words)
                for place, edge in zip(places, edges):
                    changed[place] = edge
                yield tuple(changed)


def hostile_commands(machine, steps, place):
    bases = fitting_words(machine), own_words(steps, place)
    for function in WORDS:
        found = {}
        for base in bases:
            found.update(dict.fromkeys(with_edges(base.get(function, [0] * len(WORDS[function])))))
        for words in found:
            yield function, list(words)


class Asking:
    def __init__(self, program, folder):
        self.program = program
        self.paths = [os.path.join(folder, name) for name in ("history", "certificate")]

    def expect(self, opening, cpus, steps):
        for path, text in zip(self.paths, texts_of(opening, cpus, steps)):
            with open(path, "w", encoding="ascii") as file:
                file.write(text)
        done = subprocess.run([self.program, "check", *self.paths], stdout=subprocess.PIPE, text=True, check=False)
        if done.stdout == f"yes {len(steps)}\n":
            return None
        failed = re.match(r"no ([0-9]+) ", done.stdout)
        return f"{done.stdout!r}: {steps[int(failed[1]) - 1] if failed else steps[-1]}"


def send(asking, opening, cpus, steps, place, counts):
    """Sends all commands in the state after so many steps. The first difference, where there is one."""
    script = steps[:place]
    machine, refused = replayed(opening, script), []
    for function, words in hostile_commands(machine, steps, place):
        for cpu in range(cpus):
            reply = machine.answer(cpu, function, words)
            counts[reply.split()[0]] += 1
            step = cpu, function, words, reply
            if not reply.startswith("ok"):
                refused.append(step)
                continue
            machine = replayed(opening, script)
            if difference := asking.expect(opening, cpus, [*script, step]):
                return difference
    return asking.expect(opening, cpus, [*script, *refused])


def send_all(task):
    program, (history, certificate) = task
    opening, cpus, steps = steps_of(history, certificate)
    counts = collections.Counter()
    with tempfile.TemporaryDirectory() as folder:
        asking = Asking(program, folder)
        for place in range(len(steps) + 1):
            if difference := send(asking, opening, cpus, steps, place, counts):
                return history, len(steps) + 1, counts, difference
    return history, len(steps) + 1, counts, None


def main():
    parser = argparse.ArgumentParser(usage=__doc__)
    parser.add_argument("--program", default=PROGRAM)
    parser.add_argument("--jobs", type=int, default=os.cpu_count())
    parser.add_argument("examples", nargs="*")
    words = parser.parse_args()
    tasks = [(words.program, pair) for pair in examples() if not words.examples or pair[0] in words.examples]
    states, all_counts = 0, collections.Counter()
    with multiprocessing.Pool(words.jobs) as pool:
        for history, count, counts, difference in pool.imap_unordered(send_all, tasks):
            if difference:
                sys.exit(f"{history}: {difference}")
            print(f"{history}: {count} states, {sum(counts.values())} commands", flush=True)
            states += count
            all_counts += counts
    told = ", ".join(f"{count} {kind}" for kind, count in sorted(all_counts.items()))
    print(f"{states} states, {sum(all_counts.values())} commands: {told}")


if __name__ == "__main__":
    main()
