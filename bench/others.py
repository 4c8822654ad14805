#!/usr/bin/env python3
"""Gives rmmfind histories that generate.py doesn't draw, good ones and ones with a changed reply, and times it beside rmmcheck.

usage: others.py [--find PATH] [--check PATH] [--seconds S] [--loads LOAD ..] [--lines COUNT ..] [--refusals | --changes]
                 [--instructions] [SEED]

Eight CPUs call all the time, on 4,096 granules. Under `few` they delegate and undelegate four granules. Under `late` they do so with all,
and each return may be delayed by up to 64 events. Under `recs` one realm has a REC on each CPU, and these extend and read the same
four registers; under `recs-2` and `recs-4` so many realms share the CPUs. Under `parallel` all give pages to one new realm and set its
RIPAS; under `stretches` its RECs ask for other RIPAS, which is set in parts while pages come and go; under `stretches-late` returns may be
delayed too, under `narrow` it is done in sixteen pages without delay, whose entries the host reads, and under `roaming` any CPU enters
any REC; under `roaming-late` returns may be delayed too, and under `stopping` all CPUs but one stop, one after another, each in a call.
A reply is changed at the beginning, in the middle or at the end; it may be right in another order. What was found is printed
after the seconds that it took, and how many checks that is of the good history's lines up to the change.
The loads of generate.py can be named too. With `--refusals`, of each function a call late in the history that was carried out is refused
instead, once with each status; 200 events follow it. With `--changes`, of each function a call late in the history that was carried out and
one that was refused get each other reply that is near: another status, none, or a word that is more or less. `--instructions` counts
instructions in place of seconds, with valgrind.
"""
import argparse
import collections
import math
import os
import random
import re
import subprocess
import sys
import tempfile
import time
from functools import partial

sys.dont_write_bytecode = True
HERE = os.path.dirname(os.path.abspath(__file__))
sys.path.append(os.path.join(HERE, "../tests"))
from compare import changed_reply
from functions import (DATA_CREATE, DATA_CREATE_UNKNOWN, DATA_DESTROY, EXIT, GRANULE_DELEGATE, GRANULE_UNDELEGATE, IPA_STATE_GET,
                       IPA_STATE_SET, MEASUREMENT_EXTEND, MEASUREMENT_READ, NAMES, REALM_ACTIVATE, REALM_CREATE, REC_CREATE, REC_ENTER,
                       RTT_CREATE, RTT_INIT_RIPAS, RTT_READ_ENTRY, RTT_SET_RIPAS)
from generate import run
from lives import CPUS, GRANULES
from loads import LOADS as DRAWN
from machine import Machine
from tables import ENTRIES, LAST_LEVEL, PAGE_BYTES

FIND = os.path.join(HERE, "../crates/rmmfind/out/rmmfind")
CHECK = os.path.join(HERE, "../crates/check_only/out/check_only")


class Few:
    """Delegations of so many granules, which the CPUs fight for."""

    def __init__(self, machine, draw, count=4):
        self.machine, self.draw, self.count = machine, draw, count
        self.first = ()

    def command(self, _cpu):
        address = self.draw.randrange(self.count) * PAGE_BYTES
        kinds = [GRANULE_DELEGATE, GRANULE_UNDELEGATE]
        likely = kinds[address in self.machine.tags]
        return (likely if self.draw.random() < 0.8 else self.draw.choice(kinds)), [address]


class Many(Few):
    def __init__(self, machine, draw):
        super().__init__(machine, draw, GRANULES)


class OneRealm:
    """A realm whose tables reach the last level at IPA 0."""

    rd, root = 0, PAGE_BYTES

    def __init__(self, machine, draw):
        self.machine, self.draw = machine, draw
        self.first = list(self.beginning())

    def beginning(self):
        granules = [granule * PAGE_BYTES for granule in range(4 + 3 * CPUS)]
        yield from ((GRANULE_DELEGATE, [granule]) for granule in granules)
        yield REALM_CREATE, [self.rd, self.root, 0x27, 1, 1, 0]
        for level in range(2, LAST_LEVEL + 1):
            yield RTT_CREATE, [self.rd, level * PAGE_BYTES, 0, level]

    def words(self, count):
        return [self.draw.getrandbits(64) for _ in range(count)]


class Recs(OneRealm):
    """RECs of one realm, one on each CPU, that extend and read four registers."""

    def beginning(self):
        yield from super().beginning()
        for cpu in range(CPUS):
            rec, aux0, aux1 = self.granules_of(cpu)
            yield REC_CREATE, [self.rd, rec, cpu, 1, aux0, aux1]
        yield REALM_ACTIVATE, [self.rd]

    def granules_of(self, cpu):
        return [(4 + 3 * cpu + at) * PAGE_BYTES for at in range(3)]

    def command(self, cpu):
        if cpu not in self.machine.running:
            return REC_ENTER, self.granules_of(cpu)[:1]
        kind = self.draw.random()
        if kind < 0.1:
            return EXIT, []
        if kind < 0.4:
            return MEASUREMENT_READ, [self.draw.randint(1, 4)]
        return MEASUREMENT_EXTEND, [self.draw.randint(1, 4), self.draw.randint(1, 0x40), *self.words(8)]


class SharedRecs(Recs):
    """So many realms, each with RECs on as many CPUs, that extend and read the four registers of their realm."""

    def __init__(self, machine, draw, realms):
        self.realms = realms
        super().__init__(machine, draw)

    def beginning(self):
        yield from ((GRANULE_DELEGATE, [granule * PAGE_BYTES]) for granule in range(2 * self.realms + 3 * CPUS))
        for realm in range(self.realms):
            rd = 2 * realm * PAGE_BYTES
            yield REALM_CREATE, [rd, rd + PAGE_BYTES, 0x27, 1, 1 + realm, 0]
            for index, cpu in enumerate(range(realm, CPUS, self.realms)):
                rec, aux0, aux1 = self.granules_of(cpu)
                yield REC_CREATE, [rd, rec, index, 1, aux0, aux1]
            yield REALM_ACTIVATE, [rd]

    def granules_of(self, cpu):
        return [(2 * self.realms + 3 * cpu + at) * PAGE_BYTES for at in range(3)]


class Parallel(OneRealm):
    """Pages that are given to a new realm, measured and taken back, and parts of it that become RAM."""

    def command(self, cpu):
        ipa = self.draw.randrange(ENTRIES) * PAGE_BYTES
        page = (4 + 3 * cpu + self.draw.randrange(3)) * PAGE_BYTES
        kind = self.draw.random()
        if kind < 0.4:
            return RTT_INIT_RIPAS, [self.rd, ipa, ipa + self.draw.randint(1, 4) * PAGE_BYTES]
        if kind < 0.6:
            return DATA_DESTROY, [self.rd, ipa]
        return DATA_CREATE, [self.rd, page, ipa, (GRANULES - 1) * PAGE_BYTES, self.draw.randrange(2), *self.words(4)]


class Stretches(Recs):
    """RECs of one realm that ask for memory, which is given in parts, while pages are mapped there and taken back."""

    pages = [granule * PAGE_BYTES for granule in range(64, 128)]
    width, longest, looks = ENTRIES - 64, 64, 0.5

    def beginning(self):
        yield from ((GRANULE_DELEGATE, [page]) for page in self.pages)
        yield from super().beginning()

    def command(self, cpu):
        address = self.granules_of(cpu)[0]
        rec, request = self.machine.running.get(cpu), self.machine.recs[address].request
        ipa = self.draw.randrange(self.width) * PAGE_BYTES
        if rec:
            return (EXIT, []) if rec.pending else self.asked(ipa)
        if request and request.base < request.top and self.draw.random() < 0.7:
            top = self.draw.randrange(request.base, request.top, PAGE_BYTES) + PAGE_BYTES
            return RTT_SET_RIPAS, [self.rd, address, request.base, top]
        return self.draw.choice([(REC_ENTER, [address]), *self.host_calls(ipa)])

    def asked(self, ipa):
        if self.draw.random() < self.looks:
            return IPA_STATE_GET, [ipa]
        return IPA_STATE_SET, [ipa, ipa + self.draw.randint(1, self.longest) * PAGE_BYTES, self.draw.randrange(2)]

    def host_calls(self, ipa):
        return [(DATA_CREATE_UNKNOWN, [self.rd, self.draw.choice(self.pages), ipa]), (DATA_DESTROY, [self.rd, ipa])]


class Narrow(Stretches):
    """The same in few pages, whose entries the host reads too."""

    width, longest, looks = 16, 16, 0.6

    def host_calls(self, ipa):
        return [*super().host_calls(ipa), (RTT_READ_ENTRY, [self.rd, ipa, LAST_LEVEL])]


class Roaming(Stretches):
    """The same of RECs that any CPU enters, and whose RIPAS any CPU sets."""

    def command(self, cpu):
        rec, ipa = self.machine.running.get(cpu), self.draw.randrange(self.width) * PAGE_BYTES
        if rec:
            return (EXIT, []) if rec.pending or self.draw.random() < 0.1 else self.asked(ipa)
        address = self.granules_of(self.draw.randrange(CPUS))[0]
        request = self.machine.recs[address].request
        if request and request.base < request.top and self.draw.random() < 0.7:
            top = self.draw.randrange(request.base, request.top, PAGE_BYTES) + PAGE_BYTES
            return RTT_SET_RIPAS, [self.rd, address, request.base, top]
        return self.draw.choice([(REC_ENTER, [address]), *self.host_calls(ipa)])


# How a load is drawn: by how many events its returns may be delayed, and whether all CPUs but the last stop one after another.
Load = collections.namedtuple("Load", "kind delay stops", defaults=(1, False))

LOADS = {"few": Load(Few), "late": Load(Many, 64), "recs": Load(Recs), "recs-2": Load(partial(SharedRecs, realms=2)),
         "recs-4": Load(partial(SharedRecs, realms=4)), "parallel": Load(Parallel), "stretches": Load(Stretches),
         "stretches-late": Load(Stretches, 64), "narrow": Load(Narrow), "roaming": Load(Roaming), "roaming-late": Load(Roaming, 64),
         "stopping": Load(Roaming, 1, True)}


def call_line(cpu, number, function, words):
    return " ".join(["c", str(cpu), str(number), function, *(f"{word:x}" for word in words)])


def texts_of(load, count, draw):
    """A good history and the certificate of its commits: each reply is the machine's at the commit."""
    machine = Machine(GRANULES)
    if load not in LOADS:
        return run(machine, DRAWN[load](machine, draw), CPUS, count, draw)
    kind, delay, stops = LOADS[load]
    source = kind(machine, draw)
    history = [f"rmh1 {GRANULES} {CPUS}"]
    commits = []
    calls = [0] * CPUS
    waiting = [None] * CPUS
    for function, words in source.first:
        history.append(call_line(0, calls[0], function, words))
        commits.append((0, calls[0], machine.answer(0, function, words)))
        history.append(f"r 0 {calls[0]} {commits[-1][2]}")
        calls[0] += 1
    first = len(history)
    ends = [first + (count - first) * (cpu + 1) // CPUS if stops else count for cpu in range(CPUS)]
    while len(history) < count:
        cpu = draw.randrange(CPUS)
        state = waiting[cpu]
        if state is None:
            function, words = source.command(cpu)
            history.append(call_line(cpu, calls[cpu], function, words))
            waiting[cpu] = (function, words)
        elif len(history) >= ends[cpu]:
            continue
        elif len(state) == 2:
            waiting[cpu] = (*state, machine.answer(cpu, *state), len(history) + draw.randint(0, delay - 1))
            commits.append((cpu, calls[cpu], waiting[cpu][2]))
        elif state[3] <= len(history):
            history.append(f"r {cpu} {calls[cpu]} {state[2]}")
            calls[cpu] += 1
            waiting[cpu] = None
        elif all(other and len(other) == 4 for other, end in zip(waiting, ends) if len(history) < end):
            waiting[cpu] = (*state[:3], len(history))
    certificate = [f"k {cpu} {number}" if number < calls[cpu] else f"u {cpu} {number} {reply}" for cpu, number, reply in commits]
    return history, certificate


def lines_of(load, count, draw):
    return texts_of(load, count, draw)[0]


def changed_at(history, place, draw):
    while not history[place].startswith("r "):
        place -= 1
    cpu, number, reply = history[place][2:].split(" ", 2)
    changed = list(history)
    changed[place] = f"r {cpu} {number} {changed_reply(reply, draw)}"
    return changed


def refusals(history):
    """For each function the history in which the call in the middle of those of its last third is refused, by the refusal."""
    calls, done = {}, collections.defaultdict(list)
    for place, line in enumerate(history):
        kind, *words = line.split()
        if kind == "c":
            calls[words[0], words[1]] = words[2]
        elif kind == "r" and words[2] == "ok" and place > 2 * len(history) // 3:
            done[calls[words[0], words[1]]].append(place)
    for function, places in sorted(done.items()):
        place = places[len(places) // 2]
        _, cpu, number, *_ = history[place].split()
        for reply in ("err 1 0", "err 2 0", "err 3 0", "err 4 3"):
            refused = f"r {cpu} {number} {reply}"
            yield f"{NAMES[function]} {reply}", [*history[:place], refused, *history[place + 1:place + 200]]


def near(reply):
    """Other replies like one."""
    first, *words = reply.split()
    refusals = ["err 1 0", "err 2 0", "err 3 0", "err 4 2", "err 4 3"]
    yield from (other for other in [*refusals, *["ok"] * (first == "err")] if other != reply)
    for place, word in enumerate(words if first == "ok" else []):
        number = int(word, 16)
        others = [number ^ 1] if number < 4 else [number + PAGE_BYTES, number - PAGE_BYTES] if number >= PAGE_BYTES else [number + 1]
        for other in others:
            yield " ".join([first, *words[:place], f"{other:x}", *words[place + 1:]])


def changes(history):
    """For each function, and for calls that were carried out and refused, the histories in which the middle one of the last third is replied so."""
    calls, returned = {}, collections.defaultdict(list)
    for place, line in enumerate(history):
        kind, *words = line.split()
        if kind == "c":
            calls[words[0], words[1]] = words[2]
        elif kind == "r" and place > 2 * len(history) // 3:
            returned[calls[words[0], words[1]], words[2]].append(place)
    for (function, _), places in sorted(returned.items()):
        place = places[len(places) // 2]
        _, cpu, number, reply = history[place].split(" ", 3)
        for other in near(reply):
            yield f"{NAMES[function]} {reply[:20]}: {other[:24]}", [*history[:place], f"r {cpu} {number} {other}", *history[place + 1:place + 200]]


def answer_of(done):
    return "order" if done.returncode == 0 else done.stdout.strip().replace("\n", ", ") or f"status {done.returncode}"


def timed(command, seconds):
    """What a program answers, and how many seconds it takes."""
    start = time.time()
    try:
        done = subprocess.run(command, stdout=subprocess.PIPE, stderr=subprocess.DEVNULL, text=True, timeout=seconds, check=False)
    except subprocess.TimeoutExpired:
        return "nothing", math.inf
    return answer_of(done), time.time() - start


def counted(command, _seconds):
    """What a program answers, and how many million instructions it takes."""
    tool = ["valgrind", "--tool=callgrind", "--callgrind-out-file=/dev/null"]
    done = subprocess.run([*tool, *command], stdout=subprocess.PIPE, stderr=subprocess.PIPE, text=True, check=False)
    return answer_of(done), int(re.search(r"Collected : (\d+)", done.stderr)[1]) / 1e6


def written(folder, name, lines):
    path = os.path.join(folder, name)
    with open(path, "w", encoding="ascii", newline="\n") as file:
        file.write("".join(f"{line}\n" for line in lines))
    return path


def kinds_of(good, draw, changed):
    """The histories to search, by what was changed, each with the share of a check that leads up to the change."""
    count = len(good)
    if changed:
        return [(kind, history, (len(history) - 200) / count) for kind, history in changed(good)]
    places = {"beginning": count // 10, "middle": count // 2, "end": count - 1}
    return [("good", good, 1), *((kind, changed_at(good, place, draw), place / count) for kind, place in places.items())]


def main():
    parser = argparse.ArgumentParser(usage=__doc__)
    parser.add_argument("--find", default=FIND)
    parser.add_argument("--check", default=CHECK)
    parser.add_argument("--seconds", type=float, default=60)
    parser.add_argument("--loads", nargs="*", default=list(LOADS))
    parser.add_argument("--lines", type=int, nargs="*", default=[1000, 10000])
    changed = parser.add_mutually_exclusive_group()
    changed.add_argument("--refusals", dest="changed", action="store_const", const=refusals)
    changed.add_argument("--changes", dest="changed", action="store_const", const=changes)
    parser.add_argument("--instructions", action="store_true")
    parser.add_argument("seed", type=int, nargs="?", default=1)
    words = parser.parse_args()
    measure, unit = (counted, "million instructions") if words.instructions else (timed, "s")
    for load in words.loads:
        for count in words.lines:
            draw = random.Random(f"{words.seed} {load} {count}")
            good, certificate = texts_of(load, count, draw)
            with tempfile.TemporaryDirectory() as folder:
                texts = [written(folder, "history", good), written(folder, "certificate", certificate)]
                _, check = measure([words.check, *texts], words.seconds)
                for kind, history, share in kinds_of(good, draw, words.changed):
                    answer, spent = measure([words.find, written(folder, "searched", history)], words.seconds)
                    print(f"{load:9} {count:8} {kind:{58 if words.changed else 10}} {spent:9.2f} {unit}, "
                          f"{spent / check / share:5.1f} checks: {answer}", flush=True)


if __name__ == "__main__":
    main()
