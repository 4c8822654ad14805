#!/usr/bin/env python3
"""Compares what rmmexplain says of refused lines with what replaying them says: the condition, and since which step it fails.

usage: causes.py [--program PATH] [--jobs COUNT] [RUNS [SEED]]

A run is one of explore.py in which one reply is changed, or one line of the certificate is moved. Each condition of PROFILE.md is written
once more in host_conditions.py and realm_conditions.py, as a test of the machine of machine.py. That machine takes the lines before the one that fails, and the test is asked after
each. It turned at the last step before which it held. One on a realm or a REC is asked of the one that stands there now: where it never held
of that one, the step that made it is the cause, and the last step that changed what it is read from is told too, which is no earlier. One on
a word alone is told by that word. The state before the line, the calls that never returned, the later step of an overlapping call and what
`--rows` counts are compared as well. It prints how often each condition decided, and how its cause was told. Status 1 at a run on which the
two differ.
"""
import argparse
import collections
import copy
import json
import multiprocessing
import os
import random
import re
import subprocess
import sys
import tempfile
from collections import namedtuple

from places import built
from compare import changed_reply
from explore import Explorer
from functions import NAMES, REALM_CALLS, WORDS
from generate import run
from judge import gives, judge, read_certificate, read_history
from machine import Machine
from condition_tests import Condition, can_walk, is_granule, on_rec, on_walk, read_of, space, tag, walked
from host_conditions import HOST_CONDITIONS, is_idle
from realm_conditions import REALM_CONDITIONS
from records import DELEGATED, LARGE, OFF, REC_AUX, UNDELEGATED
from tables import ASSIGNED, TABLE, UNASSIGNED, UNASSIGNED_NS, entry_bytes, walk

PROGRAM = built("rmmexplain")
RUNS_A_TASK = 50

Sample = namedtuple("Sample", "is_there holds read")


def sampled(machine, condition):
    if not condition.about(machine):
        return Sample(False, False, None)
    return Sample(True, condition.holds(machine), condition.reads(machine))


# ---- the conditions of a call

def conditions_of(machine, cpu, function, words):
    """The command's conditions in their order. A realm's call is one of the REC inside which the CPU is now."""
    name, is_call = NAMES[function], function in REALM_CALLS
    if not is_call and name != "EXIT":
        return [Condition("own_outside", lambda it: cpu not in it.running, lambda it: inside(it, cpu)), *HOST_CONDITIONS[name](*words)]
    place = Condition("own_inside", lambda it: cpu in it.running, lambda it: inside(it, cpu))
    rec = machine.running.get(cpu)
    if not is_call or rec is None:
        return [place]
    idle = on_rec("own_pending", rec.address, lambda it: it.pending is None, leaving)
    return [place, idle, *REALM_CONDITIONS.get(name, lambda *_: [])(rec.address, *words)]


def inside(machine, cpu):
    return machine.running[cpu].address if cpu in machine.running else None


def leaving(rec):
    return tuple(rec.pending or [1, 0, 0, 0])


def failing(machine, cpu, function, words):
    """The first condition that fails, or None."""
    for condition in conditions_of(machine, cpu, function, words):
        if not condition.about(machine) or not condition.holds(machine):
            return condition
    return None


# ---- what the words of a reply are read from

def words_read(machine, cpu, function, words):
    """A function of a machine."""
    rec = inside(machine, cpu)
    rd = machine.recs[rec].rd if rec is not None else None
    named = dict(zip(WORDS[function], words))
    level = named.get("level", 3)
    if NAMES[function] in ("DATA_DESTROY", "RTT_DESTROY", "RTT_FOLD", "RTT_READ_ENTRY", "RTT_INIT_RIPAS", "RTT_SET_RIPAS"):
        deepest = level - 1 if NAMES[function] in ("RTT_DESTROY", "RTT_FOLD") else level
        return entry_read(named["rd"], named.get("ipa", named.get("base")), deepest)
    return {
        "IPA_STATE_GET": lambda: entry_read(rd, named.get("ipa"), 3),
        "REC_ENTER": lambda: lambda it: (it.recs[words[0]].request,) if words[0] in it.recs else None,
        "MEASUREMENT_READ": lambda: lambda it: ([it.realms[rd].rim, *it.realms[rd].rems][words[0]] if rd in it.realms else None),
        "REALM_CONFIG": lambda: lambda it: space(it.realms[rd]) if rd in it.realms else None,
        "EXIT": lambda: lambda it: leaving(it.recs[rec]) if rec in it.recs else None,
    }.get(NAMES[function], lambda: lambda it: None)()


def entry_read(rd, ipa, level):
    return lambda machine: read_of(*walked(machine, rd, ipa, level)) if can_walk(machine, rd, ipa) else None


# ---- the state before the line

TAGS = {REC_AUX: "REC_AUX", OFF: "SYSTEM_OFF"}
RIPAS = ["EMPTY", "RAM", "DESTROYED"]


def name_of(word):
    return TAGS.get(word, word.upper())


def before(machine, cpu, function, words):
    """The lines of the report, in which a REC's index is left out: the machine keeps none."""
    asked = conditions_of(machine, cpu, function, words)
    granules = [condition.granule for condition in asked if condition.granule is not None]
    rec = next((granule for granule in granules if granule in machine.recs), inside(machine, cpu))
    rd = next((granule for granule in granules if granule in machine.realms), machine.recs[rec].rd if rec is not None else None)
    yield from (granule_before(machine, granule) for granule in granules)
    if rd is not None:
        yield realm_before(rd, machine.realms[rd])
    if rec is not None:
        yield rec_before(rec, machine.recs[rec])
    named = dict(zip(WORDS[function], words))
    ipa = named.get("ipa", named.get("base"))
    are_allowed = NAMES[function] == "RTT_SET_RIPAS" or all(it.holds(machine) for it in asked if it.word)
    if function not in REALM_CALLS and ipa is not None and are_allowed:
        is_above = NAMES[function] in ("RTT_CREATE", "RTT_DESTROY", "RTT_FOLD")
        yield from walk_before(machine, named["rd"], ipa, max(named.get("level", 3) - is_above, 0))


def granule_before(machine, granule):
    if not is_granule(machine, granule):
        return f"{granule:x} is no granule"
    owner = next((rd for rd in machine.realms if granule in granules_of(machine, rd)), None)
    of_realm = "" if owner in (None, granule) else f", of the realm at {owner:x}"
    return f"{granule:x} is {name_of(machine.tags.get(granule, UNDELEGATED))}{of_realm}"


def granules_of(machine, rd):
    recs = (machine.recs[rec] for rec in machine.realms[rd].recs)
    return {rd, *(part for rec in recs for part in (rec.address, rec.aux0, rec.aux1)), *granules_below(machine.realms[rd].root)}


def granules_below(table):
    yield table.granule
    for entry in table.entries:
        if entry.state == ASSIGNED:
            yield entry.address
        elif entry.state == TABLE:
            yield from granules_below(entry.table)


def realm_before(rd, realm):
    return (f"the realm at {rd:x} is {name_of(realm.state)}: width={realm.width:x} start_level={realm.level:x} vmid={realm.vmid:x} "
            f"algo={realm.algo:x} root={realm.root.granule:x} next_index={realm.made_recs:x}")


def rec_before(address, rec):
    place = "isn't runnable" if not rec.runnable else "can be entered"
    parts = [f"the REC at {address:x} has index ? in the realm at {rec.rd:x}", place if rec.cpu is None else f"runs on CPU {rec.cpu}"]
    if rec.pending:
        kind, word, *_ = rec.pending
        parts.append(f"waits to leave for {['PSCI call', 'a change of RIPAS', 'host call'][kind - 3]}{'' if kind == 4 else f' {word:x}'}")
    if rec.request:
        parts.append(f"asked for RIPAS {RIPAS[rec.request.ripas]} from {rec.request.base:x} to {rec.request.top:x}")
    return ", ".join(parts)


def walk_before(machine, rd, ipa, deepest):
    if can_walk(machine, rd, ipa):
        realm = machine.realms[rd]
        for level in range(realm.level, min(walk(realm.root, ipa, deepest).level, deepest) + 1):
            yield f"the entry for {ipa:x} at level {level} is {entry_before(*read_of(*walked(machine, rd, ipa, level))[1:])}"


def entry_before(kind, address, ripas):
    return ["unassigned", f"assigned to {address:x}", f"TABLE at {address:x}"][kind] + (f" with RIPAS {RIPAS[ripas]}" if ripas else "")


# ---- since which step

def since_of(samples):
    """The step at which a condition turned, or those that made and last set what it speaks of."""
    began = len(samples) - 1
    while began and samples[began - 1].is_there and not samples[began - 1].holds:
        began -= 1
    if began and samples[began - 1].is_there:
        return {"turned": began}
    reads = [(sample.is_there, sample.read) for sample in samples[max(began - 1, 0):]]
    changed = last_change(reads)
    return steps(made=began, set=changed + max(began - 1, 0) if changed else None)


def accepted_since(accepted):
    began = len(accepted) - 1
    while began and accepted[began - 1]:
        began -= 1
    return steps(turned=began)


def last_change(reads):
    return max((step for step in range(1, len(reads)) if reads[step] != reads[step - 1]), default=None)


def steps(**named):
    return {name: step for name, step in named.items() if step}


# ---- the one of many that a condition names

def put_condition(machine, name, words):
    """What holds until the one that is named is put there."""
    if name == "realm_live":
        realm = machine.realms[words[0]]
        if realm.recs:
            return tag(min(realm.recs), DELEGATED)
        return put_entry(words[0], realm.root, realm.root.entries.index(next(it for it in realm.root.entries if it.state == TABLE)))
    if name in ("rtt_live", "own_alike"):
        rd, ipa, level = words
        table = walk(machine.realms[rd].root, ipa, level)
        first = table.entries[0]
        return put_entry(rd, table, next(place for place, it in enumerate(table.entries)
                                         if not is_idle([it]) or name == "own_alike" and it != first))
    return None


def put_entry(rd, table, place):
    entry, ipa = table.entries[place], table.base + place * entry_bytes(table.level)
    if entry.state == TABLE:
        return on_walk("", rd, ipa, table.level, lambda level, it: it.state != TABLE)
    if entry.state in (UNASSIGNED, UNASSIGNED_NS):
        return None
    return on_walk("", rd, ipa, table.level, lambda level, it: it.state in (UNASSIGNED, UNASSIGNED_NS))


# ---- one run

class Replay:
    """The lines of a run before the one that fails."""

    def __init__(self, texts, index):
        self.texts, self.index = texts, index
        self.machine, self.calls = read_history(texts[0])
        self.lines = list(read_certificate(texts[1]))
        self.rows = collections.Counter()
        self.take(self.count)
        cpu, number, claimed = self.lines[index]
        self.call = cpu, number
        self.called, function, words, self.returned, reply = self.calls[self.call]
        self.command = cpu, function, words
        self.claimed = reply if claimed is None else claimed

    def take(self, ask, machine=None):
        """What is asked of each state, with the command that comes next."""
        machine = machine or self.machine
        for line in self.lines[:self.index]:
            _, function, words, _, reply = self.calls[line[:2]]
            ask(machine, line[0], function, words)
            assert gives(machine, line[0], function, words, line[2] or reply)
        return machine

    def count(self, machine, cpu, function, words):
        condition = failing(machine, cpu, function, words)
        name = NAMES[function].replace("EXIT", "Exit")
        self.rows[name, condition.name if condition else "accepted"] += 1

    def asked(self, ask):
        """What is asked of each state up to the line that fails."""
        found = []
        machine = self.take(lambda machine, *_: found.append(ask(machine)), read_history(self.texts[0])[0])
        return [*found, ask(machine)]

    def expected(self):
        condition = failing(self.machine, *self.command)
        if condition:
            return self.refused_for(condition)
        if not self.claimed.startswith("ok"):
            return {"since": accepted_since(self.asked(lambda machine: failing(machine, *self.command) is None))}
        reads = self.asked(words_read(self.machine, *self.command))
        return {"word": self.wrong_word(), "since": steps(set=last_change(reads))}

    def refused_for(self, condition):
        found = {"condition": condition.name, "of": condition.word, "since": since_of(self.asked(lambda machine: sampled(machine, condition)))}
        put = put_condition(self.machine, condition.name, self.command[2])
        if put:
            turned = since_of(self.asked(lambda machine: sampled(machine, put))).get("turned")
            found |= steps(put=turned if turned != found["since"].get("turned") else None)
        return found | steps(late=self.late_step(condition))

    def wrong_word(self):
        claimed = self.claimed.split()[1:]
        tops = []
        reply = copy.deepcopy(self.machine).answer(*self.command, lambda found: tops.extend(found) or found[0]).split()[1:]
        if tops:
            return 1 if len(claimed) > 1 else 0
        return next(place for place in range(11) if claimed[place:place + 1] != reply[place:place + 1])

    def late_step(self, condition):
        """The first later line of an overlapping call with which the condition holds, each taken after those before it."""
        machine = self.machine
        for index in range(self.index + 1, len(self.lines)):
            line = self.lines[index]
            if line[:2] not in self.calls or not self.overlaps(self.calls[line[:2]]):
                continue
            _, function, words, returned, reply = self.calls[line[:2]]
            moved = copy.deepcopy(machine)
            if (line[2] is None) == (returned is None) or not gives(moved, line[0], function, words, line[2] or reply):
                continue
            machine = moved
            if condition.about(machine) and condition.holds(machine):
                return index + 1
        return None

    def overlaps(self, other):
        called, _, _, returned, _ = other
        return not (self.returned and self.returned < called) and not (returned and returned < self.called)

    def unfinished(self):
        named = {line[:2]: step for step, line in reversed(list(enumerate(self.lines, 1)))}
        return [(*call, named.get(call)) for call, (_, _, _, returned, _) in self.calls.items() if returned is None]


def found_in(told):
    """The same of an object of --json."""
    found = {"since": {name: it["step"] for name, it in told["since"].items()}}
    if "condition" in told:
        found["condition"] = told["condition"]["name"]
        fact = told["condition"]["fact"]
        found["of"] = (fact["name"], int(fact["word"], 16)) if fact["kind"] == "word" else None
    if "word" in told:
        found["word"] = told["word"]["index"]
    return found | {name: told[name]["step"] for name in ("put", "late") if name in told}


TEXTS = {
    "turned": re.compile(r"^since step (\d+), which", re.M),
    "made": re.compile(r"^it never held since step (\d+), which", re.M),
    "set": re.compile(r"^what it is read from was last changed by step (\d+), which", re.M),
}


def found_in_report(report):
    found = {name: text.search(report) for name, text in TEXTS.items()}
    return {name: int(match[1]) for name, match in found.items() if match}


def before_in_report(report):
    lines = report.split("before the step:\n")[1].splitlines()
    return [re.sub(" has index [0-9a-f]+ in ", " has index ? in ", line.strip()) for line in lines if line.startswith("    ")]


def told_once(since):
    """A report names a step once."""
    return {name: step for name, step in since.items() if name != "set" or step != since.get("made")}


def with_change(history, certificate, draw):
    if draw.random() < 0.3 and len(certificate) > 1:
        place = draw.randrange(len(certificate) - 1)
        certificate.insert(place + draw.randint(1, 5), certificate.pop(place))
        return
    places = [place for place, line in enumerate(history) if line.startswith("r ")]
    if places:
        place = max(draw.choice(places), draw.choice(places))
        cpu, number, reply = history[place][2:].split(" ", 2)
        is_refused = not reply.startswith("ok")
        history[place] = f"r {cpu} {number} {'ok' if is_refused and draw.random() < 0.7 else changed_reply(reply, draw)}"


def texts_of(draw):
    machine = Machine(draw.choice([8, 16, 24, 32, 40, 40]), draw.choice([1, 2, 2, LARGE]))
    source = Explorer(machine, draw)
    cpus, lines = draw.choice([1, 2, 4, 8]), draw.choice([60, 150, 300, 300])
    texts = run(machine, source, cpus, lines, draw, draw.choice([max, min, draw.choice]))
    with_change(*texts, draw)
    return ["".join(f"{line}\n" for line in lines) for lines in texts]


def printed(program, option, paths):
    return subprocess.run([program, option, *paths], stdout=subprocess.PIPE, text=True, check=False).stdout


def compared(program, texts, paths, with_rows):
    """What was compared, and what differs."""
    _, verdict = judge(*texts)
    if not verdict.endswith(" reply"):
        return None, None
    replay = Replay(texts, int(verdict.split()[1]) - 1)
    state_before = list(before(replay.machine, *replay.command))
    expected, told = replay.expected(), json.loads(printed(program, "--json", paths))
    wanted = expected, told_once(expected["since"]), replay.unfinished(), state_before
    found = (found_in(told), found_in_report(told["report"]),
             [(call["cpu"], call["number"], call.get("step")) for call in told["unfinished"]], before_in_report(told["report"]))
    if wanted != found:
        return None, f"{wanted}, and not {found}"
    if with_rows:
        rows = {tuple(line.split()[:2]): int(line.split()[2]) for line in printed(program, "--rows", paths).splitlines()}
        if rows != replay.rows:
            return None, f"{replay.rows}, and not {rows}"
    return expected, None


def kind_of(expected):
    decides = expected.get("condition") or ("a word" if "word" in expected else "accepted")
    return decides, *expected["since"], *(name for name in ("put", "late") if name in expected)


def compare(task):
    """Compares the runs of a task. How often each kind of answer came, and the first difference."""
    program, count, seed = task
    draw, kinds = random.Random(seed), collections.Counter()
    with tempfile.TemporaryDirectory() as folder:
        paths = [os.path.join(folder, name) for name in ("history", "certificate")]
        for number in range(count):
            texts = texts_of(draw)
            for path, text in zip(paths, texts):
                with open(path, "w", encoding="ascii", newline="") as file:
                    file.write(text)
            expected, difference = compared(program, texts, paths, number % 10 == 0)
            if difference:
                return kinds, f"run {number} of {seed!r}: {difference}"
            if expected:
                kinds[kind_of(expected)] += 1
    return kinds, None


def main():
    parser = argparse.ArgumentParser(usage=__doc__)
    parser.add_argument("--program", default=PROGRAM)
    parser.add_argument("--jobs", type=int, default=os.cpu_count())
    parser.add_argument("runs", type=int, nargs="?", default=2000)
    parser.add_argument("seed", type=int, nargs="?", default=1)
    words = parser.parse_args()
    tasks = [(words.program, min(RUNS_A_TASK, words.runs - first), f"{words.seed} {first}") for first in range(0, words.runs, RUNS_A_TASK)]
    kinds = collections.Counter()
    with multiprocessing.Pool(words.jobs) as pool:
        for some, difference in pool.imap_unordered(compare, tasks):
            if difference:
                sys.exit(difference)
            kinds += some
    told = collections.defaultdict(list)
    for (decides, *others), times in sorted(kinds.items()):
        told[decides].append(f"{' '.join(others) or 'never'} {times}")
    for decides, answers in told.items():
        print(f"{decides}: {', '.join(answers)}")
    print(f"{kinds.total()} refused lines of {words.runs} runs")


if __name__ == "__main__":
    main()
