#!/usr/bin/env python3
"""Compares rmmfind with a plain search over all orders, on short histories of 1 to 4 CPUs.

usage: orders.py [--program PATH] [--jobs JOBS] [HISTORIES [SEED]]

Every other history has one reply or one word changed. The search here tries each call that may come next, on a copy of the machine of
machine.py, keeps nothing, and tries each end of a stretch that a call without a return may have reached. Where rmmfind
prints an order, judge.py has to say `yes` of it; where it prints `none`, the search here has to find no order either, and of the line that is
told none up to it, and one up to the line before.
Nothing about it is proved.
"""
import argparse
import collections
import copy
import multiprocessing
import os
import random
import re
import subprocess
import sys
import tempfile

from places import built
from compare import with_other_reply, with_other_word
from explore import Explorer
from generate import run
from judge import BadLine, judge, read_history
from machine import Machine

PROGRAM = built("rmmfind")
HISTORIES_A_TASK = 25


def next_machines(machine, cpu, function, words, reply):
    """The machine after the call: with its reply, or with each that it may be given where it has none."""
    ends = []

    def first(tops):
        ends.extend(tops)
        return tops[0]

    if reply is not None:
        def recorded(tops):
            told = [top for top in tops if f"ok {top:x}" == reply]
            return told[0] if told else tops[0]

        after = copy.deepcopy(machine)
        return [after] if after.answer(cpu, function, words, recorded) == reply else []
    after = copy.deepcopy(machine)
    after.answer(cpu, function, words, first)
    machines = [after]
    for end in ends[1:]:
        after = copy.deepcopy(machine)
        after.answer(cpu, function, words, lambda tops, end=end: end)
        machines.append(after)
    return machines


def has_order(machine, calls, left):
    """Whether some order of the calls that are left, by CPU, follows: each finished one, and some of the others."""
    open_calls = [calls[cpu, numbers[0]] for cpu, numbers in left.items() if numbers]
    returns = [call[3] for call in open_calls if call[3] is not None]
    if not returns:
        return True
    for cpu, numbers in left.items():
        if not numbers:
            continue
        called, function, words, returned, reply = calls[cpu, numbers[0]]
        if called > min(returns):
            continue
        rest = {**left, cpu: numbers[1:]}
        for after in next_machines(machine, cpu, function, words, reply if returned is not None else None):
            if has_order(after, calls, rest):
                return True
    return False


def some_order(history):
    machine, calls = read_history(history)
    left = collections.defaultdict(list)
    for cpu, number in sorted(calls):
        left[cpu].append(number)
    return has_order(machine, calls, dict(left))


def is_told(history, answer):
    """Whether the answer tells that there is no order, and of which return, if of one, no order is left."""
    told = re.fullmatch(r"none\n(?:no order survives line (\d+)\n)?", answer)
    if not told or not told[1]:
        return bool(told)
    lines = history.splitlines(keepends=True)
    up_to = int(told[1])
    return not some_order("".join(lines[:up_to])) and some_order("".join(lines[:up_to - 1]))


def short_history(draw, changed):
    machine = Machine(draw.choice([2, 8, 16, 24, 40]))
    source = Explorer(machine, draw)
    count = draw.randint(1, 4)
    lines = draw.randint(2, {1: 60, 2: 40, 3: 26, 4: 20}[count])
    texts = list(run(machine, source, count, lines, draw, draw.choice([max, min, draw.choice])))
    if changed:
        draw.choice([with_other_reply, with_other_reply, with_other_word])(texts, draw)
    return "".join(f"{line}\n" for line in texts[0])


def compare(task):
    program, first, count, seed = task
    draw = random.Random(f"{seed} {first}")
    answers = collections.Counter()
    with tempfile.TemporaryDirectory() as folder:
        path = os.path.join(folder, "history")
        for at in range(count):
            history = short_history(draw, at % 2 == 1)
            with open(path, "w", encoding="ascii", newline="") as file:
                file.write(history)
            done = subprocess.run([program, path], stdout=subprocess.PIPE, text=True, check=False)
            try:
                found = some_order(history)
            except BadLine as bad:
                found = None
                agrees = (done.returncode, done.stdout) == (2, f"fault history {bad}\n")
            if found is not None and done.returncode == 0:
                agrees = found and judge(history, done.stdout)[0] == 0
            elif found is not None:
                agrees = not found and done.returncode == 1 and is_told(history, done.stdout)
            if not agrees:
                return answers, f"{history!r}: {done.stdout!r} with {done.returncode}, and an order is {found}"
            kind = "bad line" if found is None else "order" if found else "none"
            answers[("changed: " if at % 2 else "as it was: ") + kind] += 1
    return answers, None


def main():
    parser = argparse.ArgumentParser(usage=__doc__)
    parser.add_argument("--program", default=PROGRAM)
    parser.add_argument("--jobs", type=int, default=os.cpu_count())
    parser.add_argument("histories", type=int, nargs="?", default=1000)
    parser.add_argument("seed", type=int, nargs="?", default=1)
    words = parser.parse_args()
    answers = collections.Counter()
    tasks = [(words.program, first, min(HISTORIES_A_TASK, words.histories - first), words.seed)
             for first in range(0, words.histories, HISTORIES_A_TASK)]
    with multiprocessing.Pool(words.jobs) as pool:
        for some, difference in pool.imap_unordered(compare, tasks):
            if difference:
                sys.exit(difference)
            answers += some
    for kind, times in sorted(answers.items()):
        print(f"{times:8} {kind}")


if __name__ == "__main__":
    main()
