#!/usr/bin/env python3
"""Compares machine.py with the specification machine step by step: over all scripts of `cases`, and over a million steps at random.

usage: steps.py [--program PATH] [--jobs COUNT] [STEPS [SEED]]

What a script is to be answered stands in its file, and the program `cases` asks it of the specification machine; here judge.py is asked, over
machine.py. At random the calls are those of explore.py, in runs of 2,000 lines on up to eight CPUs and all three versions. Their replies are
machine.py's, so the built program has to judge each run `yes`. It prints how many steps of each kind agree, and ends with status 1 at the first
that doesn't.
"""
import argparse
import itertools
import multiprocessing
import os
import pathlib
import random
import re
import subprocess
import sys
import tempfile

from places import built
from explore import Explorer
from functions import NAMES
from generate import run
from judge import judge
from machine import Machine
from records import MARKS

PROGRAM = built("check_only")
DATA = pathlib.Path(__file__).resolve().parent.parent / "crates" / "cases" / "data"
NUMBERS = {name: number for number, name in NAMES.items()}
REPEATED = re.compile(r"\\repeat (\d+) (.*)")
LINES_A_RUN = 2000
RUNS_A_TASK = 10


class Script:
    """A history and a certificate that grow by a step at a time, each returned before the next is made."""

    def __init__(self, words):
        mark = words.pop(0) if words[0] in MARKS.values() else "rmh1"
        granules = 1_048_576 if mark == "rml1" else 16
        self.history = [f"{mark} {granules} {words[0]}"]
        self.certificate = []
        self.calls = [0] * 8
        for number in range(int(words[1])):
            self.add(f"GRANULE_DELEGATE {(number + 1) * 0x1000:x} -> ok")

    def copy(self):
        other = Script.__new__(Script)
        other.history, other.certificate, other.calls = self.history[:], self.certificate[:], self.calls[:]
        return other

    def add_all(self, line):
        repeated = REPEATED.match(line)
        if repeated:
            steps = [repeated[2].replace("#", str(number)).replace("@", f"{number:03x}") for number in range(int(repeated[1]))]
        else:
            steps = line.split("; ")
        for step in steps:
            self.add(step)

    def add(self, step):
        call, _, reply = step.partition(" -> ")
        cpu, command = call.split(": ") if ": " in call else ("0", call)
        name, *words = command.split()
        number = self.calls[int(cpu)]
        self.calls[int(cpu)] += 1
        self.history += [" ".join([f"c {cpu} {number} {NUMBERS[name.upper()]}", *words]), f"r {cpu} {number} {reply or 'ok'}"]
        self.certificate.append(f"k {cpu} {number}")

    def answer(self):
        return judge("\n".join(self.history) + "\n", "\n".join(self.certificate) + "\n")[1]


def is_verdict(answer):
    return answer.startswith(("yes ", "no "))


def asked(text):
    """The scripts of a file that ask for a verdict, each with the verdict."""
    script = None
    lines = text.split("\n") + [""]
    for at, line in enumerate(lines):
        statement, _, answer = line.partition(" => ")
        word, _, rest = statement.partition(" ")
        if word == "case":
            script = None
        elif word == "script":
            script = Script(rest.split())
            for step in itertools.takewhile(lambda it: it.startswith("    "), lines[at + 1:]):
                script.add_all(step.strip())
        elif word == "step" and script:
            script.add_all(rest)
        elif word == "try" and script and is_verdict(answer):
            trial = script.copy()
            trial.add_all(rest)
            yield trial, answer
        if word in ("script", "step") and script and is_verdict(answer):
            yield script.copy(), answer


def steps_of_scripts():
    """How many steps the scripts have that are judged as their files say."""
    steps = 0
    for path in sorted(DATA.glob("*.txt")):
        for script, answer in asked(path.read_text(encoding="utf-8")):
            told = script.answer()
            if told != answer:
                sys.exit(f"{path.name}: judge.py says {told!r} and not {answer!r} of a script that ends in {script.history[-2:]}")
            steps += len(script.certificate)
    return steps


def random_steps(task):
    """How many steps of some runs are judged `yes`, and the first run that isn't."""
    program, seed = task
    draw = random.Random(seed)
    steps = 0
    with tempfile.TemporaryDirectory() as folder:
        paths = [os.path.join(folder, name) for name in ("history", "certificate")]
        for _ in range(RUNS_A_TASK):
            version = draw.choice(list(MARKS))
            machine = Machine(draw.choice([16, 24, 32, 40]), version)
            texts = run(machine, Explorer(machine, draw), draw.choice([1, 2, 4, 8]), LINES_A_RUN, draw, draw.choice([max, min, draw.choice]))
            for path, lines in zip(paths, texts):
                with open(path, "w", encoding="ascii", newline="") as file:
                    file.writelines(f"{line}\n" for line in lines)
            done = subprocess.run([program, *paths], stdout=subprocess.PIPE, text=True, check=False)
            if done.returncode:
                return steps, f"a run of seed {seed!r}: {done.stdout!r}"
            steps += int(done.stdout.split()[1])
    return steps, None


def tasks(words):
    for number in range(-(-words.steps * 2 // (LINES_A_RUN * RUNS_A_TASK))):
        yield words.program, f"{words.seed} {number}"


def main():
    parser = argparse.ArgumentParser(usage=__doc__)
    parser.add_argument("--program", default=PROGRAM)
    parser.add_argument("--jobs", type=int, default=os.cpu_count())
    parser.add_argument("steps", type=int, nargs="?", default=1_000_000)
    parser.add_argument("seed", type=int, nargs="?", default=1)
    words = parser.parse_args()
    print(f"{steps_of_scripts():9} steps of scripts agree")
    steps = 0
    with multiprocessing.Pool(words.jobs) as pool:
        for some, difference in pool.imap_unordered(random_steps, tasks(words)):
            if difference:
                sys.exit(difference)
            steps += some
    print(f"{steps:9} steps at random agree")


if __name__ == "__main__":
    main()
