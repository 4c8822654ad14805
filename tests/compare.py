#!/usr/bin/env python3
"""Compares the built program with judge.py on short pairs of texts, of which most are broken somewhere.

usage: compare.py [--program PATH] [--jobs COUNT] [--version 2] [PAIRS [SEED]]

The histories are those of explore.py on up to 40 granules and 8 CPUs. A pair is left as it is, or has one of its replies,
words, lines or bytes changed. It prints how often each kind of verdict came and, of the pairs with yes, how often each
command was accepted and refused by each of its rows, as docs/PROFILE.md counts them. It ends with status 1 at a pair on
which the two differ.
"""
import argparse
import collections
import multiprocessing
import os
import random
import subprocess
import sys
import tempfile

from places import built
from explore import MOST, STEPS, Explorer
from functions import NAMES
from generate import run
from judge import judge
from machine import Machine

PROGRAM = built("rmmcheck")
SOME_BYTES = "0123456789abcdefkru \n"
PAIRS_A_TASK = 200


class CountingMachine(Machine):
    """Counts how each command was answered: accepted, misplaced, or refused by a row."""

    def __init__(self, granules, version):
        super().__init__(granules, version)
        self.answers = collections.Counter()

    def answer(self, cpu, function, words, choose=max):
        reply = super().answer(cpu, function, words, choose)
        self.answers[NAMES[function], f"row {self.row}" if self.row else reply.split()[0]] += 1
        return reply


def changed_word(word, draw):
    value = int(word, 16)
    return f"{draw.choice([value ^ 1, value + draw.choice(STEPS), value - draw.choice(STEPS), 0]) & MOST:x}"


def changed_reply(reply, draw):
    first, *words = reply.split()
    if words and draw.random() < 0.7:
        at = draw.randrange(len(words))
        words[at] = changed_word(words[at], draw) if first == "ok" else str(draw.randrange(5))
        return " ".join([first, *words])
    return draw.choice(["ok", "ok 0", "err 1 0", "err 2 0", "err 3 0", "err 4 3", "misplaced", f"{reply} 0"])


def with_other_reply(texts, draw):
    which, start = draw.choice([(0, "r "), (0, "r "), (1, "u ")])
    places = [place for place, line in enumerate(texts[which]) if line.startswith(start)]
    if places:
        place = draw.choice(places)
        cpu, n, reply = texts[which][place][2:].split(" ", 2)
        texts[which][place] = f"{start}{cpu} {n} {changed_reply(reply, draw)}"


def with_other_word(texts, draw):
    places = [place for place, line in enumerate(texts[0]) if line.startswith("c ") and line.count(" ") > 3]
    if places:
        place = draw.choice(places)
        parts = texts[0][place].split()
        at = draw.randrange(4, len(parts))
        parts[at] = changed_word(parts[at], draw)
        texts[0][place] = " ".join(parts)


def with_other_lines(texts, draw):
    lines = texts[draw.choice([0, 1, 1])]
    if not lines:
        return
    i, j = draw.randrange(len(lines)), draw.randrange(len(lines))
    kind = draw.randrange(6)
    if kind == 0:
        lines[i], lines[j] = lines[j], lines[i]
    elif kind == 1:
        del lines[i]
    elif kind == 2:
        lines.insert(j, lines[i])
    elif kind == 3:
        lines[i] = f"u {lines[i][2:]} ok" if lines[i].startswith("k ") else f"k {' '.join(lines[i].split()[1:3])}"
    else:
        parts = lines[i].split()
        at = draw.randrange(1, len(parts))
        parts[at] = draw.choice(["0", "1", "7", "8", "12", "999999", *NAMES])
        lines[i] = " ".join(parts)


def changed_bytes(text, draw):
    at = draw.randrange(len(text) + 1)
    kind = draw.randrange(3)
    if kind == 0:
        return text[:at]
    return text[:at] + draw.choice(SOME_BYTES) + text[at + (kind == 1):]


CHANGES = [with_other_reply] * 3 + [with_other_word, with_other_lines]


def pair(draw, version):
    """Two texts, and the answers of the machine that was asked for them."""
    machine = CountingMachine(draw.choice([2, 8, 16, 24, 32, 40, 40, 40]), version)
    source = Explorer(machine, draw)
    count, lines = draw.choice([1, 1, 2, 4, 8]), draw.choice([20, 100, 200, 400])
    texts = list(run(machine, source, count, draw.randint(1, lines), draw, draw.choice([max, min, draw.choice])))
    for _ in range(draw.choice([0, 0, 1, 1, 2])):
        draw.choice(CHANGES)(texts, draw)
    texts = ["".join(f"{line}\n" for line in lines) for lines in texts]
    if draw.random() < 0.15:
        which = draw.randrange(2)
        texts[which] = changed_bytes(texts[which], draw)
    return texts, machine.answers


def compare(task):
    """Judges the pairs of a task with both. How often each verdict and each answer came, and the first difference."""
    program, version, count, seed = task
    draw = random.Random(seed)
    verdicts, answers = collections.Counter(), collections.Counter()
    with tempfile.TemporaryDirectory() as folder:
        paths = [os.path.join(folder, name) for name in ("history", "certificate")]
        for _ in range(count):
            texts, given = pair(draw, version)
            for path, text in zip(paths, texts):
                with open(path, "w", encoding="ascii", newline="") as file:
                    file.write(text)
            status, line = judge(*texts)
            done = subprocess.run([program, "check", *paths], stdout=subprocess.PIPE, text=True, check=False)
            if (done.returncode, done.stdout) != (status, f"{line}\n"):
                return verdicts, answers, (f"{texts!r}: {done.stdout!r} with {done.returncode}, "
                                           f"and not {line!r} with {status}")
            verdicts[" ".join(word for word in line.split() if not word.isdigit())] += 1
            if status == 0:
                answers += given
    return verdicts, answers, None


def tasks(words):
    for first in range(0, words.pairs, PAIRS_A_TASK):
        yield words.program, words.version, min(PAIRS_A_TASK, words.pairs - first), f"{words.seed} {first}"


def main():
    parser = argparse.ArgumentParser(usage=__doc__)
    parser.add_argument("--program", default=PROGRAM)
    parser.add_argument("--jobs", type=int, default=os.cpu_count())
    parser.add_argument("--version", type=int, choices=[1, 2], default=1)
    parser.add_argument("pairs", type=int, nargs="?", default=1000)
    parser.add_argument("seed", type=int, nargs="?", default=1)
    words = parser.parse_args()
    verdicts, answers = collections.Counter(), collections.Counter()
    with multiprocessing.Pool(words.jobs) as pool:
        for some_verdicts, some_answers, difference in pool.imap_unordered(compare, tasks(words)):
            if difference:
                sys.exit(difference)
            verdicts += some_verdicts
            answers += some_answers
    for kind, times in sorted(verdicts.items()):
        print(f"{times:8} {kind}")
    for function in sorted({function for function, _ in answers}):
        told = [f"{answer} {times}" for (other, answer), times in sorted(answers.items()) if other == function]
        print(f"{function}: {', '.join(told)}")


if __name__ == "__main__":
    main()
