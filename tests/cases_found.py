#!/usr/bin/env python3
"""Gives rmmfind the histories of the scripts and questions in crates/cases/data whose verdict is `yes` or a refused reply.

usage: cases_found.py [--check PATH] [--find PATH]

Each call of a script returns before the next is made, so the order of a `yes` has to be found, and of a refused reply there has to be
none. It stops where rmmcheck's verdict isn't the one in the file, or rmmfind's answer doesn't go with it. A script with `\\repeat` is left out.
"""
import argparse
import collections
import glob
import os
import re
import subprocess
import sys
import tempfile

from places import CRATES, built
import functions

STEP = re.compile(r"(?:(\d): )?(\w+)((?: [0-9a-f]+)*) -> (.*)")


def texts(mark, cpus, delegated, steps):
    """The history and the certificate of a script, or nothing where a step isn't a call with its reply."""
    granules = 1048576 if mark == "rml1" else 16
    history, certificate, counts = [f"{mark} {granules} {cpus}"], [], collections.Counter()
    for step in [f"GRANULE_DELEGATE {0x1000 * at:x} -> ok" for at in range(1, delegated + 1)] + steps:
        match = STEP.fullmatch(step)
        if not match:
            return None
        cpu = int(match[1] or 0)
        number = counts[cpu]
        counts[cpu] += 1
        history.append(f"c {cpu} {number} {getattr(functions, match[2].upper())}{match[3]}")
        history.append(f"r {cpu} {number} {match[4]}")
        certificate.append(f"k {cpu} {number}")
    return ["".join(f"{line}\n" for line in lines) for lines in (history, certificate)]


def questions(lines):
    """Each script and question of a file with its answer, as (machine and steps, answer)."""
    base = None
    for at, line in enumerate(lines):
        head, _, answer = line.partition(" => ")
        word, _, rest = head.partition(" ")
        if word == "script":
            mark, cpus, delegated = rest.split() if rest.startswith(("rmh2", "rml1")) else ["rmh1", *rest.split()]
            steps = []
            for below in lines[at + 1:]:
                if not below.startswith("    "):
                    break
                steps += below.strip().split("; ")
            base = (mark, int(cpus), int(delegated), steps)
        elif word == "step":
            base = (*base[:3], base[3] + rest.split("; "))
        if word == "try":
            yield (*base[:3], base[3] + rest.split("; ")), answer
        elif word in ("script", "step"):
            yield base, answer


def output(*words):
    done = subprocess.run(words, stdout=subprocess.PIPE, text=True, check=False)
    return done.returncode, done.stdout


def main():
    parser = argparse.ArgumentParser(usage=__doc__)
    parser.add_argument("--check", default=built("rmmcheck"))
    parser.add_argument("--find", default=built("rmmfind"))
    words = parser.parse_args()
    counts = collections.Counter()
    with tempfile.TemporaryDirectory() as folder:
        history, certificate = (os.path.join(folder, name) for name in ("history", "certificate"))
        for path in sorted(glob.glob(os.path.join(CRATES, "cases/data/*.txt"))):
            with open(path, encoding="ascii") as file:
                asked = list(questions(file.read().split("\n")))
            for script, answer in asked:
                if not re.fullmatch(r"yes \d+|no \d+ reply", answer):
                    continue
                both = texts(*script)
                if both is None:
                    counts["left out"] += 1
                    continue
                for name, text in zip((history, certificate), both):
                    with open(name, "w", encoding="ascii", newline="\n") as out:
                        out.write(text)
                if output(words.check, "check", history, certificate)[1] != f"{answer}\n":
                    sys.exit(f"{path}: {script} isn't {answer}")
                status, found = output(words.find, history)
                with open(certificate, "w", encoding="ascii", newline="\n") as out:
                    out.write(found)
                judged = status == 0 and output(words.check, "check", history, certificate)[0] == 0
                if judged != answer.startswith("yes") or (not judged and status != 1):
                    sys.exit(f"{path}: {script} has {found!r} with {status}")
                counts["found" if judged else "none"] += 1
    print(dict(counts))


if __name__ == "__main__":
    main()
