#!/usr/bin/env python3
"""A plain judge of a history and a certificate, written apart from the checker to compare the two.

usage: judge.py HISTORY CERTIFICATE

It reads the texts by regular expressions, compares real-time order by the greatest call place so far, and asks the
machine of machine.py for each reply. It prints the verdict line and ends with the checker's exit status. Nothing about
it is proved.
"""
import re
import sys

sys.dont_write_bytecode = True
from functions import WORDS
from machine import Machine
from records import LIMITS, MARKS

MOST_LINES = 1_000_000
DECIMAL = r"(?:0|[1-9][0-9]*)"
WORD = r"(?:0|[1-9a-f][0-9a-f]{0,15})"
VERSIONS = {mark: version for version, mark in MARKS.items()}
HEADER = re.compile(rf"({'|'.join(VERSIONS)}) ({DECIMAL}) ({DECIMAL})\Z")
CALL = re.compile(rf"c ([0-7]) ({DECIMAL}) ([0-9a-f]{{8}})((?: {WORD})*)\Z")
REPLY = rf"(ok(?: {WORD}){{0,10}}|err {DECIMAL} {DECIMAL}|misplaced)"
RETURN = re.compile(rf"r ([0-7]) ({DECIMAL}) {REPLY}\Z")
KEPT = re.compile(rf"k ([0-7]) ({DECIMAL})\Z")
UNFINISHED = re.compile(rf"u ([0-7]) ({DECIMAL}) {REPLY}\Z")


class BadLine(Exception):
    pass


def is_reply(text):
    return not text.startswith("err ") or all(int(part) < 256 for part in text.split()[1:])


def lines_of(text):
    """Each line with its number. A last line without its newline is bad."""
    parts = text.split("\n")
    for number, line in enumerate(parts[:-1], 1):
        if number > MOST_LINES:
            raise BadLine(number)
        yield number, line
    if parts[-1]:
        raise BadLine(len(parts))


def read_history(text):
    """The machine at its beginning, and each call as (place, function, words, place of return or None, reply)."""
    machine = cpus = None
    calls, made, opened = {}, {}, {}
    for number, line in lines_of(text):
        if number == 1:
            match = HEADER.match(line)
            version = VERSIONS.get(match[1]) if match else None
            if version is None or not 1 <= int(match[2]) <= LIMITS[version] or not 1 <= int(match[3]) <= 8:
                raise BadLine(1)
            machine, cpus = Machine(int(match[2]), version), int(match[3])
        elif match := CALL.match(line):
            cpu, n = int(match[1]), int(match[2])
            if cpu >= cpus or cpu in opened or n != made.get(cpu, 0):
                raise BadLine(number)
            made[cpu], opened[cpu] = n + 1, n
            words = [int(word, 16) for word in match[4].split()]
            if match[3] not in WORDS or len(WORDS[match[3]]) != len(words):
                raise BadLine(number)
            calls[cpu, n] = [number, match[3], words, None, None]
        elif (match := RETURN.match(line)) and is_reply(match[3]):
            cpu, n = int(match[1]), int(match[2])
            if opened.pop(cpu, None) != n:
                raise BadLine(number)
            calls[cpu, n][3:] = number, match[3]
        else:
            raise BadLine(number)
    if machine is None:
        raise BadLine(1)
    return machine, calls


def read_certificate(text):
    """Each line as (cpu, n, claimed reply or None)."""
    for number, line in lines_of(text):
        if match := KEPT.match(line):
            claimed = None
        elif (match := UNFINISHED.match(line)) and is_reply(match[3]):
            claimed = match[3]
        else:
            raise BadLine(number)
        if int(match[2]) >= 1_000_000:
            raise BadLine(number)
        yield int(match[1]), int(match[2]), claimed


def gives(machine, cpu, function, words, reply):
    """Whether the machine gives this reply. Where several ends are allowed the reply says which one it took."""

    def as_claimed(tops):
        word = reply.removeprefix("ok ")
        return int(word, 16) if re.fullmatch(WORD, word) and int(word, 16) in tops else tops[0]

    return machine.answer(cpu, function, words, as_claimed) == reply


def judge_order(machine, calls, lines):
    named, last_call = set(), 0
    for step, (cpu, n, claimed) in enumerate(lines, 1):
        if (cpu, n) not in calls:
            return 1, f"no {step} unknown"
        if (cpu, n) in named:
            return 1, f"no {step} repeated"
        called, function, words, returned, reply = calls[cpu, n]
        if (claimed is None) != (returned is not None):
            return 1, f"no {step} kind"
        if returned is not None and returned < last_call:
            return 1, f"no {step} order"
        if not gives(machine, cpu, function, words, reply if claimed is None else claimed):
            return 1, f"no {step} reply"
        named.add((cpu, n))
        last_call = max(last_call, called)
    for (cpu, n), call in calls.items():
        if call[3] is not None and (cpu, n) not in named:
            return 1, f"no {len(lines) + 1} missing {cpu} {n}"
    return 0, f"yes {len(lines)}"


def judge(history, certificate):
    try:
        machine, calls = read_history(history)
    except BadLine as bad:
        return 2, f"fault history {bad}"
    try:
        lines = list(read_certificate(certificate))
    except BadLine as bad:
        return 2, f"fault certificate {bad}"
    return judge_order(machine, calls, lines)


def main():
    if len(sys.argv) != 3:
        sys.exit(__doc__)
    texts = []
    for path in sys.argv[1:]:
        with open(path, encoding="latin-1", newline="") as file:
            texts.append(file.read())
    status, line = judge(*texts)
    print(line)
    sys.exit(status)


if __name__ == "__main__":
    main()
