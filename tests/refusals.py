#!/usr/bin/env python3
"""Refuses the built programs one request for memory after another, each alone and each with all behind it.

usage: refusals.py [--crates FOLDER] [ROW..]

The programs are those that `rt run` leaves in crates/NAME/out, or below FOLDER. Each row is a run of one of them, which is
repeated with its first request refused, its second, and so on, until none is left to refuse. Such a run may print and tell what
it does with ample memory, and `threads` any texts with the right verdict `yes`; or it prints nothing, tells its line for memory
that is refused, and ends with status 3. `refused_memory` plays on behind a refusal: where one request alone is refused it has to
print all the same, or, where a commit met the refusal, what is written down here. At any other run the script ends with status 1.
Needs gcc, for `refuse.c`.
"""
import argparse
import itertools
import os
import subprocess
import sys
import tempfile

from places import CRATES, EXAMPLES, HERE
from judge import judge



def pair(history, certificate):
    return [os.path.join(EXAMPLES, f"{history}.history"), os.path.join(EXAMPLES, f"{certificate}.certificate")]


PAIRS = {
    "granule": pair("one-granule", "one-granule"),
    "page": pair("page-of-two-realms", "page-of-two-realms"),
    "ripas": pair("ripas-change-in-two-parts", "nineteen-in-turn"),
    "bad_line": pair("leading-zero", "one-granule"),
}

# What a row of `refused_memory` prints where one of its commits is refused: the answers, the history, the certificate, the verdict.
STOPPED = {
    "full_queue": [
        ("no memory/stopped/stopped", "rmh1 4 1/c 0 0 c4000151 1000", "", "yes 0"),
    ],
    "three_tickets": [
        (
            "no memory/stopped/0 ok/stopped",
            "rmh1 4 2/c 0 0 c4000151 1000/c 1 0 c4000151 1000/r 1 0 ok",
            "k 1 0",
            "yes 1",
        ),
        (
            "0 ok/no memory/stopped/1 ok",
            "rmh1 4 2/c 0 0 c4000151 1000/r 0 0 ok/c 1 0 c4000151 1000/c 0 1 c4000152 1000/r 0 1 ok",
            "k 0 0/k 0 1",
            "yes 2",
        ),
    ],
    "drained_tickets": [
        # the drain takes one event and is refused memory, and takes the other when it is made once more
        (
            "0 ok/drained 1/1 err 1 0/2 ok",
            "rmh1 4 2/c 0 0 c4000151 1000/r 0 0 ok/c 1 0 c4000151 1000/r 1 0 err 1 0/c 0 1 c4000152 1000/r 0 1 ok",
            "k 0 0/k 1 0/k 0 1",
            "yes 3",
        ),
        (
            "no memory/stopped/drained 1/0 ok/stopped",
            "rmh1 4 2/c 0 0 c4000151 1000/c 1 0 c4000151 1000/r 1 0 ok",
            "k 1 0",
            "yes 1",
        ),
        (
            "0 ok/drained 2/no memory/stopped/1 ok",
            "rmh1 4 2/c 0 0 c4000151 1000/r 0 0 ok/c 1 0 c4000151 1000/c 0 1 c4000152 1000/r 0 1 ok",
            "k 0 0/k 0 1",
            "yes 2",
        ),
    ],
    "refused_commit": [
        ("no memory/stopped/0 ok", "rmh1 4 2/c 0 0 c4000151 1000/c 1 0 c4000151 1000/r 1 0 ok", "k 1 0", "yes 1"),
        ("0 ok/no memory/stopped", "rmh1 4 2/c 0 0 c4000151 1000/r 0 0 ok/c 1 0 c4000151 1000", "k 0 0", "yes 1"),
    ],
    "drained_queue": [
        (
            "no memory/stopped/full/drained 1/unrecorded 0 ok",
            "rmh1 4 2/c 0 0 c4000151 1000/c 1 0 c4000151 2000",
            "u 1 0 ok",
            "yes 1",
        ),
        (
            "unrecorded 0 ok/full/drained 1/no memory/stopped",
            "rmh1 4 2/c 0 0 c4000151 1000/c 1 0 c4000151 2000",
            "u 0 0 ok",
            "yes 1",
        ),
    ],
}

PLAYED = ["granule", "granule_fed", "page", "page_fed", "ripas", "turns", *STOPPED]

TURNS = ["two-cpus-one-granule", "tables-and-a-page", "exit-for-a-ripas-change", "word-missing"]

THREADS = ["two-cpus-one-granule", "tables-on-two-cpus"]


def lines(text):
    return "".join(f"{line}\n" for line in text.split("/")) if text else ""


def stopped(name):
    """What the row may print besides."""
    for answers, history, certificate, verdict in STOPPED.get(name, []):
        yield f"{name}\n{lines(answers)}{lines(history)}\n{lines(certificate)}\n{verdict}\n\n"


def parted(text):
    """History, certificate and the verdict's line."""
    history, _, rest = text.partition("\n\n")
    certificate, _, line = ("", "", rest[1:]) if rest.startswith("\n") else rest.partition("\n\n")
    return f"{history}\n", f"{certificate}\n" if certificate else "", line


class Row:
    """A run of a program, and what it may do where memory is refused."""

    def __init__(self, program, words, told, is_judged=False, page=None, others=(), goes_on=False):
        self.program, self.words, self.told, self.page = program, words, told, page
        self.is_judged, self.others, self.goes_on = is_judged, list(others), goes_on

    def may_print(self, ample, status, text, told):
        if self.is_judged:
            history, certificate, line = parted(text)
            return not told and line.startswith("yes ") and judge(history, certificate) == (status, line.rstrip("\n"))
        return (status, text, told) == ample or (status, told) == (0, "") and text in self.others


def rows_of(folder):
    rows = {}
    for name, words in PAIRS.items():
        rows[f"check {name}"] = Row("rmmcheck", ["check", *words], told=["rmmcheck: no memory"])
        rows[f"explain {name}"] = Row("rmmexplain", words, told=["rmmexplain: no memory"])
        page = os.path.join(folder, "page.html")
        rows[f"page {name}"] = Row("rmmexplain", ["--html", page, *words], told=["rmmexplain: no memory"], page=page)
    for name in TURNS:
        words = ["run", os.path.join(EXAMPLES, f"{name}.toml")]
        rows[f"run {name}"] = Row("rmmcheck", words, told=["rmmcheck: no memory"])
    for name in THREADS:
        words = ["threads", os.path.join(EXAMPLES, f"{name}.toml")]
        told = ["rmmcheck: no memory", "rmmcheck: cannot start a thread"]
        rows[f"threads {name}"] = Row("rmmcheck", words, told, is_judged=True)
    for name in PLAYED:
        told = ["refused_memory: no memory"]
        rows[f"refused {name}"] = Row("refused_memory", [name], told, others=stopped(name), goes_on=True)
    return rows


class Runs:
    def __init__(self, crates, folder):
        self.crates, self.folder = crates, folder
        self.library = os.path.join(folder, "refuse.so")
        subprocess.run(["gcc", "-O2", "-shared", "-fPIC", "-o", self.library, os.path.join(HERE, "refuse.c")], check=True)

    def run(self, row, at, refuses_rest):
        """The status, what was printed (a page too), what was told, and how many requests there were."""
        count = os.path.join(self.folder, "count")
        extra = {"LD_PRELOAD": self.library, "REFUSE_AT": str(at), "REFUSE_COUNT": count}
        if refuses_rest:
            extra["REFUSE_REST"] = "1"
        if row.page and os.path.exists(row.page):
            os.remove(row.page)
        program = os.path.join(self.crates, row.program, "out", row.program)
        done = subprocess.run([program, *row.words], capture_output=True, env={**os.environ, **extra}, timeout=60)
        text = done.stdout.decode()
        if row.page and os.path.exists(row.page):
            with open(row.page, encoding="ascii") as file:
                text += file.read()
        with open(count, "rb") as file:
            return done.returncode, text, done.stderr.decode(), int.from_bytes(file.read(8), sys.byteorder)

    def sweep(self, name, row, refuses_rest):
        """Counts the requests that were refused, and the runs then that did as with ample memory, printed something else, or ended."""
        status, text, told, most = self.run(row, 0, False)
        ample, counts = (status, text, told), [0, 0, 0]
        if not text and not told or not row.may_print(ample, *ample):
            sys.exit(f"{name}, with ample memory: {status}, {text!r}, {told!r}")
        # A run on threads makes now more requests and now less.
        for at in itertools.count(1):
            status, text, told, requests = self.run(row, at, refuses_rest)
            most = max(most, requests) if row.is_judged else 0
            if requests < at and at > most:
                return at - 1, *counts
            if (status, text, told) == ample:
                counts[0] += requests >= at
            elif text == "" and status == 3 and told.rstrip("\n") in row.told and (refuses_rest or not row.goes_on):
                counts[2] += 1
            elif row.may_print(ample, status, text, told):
                counts[1] += requests >= at
            else:
                sys.exit(f"{name}, request {at}{' and the rest' if refuses_rest else ''}: {status}, {text!r}, {told!r}")


def main():
    parser = argparse.ArgumentParser(usage=__doc__)
    parser.add_argument("--crates", default=CRATES)
    parser.add_argument("rows", nargs="*")
    words = parser.parse_args()
    with tempfile.TemporaryDirectory() as folder:
        runs = Runs(words.crates, folder)
        for name, row in rows_of(folder).items():
            if words.rows and not any(name.startswith(start) for start in words.rows):
                continue
            for refuses_rest in (False, True):
                count, whole, other, ended = runs.sweep(name, row, refuses_rest)
                how = "each with all behind it" if refuses_rest else "each alone"
                print(f"{name}: {count} requests, {how}: {whole} whole, {other} other, {ended} no memory", flush=True)


if __name__ == "__main__":
    main()
