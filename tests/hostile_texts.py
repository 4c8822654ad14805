#!/usr/bin/env python3
"""Gives the built program texts that no tool would write, and compares its verdicts with those of judge.py.

usage: hostile_texts.py [--program PATH] marks|sizes

`marks` puts NULs, carriage returns, tabs, bytes that are no UTF-8, a byte order mark and letters of two to four bytes into every
place of the two texts of an example, one at a time, and counts the verdicts; it ends with status 1 where the two judges differ.
`sizes` gives texts of a million bytes and of ten million: one byte again and again, lines of digits, and a header behind which
all lines are empty. It prints the time and the greatest memory of each, and ends with status 1 at another verdict than the one
that is due, and where ten times as much text takes more than 30 times as long or a megabyte more.
"""
import argparse
import collections
import os
import subprocess
import sys
import tempfile
import time

from places import built
from judge import judge

PROGRAM = built("rmmcheck")

# Each kind of line, and each kind of reply.
HISTORY = (b"rmh1 4 2\nc 0 0 c4000151 1000\nc 1 0 c4000151 1000\nr 1 0 ok\nr 0 0 err 1 0\nc 0 1 00000001\nr 0 1 misplaced\n"
           b"c 1 1 c4000152 1000\n")
CERTIFICATE = b"k 1 0\nk 0 0\nk 0 1\nu 1 1 ok\n"
MARKS = [b"\0", b"\r", b"\t", b"\v", b"\x1b", b" ", b"\n", b"\x7f", b"\x80", b"\xff", b"\xc2\xa0", b"\xef\xbb\xbf",
         "\u00e9".encode(), "\u0660".encode(), "\uff11".encode(), "\u2028".encode(), "\U0001f512".encode()]


def decoded(text):
    return text.decode("latin-1")


class Asking:
    def __init__(self, program, folder):
        self.program = program
        self.paths = [os.path.join(folder, name) for name in ("history", "certificate")]

    def verdict(self, texts):
        """The status and the line of the program on these two texts."""
        done = subprocess.run([self.program, "check", *self.write(texts)], stdout=subprocess.PIPE, text=True, check=False)
        return done.returncode, done.stdout

    def measured(self, texts):
        """The same, the seconds, and the greatest memory in MB, which a child of this process would begin with its parent's."""
        words = ["/usr/bin/time", "-f", "%M", self.program, "check", *self.write(texts)]
        start = time.perf_counter()
        done = subprocess.run(words, capture_output=True, text=True, check=False)
        seconds = time.perf_counter() - start
        return (done.returncode, done.stdout), seconds, int(done.stderr.split()[-1]) / 1000

    def write(self, texts):
        for path, text in zip(self.paths, texts):
            with open(path, "wb") as file:
                file.write(text)
        return self.paths


def marked():
    """Each text with a mark put in, and with a mark in place of a byte, beside the other text."""
    texts = [HISTORY, CERTIFICATE]
    for which, text in enumerate(texts):
        for place in range(len(text) + 1):
            for mark in MARKS:
                for behind in (text[place:], text[place + 1:]):
                    changed = list(texts)
                    changed[which] = text[:place] + mark + behind
                    yield changed


def compare_marks(asking):
    counts = collections.Counter()
    for texts in marked():
        status, line = judge(*map(decoded, texts))
        found = asking.verdict(texts)
        if found != (status, f"{line}\n"):
            sys.exit(f"{texts!r}: {found!r}, and not {line!r}")
        counts[" ".join(word for word in line.split() if not word.isdigit())] += 1
    for kind, count in sorted(counts.items()):
        print(f"{count:8} {kind}")


def sizes(size):
    """A name, the two texts and the verdict that is due, for texts of about so many bytes."""
    for name, byte in [("zeros", b"0"), ("letters", b"c"), ("NULs", b"\0"), ("high bytes", b"\xff"), ("spaces", b" "),
                       ("newlines", b"\n"), ("returns", b"\r")]:
        yield f"history of {name}", byte * size, b"", "fault history 1"
        yield f"certificate of {name}", HISTORY, byte * size, "fault certificate 1"
    yield "header of digits", b"rmh1 " + b"1" * size + b" 2\n", b"", "fault history 1"
    yield "number of digits", b"rmh1 4 2\nc 0 " + b"1" * size + b" c4000151 1000\n", b"", "fault history 2"
    yield "word of digits", b"rmh1 4 2\nc 0 0 c4000151 " + b"1" * size + b"\n", b"", "fault history 2"
    yield "reply of words", b"rmh1 4 2\nc 0 0 c4000151 1000\nr 0 0 ok" + b" 1" * (size // 2) + b"\n", b"", "fault history 3"
    yield "certificate's digits", HISTORY, b"k 0 " + b"1" * size + b"\n", "fault certificate 1"
    yield "empty lines behind a header", b"rmh1 4 2\n" + b"\n" * size, b"", "fault history 2"


def compare_sizes(asking):
    small, large = list(sizes(1_000_000)), list(sizes(10_000_000))
    for (name, *few, due), (_, *many, _) in zip(small, large):
        (found, seconds, megabytes), (later, more_seconds, more_megabytes) = asking.measured(few), asking.measured(many)
        print(f"{name}: {seconds:.3f} s, {megabytes:.1f} MB; {more_seconds:.3f} s, {more_megabytes:.1f} MB", flush=True)
        if found != (2, f"{due}\n") or later != found:
            sys.exit(f"{name}: {found!r} and {later!r}, and not {due!r}")
        if more_seconds > 30 * max(seconds, 0.01) or more_megabytes > megabytes + 1:
            sys.exit(f"{name}: more than its part of time or memory")


def main():
    parser = argparse.ArgumentParser(usage=__doc__)
    parser.add_argument("--program", default=PROGRAM)
    parser.add_argument("kind", choices=["marks", "sizes"])
    words = parser.parse_args()
    with tempfile.TemporaryDirectory() as folder:
        asking = Asking(words.program, folder)
        {"marks": compare_marks, "sizes": compare_sizes}[words.kind](asking)


if __name__ == "__main__":
    main()
