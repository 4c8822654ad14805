#!/usr/bin/env python3
"""Counts the hashes that the best search for an order of extensions takes, of the loads `recs`, `recs-2` and `recs-4` of others.py.

usage: extensions.py LOAD LINES [SEED]

A reading gives a digest, which says of an order of extensions that it is right or not, and nothing else. So whoever has the history alone hashes
beginnings of orders, one extension at a time, until a digest is the one that was read. The best that can be done is to go from the
likeliest beginning to less likely ones. A call may commit at each moment between its call and its return with the same odds; how likely a
beginning is follows from that for all calls of the measurement that may still come. What is printed is the count of beginnings that are at
least as likely as the last one of the order that was drawn, summed over all readings, for each extension; a check hashes each once.
"""
import argparse
import heapq
import random

from functions import MEASUREMENT_EXTEND, MEASUREMENT_READ
from others import texts_of

REALMS = {"recs": 1, "recs-2": 2, "recs-4": 4}
# Beginnings that are less likely are left out, which only lowers the count.
LEAST = 1e-12
MOST_BEGINNINGS = 200_000


class Use:
    """A call that extends or reads a measurement, open from one event to another."""

    def __init__(self, cpu, extends, start):
        self.cpu, self.extends, self.start, self.end = cpu, extends, start, None

    def odds_after(self, moment):
        return min(1.0, max(0.0, (self.end - moment) / (self.end - self.start)))


def uses_of(load, lines, seed):
    """For each measurement its calls in the order of their commits."""
    history, certificate = texts_of(load, lines, random.Random(f"{seed} {load} {lines}"))
    calls, measurements = {}, {}
    for place, line in enumerate(history):
        kind, cpu, number, *words = line.split()
        if kind == "r" and (cpu, number) in calls:
            calls[cpu, number][1].end = place
        elif kind == "c" and words[0] in (MEASUREMENT_EXTEND, MEASUREMENT_READ):
            measurement = int(cpu) % REALMS[load], words[1]
            calls[cpu, number] = measurement, Use(int(cpu), words[0] == MEASUREMENT_EXTEND, place)
    for line in certificate:
        found = calls.get(tuple(line.split()[1:3]))
        if found:
            found[1].end = found[1].end or len(history)
            measurements.setdefault(found[0], []).append(found[1])
    return measurements


class Beginnings:
    """Orders of extensions from one moment on, by how likely it is that these come first."""

    def __init__(self, pool):
        self.pool = pool
        self.first = min(use.start for use in pool)
        self.cells = max(use.end for use in pool) - self.first
        self.heap, self.added = [], 0

    def add(self, chosen, ends, use):
        """Adds the beginning with one extension more. `ends` has how likely its last commit is in each cell."""
        longer, before = [], 0.0
        low, high = use.start - self.first, use.end - self.first
        for cell in range(self.cells):
            likely = (before + ends[cell] / 2 if chosen else 1.0) if low <= cell < high else 0.0
            longer.append(likely / (high - low))
            before += ends[cell] if chosen else 0.0
        rest = [it for it in self.pool if it is not use and it not in chosen]
        odds = 0.0
        for cell in range(low, high):
            after = longer[cell]
            for it in rest:
                after *= it.odds_after(self.first + cell + 0.5)
            odds += after
        if odds > LEAST:
            self.added += 1
            heapq.heappush(self.heap, (-odds, self.added, (*chosen, use), longer))

    def go_on(self, chosen, ends):
        for use in self.pool:
            if use.extends and use not in chosen:
                self.add(chosen, ends, use)


def hashes(pool, order):
    """How many beginnings come up to this order of extensions."""
    beginnings = Beginnings(pool)
    beginnings.go_on((), [])
    count = 0
    while beginnings.heap and count < MOST_BEGINNINGS:
        _, _, chosen, ends = heapq.heappop(beginnings.heap)
        count += 1
        if chosen == order:
            break
        beginnings.go_on(chosen, ends)
    return count


def hashes_of(uses):
    """The same for all readings of a measurement; extensions after the last reading are hashed once."""
    count, at = 0, 0
    while at < len(uses):
        end = next((place for place in range(at, len(uses)) if not uses[place].extends), None)
        if end is None:
            return count + len(uses) - at
        if end > at:
            last = max(use.end for use in uses[at:end + 1])
            pool = [use for use in uses[at:] if use.start < last]
            count += hashes(pool, tuple(uses[at:end]))
        at = end + 1
    return count


def main():
    parser = argparse.ArgumentParser(usage=__doc__)
    parser.add_argument("load", choices=REALMS)
    parser.add_argument("lines", type=int)
    parser.add_argument("seed", type=int, nargs="?", default=1)
    words = parser.parse_args()
    measurements = uses_of(words.load, words.lines, words.seed)
    extensions = sum(use.extends for uses in measurements.values() for use in uses)
    count = sum(hashes_of(uses) for uses in measurements.values())
    print(f"{words.load} {words.lines} lines: {extensions} extensions, {count} hashes, {count / extensions:.2f} each")


if __name__ == "__main__":
    main()
