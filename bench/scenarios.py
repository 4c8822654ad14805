#!/usr/bin/env python3
"""Times `rmmcheck run` over a million turns and `rmmcheck threads` with 100,000 commands a CPU, and prints a table of docs/SPEED.md.

usage: scenarios.py [--crates FOLDER]

In the scenarios, which are written to a temporary folder, each CPU delegates a granule and takes it back, again and again. Times are
those of `/usr/bin/time`, from the file to the verdict, by the clock and of all processors together: the least of five runs. Memory
is the greatest resident size. The program is the built one of this repository, or of the folder of crates that is named.
"""
import argparse
import os
import subprocess
import tempfile

HERE = os.path.dirname(os.path.abspath(__file__))
TURNS, COMMANDS, RUNS = 1_000_000, 100_000, 5
# a subcommand, counts of CPUs, and whether they share one granule and whether all turns are listed
ROWS = [("run", (1, 2, 4, 8), False, False), ("run", (1, 8), False, True), ("run", (4,), True, False),
        ("threads", (1, 2, 4), False, False), ("threads", (2, 4), True, False)]


def scenario(cpus, commands, is_shared, is_listed):
    programs = []
    for cpu in range(cpus):
        granule = "1000" if is_shared else f"{1 + cpu:x}000"
        programs.append("[" + f'"c4000151 {granule}", "c4000152 {granule}", ' * (commands // 2) + "]")
    turns = "".join(f'"{turn % cpus}", ' for turn in range(TURNS if is_listed else 0))
    return f"granules = 16\ncpus = {cpus}\nqueue = 65536\nlimit = {TURNS}\nturns = [{turns}]\nprograms = [{', '.join(programs)}]\n"


def measured(words, printed):
    """A run's seconds by the clock and of processors, and its kilobytes. What it prints goes to a file."""
    with open(printed, "wb") as out:
        child = subprocess.run(["/usr/bin/time", "-f", "%e %U %S %M", *words], stdout=out, stderr=subprocess.PIPE, check=True)
    clock, user, system, memory = map(float, child.stderr.split())
    return clock, user + system, memory


def main():
    parser = argparse.ArgumentParser(usage=__doc__)
    parser.add_argument("--crates", default=os.path.join(os.path.dirname(HERE), "crates"))
    program = os.path.join(parser.parse_args().crates, "rmmcheck", "out", "rmmcheck")
    print("| | CPUs | Granules | File | By the clock | Processor time | Peak memory | Verdict |\n|---|---|---|---|---|---|---|---|")
    with tempfile.TemporaryDirectory() as folder:
        file, printed = os.path.join(folder, "scenario.toml"), os.path.join(folder, "printed")
        for subcommand, counts, is_shared, is_listed in ROWS:
            for cpus in counts:
                with open(file, "w") as out:
                    out.write(scenario(cpus, TURNS // cpus // 4 if subcommand == "run" else COMMANDS, is_shared, is_listed))
                clock, spent, memory = zip(*(measured([program, subcommand, file], printed) for _ in range(RUNS)))
                with open(printed, "rb") as text:
                    verdict = text.read().splitlines()[-1].decode()
                print(f"| `{subcommand}`{', turns listed' if is_listed else ''} | {cpus} | {'one' if is_shared else 'own'} "
                      f"| {os.path.getsize(file) / 1e6:.1f} MB | {min(clock):.2f} s | {min(spent):.2f} s "
                      f"| {max(memory) * 1.024e-3:.0f} MB | `{verdict}` |", flush=True)


main()
