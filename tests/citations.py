#!/usr/bin/env python3
"""Counts the proofs of one crate that another cites, in a second and without a proof. Status 1 where one is cited that isn't named here.

A crate is proved over the contracts of those below it, so that a lemma can move without its users. What is cited all the same stands in
one of the crates that are made of lemmas or laws, or is named below with its reason.
"""
import collections
import pathlib
import re
import sys

CRATES = pathlib.Path(__file__).resolve().parent.parent / "crates"
CITED = re.compile(r"\bRattle\.(\w+)\.proofs\b|\b(\w+)::proofs::")
# crates that are made to be cited: lemmas, and laws on the definitions
LAWS = {"lemmas", "spec_lemmas", "rmm_laws", "world_laws", "verdict_laws"}
# of each other crate whose lemmas are cited, where, and why
NAMED = {
    "certificate": ({"checker", "text_writers"}, "from one piece of a certificate to the next; a text that was written, read"),
    "check_command": ({"file_programs"}, "what a history's reader was given, piece by piece"),
    "checker": ({"explain", "verdict_laws"}, "a check's run, line by line, with which these go on"),
    "command_core": ({"granule_lock", "world"}, "granules that are all different, and which are held"),
    "command_rows": ({"command_core", "flat_machine", "spec_machine"}, "what a row's answer is by the definitions"),
    "commit_tickets": ({"monitor"}, "the journal, gone through beside the tokens"),
    "event_queue": ({"monitor"}, "the journal's commits beside the events"),
    "history": ({"merging", "text_writers"}, "a history's index and its text, one event longer; a text that was written, read"),
    "monitor": ({"bench", "monitor_runs", "refused_memory", "thread_tests"}, "the tokens of all CPUs, with one CPU's changed"),
    "reasons": ({"explain"}, "the first condition that fails"),
    "rec_steps": ({"command_rows", "spec_machine"}, "the step that an answer inside of a REC is"),
    "rmi_codec": ({"certificate", "checker", "history", "merging", "text_writers"}, "the texts of numbers and lines, and the pieces of a line"),
    "spec_machine": ({"explain", "reasons", "undo_log"}, "what holds of each machine, and where a granule is among all"),
    "text_writers": ({"merging"}, "texts written part by part"),
    "world": ({"world_runs"}, "what a turn makes is one value"),
}


def citations():
    """How many files of a crate cite proofs of another, by the two."""
    counts = collections.Counter()
    for path in sorted(CRATES.rglob("*")):
        if path.suffix not in (".antt", ".rt") or "out" in path.parts:
            continue
        own = path.relative_to(CRATES).parts[0]
        cited = {one or other for one, other in CITED.findall(path.read_text(encoding="utf-8"))}
        counts.update((name, own) for name in cited if name != own and (CRATES / name).is_dir())
    return counts


def faults(counts):
    """A line for each crate whose proofs are cited and that isn't named here, and for each that is named and not cited."""
    for name, own in sorted(counts):
        if name not in LAWS and own not in NAMED.get(name, ((), ""))[0]:
            yield f"{own}: cites {counts[name, own]} times proofs of {name}"
    for name, (owns, _) in sorted(NAMED.items()):
        for own in sorted(owns):
            if (name, own) not in counts:
                yield f"{own}: named in tests/citations.py, and cites no proof of {name}"


def main():
    counts = citations()
    wrong = list(faults(counts))
    print("".join(f"{line}\n" for line in wrong), end="")
    named = sum(count for (name, _), count in counts.items() if name in NAMED)
    print(f"{named} files cite proofs of {len(NAMED)} crates that aren't made of laws, each named with its reason")
    return 1 if wrong else 0


if __name__ == "__main__":
    sys.exit(main())
