#!/usr/bin/env python3
"""Lists the definitions and lemmas that nothing else names, one a line: FILE:LINE NAME.

Status 1 where there is one. Those of FOUND are left out: a search finds them unnamed, or they are worked examples of a definition.
"""
import pathlib
import re
import sys

ROOT = pathlib.Path(__file__).resolve().parent.parent / "crates"
WORD = re.compile(r"[^\s(){},;.\[\]]+")
HEAD = re.compile(r"^(?:abbrev |unfoldable )?(?:pub )?([^\s(){},;.]+) : ")
FOUND = {
    "crates/spec_machine/proofs/Kept.antt": {"read_or"},
    "crates/rtt_table/proofs/Joined.antt": {"columns-at"},
    "crates/scenario/proofs/Worked.antt": {
        "IsScenarioText-stopping", "IsFirstFault-no_cpus", "IsFirstFault-third_cpu", "not_memory-comment"},
}


def sources():
    for path in sorted(ROOT.rglob("*")):
        if path.suffix in (".rt", ".antt") and "out" not in path.relative_to(ROOT).parts:
            yield path, path.read_text().split("\n")


def is_listed(path):
    return path.suffix == ".antt" and path.stem not in ("Answers", "Invariants")


def main():
    places, cited = {}, {}
    for path, lines in sources():
        own = None
        for number, line in enumerate(lines, 1):
            head = HEAD.match(line) if is_listed(path) else None
            if head:
                own = head[1]
                places.setdefault(own, (path, number))
            elif own and not line.startswith((" ", own + " ", "unfolding ")):
                own = None
            if line.lstrip().startswith(("--", "//", "use ", "ghost use ", "pub use ")):
                continue
            for word in WORD.findall(line):
                for name in {word, *word.split("::")}:
                    if name != own:
                        cited[name] = True
    uncited = [(str(path.relative_to(ROOT.parent)), number, name) for name, (path, number) in places.items()
               if name not in cited and "◌" not in name]
    uncited = [(path, number, name) for path, number, name in uncited if name not in FOUND.get(path, ())]
    for path, number, name in uncited:
        print(f"{path}:{number} {name}")
    sys.exit(1 if uncited else 0)


if __name__ == "__main__":
    main()
