#!/usr/bin/env python3
"""dearest.py: which functions took the prover's time, after a check.

    dearest.py [CRATE..] [--most N] [--least SECONDS] [--kept FOLDER]

A check keeps each module that it has proved in a file (crates/CRATE/out/incremental), as soon as it is done with it. So
the time from one file to the next is what the later module took. This adds these times up by function and prints the
functions that took most, with the part of it that went into goals without an answer (`open`), into the answers that are
written (`answers`) and into what is generated from the code and the contract (`made`). Lemma files, specs and contracts
stand under the names of their modules.

The times are those of one job by the clock: run `rt check --jobs 1`, with nothing kept, on an idle machine where they
have to be right. With more jobs, the order is about right and the seconds are too many. What an earlier check kept
keeps its own times; a pause above ten minutes is taken for the one between two checks.

    CRATE..           these crates of crates.txt; all that have kept work, if none is named
    --most N          print N lines (40 if left out)
    --least SECONDS   only what took so long (1 if left out)
    --kept FOLDER     kept work that lies elsewhere; then name one crate

It reads files' times alone: it runs no prover, and the gate doesn't run it.
"""
import argparse
import os
import re
import sys
from pathlib import Path

# The modules of one function, by the end of their names.
OPEN, ANSWERS = {"Proof", "AnswersTried"}, {"Answers"}
MADE = {"Lts", "View", "Goals", "Tie", "Reads", "Layout", "Named", "Kinds", "Met", "Statement", "Code", "Mir", "TheLink", "Symbol", "Given", "Key"}
PAUSE = 600


def crates_of(root):
    """Returns the names of the crates, lowest first, as crates.txt has them."""
    lines = (root / "crates.txt").read_text(encoding="utf-8").splitlines()
    heads = (line.partition("#")[0].partition(":")[0].split() for line in lines)
    return [head[0] for head in heads if head]


def modules_in(kept, crate):
    """Returns the crate's kept modules with the times at which they were written, in that order."""
    name = re.compile(rf"Rattle-{re.escape(crate)}-(specs|proofs)\.(.+)\.oantt")
    found = []
    for folder in kept.glob("*/"):
        for file in folder.iterdir():
            fits = name.fullmatch(file.name)
            if fits:
                found.append((file.stat().st_mtime, fits[1], fits[2]))
    return sorted(found)


def part_of(library, module):
    """Returns what a module belongs to, and which part of its time it is."""
    names = module.split(".")
    if library == "specs":
        return f"specs {module}", "made"
    if names[-1] in OPEN | ANSWERS | MADE or names[-1] == "Invariants":
        kind = "open" if names[-1] in OPEN else "answers" if names[-1] in ANSWERS or names[-1] == "Invariants" else "made"
        while len(names) > 1 and (names[-1] in OPEN | ANSWERS | MADE or names[-1] == "Invariants"):
            names.pop()
        return "::".join(names), kind
    return f"proofs {module}", "answers"


def times_of(modules):
    """Returns the seconds of each function and lemma file, by part."""
    times = {}
    for (before, _, _), (after, library, module) in zip(modules, modules[1:]):
        name, part = part_of(library, module)
        if after - before <= PAUSE:
            parts = times.setdefault(name, {"open": 0.0, "answers": 0.0, "made": 0.0})
            parts[part] += after - before
    return times


def main():
    words = argparse.ArgumentParser(description=__doc__, formatter_class=argparse.RawDescriptionHelpFormatter)
    words.add_argument("crates", nargs="*", metavar="CRATE")
    words.add_argument("--most", type=int, default=40)
    words.add_argument("--least", type=float, default=1.0)
    words.add_argument("--kept", type=Path)
    given = words.parse_args()
    root = Path(__file__).resolve().parent.parent
    unknown = set(given.crates) - set(crates_of(root))
    if unknown or (given.kept and len(given.crates) != 1):
        words.error(f"crates.txt has no {', '.join(sorted(unknown))}" if unknown else "--kept wants the name of one crate")
    rows = []
    for crate in given.crates or crates_of(root):
        kept = given.kept or root / "crates" / crate / "out" / "incremental"
        for name, parts in times_of(modules_in(kept, crate)).items() if kept.is_dir() else ():
            rows.append((sum(parts.values()), crate, name, parts))
    if not rows:
        print("dearest: nothing is kept: run rt check in a crate's folder first", file=sys.stderr)
        return 1
    print(f"{'s':>7} {'open':>7} {'answers':>7} {'made':>7}  crate and function")
    for total, crate, name, parts in sorted(rows, reverse=True, key=lambda row: row[0])[: given.most]:
        if total >= given.least:
            print(f"{total:7.1f} {parts['open']:7.1f} {parts['answers']:7.1f} {parts['made']:7.1f}  {crate} {name}")
    print(f"{sum(row[0] for row in rows):7.1f} {sum(row[3]['open'] for row in rows):7.1f} {sum(row[3]['answers'] for row in rows):7.1f} {sum(row[3]['made'] for row in rows):7.1f}  all of {len(rows)}")
    return 0


if __name__ == "__main__":
    sys.exit(main())
