#!/usr/bin/env python3
"""bench.py PROGRAM: how long flashts takes for a table of works, beside plain loops in C and sqlite3's shell.

It writes a table as Markdown, and a line about the machine. The plain loops are left out if there is no `cc`, the shell if there is no
`sqlite3`, and the calls of the system if there is no `strace`. A time is the least of some runs, from the start of a program to its end; in
each turn every work runs once, so that a slow minute of the machine doesn't fall upon one of them. This is no part of the gate.
"""
import argparse
import pathlib
import re
import shutil
import subprocess
import sys
import tempfile

import growth
import machine
import works
from contenders import Contender, Folder, flashts

PLAIN = pathlib.Path(__file__).resolve().parent / "plain.c"


def contenders(program, folder):
    """The programs that are measured, flashts first."""
    found = [flashts(program)]
    if shutil.which("cc"):
        plain = folder.path / "plain"
        subprocess.run(["cc", "-O2", "-o", plain, PLAIN], check=True)
        found.append(Contender("plain loop", plain, lambda work: work.store if work.is_plain else None))
    if shutil.which("sqlite3"):
        found.append(Contender("sqlite3", "sqlite3", lambda work: work.sqlite))
    return found


def values(replies):
    """The values of the rows, whatever stands between: `row 5 -3` and `5|-3` say the same."""
    rows = re.sub(rb"^end \d+$", b"", replies, flags=re.M)
    return re.findall(rb"(?<![\w-])-?(?=[0-9a-f]*\d)[0-9a-f]+\b", rows)


def differences(folder, programs, chosen):
    """The works for which a program's answer isn't that of flashts."""
    for work in chosen:
        if work.has_answers:
            wanted, *others = [(program.name, values(folder.replies(program, work))) for program in programs if program.task(work)]
            yield from (f"{work.name}: the answer of {name} differs" for name, given in others if given != wanted[1])


def table(chosen, least):
    """The times: seconds of flashts, and how many times as long as another program it takes."""
    yield "| Work | flashts, seconds | to the plain loop | to sqlite3 |"
    yield "|---|---|---|---|"
    for work in chosen:
        mine = least[work.name, "flashts"]
        others = [least.get((work.name, name)) for name in ("plain loop", "sqlite3")]
        ratios = ["" if other is None else f"{mine / other:.2f}" for other in others]
        yield f"| {work.name} | {mine:.3f} | {' | '.join(ratios)} |"


def compare(program, folder, rows, turns, word):
    """Prints the table of works; what is wrong with an answer is the result."""
    programs = contenders(program, folder)
    chosen = [work for work in works.all_works(rows) if word in work.name]
    wrong = list(differences(folder, programs, chosen))
    least = folder.least_seconds(programs, chosen, turns)
    print(*table(chosen, least), "", machine.line(), sep="\n")
    if calls := machine.calls_of_a_get(program, folder):
        print(f"Calls of the system for a get: {calls}.")
    return wrong


def parse():
    what, how = __doc__.strip().split("\n\n")
    parser = argparse.ArgumentParser(description=what, epilog=how)
    parser.add_argument("program", metavar="PROGRAM", type=pathlib.Path, help="the flashts program")
    parser.add_argument("--rows", type=int, metavar="N", help="rows of the table: 1,000 to 2,000,000 (1,000,000); with --growth the most rows")
    parser.add_argument("--repeat", type=int, default=5, metavar="K", help="turns, of which the least time counts (5)")
    parser.add_argument("--only", default="", metavar="WORD", help="only the works with WORD in their names")
    parser.add_argument("--growth", action="store_true", help="instead, how the cost grows with the rows and pages")
    given = parser.parse_args()
    if not given.program.is_file():
        parser.error(f"there is no program {given.program}")
    if given.repeat < 1 or (given.rows is not None and not 1_000 <= given.rows <= 2_000_000 and not given.growth):
        parser.error("--repeat is 1 or more, --rows 1,000 to 2,000,000")
    return given


def main():
    given = parse()
    program = given.program.resolve()
    with tempfile.TemporaryDirectory() as path:
        folder = Folder(pathlib.Path(path))
        try:
            if given.growth:
                print(*growth.table(program, folder, given.rows, given.repeat), "", machine.line(), sep="\n")
            elif wrong := compare(program, folder, given.rows or 1_000_000, given.repeat, given.only):
                sys.exit("\n".join(wrong))
        except subprocess.CalledProcessError as failed:
            sys.exit(f"{' '.join(map(str, failed.cmd))[:200]}: status {failed.returncode}: {(failed.stderr or b'').decode().strip()}")


if __name__ == "__main__":
    main()
