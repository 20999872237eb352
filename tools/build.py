#!/usr/bin/env python3
"""build.py: proves and builds the libraries below a program, side by side, before its first run.

    build.py CRATE [--lanes N] [--say]

It builds what CRATE stands on and nothing else (`rt lib` in each crate's folder), each crate once those below it are built, and those
first that most waits for. The one that most waits for is proved by two jobs if it is large, and the others by one at a lower priority, so
that they fill what it leaves free: each job begins by reading all that the crate stands on. `rt lib` locks the folders of the crate and
of all below it, so that two of them in one checkout would wait for each other: each lane has a copy of the sources, in `out/lanes`, and
rt takes from the other lanes what they built. The checkout takes each library as soon as it is built, so that a build which was
interrupted goes on from there. In the end the copies are removed. A second build waits for the first.

    CRATE     a crate of crates.txt
    --lanes N crates at once; if left out, one a processor, at most one for each 4 GB of free memory
    --say     only prints the crates, those first that most waits for

It prints a line on standard error as each crate begins, with how many are built and the minutes since the start. The status is 0 if
all are built, else 1, with what the failed one printed. rt and rattle decide what is proved: this decides the order alone.
"""
import argparse
import fcntl
import os
import shutil
import subprocess
import sys
import tempfile
import time
from concurrent.futures import FIRST_COMPLETED, ThreadPoolExecutor, wait
from pathlib import Path

ROOT = Path(__file__).resolve().parent.parent
MEMORY_OF_A_LANE = 4_000_000_000
# The bytes of code from which on a second job saves more time than it takes to begin.
LARGE = 50_000


def crates_below(name):
    """Returns the crates that the crate stands on, by name, each with those that it stands on itself."""
    lines = (ROOT / "crates.txt").read_text(encoding="utf-8").splitlines()
    parts = (line.partition("#")[0].partition(":") for line in lines)
    stands_on = {head.split()[0]: tail.split() for head, _, tail in parts if head.strip()}
    if name not in stands_on:
        sys.exit(f"build: crates.txt has no crate {name}")
    wanted, left = {}, list(stands_on[name])
    while left:
        crate = left.pop()
        if crate in stands_on and crate not in wanted:
            wanted[crate] = [it for it in stands_on[crate] if it in stands_on]
            left += wanted[crate]
    return wanted


def bytes_of_code(crate):
    """Returns how many bytes of code the crate has: a proof's time goes about with them."""
    return sum(file.stat().st_size for file in (ROOT / "crates" / crate / "src").rglob("*.rt"))


def behind(crates):
    """Returns, by crate, the bytes of code in the longest chain of crates that waits for it, with its own."""
    own = {it: bytes_of_code(it) for it in crates}
    found = {}

    def longest(crate):
        if crate not in found:
            found[crate] = own[crate] + max((longest(it) for it in crates if crate in crates[it]), default=0)
        return found[crate]

    return {it: longest(it) for it in crates}


def lanes_here():
    """Returns one lane a processor, at most one for each 4 GB of memory that is free, and at least one."""
    free = os.sysconf("SC_AVPHYS_PAGES") * os.sysconf("SC_PAGE_SIZE")
    try:
        free = next(int(it.split()[1]) * 1024 for it in Path("/proc/meminfo").read_text().splitlines() if it.startswith("MemAvailable:"))
    except (OSError, StopIteration):
        pass
    return max(1, min(len(os.sched_getaffinity(0)), free // MEMORY_OF_A_LANE))


def copy_of_sources(to):
    """Copies what the crates are built of."""
    (to / "crates").mkdir(parents=True)
    shutil.copy2(ROOT / "crates.txt", to)
    for folder in (ROOT / "crates").iterdir():
        shutil.copytree(folder, to / "crates" / folder.name, ignore=shutil.ignore_patterns("out"))


def build(crate, root, leads=False):
    """Builds a crate's library in a checkout, at a lower priority unless it leads, and returns whether that went well and what was printed."""
    jobs = 2 if leads and bytes_of_code(crate) >= LARGE else 1
    with tempfile.TemporaryFile("w+", encoding="utf-8", errors="replace") as told:
        words = ["nice", "-n", "0" if leads else "10", "rt", "lib", "--jobs", str(jobs)]
        ran = subprocess.run(words, cwd=root / "crates" / crate, stdin=subprocess.DEVNULL, stdout=told, stderr=subprocess.STDOUT)
        told.seek(0)
        return ran.returncode == 0, told.read()


def build_all(crates, room, lanes):
    """Builds the crates in lanes below a folder, has the checkout take each, and returns whether all are built."""
    order, began = behind(crates), time.monotonic()
    left, built, running = sorted(crates, key=lambda it: -order[it]), set(), {}
    idle = [room / str(it) for it in range(lanes)]
    for root in idle:
        copy_of_sources(root)
    with ThreadPoolExecutor(lanes) as pool, ThreadPoolExecutor(1) as taking:
        while left or running:
            first = max(order[it] for it in [*left, *(crate for crate, _ in running.values())])
            for crate in [it for it in left if built.issuperset(crates[it])][: len(idle)]:
                minutes = (time.monotonic() - began) / 60
                print(f"flashts: {minutes:.0f} min, {len(built)} of {len(crates)} are proved, {crate} begins", file=sys.stderr, flush=True)
                left.remove(crate)
                root = idle.pop()
                running[pool.submit(build, crate, root, order[crate] == first)] = crate, root
            for it in wait(running, return_when=FIRST_COMPLETED).done:
                crate, root = running.pop(it)
                idle.append(root)
                is_built, told = it.result()
                if is_built:
                    built.add(crate)
                    taking.submit(build, crate, ROOT)
                else:
                    print(told, file=sys.stderr)
                    left = []
    return len(built) == len(crates)


def main():
    words = argparse.ArgumentParser(description=__doc__, formatter_class=argparse.RawDescriptionHelpFormatter)
    words.add_argument("crate", metavar="CRATE")
    words.add_argument("--lanes", type=int, metavar="N")
    words.add_argument("--say", action="store_true")
    given = words.parse_args()
    crates = crates_below(given.crate)
    if given.say:
        order = behind(crates)
        print("\n".join(sorted(crates, key=lambda it: -order[it])))
        return 0
    room = ROOT / "out" / "lanes"
    room.parent.mkdir(exist_ok=True)
    with open(room.with_suffix(".lock"), "w", encoding="utf-8") as turn:
        fcntl.flock(turn, fcntl.LOCK_EX)
        # (what a build left that was killed)
        shutil.rmtree(room, ignore_errors=True)
        try:
            return 0 if build_all(crates, room, given.lanes or lanes_here()) else 1
        finally:
            shutil.rmtree(room, ignore_errors=True)


if __name__ == "__main__":
    try:
        sys.exit(main())
    except KeyboardInterrupt:
        sys.exit("build: interrupted; what is proved stays, and the next build goes on from there")
