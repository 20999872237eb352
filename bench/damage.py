#!/usr/bin/env python3
"""damage.py PROGRAM: damages an image again and again, and looks at what `flashts salvage` saves of it.

It makes an image with the program, with blobs and reclaimed pages, and damages copies of it: changed bits, torn pages, zeroed and filled
blocks, moved pages, a header that lacks a byte or its end, and a file that ends early. Each is salvaged, and looked at:

- the program ends with a status that it names, and within the time;
- what it wrote is CSV: each line has the fields of the first;
- each row of a data page none of whose bytes was changed is there, and its blob too where no byte of the ring of variable data was;
- the image is as it was.

It writes how many images, rows and pages there were, and ends with 1 if anything was amiss. This is no part of the gate.
"""
import argparse
import collections
import csv
import io
import pathlib
import random
import re
import subprocess
import sys
import tempfile
import time

HEADER, PAGE, BLOCK = 1024, 128, 4
DATA, INDEX, VAR = 8, 3, 6
CONFIGURATION = f"device {PAGE} {BLOCK}\ntable t 8 i32 {DATA} {INDEX} {VAR} 8 0 10 1 90\n"
ROW = 8 + 4 + 10
NAMED = {0, 3, 4, 8, 9, 11, 12, 14, 20}
KINDS = ("bits", "torn", "zeroed", "filled", "moved", "header", "cut header", "short")


def script(rows):
    """A script that fills the table, with a blob in every third row."""
    yield CONFIGURATION + "mount"
    for key in range(rows):
        yield f"put t {key} {key % 90 - 40}" + (f" blob {random.randbytes(key % 90).hex() or '-'}" if key % 3 == 0 else "")
        if key % 7 == 0:
            yield "flush t"
    yield "flush t"


def page(image, number):
    return image[HEADER + number * PAGE : HEADER + (number + 1) * PAGE]


def rows_of(body):
    """The keys and values of the rows of a committed data page."""
    count = int.from_bytes(body[4:6], "little")
    for i in range(count):
        row = body[16 + i * ROW : 16 + (i + 1) * ROW]
        yield int.from_bytes(row[:8], "little"), int.from_bytes(row[8:12], "little", signed=True)


def is_committed(body):
    return body != b"\xff" * PAGE and body[-8:-4] == b"\0" * 4


def damaged(image, kind, dice):
    """A copy of the image with a damage of this kind."""
    copy = bytearray(image)
    pages = (len(image) - HEADER) // PAGE
    at = HEADER + dice.randrange(pages) * PAGE
    block = HEADER + dice.randrange(pages // BLOCK) * BLOCK * PAGE
    match kind:
        case "bits":
            for _ in range(dice.choice((1, 1, 3, 40))):
                bit = dice.randrange(HEADER * 8, len(image) * 8)
                copy[bit // 8] ^= 1 << bit % 8
        case "torn":
            begin = dice.randrange(PAGE)
            copy[at + begin : at + PAGE] = dice.randbytes(PAGE - begin)
        case "zeroed" | "filled":
            copy[block : block + BLOCK * PAGE] = (b"\0" if kind == "zeroed" else b"\xff") * (BLOCK * PAGE)
        case "moved":
            other = HEADER + dice.randrange(pages) * PAGE
            copy[at : at + PAGE] = image[other : other + PAGE]
        case "header":
            # (a changed digit may make another configuration, which nothing can tell)
            copy[dice.randrange(len(CONFIGURATION))] = 0
        case "cut header":
            begin = dice.randrange(HEADER)
            copy[begin:HEADER] = b"\0" * (HEADER - begin)
        case "short":
            del copy[dice.randrange(HEADER, len(image)) :]
    return bytes(copy)


def wanted(image, copy):
    """The rows of the data pages none of whose bytes was changed."""
    for number in range(DATA * BLOCK):
        body = page(image, number)
        if is_committed(body) and page(copy, number) == body:
            yield from rows_of(body)


def amiss(image, copy, before, ended):
    """What is wrong with a salvage of a damaged copy, one line for each."""
    if ended.returncode not in NAMED:
        yield f"status {ended.returncode}"
    if ended.returncode != 0:
        yield f"not done: {ended.stderr.decode(errors='replace')}"
        return
    names, *rows = csv.reader(io.StringIO(ended.stdout.decode("ascii")))
    if names != ["key", "c1", "blob"]:
        yield f"the line of the names is {names}"
    form = re.compile(r"gone|-|([0-9a-f]{2})*")
    if any(len(row) != 3 or not form.fullmatch(row[2]) for row in rows):
        yield "a line isn't a row"
        return
    had = collections.Counter((int(row[0]), int(row[1])) for row in rows)
    missing = collections.Counter(wanted(image, copy)) - had
    if missing:
        yield f"{sum(missing.values())} rows are missing, first {next(iter(missing))}"
    content = slice(HEADER + (DATA + INDEX) * BLOCK * PAGE, None)
    if copy[content] == image[content]:
        blobs = {(int(row[0]), int(row[1])): row[2] for row in rows}
        lost = [row for row in wanted(image, copy) if blobs.get(row) != before[row]]
        if lost:
            yield f"{len(lost)} blobs are others, first that of {lost[0]}"


def salvage(program, path):
    return subprocess.run([program, "salvage", path, "t"], input=CONFIGURATION.encode(), capture_output=True, timeout=10)


def main():
    words = argparse.ArgumentParser(description=__doc__, formatter_class=argparse.RawDescriptionHelpFormatter)
    words.add_argument("program", type=pathlib.Path)
    words.add_argument("--images", type=int, default=10_000, help="how many are damaged (10,000)")
    words.add_argument("--seed", type=int, default=1)
    given = words.parse_args()
    dice = random.Random(given.seed)
    random.seed(given.seed)
    program = given.program.resolve()
    faults, tried, rows, begun = 0, collections.Counter(), 0, time.monotonic()
    with tempfile.TemporaryDirectory() as folder:
        path = pathlib.Path(folder) / "made.img"
        subprocess.run([program, "run", path], input="\n".join(script(300)).encode() + b"\n", stdout=subprocess.DEVNULL, check=True)
        image = path.read_bytes()
        whole = salvage(program, path)
        before = {(int(row[0]), int(row[1])): row[2] for row in list(csv.reader(io.StringIO(whole.stdout.decode())))[1:]}
        for i in range(given.images):
            kind = KINDS[i % len(KINDS)]
            copy = damaged(image, kind, dice)
            path.write_bytes(copy)
            ended = salvage(program, path)
            problems = list(amiss(image, copy, before, ended))
            if path.read_bytes() != copy:
                problems.append("the image was changed")
            faults += bool(problems)
            tried[kind] += 1
            rows += max(0, ended.stdout.count(b"\n") - 1)
            for problem in problems:
                print(f"image {i} ({kind}): {problem}")
        noise = pathlib.Path(folder) / "noise.img"
        noise.write_bytes(dice.randbytes(64 * 1024 * 1024))
        start = time.monotonic()
        ended = salvage(program, noise)
        print(f"64 MiB of noise: status {ended.returncode} in {time.monotonic() - start:.2f} s")
    print(f"{given.images} images in {time.monotonic() - begun:.0f} s: {dict(tried)}; {rows} rows written; {faults} images with something amiss")
    return 1 if faults else 0


if __name__ == "__main__":
    sys.exit(main())
