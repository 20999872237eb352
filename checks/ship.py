#!/usr/bin/env python3
"""ship.py PROGRAM: ships between two images, held against plain lists.

  * Many scripts of runs over a source, of ships, repeated ones among them, and of cuts in the one and in the copy: of a table alone, with
    an index, with full entries, and between two tables that aren't shipped. After each ship the copy has what a plain list has, and that
    stands without a gap in the list of all that the source ever had. Where the source no longer has the copy's last key, the ship says so.
  * Each call of the two files fails in turn, or is the program's last one, by half or whole, in a first ship and in one that comes round
    the copy's ring: the copy is a front of what it had and was given, without its oldest, and a second ship brings the rest.
  * Files that another program has, and the same file twice.

It wants a C compiler, for what makes calls fail.
"""
import os
import pathlib
import random
import shutil
import subprocess
import sys
import tempfile

from hostile import KINDS, PlainList, Program, Session, in_turn

LOGGED = "table a 8 i32 3 0 0 0 0 1 1 0 rlc 3\n"
BLOBS = "table b 8 i32 3 0 3 0 0 1 1 30\n"
FORMS = {
    "alone": "device 64 2\ntable u 8 i32 3 0 0 0 0 1 1 0\n",
    "indexed": "device 64 2\ntable u 8 i32 3 3 0 8 0 10 1 0\n",
    "full entries": "device 64 2\ntable u 8 i32 3 3 0 8 0 10 1 0 index2\n",
    "between others": "device 64 2\n" + LOGGED + "table u 8 i32 3 0 0 0 0 1 1 0\n" + BLOBS,
}
ROWS = 3  # (a page)
LOOKS = "scan u 0 18446744073709551615\nstat u\n"
SCRIPTS, STEPS = 30, 10


def value(key):
    return key * 37 % 1009 - 500


def put(table, key):
    if len(table.pending) == ROWS:
        table.flush()
    table.pending.append(key)


def voided(table):
    """The list after a mount that gives a torn page up."""
    table = PlainList(table.pages, [], table.first)
    table.add_page([])
    return table


def shipped(source, copy, count):
    """What a ship of so many records has to write, as its status and its number, and the copy's list after it."""
    keys, had = source.kept(), copy.kept()
    if keys and had and had[-1] not in keys:
        return (17, had[-1], keys[0]), copy
    last = had[-1] if had else -1
    given = [key for key in keys if key > last][:count]
    after = copy.copy()
    for key in given:
        put(after, key)
    after.flush()
    return (0, len(given)), after


def is_part(keys, ever):
    """They stand in the list without a gap."""
    return not keys or (keys[0] in ever and ever[ever.index(keys[0]):][:len(keys)] == keys)


class Images:
    """A source and its copy as files, and what plain lists have of them."""

    def __init__(self, program, folder, form):
        self.program, self.folder = program, folder
        self.config = FORMS[form]
        self.image, self.copy = folder / "image", folder / "copy"
        self.source, self.copied, self.ever, self.key = PlainList(), PlainList(), [], 0

    def found(self, image):
        """What a mount finds of an image, which stays as it is: its keys, its pages and its void ones."""
        beside = self.folder / "beside"
        shutil.copy(image, beside)
        status, replies = self.program.run(beside, self.config + "mount\n" + LOOKS)
        if status or replies[:1] != ["ok"]:
            raise AssertionError(f"{image.name}: status {status}, {replies[:1]}")
        rows = [line.split() for line in replies[1:-2]]
        wrong = [row for row in rows if row[0] != "row" or int(row[2]) != value(int(row[1]))]
        if wrong:
            raise AssertionError(f"{image.name}: {wrong[0]}")
        words = replies[-1].split()
        return [int(row[1]) for row in rows], int(words[words.index("pages") + 1]), int(words[words.index("voids") + 1])

    def shape(self, table):
        pages, voids = table.shape()
        return table.kept(), pages, voids

    def sound(self, image):
        told = subprocess.run([self.program.path, "check", image], capture_output=True, timeout=100)
        if told.returncode:
            raise AssertionError(f"{image.name} isn't sound: {told.stdout.decode()}")

    def run_source(self, lines):
        """Runs lines over the source, `put KEY` and `flush` among them, and finds out which of the possible lists it has then."""
        text = "".join(f"put u {line[4:]} {value(int(line[4:]))}\n" if line.startswith("put") else "flush u\n" if line == "flush" else f"{line}\n" for line in lines)
        status, replies = self.program.run(self.image, self.config + "mount\n" + text)
        if status or replies[:1] != ["ok"] or len(replies) != len(lines) + 1:
            raise AssertionError(f"a run of {lines}: status {status}, {replies}")
        table, ways = self.source.copy(), None
        for line, reply in zip(lines, replies[1:]):
            if reply == "power lost":
                ways = list(table.found())
                break
            if reply != "ok":
                raise AssertionError(f"{line}: {reply}")
            if line == "flush":
                table.flush()
            elif line.startswith("put"):
                put(table, int(line[4:]))
        ways = ways or [PlainList(table.pages, [], table.first)]
        found = self.found(self.image)
        fit = [way for way in ways if self.shape(way) == found]
        if not fit:
            raise AssertionError(f"after {lines} the source has {found} and not one of {[self.shape(way) for way in ways]}")
        self.source = fit[0]
        self.grown()

    def grown(self):
        """All that the source ever had grows by what is new in it."""
        self.ever += [key for key in self.source.kept() if not self.ever or key > self.ever[-1]]

    def cut_copy(self, kind, key):
        """A page of the copy is begun, and not sealed: one of its data, or of its index."""
        status, replies = self.program.run(self.copy, f"{self.config}mount\nput u {key} 0\ncut 1 {kind}\nflush u\n")
        if status or replies != ["ok", "ok", "ok", "power lost"]:
            raise AssertionError(f"a cut in the copy: status {status}, {replies}")
        found = self.found(self.copy)
        fit = [way for way in (self.copied, voided(self.copied)) if self.shape(way) == found]
        if not fit or (kind == "before" and fit[0] is not self.copied):
            raise AssertionError(f"after a cut the copy has {found} and not {self.shape(self.copied)}, or that and a void page")
        self.copied = fit[0]

    def ship(self, count):
        """Ships so many records, and compares what is said and what both images have then."""
        wanted, after = shipped(self.source, self.copied, count)
        told = subprocess.run([self.program.path, "ship", self.image, self.copy, "u", str(count)], stdin=subprocess.DEVNULL, capture_output=True, text=True, timeout=100)
        text = f"shipped {wanted[1]}\n" if wanted[0] == 0 else ""
        if (told.returncode, told.stdout) != (wanted[0], text):
            raise AssertionError(f"a ship of {count}: status {told.returncode}, {told.stdout!r}, {told.stderr!r} and not {wanted}")
        if wanted[0] == 17 and f"last key {wanted[1]}, its first one is {wanted[2]}\n" not in told.stderr:
            raise AssertionError(f"a gap that is told as {told.stderr!r} and not {wanted}")
        self.copied = after
        self.compare()
        return wanted[0] == 0

    def compare(self):
        for image, table in ((self.image, self.source), (self.copy, self.copied)):
            if self.found(image) != self.shape(table):
                raise AssertionError(f"{image.name} has {self.found(image)} and not {self.shape(table)}")
            self.sound(image)
        if not is_part(self.copied.kept(), self.ever):
            raise AssertionError(f"the copy has a gap: {self.copied.kept()} of {self.ever}")

    def step(self, chance):
        """One step of a script."""
        what = chance.choice(["run", "run", "run", "ship", "ship", "again", "cut"])
        if what == "run":
            lines = [f"cut {chance.randrange(1, 25)} {chance.choice(KINDS)}"] if chance.random() < 0.5 else []
            for _ in range(chance.randrange(1, 16)):
                self.key += chance.randrange(1, 4)
                lines.append(f"put {self.key}")
                if chance.random() < 0.2:
                    lines.append("flush")
            self.run_source(lines + (["flush"] if chance.random() < 0.5 else []))
        elif what == "cut" and self.copy.exists():
            self.cut_copy(chance.choice(KINDS), self.key + 1000)
        elif self.image.exists():
            count = chance.choice([1, 2, 3, 5, 8, 1000000])
            is_whole = self.ship(count)
            if what == "again" and is_whole:
                self.ship(count)
            if not is_whole:
                # (a new copy, beside the one with the gap)
                self.copy, self.copied = self.folder / f"copy-{self.key}", PlainList()
                if not self.ship(count):
                    raise AssertionError("a new copy has a gap")


def random_scripts(program, folder):
    """Runs, ships and cuts by chance."""
    def script(case):
        form, seed = case
        chance, beneath = random.Random(f"{form} {seed}"), folder / f"{form}-{seed}".replace(" ", "-")
        beneath.mkdir()
        images = Images(program, beneath, form)
        try:
            for _ in range(STEPS):
                images.step(chance)
        except AssertionError as why:
            return f"{form}, script {seed}: {why}"
        shutil.rmtree(beneath)
        return None

    return in_turn(script, [(form, seed) for form in FORMS for seed in range(SCRIPTS)])


def begun(program, folder, form, is_round):
    """Two images: a source whose last page is torn, and no copy; or one that is ahead by two pages of a copy that has come round its ring."""
    folder.mkdir()
    images = Images(program, folder, form)
    for first in range(1, 25 if is_round else 13, 6):
        if is_round and first > 1:
            images.ship(1000000)
        images.run_source([*[f"put {key}" for key in range(first, first + 6)], "flush"])
    if not is_round:
        images.run_source(["put 90", "cut 1 half", "flush"])
    return images


def ends_of_ship(images):
    """The lists that the copy may be after a ship that ended at any call."""
    had = images.copied.kept()
    table, ways = images.copied.copy(), []
    for key in [key for key in images.source.kept() if not had or key > had[-1]]:
        ways += table.found()
        put(table, key)
    ways += table.found()
    table.flush()
    return [*ways, table]


def call_each(program, folder):
    """Each call of the two files fails in turn, or is the last one of the program."""
    def call(case):
        form, is_round, number, half, kill = case
        name = f"{form} {'round' if is_round else 'first'} {number} {half} {kill}"
        images = begun(program, folder / name.replace(" ", "-"), form, is_round)
        why = ends_at(images, number, half, kill)
        if why:
            return f"{'a kill' if kill else 'a fault'} at call {number}{' by half' if half else ''}, {form}{', round the ring' if is_round else ''}: {why}"
        shutil.rmtree(images.folder)
        return None

    def ends_at(images, number, half, kill):
        words, ways = ["ship", images.image, images.copy, "u", "1000000"], ends_of_ship(images)
        ran, _ = program.call(words, "", "image", number, half, kill)
        if ran.returncode not in ((0, -9) if kill else (0, 12)) or (ran.returncode and ran.stdout):
            return f"status {ran.returncode}, {ran.stdout!r}, {ran.stderr!r}"
        try:
            if images.found(images.image) != images.shape(images.source):
                return f"the source has {images.found(images.image)}"
            left = images.copy.stat().st_size if images.copy.exists() else 0
            if left == images.image.stat().st_size:
                found = images.found(images.copy)
                ways = [way for way in ways if images.shape(way) == found]
                if not ways:
                    return f"the copy has {found}"
            elif left:
                # (its making failed: it is refused, and stays)
                before = images.copy.read_bytes()
                again = subprocess.run([program.path, *words], capture_output=True, timeout=100)
                if again.returncode != 11 or images.copy.read_bytes() != before:
                    return f"a copy that is half made: status {again.returncode}"
                images.copy.unlink()
            if left != images.image.stat().st_size:
                ways = [PlainList()]
            again = subprocess.run([program.path, *words], capture_output=True, timeout=100)
            ends = [shipped(images.source, way, 1000000) for way in ways]
            found = images.found(images.copy)
            if (again.returncode, again.stdout.decode(), found) not in [(0, f"shipped {told[1]}\n", images.shape(after)) for told, after in ends]:
                return f"the second ship: {again.returncode}, {again.stdout!r}, {again.stderr!r}, and the copy has {found}"
            images.sound(images.copy)
            return None if is_part(found[0], images.ever) and found[0][-1:] == images.ever[-1:] else f"the copy has {found[0]} of {images.ever}"
        except AssertionError as why:
            return str(why)

    cases = []
    for form in ("alone", "full entries"):
        for is_round in (False, True):
            images = begun(program, folder / f"counted {form} {is_round}".replace(" ", "-"), form, is_round)
            ran, calls = program.call(["ship", images.image, images.copy, "u", "1000000"], "", "image", -1)
            if ran.returncode or calls < 4:
                return 0, [f"the calls of a ship: status {ran.returncode}, {calls} calls"]
            cases += [(form, is_round, number, half, kill) for number in range(1, calls + 1) for half in (False, True) for kill in (False, True)]
    return in_turn(call, cases)


def used_files(program, folder):
    """Files that another program has, and the same file twice, by each name that it has."""
    images = begun(program, folder / "used", "alone", True)
    words, whys, count = ["ship", images.image, images.copy, "u", "9"], [], 0

    def refused(what, words, wanted):
        nonlocal count
        count += 1
        before = [path.read_bytes() for path in (images.image, images.copy)]
        told = subprocess.run([program.path, *words], stdin=subprocess.DEVNULL, capture_output=True, text=True, timeout=100)
        if (told.returncode, told.stdout) != (20, "") or not told.stderr.startswith(f"flashts: {wanted}\n"):
            whys.append(f"{what}: status {told.returncode}, {told.stdout!r}, {told.stderr!r}")
        if before != [path.read_bytes() for path in (images.image, images.copy)]:
            whys.append(f"{what}: an image has changed")

    for image, wanted in ((images.image, "another program uses the image"), (images.copy, "another program uses the copy")):
        holder = Session(program, image)
        holder.tell(images.config)
        holder.ask("stat u")
        refused(wanted, words, wanted)
        holder.end()
    hard, link, other = (images.folder / name for name in ("hard", "link", "other"))
    os.link(images.image, hard)
    link.symlink_to(images.image)
    other.symlink_to(images.folder)
    for name in (images.image, hard, link, other / "image", images.folder / "." / "image"):
        refused(f"the same file by {name.name}", ["ship", images.image, name, "u", "9"], "the copy is the image itself")
        refused(f"the same file by {name.name}, the other way round", ["ship", name, images.image, "u", "9"], "the copy is the image itself")
    missing = images.folder / "missing"
    told = subprocess.run([program.path, "ship", missing, missing, "u", "9"], stdin=subprocess.DEVNULL, capture_output=True, timeout=100)
    if told.returncode != 11 or missing.exists():
        whys.append(f"the same missing file: status {told.returncode}, {missing.exists()}")
    return count + 1, whys


def main():
    if len(sys.argv) != 2:
        print(__doc__)
        return 2
    # (the keys of a gap stand in its explanation)
    os.environ["FLASHTS_EXPLAIN"] = "1"
    status = 0
    with tempfile.TemporaryDirectory() as folder:
        program = Program(os.path.abspath(sys.argv[1]), pathlib.Path(folder))
        for what, table in (("scripts of runs, ships and cuts", random_scripts), ("calls that fail, and kills", call_each), ("files in use", used_files)):
            count, whys = table(program, pathlib.Path(folder))
            for why in whys[:5]:
                print(f"ship: {why}")
            print(f"ship: {what}: {count} cases, {len(whys)} of them wrong")
            status |= bool(whys)
    return status


if __name__ == "__main__":
    sys.exit(main())
