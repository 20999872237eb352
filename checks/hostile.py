#!/usr/bin/env python3
"""hostile.py PROGRAM: devices, streams and images that mean harm, held against a plain list.

A script puts 60 records with blobs into small rings, which come round several times, and flushes after each seventh: of a table whose
index entries are bitmaps alone, and of one whose entries are full. Then

  * each of its programs and erases is cut, by each kind of cut,
  * each call of the image's file fails in turn, with nothing of its work done or with half of it,
  * each read of the script and each write of the replies fails in turn.

After each of these the image is mounted, and what is found has to be what a plain list holds of the commands that were answered: with
all or none of the pending records, less exactly the reclaimed ones, whichever of the three ways the page in hand went (blank, void,
committed). Blobs, a scan by values, a put and another mount have to agree.

Then come images that no run leaves: noise behind a good header, each length that is too short, pages that a ring may not have, bad pages
that a mount doesn't read; a line that holds a NUL byte; and an image that changes beside a mounted session, whose answers come from the
pages that it reads.

It wants a C compiler, for what makes calls fail.
"""
import concurrent.futures
import os
import pathlib
import random
import subprocess
import sys
import tempfile

HERE = pathlib.Path(__file__).resolve().parent
WORKERS = os.cpu_count() or 1

BITMAPS = "device 128 2\ntable u 8 i32 3 3 3 64 0 10 1 224\n"
FULL = BITMAPS.rstrip("\n") + " index2\n"
FORMS = {"bitmaps": BITMAPS, "full": FULL}
ROWS, BLOCK, BLOCKS = 4, 2, 3
KEYS = 60
KINDS = ("before", "after", "half", "noise 5")


def value(key):
    return key % 80


def blob(key):
    return bytes((key + i) % 256 for i in range(100))


class PlainList:
    """The records of a table, page by page, with those that are pending."""

    def __init__(self, pages=(), pending=(), first=0):
        self.pages, self.pending, self.first = list(pages), list(pending), first

    def copy(self):
        return PlainList(self.pages, self.pending, self.first)

    def add_page(self, keys):
        """A page takes the next number, with these keys or void. One before the last of its block reclaims the block ahead."""
        number = len(self.pages)
        self.pages.append(list(keys))
        if number % BLOCK == BLOCK - 2:
            self.first = max(self.first, (number // BLOCK + 2 - BLOCKS) * BLOCK)

    def flush(self):
        if self.pending:
            self.add_page(self.pending)
            self.pending = []

    def put(self, key):
        if len(self.pending) == ROWS:
            self.flush()
        self.pending.append(key)

    def found(self):
        """What a mount may find: the page in hand is blank, void, or committed."""
        for seal in ((), [[]], [self.pending] if self.pending else ()):
            state = PlainList(self.pages, [], self.first)
            for keys in seal:
                state.add_page(keys)
            yield state

    def kept(self):
        return [key for page in self.pages[self.first:] for key in page]

    def shape(self):
        kept = self.pages[self.first:]
        return len(kept), sum(not page for page in kept)


def commands():
    """The script's commands behind the mount: its lines, and what each does to a plain list."""
    for key in range(1, KEYS + 1):
        yield f"put u {key} {value(key)} blob {blob(key).hex()}", lambda table, key=key: table.put(key)
        if key % 7 == 0:
            yield "flush u", lambda table: table.flush()


COMMANDS = list(commands())
SCRIPT = "mount\n" + "".join(f"{line}\n" for line, _ in COMMANDS)


class Program:
    """The program, with what makes its calls fail."""

    def __init__(self, path, folder):
        self.path, self.shim = path, folder / "fail.so"
        subprocess.run(["cc", "-O2", "-shared", "-fPIC", "-o", self.shim, HERE / "fail.c", "-ldl"], check=True)

    def run(self, image, script):
        """Runs a script; its status and its replies."""
        ran = subprocess.run([self.path, "run", image], input=script.encode(), capture_output=True, timeout=100)
        return ran.returncode, ran.stdout.decode().splitlines()

    def fail(self, image, script, on, at, half=False):
        """Runs a script while one call fails; also how many calls there were."""
        ran, calls = self.call(["run", image], script, on, at, half)
        return ran.returncode, ran.stdout.decode().splitlines(), calls

    def call(self, words, text, on, at, half=False, kill=False):
        """Calls the program with these words while one call of its own fails, or is its last one; also how many calls there were."""
        told, tell = os.pipe()
        how = {**({"FAIL_HALF": "1"} if half else {}), **({"FAIL_KILL": "1"} if kill else {})}
        env = {**os.environ, "SHIM": str(self.shim), "FAIL_ON": on, "FAIL_AT": str(at), **how}
        start = ["bash", "-c", f'LD_PRELOAD=$SHIM exec "$0" "$@" 9>&{tell} {tell}>&-', self.path, *words]
        ran = subprocess.run(start, input=text.encode(), capture_output=True, env=env, pass_fds=[tell], timeout=100)
        os.close(tell)
        with os.fdopen(told) as told:
            calls = told.read()
        return ran, int(calls or 0)


def wanted_lines(state, extra=()):
    """What a mounted session has to answer to `LOOKS` over this list."""
    keys = [*state.kept(), *extra]
    return [
        *[f"row {key} {value(key)} blob 100" for key in keys], f"end {len(keys)}",
        *[f"row {key} {value(key)} blob 100" for key in keys if 20 <= value(key) <= 39], f"end {sum(20 <= value(key) <= 39 for key in keys)}",
    ]


LOOKS = "scan u 0 300\nscan u 0 300 20 39\nstat u\n"
BLOBS = "".join(f"blob u {key}\n" for key in range(1, KEYS + 1))
LAST = 220
AFTERWARDS = f"put u {LAST} {value(LAST)} blob {blob(LAST).hex()}\nflush u\noff\nmount\nblob u {LAST}\n"


def why_not(program, image, config, lists):
    """Why the image isn't right where it may hold one of these lists; nothing where it is."""
    script = config + "mount\n" + LOOKS + BLOBS + AFTERWARDS + LOOKS
    status, replies = program.run(image, script)
    if status or replies[:1] != ["ok"]:
        return f"status {status}, {replies[:1]}"
    whys = {why_not_this(replies[1:], state) for table in lists for state in table.found()}
    if None in whys:
        sound = subprocess.run([program.path, "check", image], capture_output=True, timeout=100)
        return None if sound.returncode == 0 else f"it isn't sound: {sound.stdout.decode()}"
    return "; or ".join(sorted(whys))


def why_not_this(replies, state):
    """Why these replies aren't those of a session over this list."""
    wanted = wanted_lines(state)
    if replies[:len(wanted)] != wanted:
        return f"{replies[:len(wanted)]} and not {wanted}"
    replies = replies[len(wanted):]
    pages, voids = state.shape()
    told = f"stat rows {len(state.kept())} pending 0 pages {pages} voids {voids} "
    if not replies[0].startswith(told):
        return f"{replies[0]} and not {told}"
    why = why_no_blobs(replies[1:1 + KEYS], state.kept())
    if why:
        return why
    after = state.copy()
    after.add_page([LAST])
    replies = replies[1 + KEYS:]
    wanted = [*["ok"] * 4, f"bytes {blob(LAST).hex()}", *wanted_lines(after)]
    return None if replies[:len(wanted)] == wanted else f"afterwards {replies[:len(wanted)]} and not {wanted}"


def why_no_blobs(replies, keys):
    """A blob is whole or gone, and the gone ones are the oldest."""
    told = {key: replies[key - 1] for key in range(1, KEYS + 1)}
    others = [key for key in told if key not in keys and told[key] != "none"]
    if others:
        return f"key {others[0]} has {told[others[0]]}"
    whole = [key for key in keys if told[key] == f"bytes {blob(key).hex()}"]
    gone = [key for key in keys if told[key] == "gone"]
    return None if gone + whole == keys else f"blobs of {keys}: {gone} gone, {whole} whole"


def answered(replies):
    """The plain list after the commands that were answered by ok: of the one that failed nothing is in it."""
    table = PlainList()
    for (_, act), reply in zip(COMMANDS, replies):
        if reply != "ok":
            return table
        act(table)
    return table


def cut_each(program, folder):
    """Cuts each program and erase of the script, by each kind."""
    def cut(case):
        form, number, kind = case
        image = folder / f"cut-{form}-{number}-{kind[0:2]}"
        script = FORMS[form] + SCRIPT.replace("mount\n", f"mount\ncut {number} {kind}\n", 1)
        status, replies = program.run(image, script)
        lost = [reply for reply in replies if reply not in ("ok", "not mounted")]
        if status or lost != ["power lost"]:
            return f"{form}, cut {number} {kind}: status {status}, {lost}"
        why = why_not(program, image, FORMS[form], [answered(replies[2:])])
        image.unlink()
        return why and f"{form}, cut {number} {kind}: {why}"

    cases = []
    for form, config in FORMS.items():
        status, replies = program.run(folder / f"whole-{form}", config + SCRIPT + "stat u\n")
        if status or replies[:-1] != ["ok"] * (1 + len(COMMANDS)):
            return 0, [f"the script with {form}: status {status}, {replies[-1:]}"]
        words = replies[-1].split()
        operations = int(words[-3]) + int(words[-1])
        cases += [(form, number, kind) for number in range(1, operations + 1) for kind in KINDS]
    return in_turn(cut, cases)


def fail_image(program, folder):
    """Each call of the image's file fails in turn, the making of the image and its mount among them."""
    def fail(case):
        form, number, half = case
        image = folder / f"call-{form}-{number}-{half}"
        status, replies, _ = program.fail(image, FORMS[form] + SCRIPT + LOOKS, "image", number, half)
        if status == 5:
            why = None if not replies else f"{replies[:1]}"
            image.unlink(missing_ok=True)
        elif status:
            why = f"status {status}"
        else:
            why = why_not(program, image, FORMS[form], [answered(replies[1:])])
            image.unlink()
        return why and f"{form}, call {number}{' by half' if half else ''} of the image's file: {why}"

    cases = []
    for form, config in FORMS.items():
        status, _, calls = program.fail(folder / f"counted-{form}", config + SCRIPT + LOOKS, "image", -1)
        if status or calls < 100:
            return 0, [f"the calls of the image's file with {form}: status {status}, {calls} calls"]
        cases += [(form, number, half) for number in range(1, calls + 1) for half in (False, True)]
    return in_turn(fail, cases)


def fail_streams(program, folder):
    """Each read of the script and each write of the replies fails in turn."""
    script = BITMAPS + SCRIPT + LOOKS
    cases = []
    for on, wanted in (("source", 3), ("sink", 4)):
        status, replies, calls = program.fail(folder / f"counted-{on}", script, on, -1)
        if status or not calls:
            return 0, [f"the calls of the {on}: status {status}, {calls} calls"]
        cases += [(on, wanted, number, replies) for number in range(1, calls + 1)]

    def fail(case):
        on, wanted, number, whole = case
        image = folder / f"{on}-{number}"
        status, replies, _ = program.fail(image, script, on, number)
        if status != wanted or replies != whole[:len(replies)]:
            return f"call {number} of the {on}: status {status}, {replies[-1:]}"
        if not image.exists():
            return None
        # (commands of the piece in hand may be done whose replies aren't out)
        lists = [answered(["ok"] * count) for count in range(max(len(replies) - 1, 0), len(COMMANDS) + 1)]
        why = why_not(program, image, BITMAPS, lists)
        return why and f"call {number} of the {on}: {why}"

    return in_turn(fail, cases)


def noise_and_lengths(program, folder):
    """Noise behind a good header, each length that isn't a run's, and a NUL byte as a line."""
    config = "device 128 4\ntable t 8 i32 3 0 0 0 0 1 1 0\n"
    look = "mount\nscan t 0 300\nput t 1 1\nflush t\noff\nmount\n"
    good = folder / "good"
    program.run(good, config + "".join(["mount\n", *[f"put t {key} {key}\n" for key in range(1, 91)], "flush t\n"]))
    content = good.read_bytes()
    cases = [("noise", seed) for seed in range(100)] + [("length", length) for length in range(64, len(content), 64)]

    def look_at(case):
        form, number = case
        image = folder / f"{form}-{number}"
        bad = content[:1024] + random.Random(number).randbytes(len(content) - 1024) if form == "noise" else content[:number]
        image.write_bytes(bad)
        status, replies = program.run(image, config + look)
        if form == "length" and (status, replies, image.read_bytes()) != (7, [], bad):
            return f"an image of {number} bytes: status {status}, {replies[:1]}"
        if form == "noise" and (status or replies[:1] not in (["ok"], ["bad image t"])):
            return f"noise {number}: status {status}, {replies[:1]}"
        return None

    count, whys = in_turn(look_at, cases)
    status, replies = program.run(folder / "nul", config + "\0\nmount\n")
    return count + 1, whys + ([] if (status, replies) == (2, []) else [f"a NUL byte as line 3: status {status}, {replies}"])


def bad_rings(program, folder):
    """Rings as no run leaves them, byte by byte: the mount refuses each."""
    blank = "device 128 4\ntable t 8 i32 3 0 0 0 0 1 1 0\n"
    indexed = "device 128 4\ntable s 8 i32 8 4 0 64 0 100 1 0\n"
    last = (2**32 - 14).to_bytes(4, "little")
    page = (0).to_bytes(4, "little") + last + (13).to_bytes(2, "little")
    rows = [
        ("a committed page without a body", blank, "t", {1144: bytes(4)}),
        ("a committed page behind a blank one", blank, "t", {1272: bytes(4)}),
        ("an index page behind which no number is left", indexed, "s", {1024 + 8 * 4 * 128: page + b"\xff" * (120 - len(page)) + bytes(4)}),
    ]
    whys = []
    for number, (what, config, name, pokes) in enumerate(rows):
        image = folder / f"ring-{number}"
        program.run(image, config + "mount\n")
        content = bytearray(image.read_bytes())
        for at, text in pokes.items():
            content[at:at + len(text)] = text
        image.write_bytes(content)
        status, replies = program.run(image, config + "mount\n")
        if (status, replies) != (0, [f"bad image {name}"]):
            whys.append(f"{what}: status {status}, {replies}")
    return len(rows), whys


def bad_pages(program, folder):
    """Pages that a mount goes past, since the index lists them: committed, but with a number or a count that isn't theirs."""
    config = "device 128 2\ntable u 8 i32 6 3 12 64 0 10 1 224 index2\n"
    whole = folder / "listed"
    puts = [f"put u {key} {value(key)} blob {blob(key).hex()}\n" for key in range(1, 21)]
    program.run(whole, config + "".join(["mount\n", *puts, "flush u\n"]))
    # Five pages of four rows, of which the index lists all but the last. A lookup of key 10 comes to page 2, and one of key 1 doesn't.
    # The blobs of each four rows begin on a page of their own, whose content has 112 bytes.
    looks = "get u 1\nget u 10\nblob u 10\nscan u 1 300\nscan u 1 300 20 39\n"
    shown = [f"row {key} {value(key)} blob 100" for key in range(1, 21)]
    found = [shown[0], "bad page 2", "bad page 2", *shown[:8], "bad page 2", shown[19], "end 1"]
    blobs = "blob u 6\nblob u 7\nblob u 8\n"
    cut = [f"bytes {blob(6)[:12].hex()}", "bad page 5", "bad page 5", f"bytes {blob(8).hex()}"]
    rows = [
        ("a page of rows has another number", 2, 0, (9).to_bytes(4, "little"), looks, found),
        ("a page of rows has no row", 2, 4, bytes(2), looks, found),
        ("a page of rows has more rows than a page", 2, 4, b"\x05\x00", looks, found),
        ("a page of blobs has another number", 18 + 5, 0, (9).to_bytes(4, "little"), blobs, cut),
        ("a page of blobs has no byte", 18 + 5, 4, bytes(2), blobs, cut),
    ]
    whys = []
    for number, (what, page, at, text, asked, wanted) in enumerate(rows):
        image = folder / f"listed-{number}"
        content = bytearray(whole.read_bytes())
        place = 1024 + page * 128 + at
        content[place:place + len(text)] = text
        image.write_bytes(content)
        status, replies = program.run(image, config + "mount\n" + asked)
        if (status, replies) != (0, ["ok", *wanted]):
            whys.append(f"{what}: status {status}, {replies}")
    return len(rows), whys


class Session:
    """A program that runs, and answers line after line."""

    def __init__(self, program, image):
        self.ran = subprocess.Popen([program.path, "run", image], stdin=subprocess.PIPE, stdout=subprocess.PIPE, stderr=subprocess.DEVNULL, text=True)

    def ask(self, *lines):
        """Sends these lines, and gives the reply to the last, where each has one of one line."""
        for line in lines:
            self.ran.stdin.write(f"{line}\n")
            self.ran.stdin.flush()
            reply = self.ran.stdout.readline().rstrip("\n")
        return reply

    def tell(self, text):
        self.ran.stdin.write(text)

    def end(self):
        self.ran.stdin.close()
        self.ran.stdout.close()
        self.ran.wait(100)


def changed_pages(program, folder):
    """Answers come from the pages that are read: the image changes beside a mounted session, and so do they."""
    keyed = "device 128 4\ntable t 8 i32 300 0 0 8 0 10 1 0\n", ["mount", "load t 8000 1 7", "flush t"]
    listed = "device 128 4\ntable s 4 i16 40 3 4 64 0 100 1 300\n", ["mount", *[f"put s {key} {100 * ((key - 1) // 6)}" for key in range(1, 86)]]
    rows = [
        ("the first key of a page becomes 0", keyed, 500 * 128 + 16, 8, "get t 4000", "none"),
        ("the value of a row becomes 0", keyed, 499 * 128 + 108, 4, "get t 4000", "row 4000 0"),
        ("the bitmap of a page becomes 0", listed, 160 * 128 + 56, 8, "scan s 1 85 500 599", "end 0"),
    ]
    whys = []
    for number, (what, (config, lines), at, length, question, wanted) in enumerate(rows):
        image = folder / f"beside-{number}"
        session = Session(program, image)
        session.tell(config)
        session.ask(*lines)
        with open(image, "r+b") as file:
            file.seek(1024 + at)
            file.write(bytes(length))
        reply = session.ask(question)
        session.end()
        if reply != wanted:
            whys.append(f"{what}: {reply} and not {wanted}")
    return len(rows), whys


def in_turn(look, cases):
    with concurrent.futures.ThreadPoolExecutor(WORKERS) as pool:
        return len(cases), [why for why in pool.map(look, cases) if why]


def main():
    if len(sys.argv) != 2:
        print(__doc__)
        return 2
    status = 0
    with tempfile.TemporaryDirectory() as folder:
        program = Program(os.path.abspath(sys.argv[1]), pathlib.Path(folder))
        for what, table in (("cuts", cut_each), ("failing calls of the image's file", fail_image), ("failing streams", fail_streams),
                            ("noise and lengths", noise_and_lengths), ("rings that no run leaves", bad_rings), ("bad pages", bad_pages),
                            ("pages that change beside a session", changed_pages)):
            count, whys = table(program, pathlib.Path(folder))
            for why in whys[:5]:
                print(f"hostile: {why}")
            print(f"hostile: {what}: {count} cases, {len(whys)} of them wrong")
            status |= bool(whys)
    return status


if __name__ == "__main__":
    sys.exit(main())
