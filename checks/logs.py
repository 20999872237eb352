#!/usr/bin/env python3
"""logs.py PROGRAM: a table with a record log, held against a plain list.

A script puts 40 records into small rings, which come round, and flushes after each seventh: into a table with a log alone, one with an
index too, and one whose index entries are full. Then

  * each of its programs and erases is cut, by each kind of cut, and the rest of the script runs after the next mount,
  * each call of the image's file fails in turn, with nothing of its work done or with half of it,
  * the repairs of a mount are cut again and again, until the data ring has come round.

Each mount has to find every record whose put answered `ok`, less exactly the reclaimed ones, and the record of a put that failed or not:
whichever way the pages in hand went. A check of the image, an export, further puts and another mount have to agree.

It wants a C compiler, for what makes calls fail.
"""
import os
import pathlib
import subprocess
import sys
import tempfile

from hostile import KINDS, PlainList, Program, in_turn

FORMS = {
    "a log": "device 128 2\ntable u 8 i32 3 0 0 0 0 1 1 0 rlc 3\n",
    "a log and an index": "device 128 2\ntable u 8 i32 3 3 0 64 0 10 1 0 rlc 3\n",
    "a log and full entries": "device 128 2\ntable u 8 i32 3 3 0 64 0 10 1 0 index2 rlc 3\n",
}
ROWS = {"a log": 9, "a log and an index": 8, "a log and full entries": 8}
KEYS, LAST = 40, 220
LOOKS = "scan u 0 300\nstat u\n"


def commands():
    """The commands behind the mount: the line, and the key that it puts; none is put by a flush."""
    for key in range(1, KEYS + 1):
        yield f"put u {key} {key % 80}", key
        if key % 7 == 0:
            yield "flush u", None


COMMANDS = list(commands())


def script(lines):
    return "".join(f"{line}\n" for line in lines)


def done(table, key, rows):
    """The list after a command that answered `ok`."""
    table = table.copy()
    if key is None or len(table.pending) == rows:
        table.flush()
    if key is not None:
        table.pending.append(key)
    return table


def sealed(table, *pages):
    """The list after a mount: the pages that were begun, and then all records that the log has alone as a page."""
    table = table.copy()
    table.pending = []
    for keys in pages:
        table.add_page(keys)
    return table


def found(table, key):
    """What a mount may find after a command in which an operation failed."""
    rows = table.pending
    ways = [[rows], [[], rows]] if rows else [[]]
    if key is not None:
        ways += [[rows, [key]]] if rows else []
        ways += [[[*rows, key]]]
    return [sealed(table, *way) for way in ways]


def wanted_lines(table):
    keys = table.kept()
    pages, voids = table.shape()
    return [*[f"row {key} {key % 80}" for key in keys], f"end {len(keys)}"], f"stat rows {len(keys)} pending 0 pages {pages} voids {voids} "


def is_told(replies, table):
    """These replies to `LOOKS` are those of a session over this list."""
    lines, told = wanted_lines(table)
    return replies[:len(lines)] == lines and len(replies) > len(lines) and replies[len(lines)].startswith(told)


def looked(program, image, config, lists):
    """Mounts an image and looks at it: which of these lists it holds, and why it is none of them."""
    status, replies = program.run(image, config + "mount\n" + LOOKS)
    if status or replies[:1] != ["ok"]:
        return None, f"status {status}, {replies[:1]}"
    fit = [table for table in lists if is_told(replies[1:], table)]
    return (fit[0], None) if fit else (None, f"{replies[1:]} and not one of {[wanted_lines(table) for table in lists]}")


def agrees(program, image, config, table):
    """What the tools say of an image that holds this list, and a session after it."""
    sound = subprocess.run([program.path, "check", image], capture_output=True, timeout=100)
    if sound.returncode:
        return f"it isn't sound: {sound.stdout.decode()}"
    text = subprocess.run([program.path, "export", image, "u", "0", "300"], capture_output=True, timeout=100).stdout.decode()
    if text != "key,c1\n" + "".join(f"{key},{key % 80}\n" for key in table.kept()):
        return f"its export is {text!r}"
    after = sealed(table, [LAST])
    status, replies = program.run(image, f"{config}mount\nput u {LAST} {LAST % 80}\noff\nmount\n{LOOKS}")
    return None if status == 0 and replies[:4] == ["ok"] * 4 and is_told(replies[4:], after) else f"afterwards {replies}"


def answered(replies, rows):
    """The list after the commands that were answered by `ok`, how many those are, and the key of the one that failed."""
    table = PlainList()
    for count, ((_, key), reply) in enumerate(zip(COMMANDS, replies)):
        if reply != "ok":
            return table, count, key
        table = done(table, key, rows)
    return table, len(COMMANDS), None


def cut_each(program, folder):
    """Cuts each program and erase of the script, by each kind, and goes on with the rest after the mount."""
    def cut(case):
        form, number, kind = case
        config, rows, image = FORMS[form], ROWS[form], folder / f"cut-{form}-{number}-{kind[0:2]}".replace(" ", "-")
        status, replies = program.run(image, config + script(["mount", f"cut {number} {kind}", *[line for line, _ in COMMANDS]]))
        lost = [reply for reply in replies if reply not in ("ok", "not mounted")]
        if status or lost != ["power lost"]:
            return f"{form}, cut {number} {kind}: status {status}, {lost}"
        before, count, key = answered(replies[2:], rows)
        table, why = looked(program, image, config, found(before, key))
        if why:
            return f"{form}, cut {number} {kind}: {why}"
        # (the rest: a key that is there already is refused)
        rest = COMMANDS[count + 1:]
        status, replies = program.run(image, config + script(["mount", *[line for line, _ in rest]]))
        if status or replies != ["ok"] * (1 + len(rest)):
            return f"{form}, cut {number} {kind}: the rest {status}, {replies}"
        for _, key in rest:
            table = done(table, key, rows)
        table, why = looked(program, image, config, [sealed(table, *([table.pending] if table.pending else []))])
        why = why or agrees(program, image, config, table)
        image.unlink()
        return why and f"{form}, cut {number} {kind}, at the end: {why}"

    cases = []
    for form, config in FORMS.items():
        status, replies = program.run(folder / f"whole-{form}".replace(" ", "-"), config + script(["mount", *[line for line, _ in COMMANDS], "stat u"]))
        if status or replies[:-1] != ["ok"] * (1 + len(COMMANDS)):
            return 0, [f"the script with {form}: status {status}, {replies[-1:]}"]
        words = replies[-1].split()
        cases += [(form, number, kind) for number in range(1, int(words[-3]) + int(words[-1]) + 1) for kind in KINDS]
    return in_turn(cut, cases)


def fail_image(program, folder):
    """Each call of the image's file fails in turn, the making of the image and its mount among them."""
    form = "a log and full entries"
    config, rows = FORMS[form], ROWS[form]
    whole = config + script(["mount", *[line for line, _ in COMMANDS]])

    def fail(case):
        number, half = case
        image = folder / f"call-{number}-{half}"
        status, replies, _ = program.fail(image, whole, "image", number, half)
        if status == 5:
            why = None if not replies else f"{replies[:1]}"
        elif status:
            why = f"status {status}"
        else:
            before, count, key = answered(replies[1:], rows)
            rest = [sealed(before, *([before.pending] if before.pending else []))]
            table, why = looked(program, image, config, found(before, key) if count < len(COMMANDS) else rest)
            why = why or agrees(program, image, config, table)
        image.unlink(missing_ok=True)
        return why and f"call {number}{' by half' if half else ''} of the image's file: {why}"

    status, _, calls = program.fail(folder / "counted", whole, "image", -1)
    if status or calls < 50:
        return 0, [f"the calls of the image's file: status {status}, {calls} calls"]
    return in_turn(fail, [(number, half) for number in range(1, calls + 1) for half in (False, True)])


def cut_repairs(program, folder):
    """The repairs of the mount are cut eight times: the page of the log that is still wanted stays."""
    def cut(case):
        form, number, kind, first = case
        config, image = FORMS[form], folder / f"again-{form}-{number}-{kind[0:2]}-{first[0:2]}".replace(" ", "-")
        status, replies = program.run(image, config + script(["mount", "put u 1 1", "put u 2 2", "put u 3 3", f"cut 1 {first}", "put u 4 4"]))
        if status or replies != ["ok"] * 5 + ["power lost"]:
            return f"{case}: status {status}, {replies}"
        for _ in range(8):
            status, replies = program.run(image, config + script([f"cut {number} {kind}", "mount"]))
            if status or replies[0] != "ok" or replies[1] not in ("ok", "power lost"):
                return f"{case}: status {status}, {replies}"
        status, replies = program.run(image, config + "mount\nscan u 0 300\n")
        wanted = ["ok", "row 1 1", "row 2 2", "row 3 3", "end 3"]
        why = None if (status, replies) == (0, wanted) else f"{case}: status {status}, {replies}"
        image.unlink()
        return why

    return in_turn(cut, [(form, number, kind, first) for form in FORMS for number in (1, 2, 3, 4) for kind in KINDS for first in ("before", "half")])


def main():
    if len(sys.argv) != 2:
        print(__doc__)
        return 2
    status = 0
    with tempfile.TemporaryDirectory() as folder:
        program = Program(os.path.abspath(sys.argv[1]), pathlib.Path(folder))
        for what, table in (("cuts", cut_each), ("failing calls of the image's file", fail_image), ("repairs that are cut", cut_repairs)):
            count, whys = table(program, pathlib.Path(folder))
            for why in whys[:5]:
                print(f"logs: {why}")
            print(f"logs: {what}: {count} cases, {len(whys)} of them wrong")
            status |= bool(whys)
    return status


if __name__ == "__main__":
    sys.exit(main())
