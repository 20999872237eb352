#!/usr/bin/env python3
"""terminal.py OUT WORDS..: calls WORDS on a new terminal, types the lines of standard input there, each behind a prompt, and then ends the
input there. Standard output goes into the file OUT, and what the terminal has shown is written."""
import os
import pty
import select
import sys

SECONDS = 20


def shown_up_to(terminal, wanted):
    """What the terminal shows, up to what is wanted, or to its end."""
    shown = b""
    while wanted is None or not shown.endswith(wanted):
        if not select.select([terminal], [], [], SECONDS)[0]:
            break
        try:
            piece = os.read(terminal, 4096)
        except OSError:  # (so Linux tells that nobody is left on it)
            break
        if not piece:
            break
        shown += piece
    return shown


def main():
    out, *words = sys.argv[1:]
    lines = sys.stdin.buffer.readlines()
    child, terminal = pty.fork()
    if child == 0:
        os.dup2(os.open(out, os.O_WRONLY | os.O_CREAT | os.O_TRUNC, 0o644), 1)
        os.execv(words[0], words)
    shown = b""
    for line in [*lines, b"\x04"]:
        shown += shown_up_to(terminal, b"> ")
        os.write(terminal, line)
    shown += shown_up_to(terminal, None)
    sys.stdout.buffer.write(shown.replace(b"\r\n", b"\n"))
    return os.waitstatus_to_exitcode(os.waitpid(child, 0)[1])


if __name__ == "__main__":
    sys.exit(main())
