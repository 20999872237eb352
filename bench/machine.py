"""What is said of the machine, and how often a get calls its system."""
import collections
import os
import pathlib
import platform
import re
import shutil
import subprocess

import works
from contenders import flashts, inside

ROWS, GETS = 40_000, 1_000


def first_line(*command):
    """The first line that a command answers; None if there is no such command."""
    if not shutil.which(command[0]):
        return None
    return subprocess.run(command, stdout=subprocess.PIPE, text=True).stdout.splitlines()[0]


def line():
    """The processor, the system, the other programs, and how busy the machine is."""
    info = pathlib.Path("/proc/cpuinfo")
    model = re.search(r"model name\s*:\s*(.*)", info.read_text()) if info.exists() else None
    shell = first_line("sqlite3", "--version")
    parts = [
        model[1] if model else platform.machine(),
        f"{os.cpu_count()} processors",
        f"{platform.system()} {platform.release()}",
        first_line("cc", "--version") or "no cc",
        f"sqlite3 {shell.split()[0]}" if shell else "no sqlite3",
        f"load {os.getloadavg()[0]:.1f}",
    ]
    return f"Machine: {', '.join(parts)}."


def calls(program, folder, work):
    """How often a run of a work calls the system, by the names of the calls."""
    trace = folder.path / "trace"
    folder.execute(inside("strace", ("-f", "-o", trace), program), work, folder.made_by(flashts(program), work.start), subprocess.DEVNULL)
    return collections.Counter(re.findall(r"^\d+ +(\w+)\(", trace.read_text(), re.M))


def calls_of_a_get(program, folder):
    """The calls for one get, as a text: those of many, less those of the mount before them. None if there is no strace."""
    if not shutil.which("strace"):
        return None
    begin = (works.table(ROWS), "mount")
    loaded = works.Work("rows to trace", works.script(*begin, *works.loads(ROWS), "flush t"))
    mount = works.Work("mount to trace", works.script(*begin), start=loaded)
    gets = works.Work("gets to trace", works.script(*begin, *(f"get t {1 + i * 7_919 % ROWS}" for i in range(GETS))), start=loaded)
    of_gets = calls(program, folder, gets) - calls(program, folder, mount)
    return ", ".join(f"{count / GETS:.2f} {name}" for name, count in of_gets.most_common() if 100 * count >= GETS)
