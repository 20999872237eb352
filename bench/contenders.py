"""The programs that do works, the folder with the files of their runs, and the least times of these runs."""
import dataclasses
import hashlib
import pathlib
import shutil
import subprocess
import sys
import time
from collections.abc import Callable

from works import COPY, FILE, Task, Work


@dataclasses.dataclass(frozen=True)
class Contender:
    """A program, and which task it has of a work; None if it can't do it."""

    name: str
    program: pathlib.Path | str
    task: Callable[[Work], Task | None]


def flashts(program):
    return Contender("flashts", program, lambda work: work.store)


def inside(runner, words, program):
    """A run of flashts inside of another program, with these words before its own."""
    return Contender(runner, runner, lambda work: Task((*words, program, *work.store.words), work.store.text))


class Folder:
    """Where the scripts are, and the files that works begin with: each is made once, before the time is taken."""

    def __init__(self, path):
        self.path = path

    def script(self, text):
        """The file with this text."""
        path = self.path / (hashlib.sha256(text.encode()).hexdigest() + ".in")
        if not path.exists():
            path.write_text(text)
        return path

    def made_by(self, contender, work):
        """The file that a work of a program leaves."""
        path = self.path / f"{contender.name} after {work.name}".replace(" ", "-")
        if not path.exists():
            self.execute(contender, work, path, subprocess.DEVNULL)
        return path

    def file_for(self, contender, work):
        """The file over which a work is to run: none yet, the one of its start, or a copy of this."""
        path = self.path / "file"
        path.unlink(missing_ok=True)
        if work.start is None:
            return path
        made = self.made_by(contender, work.start)
        return shutil.copy(made, path) if work.changes else made

    def execute(self, contender, work, path, replies):
        """A run of a work over a file, with its script as standard input; if it makes a second one, that isn't there yet."""
        task = contender.task(work)
        copy = self.path / "copy"
        copy.unlink(missing_ok=True)
        words = [path if word == FILE else str(word).replace(COPY, str(copy)) for word in task.words]
        with self.script(task.text).open("rb") as text:
            return subprocess.run([contender.program, *words], stdin=text, stdout=replies, stderr=subprocess.PIPE, check=True)

    def replies(self, contender, work):
        """What a run of a work answers."""
        return self.execute(contender, work, self.file_for(contender, work), subprocess.PIPE).stdout

    def seconds(self, contender, work):
        """How long a run of a work takes; its replies are thrown away."""
        path = self.file_for(contender, work)
        (self.path / "copy").unlink(missing_ok=True)
        begin = time.perf_counter()
        self.execute(contender, work, path, subprocess.DEVNULL)
        return time.perf_counter() - begin

    def least_seconds(self, contenders, works, turns):
        """The least time of each program for each work that it can do, by (work's name, program's name). In a turn each runs once."""
        least = {}
        for turn in range(1, turns + 1):
            for work in works:
                for contender in contenders:
                    if contender.task(work):
                        at = work.name, contender.name
                        least[at] = min(self.seconds(contender, work), least.get(at, float("inf")))
            print(f"turn {turn} of {turns} is done", file=sys.stderr)
        return least
