"""A client of flashts: an append-only time series store over an image of raw flash, held open by `flashts shell`.

    with flashts.open("sensor.img", ["device 512 8", "table env 4 i16,u8 64 0 0 16 -200 25 2 0"]) as store:
        store.put("env", 1700000000, -31, 52)
        store.flush("env")
        for key, temperature, humidity in store.scan("env"):
            print(key, temperature / 10, humidity)

One program at a time uses an image. A put counts as kept once a flush of its table has returned; `close`, and the end of the `with`,
flush what is pending. Needs Python 3.9, and nothing beside its standard library.
"""
from __future__ import annotations

import os
import subprocess
from typing import Iterable, Iterator, NamedTuple, Optional, Sequence, Union

__all__ = ["open", "Store", "Table", "Group", "Counts", "Error", "Refused", "NotMounted", "NoTable", "NoColumn", "PowerLost",
           "DeviceFault", "ReadFault", "BadImage", "BadCommand", "Ended", "ALL"]

#: The lowest and the greatest key.
ALL = (0, 2**64 - 1)

Row = tuple  # (key, value of column 1, ..), and behind them the length of the blob or None, if the table keeps blobs


class Error(Exception):
    """A reply that says that a command wasn't done. `reply` is its line."""

    def __init__(self, reply: str):
        super().__init__(reply)
        self.reply = reply


class Refused(Error):
    """A put was refused and changed nothing. `cause` is key, columns, value, blob or spent; `wanted` is the number behind it."""

    def __init__(self, reply: str):
        super().__init__(reply)
        words = reply.split()
        self.cause: str = words[1]
        self.wanted: Optional[int] = int(words[2]) if len(words) > 2 else None


class NotMounted(Error):
    """The session isn't mounted: it was ended by `off`, a cut or a fault, and `mount` begins the next one."""


class NoTable(Error):
    """No table has the name."""


class NoColumn(Error):
    """The table doesn't have the column."""


class PowerLost(Error):
    """The armed cut came. What was pending is lost, but in a table with a log, and the session isn't mounted."""


class DeviceFault(Error):
    """The image failed. What was pending is lost, but in a table with a log, and the session isn't mounted."""


class ReadFault(Error):
    """A read of the image failed, or a page was changed from outside."""


class BadImage(Error):
    """No run has left what is on the blocks of a table: the session isn't mounted."""


class BadCommand(Error):
    """The line is no command. The reply says why, and nothing was done."""


class Ended(Error):
    """The program ended. `status` is its exit status, and the text what it said on standard error."""

    def __init__(self, status: int, said: str):
        super().__init__(said or f"flashts ended with status {status}")
        self.status = status


class Table(NamedTuple):
    """A table of the image, by the words of its line."""

    name: str
    key_bytes: int
    columns: tuple
    has_blobs: bool


class Group(NamedTuple):
    """The values of one column over the keys from `group * width` on, below `(group + 1) * width`."""

    group: int
    count: int
    least: int
    greatest: int
    total: int
    mean: int


class Counts(NamedTuple):
    """What a table holds: rows, of which some are pending, and data pages, of which some are void."""

    rows: int
    pending: int
    pages: int
    voids: int


_FAULTS = {"not mounted": NotMounted, "no table": NoTable, "power lost": PowerLost, "device fault": DeviceFault, "read fault": ReadFault}
_FIRST_WORDS = (("? ", BadCommand), ("refused ", Refused), ("no column ", NoColumn), ("bad image ", BadImage), ("bad page ", ReadFault))


def _fault(line: str) -> Optional[Error]:
    kind = _FAULTS.get(line)
    if kind is None:
        kind = next((kind for word, kind in _FIRST_WORDS if line.startswith(word)), None)
    return None if kind is None else kind(line)


class Store:
    """An image that is held open. `configuration` is needed for a new image alone: its device line and its table lines."""

    def __init__(self, image: str, configuration: Union[str, Iterable[str]] = (), program: str = "flashts", sync: bool = False):
        lines = configuration.splitlines() if isinstance(configuration, str) else list(configuration)
        words = [program, "shell", *(["sync"] if sync else []), image]
        # (so that an error says why, and what to do)
        environment = {**os.environ, "FLASHTS_EXPLAIN": "1"}
        self._process = subprocess.Popen(
            words, stdin=subprocess.PIPE, stdout=subprocess.PIPE, stderr=subprocess.PIPE, encoding="utf-8", env=environment
        )
        self._fence = 0
        try:
            # (an image that has a configuration answers that these lines come too late: then they have to be its own)
            for line in lines:
                self._configure(line)
            # (before the mount, since to describe what a mounted table holds may read its pages)
            self.tables: dict[str, Table] = {table.name: table for table in self._tables()}
            self.mount()
        except BaseException:
            # (not by a signal: at the end of its input the program leaves no empty file)
            self._process.communicate()
            raise

    def __enter__(self) -> Store:
        return self

    def __exit__(self, kind: object, error: object, trace: object) -> None:
        self.close()

    # ---- lines

    def ask(self, line: str) -> list[str]:
        """The lines of the reply to a line, whatever they say."""
        return self._ask_all([line])

    def _ask_all(self, lines: Sequence[str]) -> list[str]:
        for line in lines:
            if "\n" in line:
                raise ValueError("a command is one line")
        self._fence += 1
        fence = f"~{self._fence}"
        assert self._process.stdin and self._process.stdout
        if self._process.stdin.closed:
            raise ValueError("the store is closed")
        try:
            self._process.stdin.write("".join(f"{line}\n" for line in lines) + f"echo {fence}\n")
            self._process.stdin.flush()
        except BrokenPipeError:
            self._end()
        replies = []
        for line in self._process.stdout:
            line = line.rstrip("\n")
            if line == fence:
                return replies
            replies.append(line)
        self._end()
        raise AssertionError

    def _end(self) -> None:
        _, said = self._process.communicate()
        raise Ended(self._process.returncode, said.strip())

    def _reply(self, line: str) -> str:
        """The last line of the reply, if it reports no fault."""
        replies = self.ask(line)
        for reply in replies:
            fault = _fault(reply)
            if fault is not None:
                raise fault
        return replies[-1] if replies else ""

    def _rows(self, line: str, word: str) -> Iterator[list[str]]:
        """The words behind the first one of each line that begins with it."""
        replies = self.ask(line)
        fault = _fault(replies[-1]) if replies else None
        if fault is not None:
            raise fault
        for reply in replies:
            words = reply.split()
            if words[0] == word:
                yield words[1:]

    # ---- the image

    def _configure(self, line: str) -> None:
        for reply in self.ask(line):
            if "come before the first command" in reply:
                own = self.describe()
                if " ".join(line.split()) not in own and line.split()[:1] in (["device"], ["table"]):
                    raise BadCommand(f"? the image has another configuration: {'; '.join(own)}")
                continue
            raise BadCommand(reply)

    def _tables(self) -> Iterator[Table]:
        for line in self.describe():
            words = line.split()
            if words[0] == "table":
                yield Table(words[1], int(words[2]), tuple(words[3].split(",")), int(words[11]) > 0)

    def describe(self) -> list[str]:
        """The lines of the image's configuration."""
        return [line for line in self.ask("describe") if line.startswith(("device ", "table "))]

    def mount(self) -> None:
        """Finds the tables and repairs what a cut left. A store that was just opened is mounted."""
        self._reply("mount")

    def off(self) -> None:
        """Ends the session as a loss of power does: what is pending is lost, but in a table with a log."""
        self._reply("off")

    def close(self) -> None:
        """Flushes what is pending, and ends the program. Raises `Ended` if that failed."""
        assert self._process.stdout
        if self._process.stdout.closed:
            return
        _, said = self._process.communicate()
        if self._process.returncode:
            raise Ended(self._process.returncode, said.strip())

    def kill(self) -> None:
        """Ends the program without a flush."""
        self._process.kill()
        self._process.communicate()

    # ---- puts

    def put(self, table: str, key: int, *values: int, blob: Optional[bytes] = None) -> None:
        """Puts a record. It is pending until a flush, or until a later put finds the page full. Raises `Refused`."""
        self._reply(self._put_line(table, key, values, blob))

    def put_all(self, table: str, rows: Iterable[Sequence[int]]) -> int:
        """Puts rows, each a key and its values, and returns how many. Raises `Refused` at the first that is refused: the
        rows behind it may have been put."""
        count, lines = 0, []
        for row in rows:
            lines.append(self._put_line(table, row[0], row[1:], None))
            if len(lines) == 256:
                count += self._put_lines(lines)
                lines = []
        return count + self._put_lines(lines)

    def _put_lines(self, lines: Sequence[str]) -> int:
        for reply in self._ask_all(lines):
            fault = _fault(reply)
            if fault is not None:
                raise fault
        return len(lines)

    @staticmethod
    def _put_line(table: str, key: int, values: Sequence[int], blob: Optional[bytes]) -> str:
        if not all(isinstance(n, int) for n in (key, *values)):
            raise TypeError("keys and values are whole numbers")
        words = ["put", table, str(int(key)), *(str(int(value)) for value in values)]
        return " ".join(words + ([] if blob is None else ["blob", blob.hex() or "-"]))

    def flush(self, *tables: str) -> None:
        """Flushes these tables, or all of them: what is pending becomes a page, which outlives a cut."""
        for table in tables or tuple(self.tables):
            self._reply(f"flush {table}")

    # ---- queries

    def get(self, table: str, key: int) -> Optional[Row]:
        """The row with the key, if there is one."""
        for words in self._rows(f"get {table} {int(key)}", "row"):
            return self._row(words)
        return None

    def blob(self, table: str, key: int) -> Optional[bytes]:
        """The blob of the row with the key; None if it has none, if it is gone, or if there is no row."""
        for words in self._rows(f"blob {table} {int(key)}", "bytes"):
            return b"" if words[0] == "-" else bytes.fromhex(words[0])
        return None

    def scan(self, table: str, low: int = ALL[0], high: int = ALL[1], span: Optional[tuple[int, int]] = None) -> list[Row]:
        """The rows with keys from low to high; with a span only those whose first value is in it."""
        values = "" if span is None else f" {int(span[0])} {int(span[1])}"
        return [self._row(words) for words in self._rows(f"scan {table} {int(low)} {int(high)}{values}", "row")]

    def select(self, table: str, column: int, op: str, value: int, low: int = ALL[0], high: int = ALL[1]) -> list[Row]:
        """The rows of which the column compares so with the value, as `lt`, `le`, `eq`, `ne`, `ge` or `gt`; column 0 is the key."""
        return [self._row(words) for words in self._rows(f"select {table} {int(low)} {int(high)} {int(column)} {op} {int(value)}", "row")]

    def project(self, table: str, columns: Sequence[int], low: int = ALL[0], high: int = ALL[1]) -> list[Row]:
        """These columns of each row, in their order; column 0 is the key."""
        listed = ",".join(str(int(column)) for column in columns)
        return [tuple(map(int, words)) for words in self._rows(f"project {table} {int(low)} {int(high)} {listed}", "row")]

    def groups(self, table: str, column: int, width: int, low: int = ALL[0], high: int = ALL[1]) -> list[Group]:
        """The groups of a column's values by the quotient of their keys by the width."""
        return [Group(int(words[0]), *map(int, words[2::2])) for words in self._rows(f"agg {table} {int(low)} {int(high)} {int(column)} {int(width)}", "group")]

    def join(self, left: str, right: str, low: int = ALL[0], high: int = ALL[1]) -> list[Row]:
        """For each key that both tables have, the key, the left values and the right ones."""
        return [tuple(map(int, words)) for words in self._rows(f"join {left} {right} {int(low)} {int(high)}", "pair")]

    def first(self, table: str) -> Optional[int]:
        """The first key that the table holds, if it has a row."""
        return self._key(f"first {table}")

    def last(self, table: str) -> Optional[int]:
        """The last key of the table, if it has a row: the next one has to be greater."""
        return self._key(f"last {table}")

    def _key(self, line: str) -> Optional[int]:
        reply = self._reply(line)
        return None if reply == "none" else int(reply)

    def counts(self, table: str) -> Counts:
        """What the table holds."""
        words = self._reply(f"stat {table}").split()
        return Counts(*(int(word) for word in words[2:9:2]))

    @staticmethod
    def _row(words: Sequence[str]) -> Row:
        if "blob" not in words:
            return tuple(map(int, words))
        at = words.index("blob")
        return (*map(int, words[:at]), None if words[at + 1] == "none" else int(words[at + 1]))


def open(image: str, configuration: Union[str, Iterable[str]] = (), program: str = "flashts", sync: bool = False) -> Store:
    """Opens an image, or makes it by its configuration, and mounts it. With `sync` a program of the flash counts as done once its
    bytes are on the disk."""
    return Store(image, configuration, program, sync)
