"""The table of a sweep: a file of comma-separated values with a row a run, written row by row."""
from __future__ import annotations

import csv
import fcntl
import io
from pathlib import Path
from typing import BinaryIO, Optional, Sequence


class BadTable(ValueError):
    """The file is no table of this sweep; the message says why."""


def line_of(cells: Sequence[str]) -> bytes:
    """A row as a line. A note has no line ends, so a row is a line and a line a row."""
    text = io.StringIO()
    csv.writer(text, lineterminator="\n").writerow([" ".join(cell.split("\n")) for cell in cells])
    return text.getvalue().encode()


def cells_of(line: bytes) -> list[str]:
    """The cells of a line."""
    return next(csv.reader([line.decode("utf-8")]))


class Table:
    """A table that is open for more rows; no other sweep has it."""

    def __init__(self, path: Path, columns: Sequence[str], keys: int) -> None:
        self.columns = list(columns)
        self.keys = keys
        self.done: set[tuple[str, ...]] = set()
        self.failed = 0
        try:
            self.file: BinaryIO = path.open("a+b")
            fcntl.flock(self.file, fcntl.LOCK_EX | fcntl.LOCK_NB)
        except BlockingIOError as locked:
            raise BadTable("another sweep writes it") from locked
        except OSError as fault:
            raise BadTable(f"it can't be written: {fault.strerror}") from fault
        self.take_up()

    def take_up(self) -> None:
        """Reads the rows that are there, and takes away a last line that was cut."""
        self.file.seek(0)
        held = self.file.read()
        whole = held.rfind(b"\n") + 1
        lines = held[:whole].split(b"\n")[:-1]
        if lines and cells_of(lines[0]) != self.columns:
            raise BadTable("it has other columns: give another file, or take it away")
        if not lines and held and not line_of(self.columns).startswith(held):
            raise BadTable("it is no table: give another file, or take it away")
        self.file.truncate(whole)
        if not lines:
            self.file.write(line_of(self.columns))
        for line in lines[1:]:
            self.note(cells_of(line))
        self.file.flush()

    def note(self, cells: list[str]) -> Optional[str]:
        """Takes a row as done; answers why it is no row of this table."""
        if len(cells) != len(self.columns):
            return f"a row has {len(cells)} cells in place of {len(self.columns)}"
        key = tuple(cells[:self.keys])
        if key in self.done:
            return f"the run of {', '.join(key)} has a row already"
        self.done.add(key)
        self.failed += cells[self.columns.index("status")] != "0"
        return None

    def add(self, line: bytes) -> Optional[str]:
        """Writes a row; answers why it wasn't."""
        try:
            cells = cells_of(line)
        except (UnicodeDecodeError, csv.Error, StopIteration):
            return "a line is no row"
        refused = self.note(cells)
        if refused is None:
            self.file.write(line_of(cells))
            self.file.flush()
        return refused
