"""The points of a plot: for each value of a column the mean over the runs of a table, with its standard error."""
from __future__ import annotations

import csv
import difflib
import math
import re
from dataclasses import dataclass, field
from pathlib import Path
from typing import Mapping, Optional, Sequence

NUMBER = re.compile(r"-?\d+(?:\.\d+)?%?")
SERIES_MAX = 12


class BadPlot(ValueError):
    """The table has no such plot; the message says why."""


@dataclass(frozen=True)
class Question:
    """What is asked of a table: a column across, a column or a quotient of two upward, a column with a line a value."""

    across: str
    upward: tuple[str, ...]
    by: Optional[str] = None
    where: Mapping[str, Sequence[str]] = field(default_factory=dict)


@dataclass
class Mean:
    """The mean of the values so far, and the sum of the squares of their distances from it."""

    runs: int = 0
    value: float = 0.0
    squares: float = 0.0

    def add(self, value: float) -> None:
        """Takes a value."""
        self.runs += 1
        off = value - self.value
        self.value += off / self.runs
        self.squares += off * (value - self.value)

    def error(self) -> float:
        """The standard error of the mean, 0 where one value has none."""
        return math.sqrt(self.squares / (self.runs - 1) / self.runs) if self.runs > 1 else 0.0


@dataclass
class Points:
    """The points by line and place across, and how many rows had none."""

    series: dict[str, dict[str, Mean]] = field(default_factory=dict)
    runs: int = 0
    failed: int = 0
    cut: int = 0
    empty: int = 0

    def left_out(self) -> list[str]:
        """What is said of the rows that the plot doesn't have."""
        counts = ((self.failed, "that failed"), (self.empty, "that divide by 0"), (self.cut, "that are no rows"))
        return [f"without {count:,} {why}" for count, why in counts if count]

    def across(self) -> list[str]:
        """The values across, each once: numbers in their order, other words as they came."""
        return in_order(list(dict.fromkeys(place for line in self.series.values() for place in line)))

    def lines(self) -> list[str]:
        """The values of the column with a line a value, in the same order."""
        return in_order(list(self.series))


def is_number(word: str) -> bool:
    """Whether a cell is a number, or a share in percent."""
    return NUMBER.fullmatch(word) is not None


def number(word: str) -> float:
    """The number of a cell."""
    return float(word.rstrip("%"))


def in_order(words: list[str]) -> list[str]:
    """Numbers by their order, other words as they came."""
    return sorted(words, key=number) if all(map(is_number, words)) else words


def place_of(columns: Sequence[str], name: str) -> int:
    """The place of a column."""
    if name not in columns:
        near = difflib.get_close_matches(name, columns, 1)
        meant = f"; did you mean '{near[0]}'?" if near else ""
        raise BadPlot(f"no column is '{name}'{meant} The columns are {', '.join(columns)}")
    return columns.index(name)


class Reading:
    """The walk over a table's rows."""

    def __init__(self, columns: Sequence[str], question: Question) -> None:
        self.points = Points()
        self.size = len(columns)
        self.names = question.upward
        self.across = place_of(columns, question.across)
        self.upward = [place_of(columns, name) for name in question.upward]
        self.by = None if question.by is None else place_of(columns, question.by)
        self.where = [(place_of(columns, name), set(values)) for name, values in question.where.items()]
        self.status = columns.index("status") if "status" in columns else None

    def row(self, line: int, cells: list[str]) -> None:
        """Takes a row."""
        if len(cells) != self.size:
            self.points.cut += 1
        elif all(cells[place] in values for place, values in self.where):
            if self.status is not None and cells[self.status] != "0":
                self.points.failed += 1
            else:
                self.run(line, cells)

    def run(self, line: int, cells: list[str]) -> None:
        """Takes a run that ended well."""
        values = []
        for place, name in zip(self.upward, self.names):
            if not is_number(cells[place]):
                raise BadPlot(f"'{cells[place]}' of the column {name} is no number, line {line}")
            values.append(number(cells[place]))
        if len(values) == 2 and values[1] == 0:
            self.points.empty += 1
            return
        self.points.runs += 1
        series = self.points.series.setdefault("" if self.by is None else cells[self.by], {})
        if len(self.points.series) > SERIES_MAX:
            raise BadPlot(f"more than {SERIES_MAX} lines aren't told apart: choose some with --where NAME=VALUES")
        series.setdefault(cells[self.across], Mean()).add(values[0] / values[1] if len(values) == 2 else values[0])


def points_of(table: Path, question: Question) -> Points:
    """Reads the points from a table, a row at a time."""
    with table.open(encoding="utf-8", newline="") as file:
        rows = csv.reader(file)
        columns = next(rows, None)
        if columns is None:
            raise BadPlot("the file is empty: tools/sweep makes a table")
        reading = Reading(columns, question)
        for cells in rows:
            reading.row(rows.line_num, cells)
    if not reading.points.runs:
        raise BadPlot(", ".join(["no run is left to plot", *reading.points.left_out()]))
    return reading.points
