"""The grid of a sweep: each way to choose a value for each name."""
from __future__ import annotations

import re
from dataclasses import dataclass
from typing import Sequence

from planet_tools.values import NoValues, values_of

NAME = re.compile(r"[A-Za-z][A-Za-z0-9_]*")


class BadGrid(ValueError):
    """The words name no grid; the message says why."""


@dataclass(frozen=True)
class Grid:
    """Names, each with its values; runs are numbered from 0, and the last name's value changes first."""

    axes: tuple[tuple[str, tuple[str, ...]], ...]

    def names(self) -> list[str]:
        """The names, in the order of the words."""
        return [name for name, _ in self.axes]

    def size(self) -> int:
        """How many runs there are."""
        size = 1
        for _, values in self.axes:
            size *= len(values)
        return size

    def values(self, run: int) -> tuple[str, ...]:
        """The values of a run."""
        chosen = []
        for _, values in reversed(self.axes):
            run, place = divmod(run, len(values))
            chosen.append(values[place])
        return tuple(reversed(chosen))


def grid_of(words: Sequence[str], taken: Sequence[str]) -> Grid:
    """The grid of words NAME=VALUES; `taken` are the names that columns of the table have."""
    axes: list[tuple[str, tuple[str, ...]]] = []
    for word in words:
        name, sign, text = word.partition("=")
        if not sign or not NAME.fullmatch(name):
            raise BadGrid(f"'{word}' is not NAME=VALUES, as loss=0..50%:5 or bound=10,20,40")
        if name in taken or any(name == other for other, _ in axes):
            raise BadGrid(f"'{name}' is the name of a column already")
        try:
            values = values_of(text)
        except NoValues as no:
            raise BadGrid(str(no)) from no
        if len(set(values)) != len(values):
            raise BadGrid(f"'{text}' names a value twice")
        axes.append((name, tuple(values)))
    if not axes:
        raise BadGrid("a grid has runs where --over NAME=VALUES names values")
    return Grid(tuple(axes))


def ranges_of(runs: Sequence[int]) -> str:
    """Ascending numbers as a word: `0-3,7,9-10`."""
    parts: list[list[int]] = []
    for run in runs:
        if parts and parts[-1][1] == run - 1:
            parts[-1][1] = run
        else:
            parts.append([run, run])
    return ",".join(str(first) if first == last else f"{first}-{last}" for first, last in parts)


def runs_of(word: str, size: int) -> list[int]:
    """The numbers that such a word names, those beyond the grid left out."""
    runs: list[int] = []
    for part in word.split(","):
        first, sign, last = part.partition("-")
        if not first.isdigit() or (sign and not last.isdigit()):
            raise BadGrid(f"'{word}' names no runs, as 0-3,7 does")
        runs.extend(range(int(first), min(int(last or first), size - 1) + 1))
    return runs
