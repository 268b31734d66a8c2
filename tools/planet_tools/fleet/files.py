"""The files of a fleet: its children, and of each child's file what it binds and what it writes."""
from __future__ import annotations

from dataclasses import dataclass
from pathlib import Path
from typing import Dict, Iterator, List, Optional, Tuple

HEADER = "planet fleet 1"
FILE_MAX, CHILDREN_MAX, NAME_MAX = 4_194_304, 64, 255
HOST_MAX, TURNS_MAX, PORT_MAX = 2**32 - 1, 1_000_000, 65_535
# by the word that begins a child's line, how many words the line has
SHAPES = {"node": 4, "ask": 3}
# by kind of child, the line that names the port which it binds
BINDS = {"node": "port", "ask": "from"}


class Refused(Exception):
    """What is wrong with a file, and at which line."""

    def __init__(self, what: str, name: str, line: Optional[int] = None) -> None:
        super().__init__(f"{what}, {name}" + ("" if line is None else f" line {line}"))


@dataclass(frozen=True)
class Child:
    """A child of a fleet, as its line says it."""

    line: int
    kind: str
    host: int
    file: str
    turns: int

    @property
    def name(self) -> str:
        """How it is called in lines to people."""
        return f"{self.kind} @{self.host} ({self.file})"

    @property
    def words(self) -> List[str]:
        """The words of planet that start it."""
        return ["node", self.file, str(self.turns)] if self.kind == "node" else ["inject", self.file]


@dataclass(frozen=True)
class Use:
    """What a child takes of the machine: a port, and the name of a log."""

    port: Optional[int] = None
    log: Optional[str] = None


def text_of(name: str) -> List[str]:
    """The lines of a file."""
    try:
        held = Path(name).read_bytes()
    except OSError as error:
        raise Refused(f"it can't be read ({error.strerror})", name) from error
    if len(held) > FILE_MAX:
        raise Refused(f"it has more than {FILE_MAX:,} bytes", name)
    return held.decode("utf-8", "replace").split("\n")


def number(word: str, least: int, most: int) -> Optional[int]:
    """The number that a word spells, where it is one from least to most, with no zero in front."""
    is_spelled = word.isascii() and word.isdecimal() and (word == "0" or word[0] != "0")
    return int(word) if is_spelled and least <= int(word) <= most else None


def told(lines: List[str]) -> Iterator[Tuple[int, List[str]]]:
    """The words of each line behind the first that says something, with its number."""
    for at, line in enumerate(lines[1:], 2):
        if line and not line.startswith("#"):
            yield at, line.split(" ")


def child_of(name: str, at: int, words: List[str]) -> Child:
    """The child that a line says."""
    kind = words[0]
    if len(words) != SHAPES.get(kind):
        raise Refused("it is neither 'node HOST FILE TURNS' nor 'ask HOST FILE'", name, at)
    host = number(words[1], 0, HOST_MAX)
    if host is None:
        raise Refused(f"a host is a number from 0 to {HOST_MAX}, not {words[1]!r}", name, at)
    if not 1 <= len(words[2].encode()) <= NAME_MAX:
        raise Refused(f"the name of a file has 1 to {NAME_MAX} bytes", name, at)
    turns = number(words[3], 1, TURNS_MAX) if kind == "node" else 0
    if turns is None:
        raise Refused(f"turns are a number from 1 to {TURNS_MAX}, not {words[3]!r}", name, at)
    return Child(at, kind, host, words[2], turns)


def children_of(name: str) -> List[Child]:
    """The children of a fleet's file, in their order."""
    lines = text_of(name)
    if lines[0] != HEADER:
        raise Refused(f"it doesn't begin with the line '{HEADER}'", name, 1)
    children = [child_of(name, at, words) for at, words in told(lines)]
    if not children:
        raise Refused("it names no child", name)
    if len(children) > CHILDREN_MAX:
        raise Refused(f"more than {CHILDREN_MAX} children", name, children[CHILDREN_MAX].line)
    return children


def use_of(child: Child) -> Use:
    """What a child's file says that it takes. What is wrong with the file otherwise planet says itself, by its line."""
    said: Dict[str, str] = {}
    for _, words in told(text_of(child.file)):
        if words[0] in ("program", "at"):
            break
        if len(words) == 2:
            said.setdefault(words[0], words[1])
    return Use(number(said.get(BINDS[child.kind], ""), 1, PORT_MAX), said.get("log") if child.kind == "node" else None)
