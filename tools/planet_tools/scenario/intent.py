"""What a scenario means: its network, its programs, and its statements in order."""
from __future__ import annotations

from dataclasses import dataclass, field
from typing import Optional, Union

from planet_tools.scenario.network import Network


@dataclass(frozen=True)
class Program:
    """A program with its text and its line."""

    name: str
    text: str
    line: int


@dataclass(frozen=True)
class Injection:
    """What is injected: `rest` is the arguments, behind `handler NAME` where there is one."""

    line: int
    host: int
    program: str
    entry: str
    bound: str
    rest: str

    def event(self) -> str:
        """The event of a schedule that says it."""
        return f"inject {self.host} {self.program} {self.entry} {self.bound} {self.rest}"


@dataclass(frozen=True)
class Source:
    """The same injection again and again, so many rounds apart, from the next `settle` on."""

    line: int
    every: int
    times: int
    injection: Injection


@dataclass(frozen=True)
class Plain:
    """An event of a schedule as it stands."""

    line: int
    text: str


@dataclass(frozen=True)
class Routes:
    """Rounds of ticks with all adverts delivered."""

    line: int
    rounds: int


@dataclass(frozen=True)
class Settle:
    """Rounds until nothing moves. The shares are of a hundred."""

    line: int
    lose: float = 0.0
    repeat: float = 0.0
    reorder: bool = False
    seed: str = "0"
    within: int = 50_000


Statement = Union[Injection, Source, Plain, Routes, Settle]


@dataclass
class Intent:
    """A scenario that was read."""

    version: int
    network: Network = field(default_factory=Network)
    programs: list[Program] = field(default_factory=list)
    statements: list[Statement] = field(default_factory=list)
    frames_line: Optional[int] = None
    events_line: int = 0
