"""A schedule that grows: its text with the scenario's line behind each of its lines, and replays of it."""
from __future__ import annotations

import tempfile
from dataclasses import dataclass, field
from pathlib import Path

from planet_tools import program
from planet_tools.scenario.faults import Fault
from planet_tools.scenario.intent import Intent

EVENTS_MAX = 50_000


@dataclass
class Schedule:
    """Lines of the network and events, each with the number of the scenario's line that asks for it."""

    version: int
    shows_frames: bool
    frames_line: int
    network: list[str] = field(default_factory=list)
    network_lines: list[int] = field(default_factory=list)
    events: list[str] = field(default_factory=list)
    event_lines: list[int] = field(default_factory=list)

    def add_network(self, text: str, line: int) -> None:
        """Adds a line of the network, or the lines of a program."""
        for part in text.split("\n"):
            self.network.append(part)
            self.network_lines.append(line)

    def add(self, text: str, line: int) -> None:
        """Adds an event."""
        if len(self.events) == EVENTS_MAX:
            raise Fault(line, f"TooMany: a schedule has at most {EVENTS_MAX:,} events, and this line passes them")
        self.events.append(text)
        self.event_lines.append(line)

    def text(self, shows_frames: bool) -> str:
        """The schedule's text."""
        head = [f"planet schedule {self.version}", *(["frames"] if shows_frames else [])]
        return "\n".join([*head, *self.network, "events", *self.events, ""])

    def line_of(self, number: int, shows_frames: bool, events_line: int) -> int:
        """The scenario's line that a line of the text comes from."""
        head = [1, *([self.frames_line] if shows_frames else [])]
        lines = [*head, *self.network_lines, events_line, *self.event_lines]
        return lines[min(number, len(lines)) - 1]


def begun(intent: Intent) -> Schedule:
    """The schedule of a scenario without its events."""
    frames_line = intent.frames_line or 0
    schedule = Schedule(intent.version, intent.frames_line is not None, frames_line)
    for number, without in intent.network.without.items():
        lacks = "".join(f" without {package}" for package in without)
        schedule.add_network(f"host {number}{lacks}", intent.network.host_lines[number])
    for (one, device), (other, behind), line in intent.network.links:
        schedule.add_network(f"link {one} {device} {other} {behind}", line)
    for each in intent.programs:
        schedule.add_network(f"program {each.name}\n{each.text}end program", each.line)
    return schedule


@dataclass
class Replays:
    """Replays of one growing schedule, each of a file of its own; the last trace is kept with its text."""

    planet: str
    events_line: int
    made: int = 0
    last_text: str = ""
    last_trace: bytes = b""
    room: tempfile.TemporaryDirectory[str] = field(
        default_factory=lambda: tempfile.TemporaryDirectory(prefix="planet-scenario-", dir=program.room_in_memory()))

    def trace(self, schedule: Schedule, shows_frames: bool) -> bytes:
        """The trace and ledger of a schedule. What planet refuses is a fault of the scenario's line."""
        text = schedule.text(shows_frames)
        if text == self.last_text:
            return self.last_trace
        file = Path(self.room.name) / "made.schedule"
        file.write_bytes(text.encode())
        ended = program.run(self.planet, ["replay", str(file)])
        self.made += 1
        if ended.status:
            refused = ended.refused_line()
            if refused is None:
                raise Fault(0, f"planet ended with status {ended.status}: {ended.note}")
            line = schedule.line_of(refused[0], shows_frames, self.events_line)
            raise Fault(line, f"{refused[1]} (refused by planet)")
        self.last_text, self.last_trace = text, ended.output
        return ended.output
