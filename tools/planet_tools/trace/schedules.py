"""Reads what a capture needs of a schedule: its hosts, its links, and the bytes that came from outside."""
from __future__ import annotations

from dataclasses import dataclass, field
from typing import Dict, List, Tuple

from planet_tools.trace.files import lines_of, shortened, text_of
from planet_tools.trace.flow import End
from planet_tools.trace.forms import Refused

HEADERS = ("planet schedule 1", "planet schedule 2")
NUMBER_MAX = 1 << 32


@dataclass
class Schedule:
    """The hosts, the far end of each linked device, and by event the bytes that came from outside, with their end."""

    hosts: List[int] = field(default_factory=list)
    links: Dict[End, End] = field(default_factory=dict)
    raws: Dict[int, Tuple[End, bytes]] = field(default_factory=dict)
    events: int = 0

    def line(self, words: List[str]) -> None:
        """Takes a line of the network or of the events; others say nothing here."""
        numbers = [int(word) for word in words[1:5] if word.isdecimal() and word.isascii()]
        if any(number >= NUMBER_MAX for number in numbers):
            raise ValueError(words)
        if words[0] == "host":
            self.hosts.append(numbers[0])
        elif words[0] == "link":
            here, there = (numbers[0], numbers[1]), (numbers[2], numbers[3])
            self.links.update({here: there, there: here})
        elif words[0] == "raw":
            self.raws[self.events] = (numbers[0], numbers[1]), bytes.fromhex(words[3])


def read_schedule(name: str) -> Schedule:
    """Reads a schedule as far as it is wanted; whether it is one otherwise, planet replay says."""
    lines = lines_of(text_of(name))
    if not lines or lines[0] not in HEADERS:
        raise Refused(f"no schedule: {shortened(lines[0] if lines else '')}, {name} line 1")
    schedule, in_program, in_events = Schedule(), False, False
    for number, text in enumerate(lines[1:], 2):
        words = text.split(" ")
        if in_program or words[0] == "program" and not in_events:
            in_program = text != "end program"
            continue
        if text == "" or text.startswith("#"):
            continue
        schedule.events += in_events
        in_events = in_events or text == "events"
        try:
            schedule.line(words)
        except (ValueError, IndexError) as fault:
            raise Refused(f"no line of a schedule: {shortened(text)}, {name} line {number}") from fault
    return schedule
