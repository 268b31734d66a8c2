"""A live fleet as one run: the logs that an audit names become one trace, in which frames go from node to node.

Frames are matched as the audit matches them: the first frame of some bytes that a node accepted is the first of these
bytes that the other end sent, and so on. A step comes before what follows from it; else the nodes' ticks order them."""
from __future__ import annotations

from collections import deque
from dataclasses import dataclass
from typing import Deque, Dict, Iterator, List, Optional, Tuple

from planet_tools.explore.logs import Log, Step, read_logs, run_program
from planet_tools.trace.files import lines_of, text_of
from planet_tools.trace.flow import End, number
from planet_tools.trace.forms import Refused

# a step by its log and its place there
Place = Tuple[int, int]


@dataclass
class Audit:
    """What the file of an audit names: its logs, and the other end of each linked device."""

    logs: List[str]
    links: Dict[End, End]


def read_audit(name: str) -> Audit:
    """Reads the file of an audit as far as it is wanted; whether it is one otherwise, planet audit says."""
    audit = Audit([], {})
    for at, text in enumerate(lines_of(text_of(name))[1:], 2):
        words = text.split(" ")
        if words[0] == "log" and len(words) == 2:
            audit.logs.append(words[1])
        elif words[0] == "link" and len(words) == 5 and all(word.isdecimal() for word in words[1:]):
            here, there = (int(words[1]), int(words[2])), (int(words[3]), int(words[4]))
            audit.links.update({here: there, there: here})
        elif text and not text.startswith("#"):
            raise Refused(f"no line of an audit: {text[:60]!r}, {name} line {at}")
    return audit


def sent_places(logs: List[Log]) -> Dict[Tuple[End, bytes], Deque[Place]]:
    """The steps that sent a frame, in order, by the device that sent it and its bytes."""
    found: Dict[Tuple[End, bytes], Deque[Place]] = {}
    for at, log in enumerate(logs):
        for place, step in enumerate(log.steps):
            if step.sent:
                found.setdefault(((log.host, number(step.entry, "device")), step.sent), deque()).append((at, place))
    return found


def matches(logs: List[Log], links: Dict[End, End]) -> Dict[Place, Place]:
    """By each step that accepted a frame, the step that sent it; a frame that nobody sent has none."""
    sent, found = sent_places(logs), {}
    for at, log in enumerate(logs):
        for place, step in enumerate(log.steps):
            if not step.is_accepted:
                continue
            here = log.host, number(step.entry, "device")
            far = here if here[1] == 0 else links.get(here)
            waiting = sent.get((far, bytes.fromhex(str(step.entry["hex"])))) if far else None
            if waiting:
                found[at, place] = waiting.popleft()
    return found


class Order:
    """Brings the steps of all logs into one order."""

    def __init__(self, logs: List[Log], matched: Dict[Place, Place]) -> None:
        self.logs, self.matched = logs, matched
        self.next = [0] * len(logs)
        self.ticks = [0] * len(logs)

    def is_ready(self, at: int) -> bool:
        """Whether what the next step of a log accepts was sent by a step before."""
        source = self.matched.get((at, self.next[at]))
        return source is None or source[1] < self.next[source[0]]

    def places(self) -> Iterator[Place]:
        """The steps in order. Where each waits for another one, the logs don't fit: then a frame came from nowhere."""
        while True:
            open_logs = [at for at, log in enumerate(self.logs) if self.next[at] < len(log.steps)]
            if not open_logs:
                return
            ready = [at for at in open_logs if self.is_ready(at)]
            at = min(ready or open_logs, key=lambda it: (self.ticks[it], it))
            place = at, self.next[at]
            if not ready:
                self.matched.pop(place)
            self.ticks[at] += self.logs[at].steps[place[1]].is_tick
            self.next[at] += 1
            yield place


class Merged:
    """The lines of one trace, event by event."""

    def __init__(self, logs: List[Log], matched: Dict[Place, Place]) -> None:
        self.matched = matched
        self.lines = ["planet trace 1"]
        self.numbers: Dict[Place, int] = {}
        self.events = 0
        self.arrows = 0
        for place in Order(logs, matched).places():
            self.add(place, logs[place[0]].steps[place[1]])

    def add(self, place: Place, step: Step) -> None:
        """Adds the lines of a step as an event."""
        if not step.lines:
            return
        self.events += 1
        lines = list(step.lines)
        source = self.matched.get(place)
        if source is not None:
            self.arrows += 1
            lines.insert(0, f"off {self.numbers[source]}")
        if step.sent:
            self.numbers[place] = len(self.numbers) + 1
            lines.append(f"wire {self.numbers[place]} {step.sent.hex()}")
        self.lines += [f"{self.events} {line}" for line in lines]

    def families(self) -> Dict[str, int]:
        """The families that were injected, in order."""
        found: Dict[str, int] = {}
        for line in self.lines:
            words = line.split(" ", 4)
            if len(words) > 3 and words[1] == "inject":
                found.setdefault(words[3], len(found))
        return found

    def text(self, rows: Optional[List[str]]) -> str:
        """The trace, with the ledger that the audit wrote, in the order of first grants."""
        order = self.families()
        ledger = [] if rows is None else ["ledger", *sorted(rows, key=lambda row: order[row.split(" ")[0]])]
        return "\n".join([*self.lines, *ledger, "end", ""])


@dataclass
class Fleet:
    """A fleet's run: its trace, how many frames go from node to node in it, and what the audit answered."""

    trace: str
    events: int
    arrows: int
    answer: str


def read_fleet(program: str, name: str) -> Fleet:
    """The run of the fleet whose audit a file describes."""
    answer = lines_of(run_program(program, ["audit", name]))
    audit = read_audit(name)
    logs = read_logs(program, audit.logs)
    merged = Merged(logs, matches(logs, audit.links))
    rows = answer[2:-1] if answer[1] == "yes" else None
    return Fleet(merged.text(rows), merged.events, merged.arrows, answer[1])
