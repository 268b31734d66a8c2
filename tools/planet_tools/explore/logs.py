"""Logs of nodes: what each step of a log did, and the bytes of the frames that it sent, made again by the program."""
from __future__ import annotations

import os
import tempfile
from dataclasses import dataclass, field
from typing import Dict, List

from planet_tools.frames.judge import frame_of
from planet_tools.frames.read import HEAD, Reader
from planet_tools.frames.texts import program_text, value_text
from planet_tools.frames.trees import Ask, Chunk
from planet_tools.frames.write import number as number_bytes
from planet_tools.program import run
from planet_tools.trace.capture import entries_of
from planet_tools.trace.files import run_of, text_of
from planet_tools.trace.flow import number
from planet_tools.trace.forms import TRACE, Line, Refused

# the program takes the frames off the wire again before it is full
WIRE_MOST = 4_000
# the bytes of the moment at which the sender of a frame of version 2 began, behind its head
BOOT_BYTES = 8


@dataclass
class Step:
    """An entry of a log: what it says, the lines that it wrote, and the bytes of the frame that it sent."""

    entry: Line
    lines: List[str] = field(default_factory=list)
    sent: bytes = b""

    @property
    def is_accepted(self) -> bool:
        """Whether a frame came that was one, in its place, and not stale."""
        refused = (" BadFrame ", " Repeated ", " TooOld ")
        return self.entry["kind"] == "frame" and not any(
            line.startswith("drop ") and any(it in line for it in refused) for line in self.lines
        )

    @property
    def is_tick(self) -> bool:
        """Whether the node's time went on."""
        return self.entry["kind"] == "tick"


@dataclass
class Log:
    """The log of a node: its host, the devices to its neighbours, and its steps."""

    name: str
    host: int
    version: int
    boot: int
    steps: List[Step]


def run_program(program: str, words: List[str]) -> str:
    """What the program writes; a run that it refuses is refused with its note."""
    try:
        done = run(program, words)
    except OSError as fault:
        raise Refused(f"the program can't be started ({fault.strerror or fault}), {program}") from fault
    if done.status != 0:
        note = done.note.split("\n")[-1]
        raise Refused(f"{note or f'status {done.status}'}, planet {' '.join(words)}")
    return done.output.decode("utf-8")


class Program:
    """The program planet, and files that are handed to it."""

    def __init__(self, path: str, room: str) -> None:
        self.path = path
        self.room = room

    def on_text(self, command: str, text: str) -> str:
        """What a command writes of a text."""
        file = os.path.join(self.room, "given")
        with open(file, "w", encoding="utf-8") as out:
            out.write(text)
        return run_program(self.path, [command, file])


class Remade:
    """A schedule whose one busy host makes the steps of a log again, so that the bytes of its frames are shown."""

    def __init__(self, program: Program, log: Log, head: List[str]) -> None:
        self.program, self.log = program, log
        self.head = [f"planet schedule {log.version}", "frames", *head]
        self.programs: Dict[str, str] = {}
        self.events: List[str] = []
        # the step that an event makes, or nothing where it only takes a frame off the wire
        self.owners: List[int] = []
        self.sent = self.taken = 0

    def event(self, place: int, text: str) -> None:
        """Adds an event for a step, or for none where the place is below 0."""
        self.events.append(text)
        self.owners.append(place)

    def inject(self, place: int, chunk: Chunk, bound: int, handler: str = "") -> None:
        """Adds an injection: its program is named, and its arguments are spelled as text."""
        arguments = ", ".join(map(value_text, chunk.arguments))
        name = self.programs.setdefault(program_text(chunk.program), f"p{len(self.programs) + 1}")
        with_handler = f"handler {handler} " if handler else ""
        self.event(place, f"inject {self.log.host} {name} {chunk.entry} {bound} {with_handler}({arguments})")

    def add(self, place: int, step: Step) -> None:
        """Adds the events that make a step again."""
        entry, host = step.entry, self.log.host
        if entry["kind"] == "inject":
            chunk = Reader(bytes.fromhex(str(entry["hex"]))).chunk()
            self.inject(place, chunk, number(entry, "bound"), str(entry.get("handler", "")))
        elif entry["kind"] == "control" and any(line.startswith("inject ") for line in step.lines):
            ask = frame_of(bytes.fromhex(str(entry["hex"]))).what
            assert isinstance(ask, Ask)
            self.inject(place, ask.chunk, ask.bound)
        elif entry["kind"] == "frame":
            self.event(place, f"raw {host} {entry['device']} {entry['hex']}")
        elif entry["kind"] == "tick":
            self.event(place, f"tick {host}")
        elif entry["kind"] == "take":
            self.event(place, f"send {host} {entry['device']}")
            self.sent += any(line.startswith("send ") for line in step.lines)
            if self.sent - self.taken > WIRE_MOST:
                self.taken += 1
                self.event(-1, f"lose {self.taken}")

    def text(self) -> str:
        """The schedule."""
        programs = [f"program {name}\n{text}end program" for text, name in self.programs.items()]
        return "\n".join([*self.head, *programs, "events", *self.events, ""])

    def show(self) -> None:
        """Puts the bytes of each frame to the step that sent it, and sees that each step wrote the same lines again."""
        again: Dict[int, List[str]] = {}
        for line in self.program.on_text("replay", self.text()).split("\n")[1:]:
            first, _, rest = line.partition(" ")
            if first.isdigit() and self.owners[int(first) - 1] >= 0:
                again.setdefault(self.owners[int(first) - 1], []).append(rest)
        for place, step in enumerate(self.log.steps):
            mine = [line for line in again.get(place, []) if not line.startswith(("wire ", "forged ", "nothing"))]
            wanted = [line for line in step.lines if not line.endswith(" control")]
            if place in again and mine != wanted:
                raise Refused(f"its steps can't be made again, {self.log.name} entry {place + 1}")
            for line in again.get(place, []):
                if line.startswith("wire "):
                    step.sent = self.stamped(bytes.fromhex(line.split(" ")[2]))

    def stamped(self, frame: bytes) -> bytes:
        """A frame with the moment at which this log's node began."""
        if frame[4] != 2:
            return frame
        return frame[:HEAD] + number_bytes(self.log.boot, BOOT_BYTES) + frame[HEAD + BOOT_BYTES:]


def network_of(lines: List[Line], host: int) -> List[str]:
    """The hosts and links of a schedule in which a node has the neighbours that its log names."""
    hosts = next(line["hosts"] for line in lines if line["kind"] == "hosts")
    assert isinstance(hosts, list)
    lacks = "".join(f" without {line['package']}" for line in lines if line["kind"] == "without")
    head = [f"host {it}{lacks if it == host else ''}" for it in hosts]
    used: Dict[int, int] = {}
    for line in lines:
        if line["kind"] == "dev":
            far = number(line, "host")
            used[far] = used.get(far, 0) + 1
            head.append(f"link {host} {line['device']} {far} {used[far]}")
    return head


def read_log(program: Program, name: str) -> Log:
    """A log with what its steps did and sent."""
    read = run_of(text_of(name), name)
    if read.file != "log":
        raise Refused(f"no log of a node, {name} line 1")
    head = {str(line["kind"]): line for line in read.lines if line["kind"] in ("log", "host", "boot")}
    boot = number(head["boot"], "boot") if "boot" in head else 0
    version = number(head["log"], "version")
    log = Log(name, number(head["host"], "host"), version, boot, [Step(entry) for entry in entries_of(read.lines)])
    for line in run_program(program.path, ["replay", name]).split("\n"):
        said = TRACE.read(line)
        if said and "event" in said:
            log.steps[number(said, "event") - 1].lines.append(line.split(" ", 1)[1])
    remade = Remade(program, log, network_of(read.lines, log.host))
    for place, step in enumerate(log.steps):
        remade.add(place, step)
    remade.show()
    return log


def read_logs(program: str, names: List[str]) -> List[Log]:
    """All logs of a fleet."""
    with tempfile.TemporaryDirectory() as room:
        return [read_log(Program(program, room), name) for name in names]
