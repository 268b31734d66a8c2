"""Reads whole traces and logs, and refuses what is none at its first line that doesn't belong there."""
from __future__ import annotations

import sys
from dataclasses import dataclass
from typing import Dict, List, Tuple

from planet_tools.trace.forms import LOG, TRACE, Line, Lines, Refused

# what may be read: as much as the largest run that the program replays writes, and more
BYTES_MAX = 1 << 30
# of a trace: what may stand behind a line
FOLLOWS: Dict[str, Tuple[str, ...]] = {
    "trace": ("event", "ledger", "end"), "event": ("event", "ledger", "end"),
    "ledger": ("row", "end"), "row": ("row", "end"), "end": (),
}
# of a log: the lines of its head in their order, and those that may stand more than once or be missing
HEAD = ("log", "host", "boot", "hosts", "dev", "without", "events")
MANY, MAY_MISS = ("dev", "without"), ("boot", "dev", "without")


@dataclass
class Run:
    """A trace or a log that was read: which of the two it is, and its lines as objects."""

    file: str
    lines: List[Line]

    @property
    def events(self) -> List[Line]:
        """The lines of a trace's events."""
        return [line for line in self.lines if "event" in line]

    @property
    def rows(self) -> List[Line]:
        """The rows of a trace's ledger."""
        return [line for line in self.lines if line["kind"] == "row"]


def text_of(name: str) -> str:
    """What a file holds, standard input for `-`."""
    try:
        if name == "-":
            held = sys.stdin.buffer.read(BYTES_MAX + 1)
        else:
            with open(name, "rb") as file:
                held = file.read(BYTES_MAX + 1)
    except OSError as fault:
        raise Refused(f"can't be read ({fault.strerror or fault}), {name}") from fault
    if len(held) > BYTES_MAX:
        raise Refused(f"more than {BYTES_MAX} bytes, {name}")
    try:
        return held.decode("utf-8")
    except UnicodeDecodeError as fault:
        raise Refused(f"not UTF-8, {name} line {held.count(10, 0, fault.start) + 1}") from fault


def lines_of(text: str) -> List[str]:
    """The lines of a text; the last one's line feed may be missing."""
    lines = text.split("\n")
    if lines[-1] == "":
        lines.pop()
    return lines


def shortened(line: str) -> str:
    """A line as a refusal shows it."""
    return repr(line if len(line) <= 60 else line[:57] + "...")


def objects_of(lines: List[str], forms: Lines, what: str, name: str) -> List[Line]:
    """The object of each line."""
    objects, read = [], forms.read
    for number, text in enumerate(lines, 1):
        line = read(text)
        if line is None:
            raise Refused(f"no line of a {what}: {shortened(text)}, {name} line {number}")
        objects.append(line)
    return objects


def check_trace(lines: List[Line], name: str) -> None:
    """Sees that a trace has its parts in order: events whose numbers don't fall, perhaps a ledger, and the end."""
    part, event = "trace", 0
    for number, line in enumerate(lines[1:], 2):
        now = line.get("event")
        kind = str(line["kind"]) if now is None else "event"
        if kind not in FOLLOWS[part]:
            raise Refused(f"the line '{line['kind']}' doesn't belong there, {name} line {number}")
        if isinstance(now, int):
            if now < max(event, 1):
                raise Refused(f"event {now} stands behind event {event}, {name} line {number}")
            event = now
        part = kind
    if part != "end":
        raise Refused(f"the trace ends without its line 'end', {name} line {len(lines) + 1}")


def check_log(lines: List[Line], name: str) -> None:
    """Sees that a log has its head in order; its entries may stand as they come."""
    at = 0
    for number, line in enumerate(lines[1:], 2):
        kind = str(line["kind"])
        if kind in ("empty", "comment"):
            continue
        if HEAD[at] == "events":
            if kind in HEAD and kind != "host":
                raise Refused(f"the line '{kind}' doesn't belong there, {name} line {number}")
            continue
        after = at if HEAD[at] in MANY and kind == HEAD[at] else at + 1
        while HEAD[after] != kind and HEAD[after] in MAY_MISS:
            after += 1
        if HEAD[after] != kind:
            raise Refused(f"the line '{kind}' doesn't belong there, {name} line {number}")
        at = after
    if HEAD[at] != "events":
        raise Refused(f"the log ends without its line 'events', {name} line {len(lines) + 1}")


def read_run(name: str) -> Run:
    """The trace or the log that a file holds."""
    return run_of(text_of(name), name)


def run_of(text: str, name: str) -> Run:
    """The trace or the log that a text of this name is; its first line says which."""
    lines = lines_of(text)
    first = lines[0] if lines else ""
    if TRACE.read(first) == {"kind": "trace"}:
        run = Run("trace", objects_of(lines, TRACE, "trace", name))
        check_trace(run.lines, name)
    elif first.startswith("planet log "):
        run = Run("log", objects_of(lines, LOG, "log", name))
        check_log(run.lines, name)
    else:
        raise Refused(f"neither 'planet trace 1' nor 'planet log': {shortened(first)}, {name} line 1")
    return run


def read_trace(name: str) -> Run:
    """The trace that a file holds; a log is refused."""
    run = read_run(name)
    if run.file != "trace":
        raise Refused(f"a log, write its trace first with: planet replay {name}, {name} line 1")
    return run
