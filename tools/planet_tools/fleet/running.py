"""A child that runs: how it is started, what it says, and how it ended."""
from __future__ import annotations

import os
import re
import signal
import subprocess
import time
from typing import Dict, Iterator, Tuple

from planet_tools.fleet.files import Child, Use
from planet_tools.program import ended_with_parent

ENTRIES_MAX = 50_000
# a longer line is cut where it is shown, and never kept whole
LINE_MAX, SHOWN_MAX = 1_000_000, 2_000
STEP = re.compile(rb"(\d+) ")
SAYS = re.compile(rb"(\d+) (print|port) @(\d+) (.*)", re.DOTALL)
STATUSES = {
    1: "its words are no command",
    2: "its file is refused",
    3: "its file can't be read",
    4: "its log or its output can't be written",
    5: "its port can't be bound, or its link failed",
    6: "a child wasn't started or has no status",
    7: "there was no memory",
    8: "a child of it failed",
}


def text(held: bytes) -> str:
    """Bytes as a line for people; control characters can't reach a terminal."""
    line = held[:SHOWN_MAX].decode("utf-8", "replace")
    shown = "".join(it if it.isprintable() else f"\\x{ord(it):02x}" for it in line)
    return shown + ("..." if len(held) > SHOWN_MAX else "")


class Lines:
    """Whole lines out of pieces of a stream."""

    def __init__(self) -> None:
        self.rest = b""

    def add(self, piece: bytes) -> Iterator[bytes]:
        """The lines that a piece ends; none of them grows without an end."""
        *whole, self.rest = (self.rest + piece).split(b"\n")
        self.rest = self.rest[:LINE_MAX]
        yield from whole

    def end(self) -> Iterator[bytes]:
        """What is left behind the last line."""
        if self.rest:
            yield self.rest
        self.rest = b""


class Running:
    """A child, from its start to its end."""

    def __init__(self, program: str, child: Child, use: Use) -> None:
        self.child, self.use = child, use
        self.begun = time.monotonic()
        self.steps = self.said = 0
        self.has_begun = False
        self.process = subprocess.Popen(
            [program, *child.words], stdin=subprocess.DEVNULL, stdout=subprocess.PIPE, stderr=subprocess.PIPE,
            start_new_session=True, preexec_fn=ended_with_parent(signal.SIGKILL),
        )
        self.lines: Dict[int, Lines] = {}

    def hears(self, stream: int, piece: bytes) -> Iterator[str]:
        """What is to be told of a piece of the child's output or of its notes; no piece is their end."""
        lines = self.lines.setdefault(stream, Lines())
        is_output = self.process.stdout is not None and stream == self.process.stdout.fileno()
        for line in lines.add(piece) if piece else lines.end():
            yield from self.traced(line) if is_output else (f"{self.child.name} notes: {text(line)}",)

    def traced(self, line: bytes) -> Iterator[str]:
        """What is to be told of a line of output."""
        self.has_begun = True
        if self.child.kind == "ask":
            yield f"{self.child.name}: {text(line)}"
            return
        step = STEP.match(line)
        if step is None:
            return
        was, self.steps = self.steps, max(self.steps, int(step.group(1)))
        if was <= ENTRIES_MAX < self.steps:
            yield f"{self.child.name}: its log has more than the {ENTRIES_MAX:,} entries that a replay takes"
        says = SAYS.fullmatch(line)
        if says is not None:
            self.said += 1
            yield f"@{int(says.group(3))} step {int(says.group(1))} {says.group(2).decode()} {text(says.group(4))}"

    def tell(self, what: int) -> None:
        """Sends a signal to the child and to all that it started."""
        try:
            os.killpg(self.process.pid, what)
        except ProcessLookupError:
            pass

    def started(self) -> str:
        """The line of its start."""
        takes = [f"process {self.process.pid}"]
        takes += [f"port {self.use.port}"] if self.use.port is not None else []
        takes += [f"log {self.use.log}"] if self.use.log is not None else []
        return f"{self.child.name} runs: {', '.join(takes)}"

    def state(self) -> str:
        """How it stands."""
        if self.process.returncode is not None:
            return self.ended()[0]
        size = os.path.getsize(self.use.log) if self.use.log and os.path.isfile(self.use.log) else 0
        seconds = time.monotonic() - self.begun
        return f"{self.started()}, {seconds:.0f} s, {self.steps} steps, {self.said} said, {size} bytes of log"

    def ended(self) -> Tuple[str, int]:
        """How it ended, and the status of planet for it."""
        status = self.process.returncode
        if status is not None and status < 0:
            return f"{self.child.name} was ended by the signal {signal.Signals(-status).name[3:]}", 6
        why = f", {STATUSES[status]}" if status in STATUSES else ""
        return f"{self.child.name} ended: status {status}{why}", status or 0
