"""Runs the children of a fleet until each has ended, and ends them all where it is asked to."""
from __future__ import annotations

import os
import selectors
import signal
import sys
import time
from typing import Dict, List, Optional, Tuple

from planet_tools.fleet.files import Child, Use
from planet_tools.fleet.running import Running

ENDS = signal.SIGINT, signal.SIGTERM, signal.SIGHUP
PIECE, PAUSE = 65_536, 0.2
FAILED = 8


def say(line: str) -> None:
    """Writes a line at once; where nobody reads any more, the children run on."""
    try:
        print(line, flush=True)
    except OSError:
        sys.stdout = open(os.devnull, "w", encoding="utf-8")


class Supervisor:
    """The children of a fleet and what they are asked."""

    def __init__(self, program: str, children: List[Child], uses: Dict[int, Use], grace: float) -> None:
        self.program, self.uses, self.grace = program, uses, grace
        self.waiting = list(children)
        self.running: List[Running] = []
        self.ended: List[Running] = []
        self.wanted: Optional[int] = None
        self.killed_at: Optional[float] = None
        self.select = selectors.DefaultSelector()
        self.wake, self.woken = os.pipe()
        self.is_asked = False

    def asked(self, what: int, _frame: object) -> None:
        """Takes note of a signal."""
        if what == signal.SIGUSR1:
            self.is_asked = True
        elif self.wanted is None:
            self.wanted = what

    def watch(self) -> None:
        """Listens to signals, and to a terminal."""
        for it in (self.wake, self.woken):
            os.set_blocking(it, False)
        signal.set_wakeup_fd(self.woken)
        for it in (*ENDS, signal.SIGUSR1):
            signal.signal(it, self.asked)
        self.select.register(self.wake, selectors.EVENT_READ)
        if sys.stdin is not None and sys.stdin.isatty():
            self.select.register(sys.stdin.fileno(), selectors.EVENT_READ)

    def start(self) -> None:
        """Starts what may start: nodes at once, and requests when each node has bound its port or has ended."""
        is_ready = all(it.has_begun or it.process.returncode is not None for it in self.running + self.ended
                       if it.child.kind == "node")
        while self.waiting and self.wanted is None and (is_ready or self.waiting[0].kind == "node"):
            child = self.waiting.pop(0)
            made = Running(self.program, child, self.uses[child.line])
            self.running.append(made)
            is_ready = is_ready and child.kind != "node"
            for stream in (made.process.stdout, made.process.stderr):
                assert stream is not None
                self.select.register(stream, selectors.EVENT_READ, made)
            say(made.started())

    def hear(self) -> None:
        """Tells what children say, and what a terminal asks."""
        for key, _ in self.select.select(PAUSE):
            stream = key.fd
            if key.data is None:
                held = os.read(stream, PIECE)
                if stream != self.wake:
                    self.is_asked = bool(held)
                    if not held:
                        self.select.unregister(stream)
                continue
            piece = os.read(stream, PIECE)
            for line in key.data.hears(stream, piece):
                say(line)
            if not piece:
                self.select.unregister(key.fileobj)

    def bury(self) -> None:
        """Takes note of the children that ended, once all that they said is told."""
        heard = {id(key.data) for key in self.select.get_map().values()}
        for it in [it for it in self.running if it.process.poll() is not None and id(it) not in heard]:
            self.running.remove(it)
            self.ended.append(it)
            # what it may have started doesn't outlive it
            it.tell(signal.SIGKILL)
            say(it.ended()[0])

    def end(self) -> None:
        """Ends all: asks first, and kills what hasn't ended in time. One that is stopped goes on, so that it hears."""
        if self.killed_at is None:
            self.waiting.clear()
            say(f"ending {len(self.running)} children, by the signal {signal.Signals(self.wanted or 0).name[3:]}")
            self.killed_at = time.monotonic() + self.grace
            for it in self.running:
                it.tell(signal.SIGTERM)
                it.tell(signal.SIGCONT)
        elif time.monotonic() >= self.killed_at:
            for it in self.running:
                it.tell(signal.SIGKILL)

    def show(self) -> None:
        """Tells how each child stands."""
        self.is_asked = False
        for it in self.running + self.ended:
            say(it.state())
        say(f"{len(self.running)} run, {len(self.ended)} ended, {len(self.waiting)} wait")

    def run(self) -> Tuple[int, Optional[int]]:
        """Runs the fleet to its end: its status, and the signal that ended it, if one did."""
        self.watch()
        try:
            while self.running or self.waiting:
                self.start()
                self.hear()
                if self.is_asked:
                    self.show()
                if self.wanted is not None:
                    self.end()
                self.bury()
        finally:
            for it in self.running:
                it.tell(signal.SIGKILL)
        statuses = [it.ended()[1] for it in self.ended]
        return (FAILED if any(statuses) else 0), self.wanted
