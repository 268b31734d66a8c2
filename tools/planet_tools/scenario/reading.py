"""Reads what a trace has beyond what was read, and moves the board along it."""
from __future__ import annotations

from typing import Optional

from planet_tools.scenario.board import Board, Frame
from planet_tools.scenario.guess import Guess, Sent
from planet_tools.scenario.network import End


def end_of(host: bytes, device: bytes) -> End:
    """The end that a trace writes as `@H %D`."""
    return int(host[1:]), int(device[1:])


class Reading:
    """The walk over the events of a trace."""

    def __init__(self, board: Board, guess: Guess, events: list[str]) -> None:
        self.board = board
        self.guess = guess
        self.events = events
        self.began()

    def began(self) -> None:
        """Nothing of an event was read."""
        self.arrived: Optional[Frame] = None
        self.end: End = (0, 0)
        self.sent: Sent = []
        self.injects = False
        self.is_usual = True

    def line(self, words: list[bytes]) -> None:
        """Takes a line of an event."""
        kind = words[1]
        if kind == b"queue":
            end = end_of(words[2], words[3])
            goes_on = self.arrived is not None and self.arrived.body and self.arrived.destination != end[0]
            frame = self.arrived if goes_on and self.arrived else Frame(False)
            self.board.push(end, frame)
            self.sent.append((end[1], frame))
        elif kind == b"advert":
            self.board.push(end_of(words[2], words[3]), Frame(True))
        elif kind == b"send":
            self.end = end_of(words[2], words[3])
        elif kind == b"wire":
            frame = self.board.wire[self.board.send(self.end)][0]
            if len(words) > 3:
                frame.see(words[3])
        elif kind == b"off":
            self.arrived, self.end = self.board.wire.pop(int(words[2]))
        elif kind == b"again":
            self.arrived, self.end = self.board.wire[int(words[2])]
        elif kind == b"inject":
            self.injects = True
        elif kind in (b"drop", b"lost"):
            self.is_usual = False

    def event_ends(self, number: int) -> None:
        """Learns from an event that was read whole."""
        if self.is_usual and self.injects:
            self.guess.injections.learn(self.events[number - 1], self.sent)
        elif self.is_usual and self.arrived is not None:
            self.guess.learn(self.end, self.arrived, self.sent)
        self.began()
