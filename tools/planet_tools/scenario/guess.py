"""What packets did so far, as a guess at what the next ones will do."""
from __future__ import annotations

from dataclasses import dataclass, field
from typing import Generic, Hashable, TypeVar

from planet_tools.scenario.board import Frame
from planet_tools.scenario.network import End

# what was queued, by its device
Sent = list[tuple[int, Frame]]
Key = TypeVar("Key", bound=Hashable)


@dataclass
class Memory(Generic[Key]):
    """What was sent last, by what sent it."""

    last: dict[Key, Sent] = field(default_factory=dict)

    def learn(self, key: Key, sent: Sent) -> None:
        """Takes what was sent. No frame of it was seen yet, so each is taken to be like the one before."""
        for (device, frame), (before, older) in zip(sent, self.last.get(key, [])):
            if device == before:
                frame.take_after(older)
        self.last[key] = sent

    def guess(self, key: Key) -> Sent:
        """What will be sent."""
        return self.last.get(key, [])


@dataclass
class Guess:
    """By where a packet came and what it is: the device of those that go on, and what visits and injections sent."""

    ways: dict[tuple[int, int], int]
    visits: Memory[tuple[End, bytes]] = field(default_factory=Memory)
    injections: Memory[str] = field(default_factory=Memory)

    def of_arrival(self, end: End, frame: Frame) -> Sent:
        """What a frame will do where it arrives."""
        if not frame.body:
            return []
        if frame.destination == end[0]:
            return self.visits.guess((end, frame.body))
        device = self.ways.get((end[0], frame.destination))
        return [] if device is None else [(device, frame)]

    def learn(self, end: End, frame: Frame, sent: Sent) -> None:
        """Takes what a frame did where it arrived."""
        if not frame.body:
            return
        if frame.destination == end[0]:
            self.visits.learn((end, frame.body), sent)
        elif len(sent) == 1:
            self.ways[(end[0], frame.destination)] = sent[0][0]
