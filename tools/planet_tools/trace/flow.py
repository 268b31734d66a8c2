"""Follows packets and adverts through the queues and over the wire of a trace."""
from __future__ import annotations

from collections import deque
from dataclasses import dataclass, field
from typing import Deque, Dict, List, Optional, Tuple

from planet_tools.trace.forms import Line

# a host and one of its devices
End = Tuple[int, int]


@dataclass
class Queued:
    """What waits in a queue: a packet of a family with its bound, or an advert, and the event that put it there."""

    family: Optional[str]
    bound: Optional[int]
    event: int


@dataclass
class Frame:
    """A frame of the wire: its number, where it was sent and what it is, its bytes, and what became of it."""

    number: int
    sent_from: End
    event: int
    family: Optional[str]
    bound: Optional[int]
    hex: Optional[str] = None
    arrivals: List[Tuple[int, End]] = field(default_factory=list)
    lost: Optional[int] = None
    is_off: bool = False


@dataclass
class Queue:
    """A queue of a device: what waits, how much was put there, and its greatest length with the event that made it."""

    waiting: Deque[Queued] = field(default_factory=deque)
    hops: int = 0
    adverts: int = 0
    sent: int = 0
    longest: int = 0
    longest_at: Optional[int] = None


def number(line: Line, name: str) -> int:
    """A field of a line that is a number."""
    value = line[name]
    assert isinstance(value, int)
    return value


class Flow:
    """The queues and the frames of a trace; what a trace doesn't tell, as who sent an unknown frame, is left out."""

    def __init__(self, events: List[Line]) -> None:
        self.queues: Dict[End, Queue] = {}
        self.frames: Dict[int, Frame] = {}
        # pairs of events of which the second goes on with what the first one queued or sent
        self.pairs: List[Tuple[int, int]] = []
        # of the event that is followed: what was taken from a queue, and the frame that comes off the wire
        self.taken: Optional[Tuple[End, Queued]] = None
        self.coming: Optional[Frame] = None
        self.event = 0
        steps = {
            "queue": self.queue, "advert": self.queue, "send": self.send, "send_advert": self.send, "wire": self.wire,
            "off": self.off, "again": self.off, "arrive": self.arrive, "lost": self.lose, "lost_advert": self.lose,
        }
        for line in events:
            if number(line, "event") != self.event:
                self.event, self.taken, self.coming = number(line, "event"), None, None
            step = steps.get(str(line["kind"]))
            if step:
                step(line)

    def end(self, line: Line) -> End:
        """The host and the device that a line names."""
        return number(line, "host"), number(line, "device")

    def queue(self, line: Line) -> None:
        """A packet or an advert is put into a queue."""
        queue = self.queues.setdefault(self.end(line), Queue())
        is_packet = line["kind"] == "queue"
        family, bound = (str(line["family"]), number(line, "bound")) if is_packet else (None, None)
        queue.waiting.append(Queued(family, bound, self.event))
        queue.hops += is_packet
        queue.adverts += not is_packet
        if len(queue.waiting) > queue.longest:
            queue.longest, queue.longest_at = len(queue.waiting), self.event

    def send(self, line: Line) -> None:
        """The first of a queue is taken."""
        end = self.end(line)
        queue = self.queues.setdefault(end, Queue())
        queue.sent += 1
        family = str(line["family"]) if "family" in line else None
        first = queue.waiting.popleft() if queue.waiting else Queued(family, None, self.event)
        self.pairs.append((first.event, self.event))
        self.taken = end, Queued(family, first.bound, self.event)

    def wire(self, line: Line) -> None:
        """What was taken is a frame of the wire."""
        if self.taken:
            end, what = self.taken
            shown = str(line["hex"]) if "hex" in line else None
            frame = Frame(number(line, "frame"), end, self.event, what.family, what.bound, shown)
            self.frames[frame.number] = frame

    def off(self, line: Line) -> None:
        """A frame comes off the wire, or arrives and stays."""
        self.coming = self.frames.get(number(line, "frame"))
        if self.coming:
            self.pairs.append((self.coming.event, self.event))
            self.coming.is_off = self.coming.is_off or line["kind"] == "off"

    def arrive(self, line: Line) -> None:
        """It arrives at the other end."""
        if self.coming:
            self.coming.arrivals.append((self.event, self.end(line)))

    def lose(self, line: Line) -> None:
        """It is lost."""
        if self.coming:
            self.coming.lost = self.event

    def far_ends(self) -> Dict[End, End]:
        """The other end of each device that a frame showed."""
        ends: Dict[End, End] = {}
        for frame in self.frames.values():
            for _, there in frame.arrivals:
                ends[frame.sent_from], ends[there] = there, frame.sent_from
        return ends
