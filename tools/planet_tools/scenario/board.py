"""What of a network moves: the frames in queues and on the wire. It follows a trace, or a guess at what comes."""
from __future__ import annotations

from dataclasses import dataclass, field

from planet_tools.scenario.network import End

QUEUE_MAX = 64
WIRE_MAX = 4_096


class Frame:
    """A frame, and what of its bytes stays the same on each link: seen on a link, or taken from one like it."""

    __slots__ = ("is_advert", "is_seen", "body", "destination")

    def __init__(self, is_advert: bool) -> None:
        self.is_advert = is_advert
        self.is_seen = is_advert
        self.body = b""
        self.destination = -1

    def take_after(self, other: Frame) -> None:
        """Takes its bytes to be those of another frame, until they are seen."""
        if not self.is_seen:
            self.body, self.destination = other.body, other.destination

    def see(self, spelled: bytes) -> None:
        """Takes a packet's hex but for its stamp, its serial number and its bound."""
        if self.is_seen:
            return
        self.is_seen = True
        source = 12 if spelled[8:10] == b"01" else 44
        self.destination = int(spelled[source + 24:source + 32], 16)
        self.body = spelled[source:source + 8] + spelled[source + 24:source + 32] + spelled[source + 40:]


@dataclass
class Board:
    """The frames of each device's queue, and of the wire with the end that each goes to."""

    other_end: dict[End, End]
    queues: dict[End, list[Frame]] = field(default_factory=dict)
    wire: dict[int, tuple[Frame, End]] = field(default_factory=dict)
    next_frame: int = 1

    def copy(self) -> Board:
        """The same network, to go on with apart."""
        queues = {end: list(queue) for end, queue in self.queues.items() if queue}
        return Board(self.other_end, queues, dict(self.wire), self.next_frame)

    def push(self, end: End, frame: Frame) -> bool:
        """Puts a frame into a queue, where there is room."""
        queue = self.queues.setdefault(end, [])
        if len(queue) == QUEUE_MAX:
            return False
        queue.append(frame)
        return True

    def send(self, end: End) -> int:
        """Moves the first frame of a queue onto the wire, and answers its number."""
        frame = self.queues[end].pop(0)
        number = self.next_frame
        self.wire[number] = (frame, self.other_end.get(end, end))
        self.next_frame += 1
        return number

    def moving(self) -> int:
        """How many frames are queued or on the wire."""
        return len(self.wire) + sum(map(len, self.queues.values()))

    def counts(self) -> tuple[frozenset[tuple[End, int]], frozenset[int]]:
        """All that the events of the next round depend on."""
        return frozenset((end, len(queue)) for end, queue in self.queues.items() if queue), frozenset(self.wire)
