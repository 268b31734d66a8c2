"""What stands in queues and on the wire after each event of a trace, and the ledger: reckoned from the lines alone,
without anything that the explorer does."""
from __future__ import annotations

from dataclasses import dataclass, field
from itertools import groupby
from typing import Dict, Iterator, List, Optional, Set, Tuple

from planet_tools.trace.flow import End, number
from planet_tools.trace.forms import TRACE, Line

COUNTS = ("granted", "hops", "evals", "live", "left")
# what waits or travels: the family of a packet, none for an advert, and its bound
Item = Tuple[Optional[str], int]


def item_text(item: Item) -> str:
    """An item as the explorer's words have it."""
    return "advert" if item[0] is None else f"{item[0]} bound {item[1]}"


@dataclass
class State:
    """The state after an event: its number, its lines, queues, the wire, and each family's counts but what is live."""

    event: int = 0
    lines: List[str] = field(default_factory=list)
    queues: Dict[End, List[Item]] = field(default_factory=dict)
    wire: Dict[int, Tuple[End, Item]] = field(default_factory=dict)
    handed: Set[int] = field(default_factory=set)
    counts: Dict[str, Dict[str, int]] = field(default_factory=dict)

    def add(self, family: str, **amounts: int) -> None:
        """Adds to a family's counts."""
        counts = self.counts.setdefault(family, dict.fromkeys(COUNTS, 0))
        for name, amount in amounts.items():
            counts[name] += amount

    def live(self, family: str) -> int:
        """The bounds of a family's packets in queues, and on the wire where they were never handed over."""
        queued = [item for items in self.queues.values() for item in items]
        travelling = [item for frame, (_, item) in self.wire.items() if frame not in self.handed]
        return sum(bound for name, bound in queued + travelling if name == family)

    def row(self, family: str) -> List[int]:
        """A family's row of the ledger."""
        counts = {**self.counts[family], "live": self.live(family)}
        return [counts[name] for name in COUNTS]

    def queued_words(self) -> List[str]:
        """The queues as the explorer's words have them."""
        found = sorted((end, items) for end, items in self.queues.items() if items)
        return [f"@{host} %{device}: {', '.join(map(item_text, items))}" for (host, device), items in found]

    def wire_words(self) -> List[str]:
        """The wire as the explorer's words have it."""
        return [
            f"{frame}: @{end[0]} %{end[1]} {item_text(item)}{' copy' if frame in self.handed else ''}"
            for frame, (end, item) in sorted(self.wire.items())
        ]


class Event:
    """The lines of one event, of which the later ones are about what the earlier ones named."""

    def __init__(self, state: State) -> None:
        self.state = state
        self.taken: Optional[Tuple[End, Item]] = None
        self.frame: Optional[int] = None
        self.coming: Optional[Tuple[End, Item]] = None
        self.is_first = True
        self.is_forged = False

    def take(self, line: Line) -> None:
        """Takes a line."""
        step = getattr(self, f"on_{line['kind']}", None)
        if step:
            step(line)

    def on_inject(self, line: Line) -> None:
        self.state.add(str(line["family"]), granted=number(line, "bound"))

    def on_forged(self, line: Line) -> None:
        self.is_forged = True
        self.on_inject(line)

    def on_queue(self, line: Line) -> None:
        item = str(line["family"]), number(line, "bound")
        self.state.queues.setdefault((number(line, "host"), number(line, "device")), []).append(item)
        self.state.add(item[0], hops=1)

    def on_advert(self, line: Line) -> None:
        self.state.queues.setdefault((number(line, "host"), number(line, "device")), []).append((None, 0))

    def on_send(self, line: Line) -> None:
        end = number(line, "host"), number(line, "device")
        self.taken = end, self.state.queues[end].pop(0)
        assert self.taken[1][0] == line.get("family"), line

    def on_send_advert(self, line: Line) -> None:
        self.on_send(line)

    def on_wire(self, line: Line) -> None:
        assert self.taken
        self.state.wire[number(line, "frame")] = self.taken

    def on_off(self, line: Line) -> None:
        self.frame = number(line, "frame")
        self.coming = self.state.wire.pop(self.frame)
        self.is_first = self.frame not in self.state.handed

    def on_again(self, line: Line) -> None:
        self.frame = number(line, "frame")
        self.coming = self.state.wire[self.frame]
        self.is_first = self.frame not in self.state.handed
        self.state.handed.add(self.frame)

    def on_value(self, line: Line) -> None:
        evals = number(line, "evals") if "evals" in line else 0
        self.state.add(str(line["family"]), evals=evals, left=number(line, "left"))

    def on_raised(self, line: Line) -> None:
        self.on_value(line)

    def on_spent(self, line: Line) -> None:
        self.on_value(line)

    def on_drop(self, line: Line) -> None:
        is_stale = line["reason"] in ("Repeated", "TooOld")
        if not is_stale or self.is_forged or (self.coming is not None and self.is_first):
            self.state.add(str(line["family"]), left=number(line, "bound"))

    def on_lost(self, line: Line) -> None:
        if self.is_first:
            self.state.add(str(line["family"]), left=number(line, "bound"))


def states(trace: str) -> Iterator[State]:
    """The state after each event; it is the same object each time."""
    state = State()
    lines = [(text, TRACE.read(text)) for text in trace.split("\n")]
    found = [(text, line) for text, line in lines if line and "event" in line]
    for event, group in groupby(found, lambda it: number(it[1], "event")):
        held = list(group)
        state.event, state.lines = event, [text for text, _ in held]
        now = Event(state)
        for _, line in held:
            now.take(line)
        yield state


def ledger_rows(trace: str) -> Dict[str, List[int]]:
    """The rows of the ledger that a trace has."""
    rows = {}
    for text in trace.split("\nledger\n", 1)[-1].split("\n"):
        line = TRACE.read(text)
        if line and line["kind"] == "row":
            rows[str(line["family"])] = [number(line, name) for name in COUNTS]
    return rows
