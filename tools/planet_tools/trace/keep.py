"""Keeps events of a trace, with all that they need so that a reader follows each packet and each frame to its end."""
from __future__ import annotations

from dataclasses import dataclass
from typing import Dict, FrozenSet, List, Optional, Set, Tuple

from planet_tools.trace.files import Run
from planet_tools.trace.flow import Flow, number
from planet_tools.trace.forms import Line


@dataclass(frozen=True)
class Wanted:
    """Which events are wanted: those with a line that has one of each of these, where any is named."""

    families: FrozenSet[str] = frozenset()
    hosts: FrozenSet[int] = frozenset()
    kinds: FrozenSet[str] = frozenset()
    events: Optional[Tuple[int, int]] = None

    def has(self, line: Line) -> bool:
        """Whether a line is wanted."""
        return (
            (not self.families or line.get("family") in self.families)
            and (not self.hosts or line.get("host") in self.hosts)
            and (not self.kinds or line["kind"] in self.kinds)
            and (self.events is None or self.events[0] <= number(line, "event") <= self.events[1])
        )


class Groups:
    """Events that belong together: what one queued another sends, what one sent another takes off the wire."""

    def __init__(self, flow: Flow) -> None:
        self.above: Dict[int, int] = {}
        for first, second in flow.pairs:
            self.above[self.top(first)] = self.top(second)

    def top(self, event: int) -> int:
        """The event that stands for a group."""
        while event in self.above and self.above[event] != event:
            self.above[event] = event = self.above.get(self.above[event], self.above[event])
        return event


def kept(run: Run, wanted: Wanted) -> List[Line]:
    """The trace of the wanted events and of those that belong to them; a family's row stays where all its events do."""
    groups = Groups(Flow(run.events))
    tops = {groups.top(number(line, "event")) for line in run.events if wanted.has(line)}
    events: Set[int] = set()
    cut: Set[str] = set()
    for line in run.events:
        event = number(line, "event")
        if groups.top(event) in tops:
            events.add(event)
        elif "family" in line:
            cut.add(str(line["family"]))
    here = {str(line["family"]) for line in run.events if "family" in line and line["event"] in events}
    return [
        line
        for line in run.lines
        if (line["event"] in events if "event" in line else line["kind"] != "row" or str(line["family"]) in here - cut)
    ]
