"""Counts of a trace: packets by end, drops by reason, each link, each family, and the longest queue."""
from __future__ import annotations

from collections import Counter
from dataclasses import dataclass, field
from typing import Dict, List, Optional, Union

from planet_tools.trace.files import Run
from planet_tools.trace.flow import End, Flow, Frame, number
from planet_tools.trace.forms import Line

Cell = Union[int, str, None]
Table = List[Dict[str, Cell]]
# what a visit ends with, and what is taken from a purse
ENDS = ("value", "raised", "spent")
COUNTS = ("granted", "hops", "evals", "live", "left")


@dataclass
class Family:
    """The packets of a family: how many of each end there were, and its counts."""

    ends: "Counter[str]" = field(default_factory=Counter)
    counts: Dict[str, Optional[int]] = field(default_factory=dict)

    def add(self, name: str, count: int) -> None:
        """Adds to a count that the lines of the trace tell."""
        self.counts[name] = (self.counts.get(name) or 0) + count


class Stats:
    """What a trace counts up to."""

    def __init__(self, run: Run) -> None:
        self.events = run.events
        self.flow = Flow(self.events)
        self.kinds = Counter(str(line["kind"]) for line in self.events)
        self.drops: "Counter[str]" = Counter()
        self.families: Dict[str, Family] = {}
        for line in self.events:
            self.count(line)
        for row in run.rows:
            counts = self.family(row).counts
            counts.update({name: number(row, name) for name in COUNTS})

    def family(self, line: Line) -> Family:
        """The family of a line."""
        return self.families.setdefault(str(line["family"]), Family())

    def count(self, line: Line) -> None:
        """Counts a line of an event."""
        kind = str(line["kind"])
        if kind.startswith("drop"):
            self.drops[self.reason(line)] += 1
        if "family" not in line:
            return
        family = self.family(line)
        if kind in ("inject", "forged"):
            family.add("granted", number(line, "bound"))
        elif kind == "queue":
            family.add("hops", 1)
        elif kind in ENDS:
            family.ends[kind] += 1
            family.add("evals", number(line, "evals") if kind != "spent" else 0)
            family.add("left", number(line, "left"))
        elif kind in ("drop", "lost"):
            family.ends[kind] += 1
            family.add("left", number(line, "bound"))

    def reason(self, line: Line) -> str:
        """Why something was dropped: an advert's reason is told apart, and bytes have their fault."""
        reason = str(line["reason"])
        if line["kind"] == "drop_advert":
            return f"{reason} advert"
        return f"{reason} {line['fault']}" if "fault" in line else reason

    def ends(self) -> Dict[str, int]:
        """How packets ended: by visits, drops and losses, and how many wait in queues or are on the wire."""
        counts = {kind: self.kinds[kind] for kind in (*ENDS, "drop", "lost")}
        counts["queued"] = sum(it.family is not None for queue in self.flow.queues.values() for it in queue.waiting)
        counts["on the wire"] = sum(it.family is not None and not it.is_off for it in self.flow.frames.values())
        return counts

    def links(self) -> Table:
        """A row for each device that had something to send, with its other end where a frame showed it."""
        far = self.flow.far_ends()
        rows: Table = []
        sent: Dict[End, List[Frame]] = {}
        for frame in self.flow.frames.values():
            sent.setdefault(frame.sent_from, []).append(frame)
        for end in sorted(self.flow.queues):
            queue, there = self.flow.queues[end], far.get(end) if end[1] else end
            frames = sent.get(end, [])
            rows.append({
                "host": end[0], "device": end[1], "to_host": there and there[0], "to_device": there and there[1],
                "hops": queue.hops, "adverts": queue.adverts, "sent": queue.sent,
                "arrivals": sum(len(it.arrivals) for it in frames), "lost": sum(it.lost is not None for it in frames),
                "on_the_wire": sum(not it.is_off for it in frames), "queued": len(queue.waiting),
                "longest_queue": queue.longest,
            })
        return rows

    def family_rows(self) -> Table:
        """A row for each family, in order of its first line: its counts, and how its packets ended."""
        return [
            {
                "family": name, **{it: family.counts.get(it) for it in COUNTS},
                **{f"ends_{kind}": family.ends[kind] for kind in (*ENDS, "drop", "lost")},
            }
            for name, family in self.families.items()
        ]

    def longest(self) -> Optional[Dict[str, Cell]]:
        """The queue that was the longest, and the event that made it so; the first of equal ones."""
        best: Optional[End] = None
        for end in sorted(self.flow.queues):
            if best is None or self.flow.queues[end].longest > self.flow.queues[best].longest:
                best = end
        if best is None:
            return None
        queue = self.flow.queues[best]
        return {"host": best[0], "device": best[1], "length": queue.longest, "event": queue.longest_at}

    def data(self) -> Dict[str, object]:
        """All of it as data."""
        return {
            "events": len({line["event"] for line in self.events}), "lines": len(self.events),
            "kinds": dict(sorted(self.kinds.items())), "packets_by_end": self.ends(),
            "drops_by_reason": dict(sorted(self.drops.items())), "links": self.links(),
            "families": self.family_rows(), "longest_queue": self.longest(),
        }


def table_text(rows: Table) -> List[str]:
    """Rows as lines with columns; numbers stand at the right."""
    if not rows:
        return ["none"]
    names = list(rows[0])
    cells = [[name.replace("_", " ") for name in names]]
    cells += [["-" if row[name] is None else str(row[name]) for name in names] for row in rows]
    widths = [max(len(line[at]) for line in cells) for at in range(len(names))]
    return ["  ".join(cell.rjust(width) for cell, width in zip(line, widths)) for line in cells]


def stats_text(stats: Stats) -> str:
    """All of it as a text."""
    data, longest = stats.data(), stats.longest()
    parts = [[f"{data['lines']} lines of {data['events']} events"]]
    parts.append(["Packets by end", *table_text([dict(stats.ends())])])
    parts.append(["Drops by reason", *(f"{count:6}  {reason}" for reason, count in sorted(stats.drops.items()))])
    if not stats.drops:
        parts[-1].append("none")
    parts += [["Links", *table_text(stats.links())], ["Families", *table_text(stats.family_rows())]]
    where = "none" if longest is None else "{length} in the queue of host {host} device {device}, event {event}"
    parts.append([f"Longest queue: {where.format(**(longest or {}))}"])
    return "\n".join("\n".join(part) + "\n" for part in parts)
