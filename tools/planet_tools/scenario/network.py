"""The network of a scenario: its hosts with their names, and its links with their devices."""
from __future__ import annotations

import re
from dataclasses import dataclass, field
from typing import Iterable, Optional

from planet_tools.scenario.faults import Fault

HOSTS_MAX = 32
DEVICES_MAX = 8
HOST_MAX = 2**32 - 1
NAME_OF_HOST = re.compile(r"[A-Za-z_][A-Za-z0-9_]*")
PACKAGES = ("net", "resident", "host")
End = tuple[int, int]


@dataclass
class Network:
    """Hosts, each with the packages that it lacks and its line; links with their line; names of hosts."""

    without: dict[int, list[str]] = field(default_factory=dict)
    host_lines: dict[int, int] = field(default_factory=dict)
    links: list[tuple[End, End, int]] = field(default_factory=list)
    names: dict[str, int] = field(default_factory=dict)
    other_end: dict[End, End] = field(default_factory=dict)

    def host(self, line: int, word: str) -> int:
        """The host that a word names, by its number or its name."""
        number = int(word) if word.isascii() and word.isdigit() else self.names.get(word)
        if number is None or number not in self.without:
            named = f"; hosts have the names {', '.join(self.names)}" if self.names and number is None else ""
            raise Fault(line, f"UnknownHost: no line above makes a host {word}{named}")
        return number

    def add_host(self, line: int, number: int, without: Iterable[str] = ()) -> None:
        """Makes a host."""
        if number > HOST_MAX:
            raise Fault(line, f"BadNumber: a host's number is at most {HOST_MAX:,}")
        if number in self.without:
            raise Fault(line, f"TwiceNamed: line {self.host_lines[number]} makes host {number} already")
        if len(self.without) == HOSTS_MAX:
            raise Fault(line, f"TooMany: a network has at most {HOSTS_MAX} hosts")
        lacked = list(without)
        for package in lacked:
            if package not in PACKAGES:
                raise Fault(line, f"BadWord: a host is without {', '.join(PACKAGES)}, not without {package}")
        self.without[number] = lacked
        self.host_lines[number] = line

    def next_number(self) -> int:
        """The number of the next host that has none of its own."""
        return max(self.without, default=0) + 1

    def name(self, line: int, name: str, number: int) -> None:
        """Gives a host a name."""
        if self.names.get(name, number) != number:
            raise Fault(line, f"TwiceNamed: host {self.names[name]} has the name {name} already")
        self.names[name] = number

    def free_device(self, line: int, host: int) -> int:
        """The lowest device of a host that has no link."""
        for device in range(1, DEVICES_MAX + 1):
            if (host, device) not in self.other_end:
                return device
        raise Fault(line, f"TooMany: host {host} has {DEVICES_MAX} links already, one for each of its devices")

    def link(self, line: int, one: int, other: int, devices: Optional[tuple[int, int]] = None) -> None:
        """Joins two hosts, by their lowest free devices where none are named."""
        if one == other:
            raise Fault(line, f"BadArgument: a link joins two hosts, and host {one} is one")
        ends = (one, devices[0] if devices else self.free_device(line, one))
        back = (other, devices[1] if devices else self.free_device(line, other))
        for host, device in (ends, back):
            if not 1 <= device <= DEVICES_MAX:
                raise Fault(line, f"BadNumber: a device is 1 to {DEVICES_MAX}, not {device}")
            if (host, device) in self.other_end:
                raise Fault(line, f"TwiceNamed: device {device} of host {host} has a link already")
        self.links.append((ends, back, line))
        self.other_end[ends] = back
        self.other_end[back] = ends

    def neighbours(self, host: int) -> list[tuple[int, End]]:
        """The devices of a host that have a link, in order, each with the end behind it."""
        return sorted((end[1], other) for end, other in self.other_end.items() if end[0] == host)

    def distances(self, start: int) -> dict[int, int]:
        """How many links each host that can be reached is away."""
        reached, edge = {start: 0}, [start]
        while edge:
            here = edge.pop(0)
            for _, (there, _device) in self.neighbours(here):
                if there not in reached:
                    reached[there] = reached[here] + 1
                    edge.append(there)
        return reached

    def longest_way(self) -> int:
        """The links of the longest of the shortest ways between two hosts that can reach each other."""
        return max((max(self.distances(start).values()) for start in self.without), default=0)

    def ways(self) -> dict[tuple[int, int], int]:
        """The device by which a host reaches another, once all routes are known: of the shortest ways the lowest."""
        ways = {}
        for there in self.without:
            away = self.distances(there)
            for here in away:
                nearer = [device for device, (other, _) in self.neighbours(here) if away[other] < away[here]]
                if nearer:
                    ways[(here, there)] = nearer[0]
        return ways
