"""The frames of a trace or of a log as datagrams of a capture: an event a second, and an interface a link."""
from __future__ import annotations

import os
import tempfile
from typing import Dict, List, Optional, Sequence

from planet_tools.trace.files import Run
from planet_tools.trace.flow import End, Flow, Frame, number
from planet_tools.trace.forms import Line, Refused
from planet_tools.trace.pcapng import PAYLOAD_MAX, Datagram, blocks_of
from planet_tools.trace.schedules import Schedule

PROGRAM = "planet tools/trace capture"
# hosts have the ports above this one, in order of their numbers; the port itself is that of what comes from outside
PORT = 40_000
HOSTS_MAX = 64


class Ports:
    """The ports of hosts, and the names of interfaces."""

    def __init__(self, base: int, hosts: Sequence[int], name: str) -> None:
        if len(hosts) > HOSTS_MAX:
            raise Refused(f"{len(hosts)} hosts, of at most {HOSTS_MAX}, {name}")
        self.base = base
        self.numbers = {host: base + place for place, host in enumerate(sorted(hosts), 1)}

    def of(self, end: Optional[End]) -> int:
        """The port of a host, or that of the outside where the end isn't known."""
        return self.numbers.get(end[0], self.base) if end else self.base


def end_text(end: End) -> str:
    """A host and its device."""
    return f"host {end[0]} %{end[1]}"


def link_text(one: End, other: Optional[End]) -> str:
    """A link by both its ends, the lower one first, or by one where the other isn't known."""
    return " - ".join(end_text(it) for it in sorted({one, other or one}))


def fate(frame: Frame) -> str:
    """What became of a frame, where it didn't just arrive once."""
    parts = []
    if len(frame.arrivals) > 1:
        parts.append("arrived at events " + ", ".join(str(event) for event, _ in frame.arrivals))
    if frame.lost is not None:
        parts.append(f"lost at event {frame.lost}")
    elif not frame.is_off:
        parts.append("on the wire at the end")
    return f"frame {frame.number}: {', '.join(parts)}" if parts else ""


def trace_datagrams(run: Run, schedule: Optional[Schedule], base: int, name: str) -> List[Datagram]:
    """The frames that went onto the wire, and with a schedule what came from outside too."""
    flow = Flow(run.events)
    far = {**flow.far_ends(), **(schedule.links if schedule else {})}
    far.update({end: end for end in flow.queues if end[1] == 0})
    hosts = {number(line, "host") for line in run.events if "host" in line} | set(schedule.hosts if schedule else ())
    ports, found = Ports(base, sorted(hosts), name), []
    for frame in flow.frames.values():
        if frame.hex is None:
            raise Refused(f"no bytes of frames, its schedule needs a line 'frames' behind the first one, {name}")
        here, other = frame.sent_from, far.get(frame.sent_from)
        between = ports.of(here), ports.of(other)
        found.append(Datagram(frame.event, link_text(here, other), between, bytes.fromhex(frame.hex), fate(frame)))
    for event, (end, held) in (schedule.raws if schedule else {}).items():
        link, between = link_text(end, far.get(end)), (base, ports.of(end))
        found.append(Datagram(event, link, between, held, f"event {event}: from outside"))
    return sorted(found, key=lambda it: it.seconds)


def log_datagrams(run: Run, base: int, name: str) -> List[Datagram]:
    """The frames that a node received, by the numbers of their entries: from its neighbours, its owner and itself."""
    head = {str(line["kind"]): line for line in run.lines}
    here, hosts = number(head["host"], "host"), head["hosts"]["hosts"]
    assert isinstance(hosts, list)
    devices: Dict[int, int] = {number(it, "device"): number(it, "host") for it in run.lines if it["kind"] == "dev"}
    ports, found, entry = Ports(base, hosts, name), [], 0
    for line in entries_of(run.lines):
        entry += 1
        if line["kind"] not in ("frame", "control"):
            continue
        device = number(line, "device") if line["kind"] == "frame" else None
        neighbour = here if device == 0 else devices.get(device) if device else None
        link = f"host {here} control" if device is None else end_text((here, device))
        between = ports.of(None if neighbour is None else (neighbour, 0)), ports.of((here, 0))
        found.append(Datagram(entry, link, between, bytes.fromhex(str(line["hex"]))))
    return found


def entries_of(lines: Sequence[Line]) -> List[Line]:
    """The lines of a log behind its line `events`, without those that say nothing."""
    at = next(place for place, line in enumerate(lines) if line["kind"] == "events")
    return [line for line in lines[at + 1:] if line["kind"] not in ("empty", "comment")]


def datagrams_of(run: Run, schedule: Optional[Schedule], base: int, name: str) -> List[Datagram]:
    """The datagrams of a trace or of a log, at least one."""
    found = log_datagrams(run, base, name) if run.file == "log" else trace_datagrams(run, schedule, base, name)
    if not found:
        raise Refused(f"no frame in it, {name}")
    for it in found:
        if len(it.payload) > PAYLOAD_MAX:
            raise Refused(f"a frame of {len(it.payload)} bytes, which no datagram carries, {name} event {it.seconds}")
    return found


def write_capture(datagrams: Sequence[Datagram], out: str) -> None:
    """Writes a capture whole, or leaves what was there."""
    folder = os.path.dirname(out) or "."
    try:
        with tempfile.NamedTemporaryFile("wb", dir=folder, prefix=".capture", delete=False) as file:
            part = file.name
            file.writelines(blocks_of(datagrams, PROGRAM))
        os.chmod(part, 0o644)
        os.replace(part, out)
    except OSError as fault:
        raise Refused(f"can't be written ({fault.strerror or fault}), {out}") from fault
