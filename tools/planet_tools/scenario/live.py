"""The same network as nodes that serve: configurations, requests, a fleet, the file of its audit, and a run of it."""
from __future__ import annotations

import contextlib
import os
import signal
import socket
import subprocess
import sys
import time
from collections import Counter
from dataclasses import dataclass, field
from pathlib import Path

from planet_tools import program
from planet_tools.scenario.faults import Fault
from planet_tools.scenario.intent import Injection, Intent, Plain, Routes, Settle
from planet_tools.scenario.rounds import Made

LOGS_MAX = 16
PERIOD = 100
# milliseconds: a turn that hears nothing, at least and at most; a round of a `settle`; what stands between phases
TURN, TURN_MOST, ROUND, APART = 10, 16, 20, 500
FLEET, AUDIT = "fleet.txt", "logs.audit"


@dataclass
class Node:
    """A host's ports, and what is injected at it, by the time in milliseconds."""

    host: int
    port: int
    control: int
    program: str = ""
    injections: list[tuple[int, Injection]] = field(default_factory=list)
    heard: int = 0


@dataclass
class Request:
    """What a file of its own asks a node to inject, since a configuration has one program."""

    name: str
    at: int
    node: Node
    injection: Injection


@dataclass
class Fleet:
    """All that is made of a scenario for nodes that serve."""

    made: Made
    folder: Path
    nodes: dict[int, Node]
    requests: list[Request] = field(default_factory=list)
    end: int = 0
    is_lossless: bool = True

    def turn(self, node: Node, at: int) -> int:
        """The turn at which so much time is over at least: a turn that hears a frame waits for none."""
        adverts = len(self.made.intent.network.neighbours(node.host)) * (at // PERIOD + 1)
        return at // TURN + adverts + 1

    def turns(self, node: Node) -> int:
        """The turns of a node, up to the end."""
        return self.turn(node, self.end) + node.heard

    def seconds(self) -> float:
        """How long the fleet takes at most, on a machine that isn't busy."""
        return max(self.turns(node) for node in self.nodes.values()) * TURN_MOST / 1000


def plan(made: Made, trace: bytes, folder: Path) -> tuple[Fleet, list[socket.socket]]:
    """Lays a scenario out in time, over free ports, whose sockets are held until the fleet is started."""
    refuse_what_cant_serve(made.intent)
    network, held = made.intent.network, free_ports(2 * len(made.intent.network.without))
    ports = [each.getsockname()[1] for each in held]
    nodes = {host: Node(host, ports[2 * place], ports[2 * place + 1]) for place, host in enumerate(network.without)}
    for line in trace.split(b"\n"):
        words = line.split(b" ")
        if len(words) == 4 and words[1] == b"arrive":
            nodes[int(words[2][1:])].heard += 1
    fleet = Fleet(made, folder, nodes)
    at = APART
    for step in made.steps:
        if isinstance(step.what, Routes):
            at = at + at // 10 + step.rounds * PERIOD + APART
        elif isinstance(step.what, Settle):
            at = at + at // 10 + step.rounds * ROUND + APART
            fleet.is_lossless = fleet.is_lossless and not (step.what.lose or step.what.repeat)
        else:
            add_injection(fleet, at + step.rounds * ROUND, step.what)
    fleet.end = at + at // 10 + APART
    return fleet, held


def refuse_what_cant_serve(intent: Intent) -> None:
    """Refuses what nodes that serve can't do: events of single frames, and two links between the same hosts."""
    for statement in intent.statements:
        if isinstance(statement, Plain):
            raise Fault(statement.line, f"'{statement.text.split()[0]}' is an event of a schedule alone: nodes that "
                        "serve tick by their clock, and move their frames themselves")
    joined = set()
    for (one, _), (other, _), line in intent.network.links:
        pair = frozenset((one, other))
        if pair in joined:
            raise Fault(line, f"hosts {one} and {other} have another link: nodes tell neighbours apart by their ports")
        joined.add(pair)


def add_injection(fleet: Fleet, at: int, injection: Injection) -> None:
    """Puts an injection into its node's configuration, or into a request where that has another program already."""
    node = fleet.nodes[injection.host]
    node.program = node.program or injection.program
    if node.program == injection.program:
        node.injections.append((at, injection))
        return
    if injection.rest.split(None, 1)[0] == "handler":
        raise Fault(injection.line, f"host {node.host} injects of {node.program} too, so this is a request, "
                    "which has no handler")
    fleet.requests.append(Request(f"ask-{len(fleet.requests) + 1}.txt", at, node, injection))


def free_ports(count: int) -> list[socket.socket]:
    """So many sockets of loopback, each at a port that is free."""
    held = []
    for _ in range(count):
        each = socket.socket(socket.AF_INET, socket.SOCK_DGRAM)
        each.bind(("127.0.0.1", 0))
        held.append(each)
    return held


def configuration(fleet: Fleet, node: Node) -> str:
    """The configuration of a node."""
    network = fleet.made.intent.network
    lines = [f"planet node {fleet.made.intent.version}", f"host {node.host}",
             "hosts " + " ".join(map(str, sorted(network.without))), f"port {node.port}", f"control {node.control}",
             f"period {PERIOD}", f"log host-{node.host}.log"]
    for device, (other, _) in network.neighbours(node.host):
        lines.append(f"dev {device} {other} {fleet.nodes[other].port}")
    lines += [f"without {package}" for package in network.without[node.host]]
    if node.program:
        lines += ["program", text_of(fleet, node.program) + "end program"]
    for at, each in node.injections:
        lines.append(f"at {fleet.turn(node, at)} inject {each.entry} {each.bound} {each.rest}")
    return "\n".join(lines) + "\n"


def text_of(fleet: Fleet, name: str) -> str:
    """The text of a program."""
    return next(each.text for each in fleet.made.intent.programs if each.name == name)


def request(fleet: Fleet, asked: Request) -> str:
    """The file of a request."""
    each = asked.injection
    return "\n".join(["planet inject 1", f"to {asked.node.port}", f"from {asked.node.control}", f"bound {each.bound}",
                      f"entry {each.entry} {each.rest}", "program", text_of(fleet, each.program) + "end program", ""])


def write(fleet: Fleet) -> None:
    """Writes all files, each whole."""
    hosts = sorted(fleet.nodes)
    files = {f"host-{host}.cfg": configuration(fleet, fleet.nodes[host]) for host in hosts}
    files.update({asked.name: request(fleet, asked) for asked in fleet.requests})
    children = [f"node {host} host-{host}.cfg {fleet.turns(fleet.nodes[host])}" for host in hosts]
    files[FLEET] = "\n".join(["planet fleet 1", *children, ""])
    if len(hosts) <= LOGS_MAX:
        links = [f"link {one} {device} {other} {behind}"
                 for (one, device), (other, behind), _ in fleet.made.intent.network.links]
        files[AUDIT] = "\n".join(["planet audit 1", *(f"log host-{host}.log" for host in hosts), *links, ""])
    fleet.folder.mkdir(parents=True, exist_ok=True)
    for name, text in files.items():
        (fleet.folder / name).write_bytes(text.encode())


def run(fleet: Fleet, planet: str, held: list[socket.socket]) -> bool:
    """Starts the fleet, sends the requests, waits, and writes how the nodes ended; answers whether all ended well."""
    for each in held:
        each.close()
    begun = time.monotonic()
    child = subprocess.Popen([planet, "fleet", FLEET], cwd=fleet.folder, stdin=subprocess.DEVNULL,
                             stdout=subprocess.PIPE, start_new_session=True)
    try:
        for asked in sorted(fleet.requests, key=lambda each: each.at):
            time.sleep(max(0.0, begun + asked.at * TURN_MOST / TURN / 1000 - time.monotonic()))
            sys.stdout.write(program.run(planet, ["inject", asked.name], fleet.folder).output.decode())
        output = wait(child, fleet.seconds())
    except BaseException:
        with contextlib.suppress(ProcessLookupError):
            os.killpg(child.pid, signal.SIGTERM)
        raise
    sys.stdout.write(output)
    return child.returncode == 0


def wait(child: subprocess.Popen[bytes], seconds: float) -> str:
    """Waits for the fleet, and says how long it takes where someone looks on."""
    begun = time.monotonic()
    while True:
        try:
            return child.communicate(timeout=1)[0].decode()
        except subprocess.TimeoutExpired as late:
            gone = time.monotonic() - begun
            if gone > 4 * seconds + 60:
                raise Fault(0, f"the fleet still runs after {gone:.0f} seconds; {seconds:.0f} were reckoned") from late
            if sys.stderr.isatty():
                print(f"\rscenario: {gone:.0f} seconds of some {seconds:.0f} ", end="", file=sys.stderr, flush=True)


def prints_of(trace: bytes) -> dict[str, Counter[str]]:
    """What was printed or handed to a port at each host of a trace, each as often as it was."""
    prints: dict[str, Counter[str]] = {}
    for line in trace.decode("utf-8").split("\n"):
        words = line.split(" ", 3)
        if len(words) == 4 and words[1] in ("print", "port"):
            prints.setdefault(words[2], Counter())[f"{words[1]} {words[2]} {words[3]}"] += 1
    return prints


def judge(fleet: Fleet, planet: str, trace: bytes) -> bool:
    """Replays each log, compares what was printed with the schedule's trace, and audits the logs."""
    live: dict[str, Counter[str]] = {}
    for host in sorted(fleet.nodes):
        ended = program.run(planet, ["replay", f"host-{host}.log"], fleet.folder)
        if ended.status:
            raise Fault(0, f"the log of host {host} doesn't replay: {ended.note}")
        (fleet.folder / f"host-{host}.trace").write_bytes(ended.output)
        live.update(prints_of(ended.output))
    replayed = prints_of(trace)
    for word in sorted(live, key=lambda word: int(word[1:])):
        for said in sorted(live[word].elements()):
            print(said)
    is_same = live == replayed
    print(f"prints as in the replay: {'yes' if is_same else 'no'}")
    for word in sorted({*live, *replayed}):
        for said in sorted((replayed.get(word, Counter()) - live.get(word, Counter())).elements()):
            print(f"missing: {said}")
        for said in sorted((live.get(word, Counter()) - replayed.get(word, Counter())).elements()):
            print(f"more: {said}")
    return audit(fleet, planet) and (is_same or not fleet.is_lossless)


def audit(fleet: Fleet, planet: str) -> bool:
    """Audits the logs, and answers whether they fit."""
    if len(fleet.nodes) > LOGS_MAX:
        print(f"no audit: it takes at most {LOGS_MAX} logs, and these are {len(fleet.nodes)}")
        return True
    ended = program.run(planet, ["audit", AUDIT], fleet.folder)
    if ended.status:
        raise Fault(0, f"the logs aren't audited: {ended.note}")
    sys.stdout.write(ended.output.decode())
    return ended.output.split(b"\n")[1] == b"yes"
