"""Schedules to try the explorer on: of networks that grow, drawn ones of both versions, and one of 50,000 events."""
from __future__ import annotations

import random
import subprocess
import sys
from pathlib import Path
from typing import Callable, Iterator, List, Set

from planet_tools.explore.logs import Program
from planet_tools.explorer_test.reckoning import states
from planet_tools.frames.layer import layer
from planet_tools.trace.flow import End

PING = """svc thisHostIs : (host) -> bool
svc getRB : () -> int
svc print : (string) -> unit
fun ack() : unit = print("Success")
fun ping(src : host, dest : host) : unit =
  if not thisHostIs(dest) then
    OnRemote(|ping|(src, dest), dest, getRB(), defaultRoute)
  else OnRemote(|ack|(), src, getRB(), defaultRoute)
"""
SAYS = "a packet of this family is here, looks around, is counted in the ledger, and goes on or home again"
LONG_PING = PING.replace("  if not", f'  print("{SAYS}");\n  if not')
# what a drawn schedule injects: packets that go on, flood, raise, evaluate, keep rows and end early
DRAWN = """svc thisHost : () -> host
svc thisHostIs : (host) -> bool
svc getRB : () -> int
svc getNeighbors : () -> (host * dev) list
svc print : (string) -> unit
svc deliver : (int, int) -> unit
svc put : (string, int, int, int) -> unit
svc get : (string, int) -> int
fun oops(x : string) : unit = print(x ^ " <b>&amp;</b>")
fun ack() : unit = print("Success")
fun ping(src : host, dest : host) : unit =
  if not thisHostIs(dest) then OnRemote(|ping|(src, dest), dest, getRB(), defaultRoute)
  else OnRemote(|ack|(), src, getRB(), defaultRoute)
fun part(share : int, hop : (host * dev)) : int = OnNeighbor(|ack|(), #1 hop, share, #2 hop); share
fun flood() : unit = let val ends : (host * dev) list = getNeighbors() in
  if ends = [] then () else print(intToString(foldl(part, getRB() / (length(ends) + 1), ends))) end
fun again() : unit = if getRB() < 2 then raise Empty else OnRemote(|again|(), thisHost(), getRB() / 2, defaultRoute)
fun keep(n : int) : unit = put("row", n, n * n, 3); deliver(n, get("row", n)); deliver(7, get("row", n + 1))
fun evals() : unit = try eval(|keep|(4)) handle NotFound => eval(|flood|()) end
fun spend(n : int) : int = n + n
fun twice(n : int) : int = spend(spend(spend(spend(n))))
"""
CALLS = ("ack ()", "ping (@{a}, @{b})", "flood ()", "again ()", "keep ({n})", "evals ()")
HOSTS, GROW_HOSTS = 5, 8
DRAWN_PARTS, DRAWN_EVENTS = 5, 40
EVENTS_MOST, ROUNDS = 50_000, 4
SCENARIO = Path(__file__).resolve().parents[2] / "scenario"
SHAPES = ("ring 6", "grid 2 3", "star 5", "tree 7", "line 4", "random 8 3 seed 5")


class Pcg:
    """The generator of networks that grow: 64 bits of state, 32 of output, on stream 1."""

    def __init__(self, seed: int) -> None:
        self.step_by = 3
        self.state = (seed + self.step_by) % 2**64
        self.step()

    def step(self) -> None:
        """Goes on by one."""
        self.state = (self.state * 6364136223846793005 + self.step_by) % 2**64

    def draw(self, below: int) -> int:
        """The next number below a limit."""
        state = self.state
        self.step()
        word = (((state >> 18) ^ state) >> 27) % 2**32
        turn = state >> 59
        return ((word >> turn | word << (32 - turn)) % 2**32) % below


def grown(program: Program, seed: int, count: int) -> str:
    """The schedule of the events that `planet grow` draws. What is on the wire is asked of the program."""
    hosts = range(1, GROW_HOSTS + 1)
    links = [f"link {host} 1 {host % GROW_HOSTS + 1} 2" for host in hosts]
    head = ["planet schedule 1", *(f"host {host}" for host in hosts), *links]
    head += [f"program ping\n{PING}end program", "events"]
    draws, events, wire = Pcg(seed), [f"tick {host}" for host in hosts], None
    while len(events) < count:
        kind = draws.draw(16)
        if kind in (0, 10, 11, 12, 13, 14, 15):
            if wire is None:
                wire = on_wire(program.on_text("replay", "\n".join([*head, *events, ""])))
            frame = (max if kind > 13 else min)(wire, default=1)
            wire.discard(frame)
            events.append(f"{'lose' if kind == 0 else 'deliver'} {frame}")
        elif kind == 1:
            events.append(f"tick {1 + draws.draw(8)}")
        elif kind < 4:
            here, there = 1 + draws.draw(8), 1 + draws.draw(8)
            events.append(f"inject {here} ping ping 20 (@{here}, @{there})")
        else:
            events.append(f"send {1 + draws.draw(8)} {draws.draw(3)}")
            wire = None
    return "\n".join([*head, *events[:count], ""])


def on_wire(trace: str) -> Set[int]:
    """The numbers of the frames that are on the wire at the end of a trace."""
    found: Set[int] = set()
    for line in trace.split("\n"):
        words = line.split(" ")
        if len(words) == 3 and words[1] == "wire":
            found.add(int(words[2]))
        elif len(words) == 3 and words[1] == "off":
            found.discard(int(words[2]))
    return found


def forged(draws: random.Random, version: int) -> str:
    """Bytes from outside in hex: packets to both of the first hosts, and what is no frame."""
    plan = layer("explorer")
    source, serial = draws.randrange(1, 4), draws.randrange(1, 9)
    head = plan.PLAN(version=2, boot=1, link=draws.randrange(1, 5)) if version == 2 else plan.PLAN()
    destination, bound = draws.randrange(1, 3), draws.randrange(0, 9)
    packet = plan.PlanPacket(source=source, serial=serial, destination=destination, bound=bound)
    frame = bytes(head / packet).hex()
    return draws.choice([frame, frame, frame, frame[:-2], "ff"])


def drawn_head(version: int, frames: bool) -> List[str]:
    """The network of drawn schedules: a ring with a chord."""
    lines = [f"planet schedule {version}"] + (["frames"] if frames else [])
    lines += [f"host {host}" + (" without resident" if host == 3 else "") for host in range(1, HOSTS + 1)]
    lines += [f"link {host} 1 {host % HOSTS + 1} 2" for host in range(1, HOSTS + 1)] + ["link 1 3 3 3"]
    return [*lines, f"program all\n{DRAWN}end program", "events"]


class Drawing:
    """Draws the next events of a schedule, by what is queued and on the wire after those before."""

    def __init__(self, seed: int, version: int) -> None:
        self.draws = random.Random(seed)
        self.version = version
        self.queued: List[End] = []
        self.wire: List[int] = []
        self.next = 1

    def know(self, trace: str) -> None:
        """Takes the state at the end of a trace."""
        for state in states(trace):
            self.queued = [end for end, items in state.queues.items() for _ in items]
            self.wire = sorted(state.wire)
        self.next = 1 + sum(" wire " in line for line in trace.split("\n"))

    def event(self) -> str:
        """The next event."""
        draws, host = self.draws, self.draws.randrange(1, HOSTS + 1)
        kind = draws.choice(["inject", "inject", "raw", "tick", "lose"] + 5 * ["send", "deliver"] + 2 * ["repeat"])
        if kind == "send" and self.queued:
            host, device = self.queued.pop(draws.randrange(len(self.queued)))
            self.wire.append(self.next)
            self.next += 1
            return f"send {host} {device}"
        if kind in ("deliver", "lose") and self.wire:
            return f"{kind} {self.wire.pop(draws.randrange(len(self.wire)))}"
        if kind == "repeat" and self.version == 2:
            return f"repeat {draws.choice(self.wire or [1])}"
        if kind == "raw":
            return f"raw {host} {draws.randrange(3)} {forged(draws, self.version)}"
        return f"tick {host}" if kind == "tick" else self.injection(host)

    def injection(self, host: int) -> str:
        """What a host injects next."""
        draws = self.draws
        call = draws.choice(CALLS).format(a=host, b=draws.randrange(1, HOSTS + 1), n=draws.randrange(9))
        entry, arguments = call.split(" ", 1)
        handler = "handler oops " if self.version == 2 and draws.random() < 0.5 else ""
        return f"inject {host} all {entry} {draws.choice([0, 1, 3, 20, 400])} {handler}{arguments}"


def drawn(program: Program, seed: int, version: int, frames: bool) -> str:
    """A schedule that is drawn, in which all happens that may."""
    head, drawing = drawn_head(version, frames), Drawing(seed, version)
    events = [f"tick {host}" for host in range(1, HOSTS + 1)]
    for _ in range(DRAWN_PARTS):
        drawing.know(program.on_text("replay", "\n".join([*head, *events, ""])))
        events += [drawing.event() for _ in range(DRAWN_EVENTS)]
    return "\n".join([*head, *events, ""])


def settled(program: str, shape: str, room: Path) -> str:
    """The schedule that tools/scenario makes of a shape of network: pings while frames are lost and reordered."""
    version = 1 + SHAPES.index(shape) % 2
    again = " repeat 10%" if version == 2 else ""
    file = room / "it.scenario"
    file.write_text("\n".join([
        f"planet scenario {version}", shape, f"program all\n{DRAWN}end program", "events", "routes 3",
        "inject 1 all ping 20 (@1, @4)", "every 1 for 6 at 2 inject all ping 12 (@2, @4)", "inject 3 all flood 40 ()",
        f"settle lose 20%{again} reorder seed 7", "",
    ]))
    words = [sys.executable, str(SCENARIO), str(file), "--planet", program]
    return subprocess.run(words, capture_output=True, text=True, check=True).stdout


def kept_traces(root: Path) -> Iterator[Path]:
    """The traces with a ledger of schedules that were written by hand: of the samples, and of the rows of replay."""
    for file in sorted([*root.glob("samples/*/output"), *root.glob("tests/replay/*/output")]):
        text = file.read_text("utf-8")
        if text.startswith("planet trace 1\n") and "\nledger\n" in text:
            yield file


def rounds(add: Callable[[str], None], hosts: int, first: int) -> int:
    """All hosts of a ring tick, and each advert is sent and delivered. Answers the number of the next frame."""
    for host in range(1, hosts + 1):
        add(f"tick {host}")
    for host in range(1, hosts + 1):
        add(f"send {host} 1")
        add(f"send {host} 2")
    for frame in range(first, first + 2 * hosts):
        add(f"deliver {frame}")
    return first + 2 * hosts


def long_schedule(hosts: int = 32) -> str:
    """A schedule of 50,000 events: hosts in a ring, and pings over three links, all hosts at once."""
    head: List[str] = ["planet schedule 1", *(f"host {host}" for host in range(1, hosts + 1))]
    head += [f"link {host} 1 {host % hosts + 1} 2" for host in range(1, hosts + 1)]
    head += [f"program ping\n{LONG_PING}end program", "events"]
    events: List[str] = []
    frame = 1
    for _ in range(ROUNDS):
        frame = rounds(events.append, hosts, frame)
    for turn in range(1_000):
        if turn % 10 == 9:
            frame = rounds(events.append, hosts, frame)
        events += [f"inject {host} ping ping 20 (@{host}, @{(host + 2) % hosts + 1})" for host in range(1, hosts + 1)]
        for device in (1, 1, 1, 2, 2, 2):
            events += [f"send {host} {device}" for host in range(1, hosts + 1)]
            events += [f"deliver {it}" for it in range(frame, frame + hosts)]
            frame += hosts
        if len(events) >= EVENTS_MOST:
            break
    return "\n".join([*head, *events[:EVENTS_MOST], ""])


def quiet_network(links: str) -> str:
    """A schedule in which each host ticks, and a frame goes over each link, so that the trace shows it."""
    ends = [line.split(" ") for line in links.split("\n") if line]
    hosts = max(int(number) for it in ends for number in (it[0], it[2]))
    lines = ["planet schedule 1", *(f"host {host}" for host in range(1, hosts + 1))]
    lines += [*(f"link {' '.join(it)}" for it in ends), "events"]
    lines += [f"tick {host}" for host in range(1, hosts + 1)]
    lines += [f"send {it[0]} {it[1]}" for it in ends] + [f"deliver {frame}" for frame in range(1, len(ends) + 1)]
    return "\n".join([*lines, ""])


def ring(hosts: int) -> str:
    """The links of a ring."""
    return "\n".join(f"{host} 1 {host % hosts + 1} 2" for host in range(1, hosts + 1))


def row(hosts: int) -> str:
    """The links of a row."""
    return "\n".join(f"{host} 1 {host + 1} 2" for host in range(1, hosts))


def grid(wide: int, high: int) -> str:
    """The links of a grid."""
    def number(x: int, y: int) -> int:
        return y * wide + x + 1

    across = [f"{number(x, y)} 1 {number(x + 1, y)} 2" for y in range(high) for x in range(wide - 1)]
    return "\n".join(across + [f"{number(x, y)} 3 {number(x, y + 1)} 4" for y in range(high - 1) for x in range(wide)])


def tangle(hosts: int, seed: int) -> str:
    """The links of a tree that is drawn, and some more."""
    draws, used = random.Random(seed), [0] * (hosts + 1)
    lines = []
    pairs = [(host, draws.randrange(max(1, host - 6), host)) for host in range(2, hosts + 1)]
    pairs += [(draws.randrange(1, hosts + 1), draws.randrange(1, hosts + 1)) for _ in range(hosts)]
    for one, other in pairs:
        if one != other and max(used[one], used[other]) < 8:
            used[one] += 1
            used[other] += 1
            lines.append(f"{one} {used[one]} {other} {used[other]}")
    return "\n".join(lines)
