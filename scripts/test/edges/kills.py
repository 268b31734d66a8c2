"""What is left of nodes and fleets that were killed, each at a moment of its own."""
from __future__ import annotations

import os
import random
import re
import signal
import subprocess
import time
from pathlib import Path
from typing import List

from edges.room import ROOT, Node, Room
from planet_tools.frames.read import MAGIC

PINGS = """svc print : (int) -> unit
fun g(n : int) : unit = print(n)
fun f(n : int) : unit = OnNeighbor(|g|(n), @2, 1, %1)
"""


def killed_node(room: Room, number: int, draw: random.Random) -> None:
    """Kills a node while it injects, logs and sends: its log replays, and each frame that came is of a taking in it."""
    more = "program\n" + PINGS + "end program\n" + "".join(f"at {turn} inject f 9 ({turn})\n" for turn in range(1, 400))
    node = Node(room, 1_000_000, period=5, more=more)
    if not room.wants("a node serves", node.serves()):
        return
    until = time.monotonic() + draw.uniform(0.0, 0.15)
    while time.monotonic() < until:
        # not so much that a replay wouldn't take the log
        for _ in range(3):
            node.asks()
            node.hears(MAGIC + draw.randbytes(draw.choice((3, 40, 40, 40, 8_000))))
        time.sleep(0.002)
    os.kill(node.process.pid, draw.choice((signal.SIGKILL, signal.SIGTERM, signal.SIGINT, signal.SIGHUP)))
    node.process.wait()
    time.sleep(0.01)
    received = node.received()
    node.replays(f"node {number} that was killed", is_whole=False)
    taken = node.entries().count("take 1")
    room.wants("what a killed node sent is in its log", len(received) <= taken, (len(received), taken))
    room.wants("no line of a log that had memory is 'lost'", "lost" not in node.entries())
    node.kill()


def random_kills(room: Room, count: int = 0) -> None:
    """Kills nodes at random moments."""
    draw = random.Random(count)
    for number in range(count or int(os.environ.get("EDGE_KILLS", "12"))):
        killed_node(room, number, draw)


def fleet_files(room: Room, is_busy: bool = False) -> List[str]:
    """Copies the fleet of the samples to free ports, and answers the names of its logs. A busy one injects in each turn."""
    logs = []
    ports = {str(7101 + it): str(room.port()) for it in range(3)}
    ports.update({str(7201 + it): str(room.port()) for it in range(3)})
    room.let_go()
    for path in sorted((ROOT / "samples/live-fleet").glob("*.cfg")):
        text = path.read_text()
        for was, port in ports.items():
            text = re.sub(rf"\b{was}\b", port, text)
        if is_busy:
            text = text.replace("period 100\n", "period 10\n")
            more = "".join(f"at {turn} inject ping 10 (@1, @3)\n" for turn in range(1, 200))
            text += more if "end program\n" in text else ""
        room.put(path.name, text)
        logs += re.findall(r"^log (\S+)", text, re.M)
    room.put("fleet.txt", "planet fleet 1\nnode 1 one.cfg 1000000\nnode 2 two.cfg 1000000\nnode 3 three.cfg 1000000\n")
    return logs


def children_of(process: int) -> List[int]:
    """The children of a process."""
    path = Path(f"/proc/{process}/task/{process}/children")
    return [int(it) for it in path.read_text().split()]


def supervised(room: Room, logs: List[str], words: List[str]) -> "subprocess.Popen[bytes]":
    """Starts a fleet by these words, and waits until each of its nodes has begun its log anew."""
    for it in logs:
        (room.folder / it).unlink(missing_ok=True)
    with open(room.folder / "fleet.out", "wb") as output, open(room.folder / "fleet.notes", "wb") as notes:
        fleet = subprocess.Popen(words, cwd=room.folder, stdin=subprocess.DEVNULL, stdout=output, stderr=notes)
    last = time.monotonic() + 20
    while time.monotonic() < last and not all((room.folder / it).exists() and (room.folder / it).stat().st_size for it in logs):
        time.sleep(0.02)
    return fleet


def begun_fleet(room: Room, logs: List[str], *wrapper: str) -> "subprocess.Popen[bytes]":
    """Starts a fleet by the program itself."""
    return supervised(room, logs, [*wrapper, room.program, "fleet", "fleet.txt"])


def ended(fleet: "subprocess.Popen[bytes]") -> int:
    """The status of a fleet, and -9 of one that doesn't end, which is then killed."""
    try:
        return fleet.wait(20)
    except subprocess.TimeoutExpired:
        fleet.kill()
        return fleet.wait()


def logs_replay(room: Room, logs: List[str], saying: str) -> None:
    """Wants each log to replay, and all to fit together but for what was under way."""
    for it in logs:
        done = room.call("replay", it)
        room.wants(f"log {it} of {saying} replays", done.status == 0 and done.output.endswith(b"end\n"), done)


def killed_at_random(room: Room, logs: List[str], draw: random.Random) -> None:
    """Kills a process of a fleet, then the rest of it: its logs replay, and each frame that a node took is in its sender's."""
    wrapper = draw.choice(("", "scripts/build/together", "tools/fleet"))
    if wrapper == "tools/fleet":
        fleet = supervised(room, logs, [str(ROOT / wrapper), "--planet", room.program, "fleet.txt"])
    else:
        fleet = begun_fleet(room, logs, *([str(ROOT / wrapper)] if wrapper else []))
    below = [fleet.pid]
    for it in below:
        below += children_of(it)
    time.sleep(draw.uniform(0.0, 0.6))
    first = draw.choice(below)
    for it in (first, *below):
        if Path(f"/proc/{it}").exists():
            os.kill(it, draw.choice((signal.SIGKILL, signal.SIGTERM)))
    fleet.wait(20)
    until = time.monotonic() + 5
    while time.monotonic() < until and any(Path(f"/proc/{it}").exists() for it in below):
        time.sleep(0.02)
    logs_replay(room, logs, f"a fleet {wrapper} that was killed")
    room.put("logs.audit", (ROOT / "samples/live-fleet/logs.audit").read_bytes())
    done = room.call("audit", "logs.audit")
    room.wants("what nodes took of each other is in their senders' logs", b"\nyes\n" in done.output, done)


def random_fleets(room: Room) -> None:
    """Kills fleets at random moments, a third as many as nodes."""
    draw = random.Random(70)
    logs = fleet_files(room, is_busy=True)
    for _ in range(max(1, int(os.environ.get("EDGE_KILLS", "12")) // 3)):
        killed_at_random(room, logs, draw)


def killed_child(room: Room) -> None:
    """A child that is killed has no status: the fleet tells a fault, and no line says 0 of it."""
    logs = fleet_files(room)
    for place in range(3):
        fleet = begun_fleet(room, logs)
        children = children_of(fleet.pid)
        room.wants("a fleet starts its children", len(children) == 3, children)
        time.sleep(0.1 * place)
        os.kill(children[place], signal.SIGKILL)
        # those in front of it are waited for first
        for it in children[:place]:
            os.kill(it, signal.SIGKILL)
        status = ended(fleet)
        said = [(room.folder / it).read_bytes() for it in ("fleet.out", "fleet.notes")]
        seen = (status, said) == (6, [b"", b"planet: spawn fault\n"])
        room.wants("a child that was killed is a fault, and has no line", seen, (status, said))
        for it in children[place + 1:]:
            os.kill(it, signal.SIGKILL)
        time.sleep(0.05)
        logs_replay(room, logs, "a fleet of which a child was killed")


def killed_fleet(room: Room) -> None:
    """A fleet that is killed leaves its children, whose ports stay held; each log replays once they are ended."""
    logs = fleet_files(room)
    fleet = begun_fleet(room, logs)
    children = children_of(fleet.pid)
    time.sleep(0.1)
    fleet.kill()
    fleet.wait(20)
    left = [it for it in children if Path(f"/proc/{it}").exists()]
    room.wants("children of a fleet that was killed run on", left == children, left)
    for it in left:
        os.kill(it, signal.SIGTERM)
    time.sleep(0.1)
    logs_replay(room, logs, "a fleet that was killed")


def ended_together(room: Room) -> None:
    """What the launcher and the supervisor start ends with them, by each signal that ends them; each log replays."""
    logs = fleet_files(room)
    for wrapper in ("scripts/build/together", "tools/fleet"):
        for what in (signal.SIGINT, signal.SIGTERM, signal.SIGHUP):
            if wrapper == "tools/fleet":
                fleet = supervised(room, logs, [str(ROOT / wrapper), "--planet", room.program, "fleet.txt"])
            else:
                fleet = begun_fleet(room, logs, str(ROOT / wrapper))
            below = [fleet.pid]
            for it in below:
                below += children_of(it)
            room.wants(f"{wrapper} starts three nodes", len(below) in (4, 5), below)
            fleet.send_signal(what)
            room.wants(f"{wrapper} is ended by {what.name}", fleet.wait(20) == -what, fleet.returncode)
            until = time.monotonic() + 5
            while time.monotonic() < until and any(Path(f"/proc/{it}").exists() for it in below):
                time.sleep(0.02)
            left = [it for it in below if Path(f"/proc/{it}").exists()]
            room.wants(f"{wrapper} leaves no process", not left, left)
            logs_replay(room, logs, f"a fleet under {wrapper}")


def signals(room: Room) -> None:
    """INT, TERM and HUP end a node at once, PIPE nothing, and its log replays."""
    for what in (signal.SIGINT, signal.SIGTERM, signal.SIGHUP, signal.SIGQUIT):
        node = Node(room, 1_000_000, period=50)
        room.wants("a node serves", node.serves())
        node.process.send_signal(signal.SIGPIPE)
        time.sleep(0.05)
        room.wants("PIPE doesn't end a node", node.process.poll() is None, node.process.returncode)
        node.process.send_signal(what)
        room.wants(f"{what.name} ends a node", node.process.wait(10) == -what, node.process.returncode)
        node.replays(f"a node that {what.name} ended", is_whole=False)
        node.kill()


TESTS = [random_kills, random_fleets, killed_child, killed_fleet, signals, ended_together]
