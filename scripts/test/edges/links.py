"""A node's clock, its port, and what comes to it."""
from __future__ import annotations

import os
import random
import signal
import socket
import time

from edges.room import LOOPBACK, Node, Room, ask, bound_addresses, chunk_of, own_addresses, socket_at
from planet_tools.frames.read import HEAD

FRAME_MAX, DATAGRAM_MAX = 16_512, 65_507
# milliseconds that a quiet turn waits, at least, and at most on a machine that does much else
TURN, TURN_MOST = 9, 500


def the_clock(room: Room) -> None:
    """Ticks, the moment of version 2 and the waiting of a turn go by the system's time."""
    before, begun = time.time() * 1000, time.monotonic()
    node = Node(room, 100, period=200, version=2)
    room.wants("a node serves", node.serves())
    served = time.time() * 1000
    room.wants("a node ends with 0", node.ends() == 0)
    took = (time.monotonic() - begun) * 1000
    boot = [int(it.split(" ")[1]) for it in node.log_bytes().decode().split("\n") if it.startswith("boot ")]
    is_between = len(boot) == 1 and before - 1 <= boot[0] <= served
    room.wants("the moment in a log is the system's, in milliseconds", is_between, (before, boot, served))
    room.wants("a quiet turn waits some ten milliseconds", 100 * TURN <= took <= 100 * TURN_MOST, took)
    ticks = node.entries().count("tick")
    room.wants("a node ticks once a period", 2 <= ticks <= took / 200 + 1, ticks)
    node.replays("a node of version 2")
    node.kill()


def the_port(room: Room) -> None:
    """A node listens on loopback alone, and two can't have one port."""
    node = Node(room, 400)
    room.wants("a node serves", node.serves())
    room.wants("a node listens at the loopback address alone", bound_addresses(node.number) == ["0100007F"], node.number)
    addresses = own_addresses()
    if not addresses:
        print("edge: this machine has no address but loopback's, so none was tried")
    for it in addresses:
        with socket_at(0, it) as stranger:
            try:
                stranger.sendto(b"PLAN from outside", (it, node.number))
            except OSError:
                pass
    with socket_at(0) as stranger:
        stranger.sendto(b"PLAN from a stranger", (LOOPBACK, node.number))
    node.asks()
    room.put("second.cfg", (room.folder / "node.cfg").read_text().replace("node.log", "second.log"))
    second = room.call("node", "second.cfg", "1")
    room.wants("a second node can't have its port", (second.status, second.output) == (5, b""), second)
    room.wants("and makes no log", not (room.folder / "second.log").exists())
    room.wants("a node ends with 0", node.ends() == 0)
    room.wants("no stranger is heard", [it for it in node.entries() if it.startswith("frame")] == [], node.entries())
    room.wants("its owner is heard", sum(it.startswith("control ") for it in node.entries()) == 1)
    node.replays("a node with strangers")
    node.kill()


def datagrams(room: Room) -> None:
    """Datagrams of each length that matters are logged as they came, a long one cut, and none is lost."""
    node = Node(room, 1_000_000)
    room.wants("a node serves", node.serves())
    draw = random.Random(69)
    sizes = [1, 2, 3, 5, 6, 10, 50, 1_000, 8_191, FRAME_MAX - 1, FRAME_MAX, FRAME_MAX + 1, FRAME_MAX + 2, 20_000, DATAGRAM_MAX]
    # the magic and the version
    front = ask(5)[:HEAD - 1]
    sent = [front[:size] + draw.randbytes(max(0, size - len(front))) for size in sizes]
    node.hears(b"")
    for number, frame in enumerate(sent, 1):
        node.hears(frame)
        node.owner.sendto(frame, (LOOPBACK, node.number))
        # so that what the system holds for it doesn't overflow
        if not node.says(" arrive @1 ", 2 * number):
            break
    wanted = [f"{word} {it[: FRAME_MAX + 1].hex()}" for it in sent for word in ("frame 1", "control")]
    found = [it for it in node.entries() if it.startswith(("frame", "control"))]
    room.wants("each datagram is logged as it came, a longer one cut", found == wanted, (len(found), len(wanted)))
    too_long = node.said().count("BadFrame TooLong\n")
    room.wants("a datagram over the limit is dropped as too long", too_long == 2 * 4, too_long)
    room.wants("no line of a log that had memory is 'lost'", "lost" not in node.entries())
    node.kill()
    node.replays("a node that heard long datagrams", is_whole=False)


def bound_of_nothing(room: Room) -> None:
    """An injection of bound 0 is one, from a configuration and from the owner."""
    node = Node(room, 100, more="program\nfun f() : unit = ()\nend program\nat 1 inject f 0 ()\n")
    room.wants("a node serves", node.serves())
    node.asks(0)
    room.wants("a node ends with 0", node.ends() == 0)
    entries, said = node.entries(), node.said()
    room.wants("an injection of bound 0 is logged", f"inject 0 {chunk_of(ask(0)).hex()}" in entries, entries)
    room.wants("a request of bound 0 is logged", f"control {ask(0).hex()}" in entries, entries)
    room.wants("both are evaluated", said.count(" bound 0\n") == 2 and said.count(" value @1 ") == 2, said)
    room.wants("no line of a log that had memory is 'lost'", "lost" not in entries)
    node.replays("a node with bounds of 0")
    node.kill()


def stopped_and_continued(room: Room) -> None:
    """A node that is stopped and goes on serves, quiet and under load."""
    node = Node(room, 200, period=100)
    room.wants("a node serves", node.serves())
    for number in range(20):
        os.kill(node.process.pid, signal.SIGSTOP)
        for _ in range(10 if number % 2 else 0):
            node.asks()
        time.sleep(0.01)
        os.kill(node.process.pid, signal.SIGCONT)
        time.sleep(0.03)
    room.wants("a node that was stopped twenty times ends with 0", node.ends() == 0)
    asked = sum(it.startswith("control ") for it in node.entries())
    room.wants("it heard what came while it was stopped", asked == 100, asked)
    room.wants("no line of a log that had memory is 'lost'", "lost" not in node.entries())
    node.replays("a node that was stopped")
    node.kill()


def frames_to_nobody(room: Room) -> None:
    """A peer that doesn't listen is no fault, and a node whose neighbour went away goes on."""
    node = Node(room, 120, period=50)
    room.wants("a node serves", node.serves())
    node.neighbour.close()
    room.wants("a node without its neighbour ends with 0", node.ends() == 0)
    room.wants("and sent what it had", node.entries().count("take 1") >= 2, node.entries())
    node.neighbour = socket.socket(socket.AF_INET, socket.SOCK_DGRAM)
    node.replays("a node without its neighbour")
    node.kill()


TESTS = [the_clock, the_port, datagrams, bound_of_nothing, stopped_and_continued, frames_to_nobody]
