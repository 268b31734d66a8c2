"""What the tests of the edge share: a room for files, calls of the program, nodes that serve, and what isn't so."""
from __future__ import annotations

import functools
import os
import re
import signal
import socket
import subprocess
import sys
import tempfile
import time
from pathlib import Path
from typing import Callable, Dict, List, Optional, Sequence, Tuple, Union

from planet_tools.frames.layer import layer

ROOT = Path(__file__).resolve().parents[3]
LOOPBACK = "127.0.0.1"
SECONDS = 60.0
PROGRAM = "fun f() : unit = ()"
# a schedule of one host in which a packet is evaluated, and what it writes
SCHEDULE = f"planet schedule 1\nhost 1\nprogram p\n{PROGRAM}\nend program\nevents\ninject 1 p f 5 ()\n"
TRACE = (
    "planet trace 1\n1 inject @1 1.1 bound 5\n1 value @1 1.1 () evals 0 left 5\n"
    "ledger\n1.1 granted 5 hops 0 evals 0 live 0 left 5\nend\n"
)


@functools.lru_cache(None)
def ask(bound: int) -> bytes:
    """The frame by which an owner asks a node to inject the chunk of `fun f() : unit = ()` without arguments."""
    plan = layer("edge")
    return bytes(plan.PLAN() / plan.PlanAsk(bound=bound))


def chunk_of(frame: bytes) -> bytes:
    """The chunk of an ask."""
    return bytes(layer("edge").PLAN(frame).chunk)


class Done:
    """What a call of the program ended with."""

    def __init__(self, status: int, output: bytes, notes: bytes) -> None:
        self.status, self.output, self.notes = status, output, notes

    def __repr__(self) -> str:
        return f"status {self.status}, output {self.output!r:.120}, notes {self.notes!r:.120}"


class Room:
    """A folder in which the program is tried, and the count of what was tried."""

    def __init__(self, program: str) -> None:
        self.program = program
        self.folder = Path(tempfile.mkdtemp(prefix="edge-"))
        self.held: List[socket.socket] = []
        self.nodes: List["Node"] = []
        self.tried = 0
        self.faults: List[str] = []

    def wants(self, saying: str, is_so: bool, seen: object = "") -> bool:
        """Counts what must be so, and tells where it isn't."""
        self.tried += 1
        if not is_so:
            self.faults.append(saying)
            print(f"edge: not so: {saying}" + (f"; {seen!r:.300}" if seen != "" else ""), file=sys.stderr, flush=True)
        return is_so

    def put(self, name: str, text: Union[str, bytes]) -> str:
        """Writes a file, and answers its name."""
        (self.folder / name).write_bytes(text if isinstance(text, bytes) else text.encode())
        return name

    def call(self, *words: Union[str, bytes], prepare: Optional[Callable[[], object]] = None,
             more: Optional[Dict[str, str]] = None) -> Done:
        """Calls the program in the room."""
        done = subprocess.run([self.program, *words], cwd=self.folder, stdin=subprocess.DEVNULL, capture_output=True,
                              preexec_fn=prepare, env={**os.environ, **(more or {})}, timeout=SECONDS, check=False)
        return Done(done.returncode, done.stdout, done.stderr)

    def port(self) -> int:
        """A port that nothing has, and that no later call gives again."""
        held = socket.socket(socket.AF_INET, socket.SOCK_DGRAM)
        held.bind((LOOPBACK, 0))
        self.held.append(held)
        port = int(held.getsockname()[1])
        return port

    def let_go(self) -> None:
        """Lets the ports go that were given, so that nodes may bind them."""
        for it in self.held:
            it.close()
        self.held.clear()

    def clear(self) -> None:
        """Ends what still runs, and takes the room away."""
        for node in self.nodes:
            node.kill()
        self.let_go()
        subprocess.run(["rm", "-rf", str(self.folder)], check=False)


class Node:
    """A node that serves in a room, with a socket for its owner and one for its neighbour on device 1."""

    def __init__(self, room: Room, turns: int, period: int = 60_000, version: int = 1, more: str = "",
                 environ: Optional[Dict[str, str]] = None, prepare: Optional[Callable[[], object]] = None,
                 log: str = "node.log", is_apart: bool = False) -> None:
        self.room, self.log = room, log
        ports = [room.port() for _ in range(3)]
        room.let_go()
        self.number, self.control, self.peer = ports
        self.owner, self.neighbour = (socket_at(it) for it in (self.control, self.peer))
        room.put("node.cfg", f"planet node {version}\nhost 1\nhosts 1 2\nport {self.number}\ncontrol {self.control}\n"
                 f"period {period}\nlog {log}\ndev 1 2 {self.peer}\n{more}")
        self.trace = room.folder / "node.trace"
        with open(self.trace, "wb") as trace, open(room.folder / "node.notes", "wb") as notes:
            self.process = subprocess.Popen(
                [room.program, "node", "node.cfg", str(turns)], cwd=room.folder, stdin=subprocess.DEVNULL, stdout=trace,
                stderr=notes, env={**os.environ, **(environ or {})}, preexec_fn=prepare, start_new_session=is_apart)
        room.nodes.append(self)

    def serves(self) -> bool:
        """Waits until the port is bound: the first line of the trace comes behind that."""
        last = time.monotonic() + 20
        while self.trace.stat().st_size == 0 and self.process.poll() is None and time.monotonic() < last:
            time.sleep(0.01)
        return self.trace.stat().st_size > 0

    def says(self, what: str, count: int) -> bool:
        """Waits until its trace has something so often, and answers whether it does within ten seconds."""
        last = time.monotonic() + 10
        while (found := self.said().count(what)) < count and time.monotonic() < last:
            time.sleep(0.005)
        return found >= count

    def ends(self) -> int:
        """Waits for its end, and answers its status."""
        try:
            return self.process.wait(SECONDS)
        except subprocess.TimeoutExpired:
            self.kill()
            return -int(signal.SIGKILL)

    def kill(self) -> None:
        """Ends it, and lets the sockets go."""
        if self.process.poll() is None:
            self.process.kill()
            self.process.wait()
        self.owner.close()
        self.neighbour.close()

    def asks(self, bound: int = 5) -> None:
        """Has its owner ask it for an injection."""
        self.owner.sendto(ask(bound), (LOOPBACK, self.number))

    def hears(self, frame: bytes) -> None:
        """Has its neighbour send it something."""
        self.neighbour.sendto(frame, (LOOPBACK, self.number))

    def log_bytes(self) -> bytes:
        """The log as it stands."""
        path = self.room.folder / self.log
        return path.read_bytes() if path.exists() else b""

    def entries(self) -> List[str]:
        """The entries of its log."""
        return self.log_bytes().partition(b"events\n")[2].decode().splitlines()

    def said(self) -> str:
        """Its trace."""
        return self.trace.read_text("utf-8", "replace")

    def received(self) -> List[bytes]:
        """The frames that its neighbour got."""
        found = []
        while True:
            try:
                found.append(self.neighbour.recv(65_536))
            except (BlockingIOError, ConnectionRefusedError):
                return found

    def replays(self, saying: str, is_whole: bool = True) -> None:
        """Wants its log to replay to its trace; that of a node that was killed begins with the trace."""
        done = self.room.call("replay", self.log)
        lines = self.trace.read_bytes()
        if is_whole:
            self.room.wants(f"the log of {saying} replays to its trace", done.status == 0 and done.output == lines, done)
        else:
            told = done.output[: -len(b"end\n")]
            whole = lines[: lines.rfind(b"\n") + 1]
            self.room.wants(f"the log of {saying} replays to what it wrote", done.status == 0 and told.startswith(whole), done)


def socket_at(port: int, address: str = LOOPBACK) -> socket.socket:
    """A socket that waits for nothing."""
    made = socket.socket(socket.AF_INET, socket.SOCK_DGRAM)
    made.setsockopt(socket.SOL_SOCKET, socket.SO_RCVBUF, 1 << 20)
    made.setsockopt(socket.SOL_SOCKET, socket.SO_SNDBUF, 1 << 20)
    made.bind((address, port))
    made.setblocking(False)
    return made


def bound_addresses(port: int) -> List[str]:
    """The addresses at which somebody listens at a port, as the system tells them in hex."""
    text = Path("/proc/net/udp").read_text() + Path("/proc/net/udp6").read_text()
    return re.findall(rf"^ *\d+: ([0-9A-F]+):{port:04X} ", text, re.M)


def own_addresses() -> List[str]:
    """The addresses of this machine that aren't on loopback."""
    done = subprocess.run(["hostname", "-I"], capture_output=True, text=True, check=False)
    return [it for it in done.stdout.split() if ":" not in it and not it.startswith("127.")]


def preloaded(room: Room) -> Optional[str]:
    """The library that has calls fail, compiled; nothing where no compiler is there."""
    made = room.folder / "fail.so"
    if not made.exists():
        words = ["cc", "-O1", "-shared", "-fPIC", "-o", str(made), str(Path(__file__).with_name("fail.c"))]
        try:
            subprocess.run(words, check=True, capture_output=True)
        except (OSError, subprocess.CalledProcessError):
            return None
    return str(made)


Test = Tuple[str, Callable[[Room], None]]


def words_of_commands(room: Room) -> Sequence[Tuple[str, List[str]]]:
    """A call of each command that is done, by name; ports are free ones."""
    ports = [room.port() for _ in range(4)]
    room.let_go()
    room.put("f.plan", PROGRAM)
    room.put("f.hex", (ask(5)).hex())
    room.put("s.txt", SCHEDULE)
    room.put("n.cfg", f"planet node 1\nhost 1\nhosts 1\nport {ports[0]}\ncontrol {ports[1]}\nperiod 60000\nlog n.log\n")
    said = f"planet inject 1\nto {ports[2]}\nfrom {ports[3]}\nbound 5\nentry f ()\n"
    room.put("a.txt", f"{said}program\n{PROGRAM}\nend program\n")
    room.put("fleet.txt", "planet fleet 1\nnode 1 n.cfg 1\n")
    room.put("c.txt", "planet cut 1\ndest 1\nport 7\nkey 5\nbound 1\ndata 00\n")
    room.put("p.txt", "planet port 1\nbound 8 8\nevents\noffer 61\n")
    room.put("g.log", "planet log 1\nhost 1\nhosts 1\nevents\ntick\n")
    room.put("u.txt", "planet audit 1\nlog g.log\n")
    return [
        ("check", ["check", "f.plan"]),
        ("show", ["show", "f.hex"]),
        ("replay", ["replay", "s.txt"]),
        ("grow", ["grow", "7", "8"]),
        ("node", ["node", "n.cfg", "1"]),
        ("inject", ["inject", "a.txt"]),
        ("fleet", ["fleet", "fleet.txt"]),
        ("cut", ["cut", "c.txt"]),
        ("port", ["port", "p.txt"]),
        ("gather", ["gather", "7", "g.log"]),
        ("audit", ["audit", "u.txt"]),
    ]
