"""Calls of the system that fail at a moment of their own, a clock that goes back, and the wait that is asked for."""
from __future__ import annotations

import errno
from typing import Dict, Optional

from edges.room import SCHEDULE, TRACE, Done, Node, Room, preloaded, words_of_commands


def environ(room: Room, name: str, value: str) -> Optional[Dict[str, str]]:
    """What has the program's calls fail; nothing where no compiler is there, which is said."""
    library = preloaded(room)
    if library is None:
        print("edge: no C compiler here, so no call of the system was failed", flush=True)
        return None
    return {"LD_PRELOAD": library, name: value}


def failed_writes(room: Room) -> None:
    """Each write of a run fails once, for want of room and by an error, and once it is short."""
    names = dict(words_of_commands(room))
    for command in ("replay", "node", "cut"):
        whole = room.call(*names[command])
        log = (room.folder / "n.log").read_bytes() if command == "node" else b""
        for number in range(1, 40):
            short = environ(room, "PLANET_FAIL", f"write:{number}:{number}:0")
            if short is None:
                return
            done = room.call(*names[command], more=short)
            seen = (done.status, done.output) == (0, whole.output)
            room.wants(f"{command} goes on behind a short write {number}", seen, done)
            failed = environ(room, "PLANET_FAIL", f"write:{number}:{number}:{errno.ENOSPC}")
            done = room.call(*names[command], more=failed)
            if done.status == 0:
                room.wants(f"{command} is whole where no write failed", done.output == whole.output, done)
                break
            room.wants(f"{command} with write {number} failed ends with 4", done.status == 4, done)
            room.wants(f"{command} with write {number} failed wrote a prefix", whole.output.startswith(done.output), done)
            if command == "node":
                left = (room.folder / "n.log").read_bytes()
                room.wants("its log is a prefix too", log.startswith(left), left)


def failed_reads(room: Room) -> None:
    """A reading that fails behind its first bytes is a fault, and no end of the file; a short one is none."""
    long = SCHEDULE + "# a comment\n" * 3_000
    room.put("long.txt", long)
    for number in range(1, 12):
        more = environ(room, "PLANET_FAIL", f"read:{number}:{number}:{errno.EIO}")
        if more is None:
            return
        done = room.call("replay", "long.txt", more=more)
        if done.status == 0:
            break
        seen = (done.status, done.output, done.notes) == (3, b"", b"planet: read fault\n")
        room.wants(f"reading {number} that fails is a read fault", seen, done)
    room.wants("a file of several readings was tried", number > 3, number)
    done = room.call("replay", "long.txt", more=environ(room, "PLANET_FAIL", "read:1:100000:0"))
    room.wants("a file is read byte by byte too", (done.status, done.output) == (0, TRACE.encode()), done)


def link_ends(room: Room, value: str) -> Optional[Done]:
    """A node whose calls of the link fail so."""
    more = environ(room, "PLANET_FAIL", value)
    if more is None:
        return None
    node = Node(room, 20, period=50, environ=more)
    status = node.ends()
    done = Done(status, node.trace.read_bytes(), (room.folder / "node.notes").read_bytes())
    if status == 0:
        node.replays(f"a node with {value}")
    node.kill()
    return done


def failed_links(room: Room) -> None:
    """A send and a receiving that fail are link faults; what is interrupted, and a peer that refuses, is none."""
    for name in ("sendto", "recvfrom"):
        for error in (errno.EPERM, errno.ENOBUFS, errno.EIO):
            for number in (1, 2):
                done = link_ends(room, f"{name}:{number}:{number}:{error}")
                if done is None:
                    return
                seen = (done.status, done.notes) == (5, b"planet: link fault\n")
                room.wants(f"{name} {number} that fails with {error} is a link fault", seen, done)
        for error in (errno.EINTR, errno.ECONNREFUSED, errno.EAGAIN):
            done = link_ends(room, f"{name}:1:3:{error}")
            room.wants(f"{name} that fails with {error} is none", done is not None and done.status == 0, done)


def clock_back(room: Room) -> None:
    """A clock that goes back ticks no more until it is where it was, and a node goes on."""
    more = environ(room, "PLANET_CLOCK", "1000,1001,5,6,999,1000,1001,1002,1002,1003")
    if more is None:
        return
    node = Node(room, 10, period=1_000, environ=more)
    room.wants("a node whose clock goes back ends with 0", node.ends() == 0)
    # at 1000, 1001, then none below 1002, then 1002 and 1003
    room.wants("it ticks when a period is over since its last tick", node.entries().count("tick") == 4, node.entries())
    node.replays("a node whose clock went back")
    node.kill()
    node = Node(room, 4, period=1_000, version=2, environ={**more, "PLANET_CLOCK": "7,8,9,10,11"})
    room.wants("a node of version 2 ends with 0", node.ends() == 0)
    log = node.log_bytes()
    room.wants("it begins at the moment that the clock tells first", b"\nboot 7000\n" in log, log[:60])
    node.kill()


def the_wait(room: Room) -> None:
    """A receiving waits ten milliseconds, as the system is asked once."""
    more = environ(room, "PLANET_WAIT", str(room.folder / "waits"))
    if more is None:
        return
    node = Node(room, 3, environ=more)
    room.wants("a node ends with 0", node.ends() == 0)
    path = room.folder / "waits"
    waits = path.read_text("ascii").splitlines() if path.exists() else []
    room.wants("a receiving waits 10,000 microseconds", waits == ["10000"], waits)
    node.replays("a node whose wait was read")
    node.kill()


TESTS = [failed_writes, failed_reads, failed_links, clock_back, the_wait]
