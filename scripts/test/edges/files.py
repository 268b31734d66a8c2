"""Files that can't be read or written, long names, and words of all kinds through the launcher."""
from __future__ import annotations

import os
import resource
import signal
from typing import Callable

from edges.room import PROGRAM, SCHEDULE, TRACE, Node, Room, words_of_commands

READS = ["check", "show", "replay", "node", "inject", "fleet", "cut", "port", "gather", "audit"]


def words_for(command: str, name: str) -> "list[str]":
    """The words of a command on a file."""
    return {"node": ["node", name, "1"], "gather": ["gather", "7", name]}.get(command, [command, name])


def unreadable(room: Room) -> None:
    """A folder, a file whose reading fails and a missing one are read faults, and nothing is written."""
    (room.folder / "folder").mkdir()
    names = ["folder", "missing", "a" * 255, "folder/none"]
    # its first bytes can't be read by anybody
    names += ["/proc/self/mem"] if os.access("/proc/self/mem", os.R_OK) else []
    for command in READS:
        for name in names:
            done = room.call(*words_for(command, name))
            seen = (done.status, done.output, done.notes)
            room.wants(f"{command} of {name[:20]} is a read fault", seen == (3, b"", b"planet: read fault\n"), done)
        done = room.call(*words_for(command, "a" * 256))
        room.wants(f"{command} of a name of 256 bytes is no command", (done.status, done.output) == (1, b""), done)


def longest_names(room: Room) -> None:
    """A name of 255 bytes names a file, one of 256 none; a log's name too."""
    longest = "n" * 255
    room.put(longest, SCHEDULE)
    done = room.call("replay", longest)
    room.wants("a file may have a name of 255 bytes", (done.status, done.output) == (0, TRACE.encode()), done)
    words_of_commands(room)
    config = (room.folder / "n.cfg").read_text()
    room.put("long.cfg", config.replace("n.log", "l" * 255))
    done = room.call("node", "long.cfg", "1")
    room.wants("a log may have a name of 255 bytes", done.status == 0 and (room.folder / ("l" * 255)).exists(), done)
    room.put("long.cfg", config.replace("n.log", "l" * 256))
    done = room.call("node", "long.cfg", "1")
    room.wants("a longer name of a log is refused", (done.status, done.notes) == (2, b"planet: line 7: BadWord\n"), done)


def shorter_log(room: Room) -> None:
    """A log is made anew, whatever stood there."""
    room.put("node.log", "planet log 1\nhost 1\n" + "# an old and longer log\n" * 10_000)
    node = Node(room, 3)
    room.wants("a node over an old log ends with 0", node.ends() == 0)
    head = b"planet log 1\nhost 1\nhosts 1 2\ndev 1 2\nevents\n"
    room.wants("nothing of an older log stays", node.log_bytes() == head + b"tick\ntake 1\n", node.log_bytes())
    node.replays("a node over an old log")
    node.kill()


def limit_of_files(size: int) -> Callable[[], None]:
    """Lets files grow to so many bytes, as a disk does that is full then."""
    def prepare() -> None:
        signal.signal(signal.SIGXFSZ, signal.SIG_IGN)
        resource.setrlimit(resource.RLIMIT_FSIZE, (size, size))
    return prepare


def full_disk(room: Room) -> None:
    """A disk that is full at each byte of a run: the log has a prefix, and what was written and sent is in it."""
    more = f"program\n{PROGRAM}\nend program\nat 1 inject f 5 ()\nat 2 inject f 6 ()\n"
    node = Node(room, 2, more=more)
    room.wants("a node ends with 0", node.ends() == 0)
    whole, said = node.log_bytes(), node.trace.read_bytes()
    node.kill()
    for size in range(len(whole)):
        done = room.call("node", "node.cfg", "2", prepare=limit_of_files(size))
        log = node.log_bytes()
        seen = done.status == 4 and done.notes == b"planet: write fault\n" and log == whole[:size]
        if not room.wants(f"a disk that is full behind {size} bytes of a log is a write fault", seen, (done, log)):
            break
        (room.folder / "node.log").write_bytes(log[: log.rfind(b"\n") + 1])
        entries = log.partition(b"events\n")[2].count(b"\n")
        steps = [int(it.split(b" ")[0]) for it in done.output.split(b"\n")[1:-1]]
        agrees = said.startswith(done.output) and max(steps, default=0) <= entries
        room.wants("what was written is of steps that the log has", agrees, (done, log))


TESTS = [unreadable, longest_names, shorter_log, full_disk]
