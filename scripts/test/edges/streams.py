"""Standard streams that are closed or full, and pipes whose reader has ended."""
from __future__ import annotations

import itertools
import os
import subprocess
from pathlib import Path
from typing import Callable, Dict, Tuple

from edges.room import Room, words_of_commands

WRITE_FAULT = 4


def closing(descriptors: Tuple[int, ...]) -> Callable[[], None]:
    """Closes descriptors in front of the program."""
    def prepare() -> None:
        for it in descriptors:
            os.close(it)
    return prepare


def held_by(room: Room) -> Dict[str, bytes]:
    """All files of the room."""
    return {it.name: it.read_bytes() for it in room.folder.iterdir() if it.is_file()}


def closed(room: Room) -> None:
    """Each command with each of the eight sets of closed streams: its files are the same, and a closed output is a fault."""
    for name, words in words_of_commands(room):
        whole = room.call(*words)
        room.wants(f"{name} is done", whole.status == 0, whole)
        files = held_by(room)
        for count in range(4):
            for some in itertools.combinations((0, 1, 2), count):
                done = room.call(*words, prepare=closing(some))
                saying = f"{name} with {' and '.join(map(str, some)) or 'nothing'} closed"
                if name != "node" or 1 not in some:
                    after = held_by(room)
                    others = [it for it in after if after[it] != files.get(it)]
                    room.wants(f"{saying} makes the same files", after == files, others)
                else:
                    log = (room.folder / "n.log").read_bytes()
                    room.wants(f"{saying} writes nothing but its log into its log", files["n.log"].startswith(log), log)
                status = WRITE_FAULT if 1 in some else 0
                room.wants(f"{saying} ends with {status}", done.status == status, done)
                room.wants(f"{saying} writes no more", whole.output.startswith(done.output), done)
    refused = room.call("check", "s.txt", prepare=closing((2,)))
    room.wants("a note that can't be written is a write fault", refused.status == WRITE_FAULT, refused)


def closed_input(room: Room) -> None:
    """A file that is the closed standard input is a read fault."""
    if not Path("/dev/stdin").exists():
        return
    done = room.call("check", "/dev/stdin", prepare=closing((0,)))
    room.wants("a closed standard input can't be read", (done.status, done.notes) == (3, b"planet: read fault\n"), done)


def full(room: Room) -> None:
    """Each command with a full output, and a log on a full device."""
    if not Path("/dev/full").exists():
        print("edge: no /dev/full here, so full outputs weren't tried")
        return
    for name, words in words_of_commands(room):
        with open("/dev/full", "wb") as output:
            run = subprocess.run([room.program, *words], cwd=room.folder, stdin=subprocess.DEVNULL, stdout=output,
                                 stderr=subprocess.PIPE, check=False)
        said = run.returncode == WRITE_FAULT and run.stderr.endswith(b"planet: write fault\n")
        room.wants(f"{name} with a full output is a write fault", said, run)
    config = (room.folder / "n.cfg").read_text()
    room.put("full.cfg", config.replace("n.log", "/dev/full"))
    done = room.call("node", "full.cfg", "1")
    room.wants("a log on a full device is a write fault", (done.status, done.output) == (WRITE_FAULT, b""), done)
    room.put("folder.cfg", config.replace("n.log", "."))
    done = room.call("node", "folder.cfg", "1")
    room.wants("a log that is a folder is a write fault", (done.status, done.output) == (WRITE_FAULT, b""), done)


def without_a_reader(room: Room) -> None:
    """A pipe whose reader has ended is a write fault, and no signal ends the program."""
    for name, words in words_of_commands(room):
        reading, writing = os.pipe()
        os.close(reading)
        done = subprocess.run([room.program, *words], cwd=room.folder, stdin=subprocess.DEVNULL, stdout=writing,
                              stderr=subprocess.PIPE, check=False)
        os.close(writing)
        said = done.returncode == WRITE_FAULT and done.stderr.endswith(b"planet: write fault\n")
        room.wants(f"{name} without a reader is a write fault", said, done)


TESTS = [closed, closed_input, full, without_a_reader]
