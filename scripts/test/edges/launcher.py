"""The launcher: words, files and standard input as they are, how calls end, and the children of a fleet."""
from __future__ import annotations

import os
import re
import signal
import subprocess
import time
from pathlib import Path
from typing import List, Sequence

from edges.kills import children_of, fleet_files, logs_replay, supervised
from edges.room import PROGRAM, ROOT, Done, Room, words_of_commands

STATE = ROOT / "scripts/build/state"
# what it says of a program that isn't proved
SAYS = re.compile(rb"^planet: no program is built .*\n", re.M)


def is_there() -> bool:
    """Whether the launcher has a program of these sources, and need not compile one."""
    return any(subprocess.run([STATE, "current", it], check=False).returncode == 0 for it in ("built", "unproved"))


def launched(room: Room, launcher: str, words: Sequence[str], held: bytes = b"", folder: str = "") -> Done:
    """A call by the launcher, without what it says itself."""
    done = subprocess.run([launcher, *words], cwd=folder or room.folder, input=held, capture_output=True, check=False)
    return Done(done.returncode, done.stdout, SAYS.sub(b"", done.stderr))


def agrees(room: Room, launcher: str, words: Sequence[str], saying: str) -> None:
    """Wants a call by the launcher to end as one of the program."""
    direct, done = room.call(*words), launched(room, launcher, words)
    seen = (done.status, done.output, done.notes) == (direct.status, direct.output, direct.notes)
    room.wants(f"the launcher hands {saying} on", seen, (done, direct))


def words_and_files(room: Room, launcher: str) -> None:
    """Names with blanks and signs, words that are empty or none, and each way in which a call ends."""
    for name in ("f g.plan", " f.plan ", "$HOME.plan", "*.plan", "f\ng.plan", "'f\".plan", "-f.plan", "ü.plan"):
        room.put(name, PROGRAM)
        done = launched(room, launcher, ["check", name])
        seen = (done.status, done.output) == (0, b"ok functions 1 nodes 1 code 8\n")
        room.wants(f"the launcher hands {name!r} on", seen, done)
    room.put("ill.plan", "fun f() : int = true")
    for words in (["check", ""], ["check", "a", ""], ["", "check", "f g.plan"], ["check", "f", "g.plan"],
                  ["check", "ill.plan"], ["check", "missing"], ["grow", "1", "0"], ["none"], ["check", "f g.plan", "-"]):
        agrees(room, launcher, words, repr(words))
    for word in ("--help", "--version"):
        done = launched(room, launcher, [word])
        room.wants(f"the launcher answers {word} itself", done.status == 0 and b"planet" in done.output and not done.notes, done)


def standard_input(room: Room, launcher: str) -> None:
    """A `-` where a command takes a file is standard input."""
    for name, words in words_of_commands(room):
        if name == "grow":
            continue
        place = 2 if name == "gather" else 1
        held = (room.folder / words[place]).read_bytes()
        direct = room.call(*words)
        done = launched(room, launcher, [*words[:place], "-", *words[place + 1:]], held)
        seen = (done.status, done.output) == (direct.status, direct.output) and done.status == 0
        room.wants(f"'{name} -' reads standard input", seen, (done, direct))


def places(room: Room, launcher: str) -> None:
    """It is found by a path from elsewhere, by a link to it, and from its own folder."""
    link = room.folder / "a link"
    link.symlink_to(ROOT / "planet")
    file = str(room.folder / "f g.plan")
    for words, folder in (([os.path.relpath(launcher, "/")], "/"), ([str(link)], "/"), (["./planet"], str(ROOT))):
        done = launched(room, words[0], ["check", file], folder=folder)
        room.wants(f"the launcher is found as {words[0]}", done.status == 0 and not done.notes, done)


def ended_readers(room: Room, launcher: str) -> None:
    """Where the reader of the output has ended, as in `.. | head`, a person is told nothing; of a full output they are."""
    words = [launcher, "--explain", "check", "f g.plan"]
    reading, writing = os.pipe()
    os.close(reading)
    alone = subprocess.run(words, cwd=room.folder, stdout=writing, stderr=subprocess.PIPE, check=False)
    os.close(writing)
    said = SAYS.sub(b"", alone.stderr)
    room.wants("an output that nobody reads is quiet", (alone.returncode, said) == (4, b""), alone)
    if Path("/dev/full").exists():
        with open("/dev/full", "wb") as full:
            done = subprocess.run(words, cwd=room.folder, stdout=full, stderr=subprocess.PIPE, check=False)
        said = SAYS.sub(b"", done.stderr)
        room.wants("a full output is told", done.returncode == 4 and said.startswith(b"planet: write fault\n"), done)


def below(process: int) -> List[int]:
    """A process and all that are below it."""
    found = [process]
    for it in found:
        found += children_of(it)
    return found


def fleets(room: Room, launcher: str) -> None:
    """A fleet by the launcher ends with its children, whichever signal ends it."""
    logs = fleet_files(room)
    for what in (signal.SIGTERM, signal.SIGINT, signal.SIGHUP):
        fleet = supervised(room, logs, [launcher, "fleet", "fleet.txt"])
        held = below(fleet.pid)
        room.wants("a fleet by the launcher has three nodes", len(held) >= 4, held)
        fleet.send_signal(what)
        fleet.wait(20)
        until = time.monotonic() + 5
        while time.monotonic() < until and any(Path(f"/proc/{it}").exists() for it in held):
            time.sleep(0.02)
        left = [it for it in held if Path(f"/proc/{it}").exists()]
        room.wants(f"a fleet by the launcher that {what.name} ended leaves no process", not left, left)
        for it in left:
            os.kill(it, signal.SIGKILL)
        logs_replay(room, logs, "a fleet by the launcher")


def launching(room: Room) -> None:
    """What the launcher hands on, and what it ends."""
    if not is_there():
        print("edge: no program of these sources is there, so the launcher wasn't tried")
        return
    link = room.folder / "a folder\twith 'blanks' $HOME *"
    link.symlink_to(ROOT)
    for test in (words_and_files, standard_input, places, ended_readers, fleets):
        test(room, str(link / "planet"))


TESTS = [launching]
