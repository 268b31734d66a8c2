"""The program planet: where it stands, and what a run of it gave."""
from __future__ import annotations

import ctypes
import os
import re
import signal
import subprocess
from dataclasses import dataclass
from pathlib import Path
from typing import Callable, Optional, Sequence

from planet_tools.python import fail

ROOT = Path(__file__).resolve().parents[2]
BUILT = ROOT / "crates" / "planet" / "out" / "planet"
LAUNCHER = ROOT / "planet"
MEMORY = Path("/dev/shm")
# what prctl is asked: a signal for this process once its parent has ended
PR_SET_PDEATHSIG = 1
NOTE = re.compile(r"planet: line (\d+): (.*)")


@dataclass(frozen=True)
class Ended:
    """What a run of planet ended with."""

    status: int
    output: bytes
    note: str

    def refused_line(self) -> Optional[tuple[int, str]]:
        """The line that was refused and the reason, where the note says one."""
        found = NOTE.fullmatch(self.note)
        return (int(found.group(1)), found.group(2)) if found else None


def find(tool: str, given: Optional[str]) -> str:
    """The path of planet: the one that was given, the built one, or the launcher, which runs the sources."""
    if given is None:
        return str(BUILT if os.access(BUILT, os.X_OK) else LAUNCHER)
    path = Path(given)
    if not (path.is_file() and os.access(path, os.X_OK)):
        fail(tool, "no program can be run there (--planet takes the path of planet)", given)
    return str(path.resolve())


def run(program: str, words: Sequence[str], folder: Optional[Path] = None) -> Ended:
    """Runs planet with these words, in a folder."""
    done = subprocess.run([program, *words], cwd=folder, stdin=subprocess.DEVNULL, capture_output=True, check=False)
    return Ended(done.returncode, done.stdout, done.stderr.decode("utf-8", "replace").strip())


def room_in_memory() -> Optional[str]:
    """Where files that are read at once and taken away are best made: in memory, where a disk may take its time to let
    each of them go. It is None, the usual place, on a system without such a folder."""
    return str(MEMORY) if os.access(MEMORY, os.W_OK | os.X_OK) else None


def ended_with_parent(what: signal.Signals) -> Callable[[], None]:
    """What a child calls first, so that the system sends it this signal where its parent is killed."""
    parent = os.getpid()

    def ask() -> None:
        prctl: Optional[Callable[..., int]] = getattr(ctypes.CDLL(None), "prctl", None)
        if prctl is not None:
            prctl(PR_SET_PDEATHSIG, what, 0, 0, 0)
            if os.getppid() != parent:
                os.kill(os.getpid(), what)
    return ask
