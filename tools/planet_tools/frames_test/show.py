"""What the layer for scapy reads and builds, against what `planet show` writes."""
from __future__ import annotations

import random
from concurrent.futures import ThreadPoolExecutor
from pathlib import Path
from typing import Iterator, List, Sequence

from planet_tools.frames.judge import said_of
from planet_tools.frames.layer import layer
from planet_tools.frames.texts import frame_text
from planet_tools.frames_test import sets
from planet_tools.program import run
from planet_tools.trace.forms import Refused

WORKERS = 4
NOTE = "planet: frame "
# of a file that is longer than that of the longest frame
TOO_LONG = "planet: TooLong"


def frames_to_try(count: int, generated: Sequence[bytes]) -> List[bytes]:
    """So many frames: those of the rows and of version 2, generated ones, and hostile ones that are made of them."""
    shown = sets.shown_frames()
    good = [*shown, *sets.second_version(shown), *sets.other_frames()]
    vectors = list(dict.fromkeys([*good, *generated]))
    draw = random.Random(74)
    first = draw.sample(vectors, min(len(vectors), count // 2))
    hostile = list(dict.fromkeys(it for it in sets.hostile_frames(vectors) if it and it not in vectors))
    return first + draw.sample(hostile, min(len(hostile), count - len(first)))


def shown(program: str, frame: bytes, path: Path) -> str:
    """What the program shows of a frame: its text, or its first fault."""
    path.write_text(frame.hex())
    done = run(program, ["show", str(path)])
    if done.status == 0:
        return done.output.decode()
    if done.status == 2 and done.note == TOO_LONG:
        return "TooLong"
    if done.status != 2 or not done.note.startswith(NOTE):
        raise Refused(f"status {done.status}, {done.note}, show of {frame.hex():.60}")
    return done.note.removeprefix(NOTE)


def fault_of(frame: bytes, said: str) -> str:
    """How the layer reads or builds a frame otherwise than it is shown, or nothing."""
    read = layer("exports").PLAN(frame)
    read.clear_cache()
    if bytes(read) != frame:
        return "other bytes are built"
    # a frame is the text of its fields, and what is none has the first fault
    told = frame_text(read.tree()) if said.endswith("\n") else said_of(frame)
    return "" if told == said else f"{told!r:.200} in place of {said!r:.200}"


def compared(program: str, frames: Sequence[bytes], room: Path) -> Iterator[str]:
    """Where the layer differs from `planet show`."""
    def one(place: int) -> str:
        return shown(program, frames[place], room / f"{place}.hex")

    with ThreadPoolExecutor(WORKERS) as workers:
        for frame, said in zip(frames, workers.map(one, range(len(frames)))):
            try:
                fault = fault_of(frame, said)
            except (ValueError, AttributeError) as error:
                fault = f"{error!r:.200} in place of {said!r:.200}"
            if fault:
                yield f"{frame.hex():.120}: {fault}"
