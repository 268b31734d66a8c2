"""The script `dissect` of scripts/test."""
from __future__ import annotations

import argparse
import os
import re
import sys
import tempfile
from pathlib import Path
from typing import Dict, Iterable, Iterator, List, Optional, Sequence, Tuple

from planet_tools.debian import SCAPY, has_all
from planet_tools.frames.layer import layer
from planet_tools.frames_test import sets, wireshark
from planet_tools.program import run
from planet_tools.trace.forms import Refused

EVENTS, SCHEDULE_MAX = 10_000, 3_000_000
Numbered = List[Tuple[int, bytes]]


def schedules(frames: Iterable[Tuple[int, bytes]]) -> Iterator[Tuple[List[str], List[int]]]:
    """Schedules of one host that gets the frames, each with the numbers of its frames."""
    lines: List[str] = []
    numbers: List[int] = []
    size = 0
    for number, frame in frames:
        if len(lines) == EVENTS or (lines and size + 2 * len(frame) > SCHEDULE_MAX):
            yield lines, numbers
            lines, numbers, size = [], [], 0
        lines.append(f"raw 1 1 {frame.hex()}\n")
        numbers.append(number)
        size += len(lines[-1])
    yield lines, numbers


def judged(program: str, frames: Numbered, version: int, room: Path) -> Dict[int, Optional[str]]:
    """By the numbers of frames, the first faults that a node of this version names."""
    faults: Dict[int, Optional[str]] = {}
    for lines, numbers in schedules(frames):
        head = f"planet schedule {version}\nhost 1\nhost 2\nlink 1 1 2 1\nevents\n"
        (room / "forged.schedule").write_text(head + "".join(lines))
        done = run(program, ["replay", "forged.schedule"], room)
        if done.status != 0:
            raise Refused(f"status {done.status}, {done.note}, replay of forged frames")
        faults.update(dict.fromkeys(numbers))
        for event, reason in re.findall(r"^(\d+) drop @1 BadFrame (?!Misplaced)(.*)$", done.output.decode(), re.M):
            faults[numbers[int(event) - 1]] = reason
    return faults


def read_by(frames: Sequence[bytes], version: int) -> Numbered:
    """The frames, with their numbers, that a node of this version reads as `show` does."""
    if version == 2:
        return [(n, it) for n, it in enumerate(frames) if it[4:5] == b"\x02" or it[4:6] == b"\x01\x03"]
    return [(n, it) for n, it in enumerate(frames) if it[4:5] != b"\x02"]


def compared(
    program: str, frames: Sequence[bytes], shown: Sequence[wireshark.Shown], room: Path
) -> Tuple[List[str], int]:
    """Where the first faults differ from those of nodes, and how many frames were compared."""
    wrong, count = [], 0
    for version in (1, 2):
        faults = judged(program, read_by(frames, version), version, room)
        count += len(faults)
        for number, reason in faults.items():
            found = shown[number].get("fault", [""])[0] or None
            if found != reason:
                wrong.append(f"{frames[number].hex():.120}: {found} in place of {reason}")
    return wrong, count


def tried(program: Optional[str], room: Path) -> int:
    """Tries the dissector, writes what came of it, and answers the status."""
    wanted = sets.shown_frames()
    wanted.update(sets.second_version(wanted))
    vectors = list(dict.fromkeys([*wanted, *sets.other_frames()]))
    frames = vectors + list(dict.fromkeys(it for it in sets.hostile_frames(vectors) if it and it not in wanted))
    shown = wireshark.dissected(wireshark.capture(frames, room), str(wireshark.PORT))
    if len(shown) != len(frames):
        raise Refused(f"{len(shown)} of {len(frames)} frames were shown, tshark")
    faults = [(it.hex(), wireshark.fault_of(found, wanted.get(it), it)) for it, found in zip(frames, shown)]
    wrong = [f"{frame:.120}: {fault}" for frame, fault in faults if fault]
    wrong += [f"docs/use/wireshark.md names the filter {it}, which isn't there" for it in wireshark.unknown_filters()]
    strange = sorted(wireshark.unrecognised(vectors, room))
    wrong += [f"frame {n} is known by its letters or isn't, wrongly" for n in strange]
    differ, count = compared(program, frames, shown, room) if program else ([], 0)
    for line in (wrong + differ)[:40]:
        print(f"dissect: {line}", file=sys.stderr)
    others = len(frames) - len(wanted)
    print(f"dissect: {len(wanted)} frames as `show` writes them, {others} others without an error of Lua,", end=" ")
    print(f"{count} first faults compared, {len(wrong + differ)} failed")
    return 1 if wrong or differ else 0


def main(given: Sequence[str], about: str) -> int:
    """Does what the words ask for, and answers the exit status."""
    style = argparse.RawDescriptionHelpFormatter
    parser = argparse.ArgumentParser(prog="dissect", description=about, formatter_class=style)
    parser.add_argument("program", metavar="PROGRAM", nargs="?", help="the built one")
    program = parser.parse_args(given).program
    if not has_all("dissect", wireshark.COMMANDS, SCAPY):
        print(f"dissect: {wireshark.OTHERWISE}", file=sys.stderr)
        return 0
    # goes on with the python3 that has scapy, before anything runs
    layer("dissect")
    with tempfile.TemporaryDirectory() as folder:
        try:
            return tried(os.path.abspath(program) if program else None, Path(folder))
        except Refused as fault:
            print(f"dissect: {fault}", file=sys.stderr)
            return 1
