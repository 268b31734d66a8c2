"""The script `exports` of scripts/test."""
from __future__ import annotations

import argparse
import os
import re
import resource
import subprocess
import sys
import tempfile
from dataclasses import dataclass, field
from pathlib import Path
from typing import Callable, Dict, List, Sequence

from planet_tools.debian import SCAPY, has_all
from planet_tools.explore.logs import Program
from planet_tools.explorer_test.schedules import long_schedule
from planet_tools.frames.layer import layer
from planet_tools.frames_test import captures, lines, show, wireshark
from planet_tools.program import ROOT
from planet_tools.trace.forms import Refused

SECONDS_MAX = 3.0
EVENTS = 50_000
SHOWN_MOST = 20


@dataclass
class Size:
    """How much is tried: of generated traces and logs, of frames, and of samples, each so many."""

    drawn: int
    frames: int
    samples: int


SMALL, WHOLE = Size(4, 300, 6), Size(200, 20_000, 1_000)


@dataclass
class Trial:
    """What is tried with a program in a folder, and the frames that generated traces had."""

    program: Program
    size: Size
    room: Path
    generated: List[bytes] = field(default_factory=list)

    def lines(self) -> List[str]:
        """Each line of all traces and logs that are kept, and of generated ones."""
        wrong, count, files = [], 0, 0
        for name, text in lines.kept_texts():
            wrong.append(lines.fault_of(name, text))
            count, files = count + text.count("\n"), files + 1
        print(f"exports: {count} lines of {files} traces and logs that are kept", flush=True)
        count = 0
        for seed in range(1, self.size.drawn + 1):
            for name, text in lines.drawn_texts(self.program, seed):
                wrong.append(lines.fault_of(name, text))
                count += text.count("\n")
                self.keep(text)
        print(f"exports: {count} lines of {self.size.drawn} generated traces, and of logs made of them", flush=True)
        return wrong

    def keep(self, text: str) -> None:
        """Keeps the frames of a generated trace."""
        found = {bytes.fromhex(it) for it in re.findall(r"^\d+ wire \d+ ([0-9a-f]+)$", text, re.M)}
        self.generated += sorted(found)

    def frames(self) -> List[str]:
        """What scapy reads and builds, and what is shown."""
        frames = show.frames_to_try(self.size.frames, list(dict.fromkeys(self.generated)))
        wrong = list(show.compared(self.program.path, frames, self.room))
        print(f"exports: {len(frames)} frames by scapy's layer as they are shown", flush=True)
        return wrong

    def captures(self) -> List[str]:
        """What tshark shows of the samples' captures."""
        if not has_all("exports", wireshark.COMMANDS, {}):
            print(f"exports: {wireshark.OTHERWISE}; no capture was tried", file=sys.stderr)
            return []
        chosen = captures.samples()
        step = max(1, len(chosen) // self.size.samples)
        tried = [captures.compared(self.program, it, self.room) for it in chosen[::step]]
        full = [count for count, _ in tried if count]
        print(f"exports: {sum(full)} frames of {len(full)} samples by tshark as they are shown", flush=True)
        return [it for _, wrong in tried for it in wrong] + ([] if full else ["no sample has frames"])

    def seconds(self) -> List[str]:
        """How long a trace of 50,000 events takes to become JSON, in seconds of a processor."""
        trace = self.room / "long.trace"
        trace.write_text(self.program.on_text("replay", long_schedule()), "utf-8")
        before = resource.getrusage(resource.RUSAGE_CHILDREN)
        words = [sys.executable, str(ROOT / "tools/trace"), "json", str(trace)]
        subprocess.run(words, stdout=subprocess.DEVNULL, check=True)
        after = resource.getrusage(resource.RUSAGE_CHILDREN)
        took = after.ru_utime + after.ru_stime - before.ru_utime - before.ru_stime
        count = trace.read_text("utf-8").count("\n")
        print(f"exports: {EVENTS} events, {count} lines, to JSON in {took:.2f} s of a processor", flush=True)
        return [] if took < SECONDS_MAX else [f"{took:.2f} seconds, less than {SECONDS_MAX} are wanted"]


def words_of(given: Sequence[str], about: str) -> argparse.Namespace:
    """The words of the script."""
    parser = argparse.ArgumentParser(prog="exports", description=about)
    parser.add_argument("program", metavar="PROGRAM", help="the built one")
    more = f"tries {WHOLE.drawn} generated traces, {WHOLE.frames:,} frames and all samples"
    parser.add_argument("--whole", action="store_true", help=more)
    names = ("lines", "frames", "captures", "seconds")
    parser.add_argument("--only", metavar="CHECK", action="append", choices=names, help=", ".join(names))
    return parser.parse_args(given)


def main(given: Sequence[str], about: str) -> int:
    """Does what the words ask for, and answers the exit status."""
    words = words_of(given, about)
    if not has_all("exports", {}, SCAPY):
        return 1
    # goes on with the python3 that has scapy, before anything runs
    layer("exports")
    wrong: List[str] = []
    with tempfile.TemporaryDirectory() as folder:
        program = Program(os.path.abspath(words.program), folder)
        trial = Trial(program, WHOLE if words.whole else SMALL, Path(folder))
        checks: Dict[str, Callable[[], List[str]]] = {
            "lines": trial.lines, "frames": trial.frames, "captures": trial.captures, "seconds": trial.seconds,
        }
        for name, check in checks.items():
            if words.only and name not in words.only:
                continue
            try:
                wrong += [f"{name}: {it}" for it in check() if it]
            except Refused as fault:
                wrong.append(f"{name}: {fault}")
    for it in wrong[:SHOWN_MOST]:
        print(f"exports: {it}", file=sys.stderr)
    print(f"exports: {len(wrong)} failed")
    return 1 if wrong else 0
