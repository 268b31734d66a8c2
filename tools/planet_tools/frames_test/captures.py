"""Captures of the samples: tshark shows of each frame what `planet show` writes, and capinfos finds no fault."""
from __future__ import annotations

import re
import subprocess
import sys
from pathlib import Path
from typing import List, Optional, Tuple

from planet_tools.explore.logs import Program
from planet_tools.frames_test import wireshark
from planet_tools.frames_test.show import shown
from planet_tools.program import ROOT, run
from planet_tools.trace.capture import HOSTS_MAX, PORT, datagrams_of, write_capture
from planet_tools.trace.files import run_of
from planet_tools.trace.forms import Refused
from planet_tools.trace.pcapng import Datagram
from planet_tools.trace.schedules import read_schedule

SAMPLES = ROOT / "samples"


def samples() -> List[Path]:
    """The schedules, scenarios and logs of the samples."""
    found = (it for it in SAMPLES.glob("*/**/*") if it.suffix in (".schedule", ".scenario", ".log"))
    return sorted(found)


def with_frames(text: str) -> str:
    """A schedule whose trace has the bytes of frames."""
    first, rest = text.split("\n", 1)
    return f"{first}\nframes\n{rest}"


def sample_datagrams(program: Program, sample: Path, room: Path) -> List[Datagram]:
    """The datagrams of a sample's run."""
    name = str(sample.relative_to(ROOT))
    if sample.suffix == ".log":
        return datagrams_of(run_of(sample.read_text("utf-8"), name), None, PORT, name)
    text = sample.read_text("utf-8")
    if sample.suffix == ".scenario":
        made = run(sys.executable, [str(ROOT / "tools/scenario"), str(sample), "--planet", program.path])
        if made.status != 0:
            raise Refused(f"{made.note}, {name}")
        text = made.output.decode()
    schedule = room / "sample.schedule"
    schedule.write_text(with_frames(text), "utf-8")
    trace = run_of(program.on_text("replay", with_frames(text)), name)
    return datagrams_of(trace, read_schedule(str(schedule)), PORT, name)


def fault_of_capinfos(path: Path, count: int) -> Optional[str]:
    """What capinfos finds wrong with a capture, or nothing."""
    done = subprocess.run(["capinfos", "-cM", str(path)], capture_output=True, text=True, check=False)
    found = re.search(r"Number of packets: +(\d+)$", done.stdout, re.M)
    if done.returncode != 0 or done.stderr or not found or int(found[1]) != count:
        return f"capinfos: {(done.stderr or done.stdout).strip()[-200:]}"
    return None


def compared(program: Program, sample: Path, room: Path) -> Tuple[int, List[str]]:
    """How many frames a sample's capture has, and where tshark shows them otherwise."""
    name = str(sample.relative_to(ROOT))
    try:
        datagrams = sample_datagrams(program, sample, room)
    except Refused as fault:
        if str(fault).startswith("no frame in it"):
            return 0, []
        raise
    path = room / "sample.pcapng"
    write_capture(datagrams, str(path))
    found = wireshark.dissected(path, f"{PORT}-{PORT + HOSTS_MAX}")
    wrong = [fault_of_capinfos(path, len(datagrams))]
    wrong += [f"tshark shows {len(found)} of {len(datagrams)} frames"] if len(found) != len(datagrams) else []
    said = {it: shown(program.path, it, room / "frame.hex") for it in {datagram.payload for datagram in datagrams}}
    for datagram, fields in zip(datagrams, found):
        otherwise = wireshark.fault_of(fields, said[datagram.payload], datagram.payload)
        wrong += [f"event {datagram.seconds}: {otherwise}"] if otherwise else []
    return len(datagrams), [f"{name}: {it}" for it in wrong if it]
