"""One run of a sweep: the scenario with its values, replayed, and what its trace counts."""
from __future__ import annotations

import os
from pathlib import Path
from typing import Mapping, Optional

from planet_tools.scenario.faults import Fault
from planet_tools.scenario.reader import read
from planet_tools.scenario.rounds import Made

REASONS = ("NoBound", "NoService", "NoRoute", "QueueFull", "LinkSpent", "Repeated", "TooOld")
LEDGER = ("granted", "hops", "evals", "live", "left")
COUNTS = ("injected", "arrived", "printed", *REASONS, "lost", *LEDGER)
COLUMNS = (*COUNTS, "events", "seconds", "status", "note")


def count(trace: bytes) -> dict[str, int]:
    """What a trace counts: packets, and the sums of its ledger's columns."""
    counts = dict.fromkeys(COUNTS, 0)
    event, came = "", False
    for line in trace.decode("utf-8").split("\n"):
        words = line.split(" ")
        if len(words) < 2 or words[1] == "trace":
            continue
        if words[0] != event:
            event, came = words[0], words[1] in ("off", "again")
        if words[1] == "inject":
            counts["injected"] += 1
        elif words[1] in ("value", "raised", "spent"):
            counts["arrived"] += came
        elif words[1] in ("print", "port"):
            counts["printed"] += 1
        elif words[1] == "lost" and words[2] != "advert":
            counts["lost"] += 1
        elif words[1] == "drop" and words[3] in REASONS and words[4] != "advert":
            counts[words[3]] += 1
        elif words[1] == "granted":
            for place, name in enumerate(LEDGER):
                counts[name] += int(words[2 + 2 * place])
    return counts


def row(scenario: Path, planet: str, values: Mapping[str, str]) -> list[str]:
    """The row of a run: its values, what it counts, and how it ended. A run that fails has its counts empty."""
    begun, events, status, note = os.times(), 0, 0, ""
    counts: Optional[dict[str, int]] = None
    try:
        made = Made(read(scenario, values), planet)
        counts = count(made.make())
        events = len(made.schedule.events)
    except Fault as fault:
        status, note = 2, f"{fault.what}, line {fault.line}" if fault.line else fault.what
    except OSError as fault:
        status, note = 3, f"fault of a file: {fault.strerror}"
    seconds = sum(os.times()[:4]) - sum(begun[:4])
    counted = [str(counts[name]) for name in COUNTS] if counts else [""] * len(COUNTS)
    return [*values.values(), *counted, str(events) if counts else "", f"{seconds:.2f}", str(status), note]
