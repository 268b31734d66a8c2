"""Each line of traces and logs becomes an object and back: those that the repository holds, and generated ones."""
from __future__ import annotations

import random
from typing import Dict, Iterator, List, Tuple

from planet_tools.explore.logs import Program
from planet_tools.explorer_test.schedules import HOSTS, drawn
from planet_tools.frames.layer import layer
from planet_tools.frames_test.sets import handled, rows_module
from planet_tools.program import ROOT
from planet_tools.trace.exports import json_text, run_text
from planet_tools.trace.files import run_of
from planet_tools.trace.flow import number
from planet_tools.trace.forms import Refused

Texts = Iterator[Tuple[str, str]]
FRONTS = (b"planet trace 1\n", b"planet log ")
BOOT = 1_700_000_000_000
# the devices of host 1 in drawn schedules, with its neighbours there
NEIGHBOURS = {1: 2, 2: HOSTS, 3: 3}


def kept_texts() -> Texts:
    """The traces and logs of the rows that are done, and those of the samples, by name."""
    rows = rows_module()
    for row in rows.rows_below(ROOT / "tests"):
        if not isinstance(row, rows.Row) or row.status != 0:
            continue
        held = {"output": row.output or b"", **row.files, **row.made}
        yield from ((f"{row.name} {it}", text.decode()) for it, text in held.items() if text.startswith(FRONTS))
    for path in sorted(it for it in (ROOT / "samples").rglob("*") if it.is_file()):
        text = path.read_bytes()
        if text.startswith(FRONTS):
            yield str(path.relative_to(ROOT)), text.decode()


def log_of(trace: str, seed: int, version: int) -> str:
    """The log of a node that gets what host 1 got in a drawn trace, and is asked for injections between."""
    draws, plan = random.Random(seed), layer("exports")
    chunk = bytes(plan.PLAN(handled("h")).chunk).hex()
    ask = bytes(plan.PLAN() / plan.PlanAsk(bound=draws.randrange(9))).hex()
    entries: List[str] = []
    frames: Dict[int, str] = {}
    coming = ""
    for line in run_of(trace, "drawn").events:
        if line["kind"] == "wire":
            frames[number(line, "frame")] = str(line["hex"])
        elif line["kind"] in ("off", "again"):
            coming = frames[number(line, "frame")]
        elif line.get("host") != 1:
            continue
        elif line["kind"] == "arrive" and coming:
            entries.append(f"frame {line['device']} {coming}")
        elif line["kind"] in ("send", "send_advert"):
            entries.append(f"take {line['device']}")
        elif line["kind"] == "tick":
            handler = " handler h" if version == 2 else ""
            entries += [draws.choice(["tick", f"inject 5 {chunk}", f"control {ask}", f"inject 0 {chunk}{handler}"])]
    head = [f"planet log {version}", "host 1", *([f"boot {BOOT}"] if version == 2 else [])]
    head += [f"hosts {' '.join(map(str, range(1, HOSTS + 1)))}"]
    head += [f"dev {device} {host}" for device, host in NEIGHBOURS.items()]
    return "\n".join([*head, *(["without resident"] if seed % 5 == 0 else []), "events", "# drawn", "", *entries, ""])


def drawn_texts(program: Program, seed: int) -> Texts:
    """The trace of a drawn schedule, a log that is made of it, and the trace of that log."""
    version = 1 + seed % 2
    trace = program.on_text("replay", drawn(program, seed, version, True))
    yield f"drawn trace {seed}", trace
    log = log_of(trace, seed, version)
    yield f"drawn log {seed}", log
    yield f"trace of drawn log {seed}", program.on_text("replay", log)


def fault_of(name: str, text: str) -> str:
    """What isn't the same again of a text, or nothing."""
    try:
        again = "".join(run_text("".join(json_text(run_of(text, name).lines, True)), name))
    except Refused as fault:
        return str(fault)
    return "" if again == text or again == text + "\n" else f"other lines, {name}"
