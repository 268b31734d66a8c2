"""What tshark shows of frames with the dissector tools/wireshark/planet.lua, in the words of `planet show`."""
from __future__ import annotations

import json
import re
import subprocess
from pathlib import Path
from typing import Dict, List, Optional, Sequence, Set

from planet_tools.frames.read import MAGIC
from planet_tools.program import ROOT
from planet_tools.trace.capture import write_capture
from planet_tools.trace.pcapng import Datagram
from planet_tools.trace.forms import Refused

DISSECTOR = ROOT / "tools/wireshark/planet.lua"
# the packages of the commands
COMMANDS = {"tshark": "tshark", "capinfos": "wireshark-common"}
OTHERWISE = "or with `dnf install wireshark-cli`, or `brew install wireshark`"
PORT = 7001
FIELDS = """version kind boot link family source serial destination bound route handler declaration service exception
function entry argument host row row.host row.cost fault fault.name fault.at""".split()
WORDS = {"service": "svc", "exception": "exception", "function": "fun"}
Shown = Dict[str, List[str]]


def capture(frames: Sequence[bytes], room: Path) -> Path:
    """A capture of the frames, a datagram each."""
    path = room / "frames.pcapng"
    datagrams = [Datagram(number, "frames", (PORT, PORT + 1), it) for number, it in enumerate(frames, 1)]
    write_capture(datagrams, str(path))
    return path


def dissected(path: Path, ports: str) -> List[Shown]:
    """The fields that tshark shows of each frame of a capture, each a list of its values."""
    asked = [word for it in FIELDS for word in ("-e", f"planet.{it}")]
    asked += [word for it in ("_ws.col.Info", "_ws.lua.error", "_ws.malformed") for word in ("-e", it)]
    words = ["tshark", "-n", "-X", f"lua_script:{DISSECTOR}", "-d", f"udp.port=={ports},planet", "-r", str(path)]
    done = subprocess.run([*words, "-T", "ek", *asked], capture_output=True, text=True, check=False)
    if done.returncode != 0 or "Lua:" in done.stderr:
        raise Refused(f"tshark failed: {done.stderr.strip()[-300:]}, {path}")
    layers = [json.loads(line)["layers"] for line in done.stdout.split("\n") if line.startswith('{"timestamp')]
    return [{key.removeprefix("planet_"): held for key, held in it.items()} for it in layers]


def unknown_filters() -> List[str]:
    """The filters that docs/use/wireshark.md names and tshark doesn't know."""
    words = ["tshark", "-G", "fields", "-X", f"lua_script:{DISSECTOR}"]
    known = set(subprocess.run(words, capture_output=True, text=True, check=True).stdout.split("\t"))
    page = (ROOT / "docs/use/wireshark.md").read_text("utf-8")
    named = re.findall(r"`[^`]*?(planet\.[a-z.]+[a-z])", page)
    return [it for it in named if it not in known and it != "planet.lua"]


def unrecognised(frames: Sequence[bytes], room: Path) -> Set[int]:
    """The numbers of frames that begin with the letters and aren't known by them alone, or the other way round."""
    # some ports are known for other protocols
    words = ["tshark", "-n", "-X", f"lua_script:{DISSECTOR}", "-o", "udp.try_heuristic_first:TRUE"]
    words += ["-r", str(capture(frames, room)), "-Y", "planet", "-T", "fields", "-e", "frame.number"]
    done = subprocess.run(words, capture_output=True, text=True, check=True)
    return set(map(int, done.stdout.split())) ^ {n for n, it in enumerate(frames, 1) if it.startswith(MAGIC)}


def said_by(shown: Shown) -> str:
    """What the fields of a frame say in the words of `planet show`, or the first fault."""
    if "fault" in shown:
        return shown["fault"][0]
    lines = [shown["_ws_col_Info"][0]]
    if "entry" in shown:
        lines.append(f"|{shown['entry'][0]}|({', '.join(shown.get('argument', []))})")
    lines += shown.get("declaration", []) + shown.get("row", [])
    return "".join(f"{it}\n" for it in lines)


def fields_of(said: str) -> Shown:
    """The values that a frame's text gives each field."""
    first, *rest = said.rstrip("\n").split("\n")
    found = {name: [value] for name, value in re.findall(r"(bound|route|boot|link|handler) (\S+)", first)}
    packet = re.match(r"packet ((\d+)\.(\d+)) dest @(\d+) ", first)
    if packet:
        found.update(zip(("family", "source", "serial", "destination"), ([it] for it in packet.groups())))
    if first.startswith("advert"):
        rows = [it.removeprefix("@").split(" ") for it in rest]
        host = first.split(" ")[1][1:]
        return {**found, "host": [host], "row_host": [it[0] for it in rows], "row_cost": [it[1] for it in rows]}
    lines = "\n".join(rest)
    return {**found, **{it: re.findall(rf"^{word} (\w+)", lines, re.M) for it, word in WORDS.items()}}


def place_fault(shown: Shown, wanted: str) -> Optional[str]:
    """How the name and the place of a fault are shown otherwise than wanted, or nothing."""
    name = re.sub(r" \d+$", "", wanted)
    if shown.get("fault_name") != [name]:
        return f"fault's name is {shown.get('fault_name')} in place of {name}"
    place = re.search(r" (\d+)$", wanted) if not wanted.startswith("IllTyped") else None
    return f"fault at {shown.get('fault_at')}" if place and shown.get("fault_at") != [place[1]] else None


def fault_of(shown: Shown, wanted: Optional[str], frame: bytes) -> Optional[str]:
    """How a frame is shown otherwise than wanted, or nothing."""
    if "_ws_lua_error" in shown or "_ws_malformed" in shown:
        return "an error of Lua"
    if wanted is None:
        return None
    said = said_by(shown)
    if said != wanted:
        return f"{said!r:.200} in place of {wanted!r:.200}"
    if "\n" not in wanted:
        return place_fault(shown, wanted)
    fields = {"version": [str(frame[4])], "kind": [str(frame[5])], **fields_of(wanted)}
    wrong = [name for name, values in fields.items() if shown.get(name, []) != values]
    return f"field {wrong[0]} is {shown.get(wrong[0])} in place of {fields[wrong[0]]}" if wrong else None
