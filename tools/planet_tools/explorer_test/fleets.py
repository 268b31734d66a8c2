"""Live fleets of the samples as one run: each arrow is a frame that the audit accepts."""
from __future__ import annotations

import shutil
import subprocess
import sys
import time
from concurrent.futures import ThreadPoolExecutor
from pathlib import Path
from typing import Dict, List, Set, Tuple

from planet_tools.explore.fleet import read_audit
from planet_tools.explorer_test.browser import Browser
from planet_tools.explorer_test.checks import Wrong, check_ledger, same
from planet_tools.trace.capture import entries_of
from planet_tools.trace.files import read_run
from planet_tools.trace.flow import Flow, number

SAMPLES = ("live-fleet", "live-stamped")
TRIES, PAUSE = 5, 12.0


def run_fleet(program: str, folder: Path) -> None:
    """Runs a fleet. One whose ports another run has taken is tried again a little later."""
    for _ in range(TRIES):
        done = subprocess.run([program, "fleet", "fleet.txt"], cwd=folder, capture_output=True, text=True, check=False)
        if done.returncode == 0:
            return
        if "planet: link fault\n" not in done.stderr:
            break
        time.sleep(PAUSE)
    raise Wrong(f"{folder.name}: the fleet ended with {done.returncode}: {done.stderr.strip()}")


def run_fleets(program: str, root: Path, room: Path) -> List[Path]:
    """Runs the fleets side by side, and answers their folders."""
    folders = [room / sample for sample in SAMPLES]
    for folder in folders:
        shutil.copytree(root / "samples" / folder.name, folder)
    with ThreadPoolExecutor(len(folders)) as workers:
        list(workers.map(run_fleet, [program] * len(folders), folders))
    return folders


def came(folder: Path) -> Dict[Tuple[int, int], List[str]]:
    """By each host's device the bytes that came there, in order, from the logs themselves."""
    found: Dict[Tuple[int, int], List[str]] = {}
    for name in read_audit(str(folder / "logs.audit")).logs:
        run = read_run(str(folder / name))
        host = next(number(line, "host") for line in run.lines if line["kind"] == "host")
        for entry in entries_of(run.lines):
            if entry["kind"] == "frame":
                found.setdefault((host, number(entry, "device")), []).append(str(entry["hex"]))
    return found


def check_arrows(folder: Path, trace: Path) -> int:
    """Each arrow goes over a link, with bytes that came there, none of them twice, and all that came is an arrow."""
    links = read_audit(str(folder / "logs.audit")).links
    flow = Flow(read_run(str(trace)).events)
    arrived: Dict[Tuple[int, int], List[str]] = {}
    seen: Set[Tuple[int, int]] = set()
    for frame in flow.frames.values():
        for event, there in frame.arrivals:
            same(f"{folder.name}: the end of an arrow", there, links[frame.sent_from])
            seen.add((event, frame.number))
            arrived.setdefault(there, []).append(str(frame.hex))
    wanted = {end: sorted(frames) for end, frames in came(folder).items()}
    same(f"{folder.name}: the frames that arrived", {end: sorted(frames) for end, frames in arrived.items()}, wanted)
    return len(seen)


def check_fleets(browser: Browser, program: str, root: Path, room: Path) -> int:
    """Makes the page of each fleet, and answers how many arrows they have."""
    arrows = 0
    for folder in run_fleets(program, root, room):
        words = [sys.executable, str(root / "tools/explore"), "logs.audit", "fleet.html"]
        words += ["--planet", program, "--trace", "fleet.trace"]
        done = subprocess.run(words, cwd=folder, capture_output=True, text=True, check=False)
        if done.returncode != 0 or "the audit says yes" not in done.stdout:
            raise Wrong(f"{folder.name}: {done.stdout}{done.stderr}")
        arrows += check_arrows(folder, folder / "fleet.trace")
        audit = subprocess.run([program, "audit", "logs.audit"], cwd=folder, capture_output=True, text=True, check=True)
        rows = sorted(audit.stdout.split("\n")[2:-2])
        trace = (folder / "fleet.trace").read_text("utf-8")
        same(f"{folder.name}: the ledger", sorted(trace.split("\nledger\n")[1].split("\n")[:-2]), rows)
        browser.open(folder / "fleet.html")
        same(f"{folder.name}: hosts", browser.run("return document.querySelectorAll('.host').length"), 3)
        check_ledger(browser, folder.name, folder / "fleet.trace")
        same(f"{folder.name}: answers", trace.count('print @1 "Success"') > 0, True)
    return arrows
