"""The script `explorer` of scripts/test."""
from __future__ import annotations

import argparse
import os
import shutil
import sys
import tempfile
from concurrent.futures import ThreadPoolExecutor
from pathlib import Path
from typing import Callable, List, Sequence, Tuple

from planet_tools.explore import page
from planet_tools.explore.logs import Program, run_program
from planet_tools.explorer_test import checks, fleets, looks, pictures, schedules
from planet_tools.explorer_test.browser import Browser
from planet_tools.explorer_test.figures import measured

ROOT = Path(__file__).resolve().parents[3]
SEEDS = range(1, 13)
GROWN = (1, 2)
GROWN_EVENTS = 60
CHECKS = ("steps", "inputs", "choices", "labels", "looks", "ledgers", "fleets")
FIGURES = "figures"
STEPPED = (
    "ticks-and-ping", "first-run", "loss-and-order", "frames-repeat", "handler-called", "bytes-from-outside",
    "every-service", "route-traced",
)


def words_of(given: Sequence[str]) -> argparse.Namespace:
    """The words of the script."""
    about = "Tries the explorer in a headless Chromium, against what the lines of traces say, and measures it."
    parser = argparse.ArgumentParser(prog="explorer", description=about)
    parser.add_argument("program", metavar="PROGRAM", help="the built planet")
    parser.add_argument("--pictures", metavar="FOLDER", type=Path, help="writes the pictures of the pages there")
    which = parser.add_mutually_exclusive_group()
    which.add_argument("--only", metavar="CHECK", action="append", choices=CHECKS, help=", ".join(CHECKS))
    which.add_argument(
        "--figures", action="store_const", const=[FIGURES], dest="only",
        help="measures how fast it is, on a machine that has nothing else to do, and tries nothing else",
    )
    return parser.parse_args(given)


class Trial:
    """All that is tried, with what each check needs."""

    def __init__(self, browser: Browser, program: str, room: Path) -> None:
        self.browser, self.program, self.room = browser, program, room
        self.ping = self.kept("ticks-and-ping", "ping")

    def trace_of(self, name: str, text: str) -> Path:
        """The trace of a schedule, as a file."""
        with tempfile.TemporaryDirectory() as room:
            trace = Program(self.program, room).on_text("replay", text)
        file = self.room / f"{name}.trace"
        file.write_text(trace, "utf-8")
        return file

    def kept(self, sample: str, name: str) -> Path:
        """The trace that is kept of a sample's schedule, as a file of this name."""
        file = self.room / f"{name}.trace"
        shutil.copyfile(ROOT / f"samples/{sample}/output", file)
        return file

    def steps(self) -> str:
        """Each event of the samples."""
        count = sum(checks.check_steps(self.browser, self.kept(sample, sample)) for sample in STEPPED)
        return f"{count} events as the lines say"

    def ledgers(self) -> str:
        """The ledgers of many schedules."""
        made = self.made_schedules()
        self.browser.size(1400, 900)
        self.browser.open()
        for name, trace in made:
            checks.check_ledger(self.browser, name, trace)
        checks.check_wrong_ledgers(self.browser, self.ping, self.room)
        return f"{len(made)} schedules with their ledgers"

    def made_schedules(self) -> List[Tuple[str, Path]]:
        """The traces of schedules of networks that grow, of drawn ones, of scenarios, and of those written by hand."""
        def grown(seed: int) -> Tuple[str, str]:
            with tempfile.TemporaryDirectory() as room:
                return f"grown {seed}", schedules.grown(Program(self.program, room), seed, GROWN_EVENTS)

        def drawn(seed: int) -> Tuple[str, str]:
            with tempfile.TemporaryDirectory() as room:
                text = schedules.drawn(Program(self.program, room), seed, 1 + seed % 2, seed % 3 == 0)
                return f"drawn {seed}", text

        def settled(shape: str) -> Tuple[str, str]:
            with tempfile.TemporaryDirectory() as room:
                return f"scenario {shape}", schedules.settled(self.program, shape, Path(room))

        with ThreadPoolExecutor(2) as workers:
            made = [*workers.map(grown, GROWN), *workers.map(drawn, SEEDS), *workers.map(settled, schedules.SHAPES)]
            names = [f"{place}-{name}" for place, (name, _) in enumerate(made)]
            traces = list(zip(names, workers.map(self.trace_of, names, (text for _, text in made))))
        return traces + [(file.parent.name, file) for file in schedules.kept_traces(ROOT)]

    def inputs(self) -> str:
        """Bad inputs and hostile texts."""
        count = checks.check_bad_inputs(self.browser, self.ping, self.room)
        checks.check_harmless(self.browser, self.room)
        checks.check_drop(self.browser, self.ping)
        return f"{count} bad inputs refused"

    def choices(self) -> str:
        """Keys, filters, links."""
        checks.check_selection(self.browser, self.ping)
        return "keys, filters and links lead where they say"

    def labels(self) -> str:
        """Names of hosts in networks of 32."""
        networks = {
            "ring": schedules.ring(32), "row": schedules.row(32), "grid": schedules.grid(8, 4),
            "tangle": schedules.tangle(32, 7), "sparse": schedules.tangle(24, 3),
        }
        traces = [self.trace_of(name, schedules.quiet_network(links)) for name, links in networks.items()]
        checks.check_labels(self.browser, traces)
        return f"no names over each other in {len(traces)} networks"

    def looks(self) -> str:
        """Texts and controls as a person sees them."""
        widest = self.room / "widest.trace"
        widest.write_text(looks.WIDEST, "utf-8")
        shelf = ROOT / "samples/programs"
        for trace, keys in (
            (widest, ["End"]), (self.ping, ["ArrowRight"] * 14), (shelf / "flood/trace", ["n"] * 12),
            (shelf / "traceroute/trace", ["End"] + ["p"] * 12),
        ):
            looks.check_looks(self.browser, trace, keys)
        return "nothing is cut, no names lie over each other, and each control has a name"

    def fleets(self) -> str:
        """Live fleets as one run."""
        arrows = fleets.check_fleets(self.browser, self.program, ROOT, self.room)
        return f"{arrows} frames of live fleets as the audit has them"

    def figures(self) -> str:
        """How fast it is, and how much memory it takes."""
        return measured(self.trace_of("long", schedules.long_schedule()), self.room)

    def pictures(self, folder: Path) -> None:
        """Writes the pictures: of the ping, and of a fleet where one was run."""
        pictures.take_ping(self.browser, self.ping, folder)
        fleet = self.room / fleets.SAMPLES[0]
        if (fleet / "fleet.html").exists():
            pictures.take_fleet(self.browser, fleet / "fleet.html", fleet / "fleet.trace", folder)


def tried(trial: Trial, only: Sequence[str]) -> int:
    """Tries each check, and answers how many failed."""
    failed = 0
    for name in only:
        check: Callable[[], str] = getattr(trial, name)
        try:
            print(f"explorer: {name}: {check()}", flush=True)
        except checks.Wrong as wrong:
            failed += 1
            print(f"explorer: {name}: {wrong}", file=sys.stderr, flush=True)
        for complaint in trial.browser.complaints():
            failed += 1
            print(f"explorer: {name}: the browser says {complaint}", file=sys.stderr, flush=True)
    return failed


def main(given: Sequence[str]) -> int:
    """Tries the explorer, and answers the exit status."""
    words = words_of(given)
    checks.check_code(page.FOLDER)
    run_program(words.program, ["replay", str(ROOT / "samples/first-run/first.schedule")])
    browser = Browser()
    try:
        with tempfile.TemporaryDirectory() as room:
            trial = Trial(browser, os.path.abspath(words.program), Path(room))
            failed = tried(trial, words.only or CHECKS)
            if words.pictures:
                trial.pictures(words.pictures)
    finally:
        browser.quit()
    print(f"explorer: {'all as wanted' if failed == 0 else f'{failed} failed'}")
    return 1 if failed else 0
