"""The command `scenario`."""
from __future__ import annotations

import argparse
import sys
from pathlib import Path
from typing import Sequence

from planet_tools import program
from planet_tools.python import fail
from planet_tools.scenario import live
from planet_tools.scenario.faults import Fault
from planet_tools.scenario.reader import read
from planet_tools.scenario.rounds import Made

ABOUT = """Makes what planet reads from a scenario: the lines of a schedule, and beside them shapes of networks,
names of hosts, loops, rounds of routes, and settling. planet itself checks the schedule, which goes to
standard output."""


def main(words: Sequence[str]) -> int:
    """Makes what the words ask for, and answers the exit status."""
    parser = argparse.ArgumentParser(prog="scenario", description=ABOUT)
    parser.add_argument("file", metavar="FILE", type=Path, help="the scenario")
    parser.add_argument("--set", metavar="NAME=VALUE", action="append", default=[],
                        help="a value in place of the one that the scenario sets")
    parser.add_argument("--output", "-o", metavar="OUT", type=Path, help="where the schedule goes")
    parser.add_argument("--run", action="store_true",
                        help="replay the schedule, and write its trace to standard output")
    parser.add_argument("--live", metavar="DIR", type=Path,
                        help="make configurations, requests, the fleet and its audit in DIR; with --run also run it")
    parser.add_argument("--planet", metavar="PATH",
                        help="the program planet; without it the built one of this repository")
    asked = parser.parse_args(words)
    planet = program.find("scenario", asked.planet)
    try:
        return make(asked, planet)
    except Fault as fault:
        fail("scenario", fault.what, f"{asked.file} line {fault.line}" if fault.line else str(asked.file))
    except OSError as fault:
        fail("scenario", f"fault of a file: {fault.strerror}", str(fault.filename))


def make(asked: argparse.Namespace, planet: str) -> int:
    """Makes the schedule or the fleet, runs it where that is asked for, and answers the exit status."""
    made = Made(read(asked.file, values_of_words(asked.set)), planet)
    trace = made.make()
    if sys.stderr.isatty():
        print("\r\033[K", end="", file=sys.stderr, flush=True)
    schedule = made.schedule.text(made.schedule.shows_frames).encode()
    if asked.output is not None:
        asked.output.write_bytes(schedule)
    if asked.live is not None:
        return make_live(asked, planet, made, trace)
    if asked.run:
        sys.stdout.buffer.write(trace)
    elif asked.output is None:
        sys.stdout.buffer.write(schedule)
    return 0


def make_live(asked: argparse.Namespace, planet: str, made: Made, trace: bytes) -> int:
    """Makes the files of the fleet, runs it where that is asked for, and answers the exit status."""
    fleet, held = live.plan(made, trace, asked.live)
    live.write(fleet)
    if not fleet.is_lossless:
        print("scenario: the fleet's links lose and repeat nothing by themselves, so its prints may differ",
              file=sys.stderr)
    if not asked.run:
        seconds = f"{fleet.seconds():.0f} seconds"
        print(f"made {asked.live}: run it there with 'planet fleet {live.FLEET}', in some {seconds}")
        for request in fleet.requests:
            print(f"{request.name}: send it after {request.at / 1000:.1f} seconds with 'planet inject {request.name}'")
        return 0
    return 0 if live.run(fleet, planet, held) and live.judge(fleet, planet, trace) else 1


def values_of_words(words: list[str]) -> dict[str, str]:
    """The values that `--set NAME=VALUE` gives."""
    given = {}
    for word in words:
        name, sign, value = word.partition("=")
        if not (name and sign and value) or any(sign.isspace() for sign in word):
            fail("scenario", "a value is given as --set NAME=VALUE", word)
        given[name] = value
    return given
