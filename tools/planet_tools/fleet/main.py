"""The command `fleet`: a supervisor for the nodes and requests of a fleet's file."""
from __future__ import annotations

import argparse
import os
import signal
import sys
from typing import Sequence

from planet_tools import program
from planet_tools.fleet.dangers import dangers
from planet_tools.fleet.files import Refused, children_of
from planet_tools.fleet.supervisor import Supervisor, say
from planet_tools.python import fail

ABOUT = """Starts the nodes of a fleet's file, then its requests, and tells who runs, what the nodes print and hand to
ports, and how each ended. INT, TERM and HUP end all of them; Enter at a terminal, or USR1, shows how each stands."""
AFTER = """status: 0 all ended with 0; 2 a file is refused, or the fleet would do harm; 8 a child failed; else that of
the signal. File names are taken from the current folder, as `planet fleet` takes them."""


def parser() -> argparse.ArgumentParser:
    """The words of the command."""
    made = argparse.ArgumentParser(prog="fleet", description=ABOUT, epilog=AFTER)
    made.add_argument("file", metavar="FILE", help="the fleet: lines 'node HOST FILE TURNS' and 'ask HOST FILE'")
    made.add_argument("--check", action="store_true", help="say what would go wrong, and start nothing")
    made.add_argument("--force", action="store_true", help="start the fleet though it would do harm")
    made.add_argument("--grace", metavar="SECONDS", type=float, default=2.0,
                      help="how long a child may take to end before it is killed (2)")
    made.add_argument("--planet", metavar="PROGRAM", help="the program planet (the built one, else ./planet)")
    return made


def end_by(what: int) -> int:
    """Ends this process as the signal does that it was sent, so that who sent it sees that."""
    signal.signal(what, signal.SIG_DFL)
    os.kill(os.getpid(), what)
    return 128 + what


def main(words: Sequence[str]) -> int:
    """Runs a fleet, and answers the exit status."""
    given = parser().parse_args(words)
    try:
        children = children_of(given.file)
    except Refused as wrong:
        print(f"fleet: {wrong}", file=sys.stderr)
        return 2
    found, uses = dangers(given.file, children)
    for it in found:
        print(f"fleet: {it}", file=sys.stderr)
    if given.check:
        say(f"{len(found)} things are wrong" if found else f"{len(children)} children, and nothing is wrong")
        return 2 if found else 0
    if found and not (given.force and len(uses) == len(children)):
        fail("fleet", "nothing was started (--force starts it all the same, where each file can be read)", given.file)
    supervisor = Supervisor(program.find("fleet", given.planet), children, uses, given.grace)
    status, ended_by = supervisor.run()
    return status if ended_by is None else end_by(ended_by)
