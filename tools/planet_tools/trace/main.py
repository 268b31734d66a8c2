"""The command `trace`."""
from __future__ import annotations

import argparse
import json
import os
import sys
from typing import Iterable, Iterator, NoReturn, Sequence, Tuple

from planet_tools.trace import capture, exports
from planet_tools.trace.files import read_run, read_trace, text_of
from planet_tools.trace.forms import FORMS, Refused
from planet_tools.trace.keep import Wanted, kept
from planet_tools.trace.schedules import read_schedule
from planet_tools.trace.stats import COUNTS, Stats, stats_text

ABOUT = "What planet replay and planet node wrote, as data: a trace with its ledger, or the log of a node."
RUN_HELP = "a trace or a log, - for standard input"
TRACE_HELP = "a trace, - for standard input"
REFUSED = 2


class Parser(argparse.ArgumentParser):
    """Ends with one line where the words are wrong."""

    def error(self, message: str) -> NoReturn:
        self.exit(1, f"trace: {message}, see {self.prog} --help\n")


def event_range(text: str) -> Tuple[int, int]:
    """The first and the last event of `A-B`, or of `A`."""
    first, _, last = text.partition("-")
    if not (first.isdigit() and (last or first).isdigit()) or len(text) > 40:
        raise argparse.ArgumentTypeError(f"a number or two with - between them are wanted, not {text!r}")
    return int(first), int(last or first)


def make_json(words: argparse.Namespace) -> Iterator[str]:
    """Each line as an object."""
    return exports.json_text(read_run(words.run).lines, not words.lines)


def make_text(words: argparse.Namespace) -> Iterator[str]:
    """The lines of objects."""
    return exports.run_text(text_of(words.run), words.run)


def make_csv(words: argparse.Namespace) -> Iterator[str]:
    """The lines, or a table of counts."""
    if not (words.ledger or words.links or words.families):
        return exports.run_csv(read_run(words.run))
    run = read_trace(words.run)
    if words.ledger:
        if not any(line["kind"] == "ledger" for line in run.lines):
            raise Refused(f"the trace has no ledger, as that of a log, {words.run} line {len(run.lines)}")
        return exports.csv_text(["family", *COUNTS], run.rows)
    stats = Stats(run)
    return exports.table_csv(stats.links() if words.links else stats.family_rows())


def make_stats(words: argparse.Namespace) -> Iterator[str]:
    """Counts, as a text or as JSON."""
    stats = Stats(read_trace(words.run))
    yield json.dumps(stats.data(), indent=2, ensure_ascii=False) + "\n" if words.json else stats_text(stats)


def make_filter(words: argparse.Namespace) -> Iterator[str]:
    """The events that are wanted, as a trace."""
    wanted = Wanted(frozenset(words.family), frozenset(words.host), frozenset(words.kind), words.events)
    lines = kept(read_trace(words.run), wanted)
    if not any("event" in line for line in lines):
        raise Refused(f"no event of the trace is wanted, {words.run}")
    return exports.trace_text(lines)


def make_capture(words: argparse.Namespace) -> Iterator[str]:
    """The frames as a capture, in a file of its own."""
    run = read_run(words.run)
    if run.file == "log" and words.schedule:
        raise Refused(f"a log has no schedule, {words.run} line 1")
    schedule = read_schedule(words.schedule) if words.schedule else None
    datagrams = capture.datagrams_of(run, schedule, words.port, words.run)
    capture.write_capture(datagrams, words.out)
    count = len({it.interface for it in datagrams})
    yield f"{words.out}: {len(datagrams)} frames on {count} interfaces\n"


def base_port(text: str) -> int:
    """A port that leaves room for those of the hosts above it."""
    most = 65_535 - capture.HOSTS_MAX
    if not text.isdecimal() or not 1 <= int(text[:9]) <= most:
        raise argparse.ArgumentTypeError(f"a port from 1 to {most} is wanted, not {text!r}")
    return int(text)


def add_capture(commands: "argparse._SubParsersAction[Parser]") -> None:
    """The words of `capture`."""
    about = (
        "Writes the frames of a trace, which its schedule asks for by a line 'frames', or those that a log has, as a "
        "capture: an event or an entry a second, an interface a link."
    )
    parser = commands.add_parser("capture", help="the frames for Wireshark", description=about)
    parser.add_argument("--schedule", metavar="FILE", help="the trace's schedule: its links, and bytes from outside")
    parser.add_argument(
        "--port", type=base_port, default=capture.PORT, metavar="P",
        help=f"of what comes from outside; hosts have those above it, by their numbers ({capture.PORT})",
    )
    parser.add_argument("run", metavar="TRACE", help=RUN_HELP)
    parser.add_argument("out", metavar="OUT.pcapng", help="the capture")
    parser.set_defaults(make=make_capture)


def add_filter(commands: "argparse._SubParsersAction[Parser]") -> None:
    """The words of `filter`."""
    about = "Keeps the wanted events, and those that queue, send, deliver or lose the same packets and frames."
    parser = commands.add_parser("filter", help="keeps some events", description=about)
    kinds = sorted({form.kind for form in FORMS["trace"] if form.part == "event"})
    parser.add_argument("--family", action="append", default=[], metavar="F", help="events of a family, as 1.1")
    parser.add_argument("--host", action="append", default=[], type=int, metavar="N", help="events at a host")
    parser.add_argument("--kind", action="append", default=[], choices=kinds, metavar="KIND", help=", ".join(kinds))
    parser.add_argument("--events", type=event_range, metavar="A-B", help="events of these numbers")
    parser.add_argument("run", metavar="TRACE", help=TRACE_HELP)
    parser.set_defaults(make=make_filter)


def words_of(words: Sequence[str]) -> argparse.Namespace:
    """The words of the command."""
    parser = Parser(prog="trace", description=ABOUT)
    commands = parser.add_subparsers(metavar="COMMAND", required=True, parser_class=Parser)
    one = commands.add_parser("json", help="each line as an object", description="Each line as an object of JSON.")
    one.add_argument("--lines", action="store_true", help="an object a line, without brackets and commas")
    one.add_argument("run", metavar="TRACE", help=RUN_HELP)
    one.set_defaults(make=make_json)
    one = commands.add_parser("text", help="objects as lines again", description="The trace or the log of such JSON.")
    one.add_argument("run", metavar="JSON", help="what json wrote, - for standard input")
    one.set_defaults(make=make_text)
    one = commands.add_parser("csv", help="a table", description="A table of all lines, or of counts.")
    which = one.add_mutually_exclusive_group()
    which.add_argument("--ledger", action="store_true", help="the rows of the ledger")
    which.add_argument("--links", action="store_true", help="a row for each device that had something to send")
    which.add_argument("--families", action="store_true", help="a row for each family, with how its packets ended")
    one.add_argument("run", metavar="TRACE", help=RUN_HELP)
    one.set_defaults(make=make_csv)
    one = commands.add_parser("stats", help="counts", description="Ends, drops, links, families, the longest queue.")
    one.add_argument("--json", action="store_true", help="as JSON")
    one.add_argument("run", metavar="TRACE", help=TRACE_HELP)
    one.set_defaults(make=make_stats)
    add_filter(commands)
    add_capture(commands)
    return parser.parse_args(words)


def write(pieces: Iterable[str]) -> None:
    """Writes to standard output, in UTF-8 wherever it runs."""
    for piece in pieces:
        sys.stdout.buffer.write(piece.encode("utf-8"))
    sys.stdout.buffer.flush()


def main(given: Sequence[str]) -> int:
    """Does what the words ask for, and answers the exit status."""
    words = words_of(given)
    try:
        write(words.make(words))
    except Refused as fault:
        print(f"trace: {fault}", file=sys.stderr)
        return REFUSED
    except BrokenPipeError:
        # whoever read the output has enough of it
        os.dup2(os.open(os.devnull, os.O_WRONLY), sys.stdout.fileno())
        return 1
    return 0
