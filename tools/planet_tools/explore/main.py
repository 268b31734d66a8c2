"""The command `explore`."""
from __future__ import annotations

import argparse
import os
import sys
import tempfile
from typing import NoReturn, Sequence, Tuple

from planet_tools import program
from planet_tools.explore import page
from planet_tools.explore.fleet import read_fleet
from planet_tools.trace.files import text_of
from planet_tools.trace.forms import Refused

ABOUT = (
    "Makes a page that looks into a run: one file with the page and the trace in it, for any browser. "
    "Of the file of an audit it makes the run of the whole fleet whose logs that file names."
)
LONGEST = 64 * 1024 * 1024
HEAD = "planet trace 1"


class Parser(argparse.ArgumentParser):
    """Ends with one line where the words are wrong."""

    def error(self, message: str) -> NoReturn:
        self.exit(1, f"explore: {message}, see {self.prog} --help\n")


def words_of(given: Sequence[str]) -> argparse.Namespace:
    """The words of the command."""
    parser = Parser(prog="explore", description=ABOUT)
    add = parser.add_argument
    add("file", metavar="FILE", nargs="?", help="a trace, or the file of an audit")
    add("out", metavar="OUT.html", nargs="?", help="the page (else FILE's name with the ending .html)")
    add("--planet", metavar="PATH", help="the program planet, for a fleet; without it the built one of this repository")
    add("--trace", metavar="OUT.trace", help="writes the trace of the fleet too, as other tools read it")
    add("--make", action="store_true", help="makes explorer.html, the page without a trace, and forms.js")
    add("--check", action="store_true", help="with --make: says whether these two are what would be made")
    words = parser.parse_args(given)
    if words.make == bool(words.file):
        parser.error("a FILE is wanted, or --make")
    return words


def write_whole(name: str, text: str) -> None:
    """Writes a file whole, or leaves what was there."""
    folder = os.path.dirname(name) or "."
    try:
        with tempfile.NamedTemporaryFile("wb", dir=folder, prefix=".explore", delete=False) as file:
            part = file.name
            file.write(text.encode("utf-8"))
        os.chmod(part, 0o644)
        os.replace(part, name)
    except OSError as fault:
        raise Refused(f"can't be written ({fault.strerror or fault}), {name}") from fault


def trace_of(words: argparse.Namespace) -> Tuple[str, str]:
    """The trace of the file, and what is said of it."""
    text = text_of(words.file)
    first = text.split("\n", 1)[0]
    if first == "planet audit 1":
        fleet = read_fleet(program.find("explore", words.planet), words.file)
        said = f"{fleet.events} events, {fleet.arrows} frames from node to node, the audit says {fleet.answer}"
        return fleet.trace, said
    if words.trace:
        raise Refused(f"--trace is for a fleet's audit, {words.file}")
    if first.startswith(("planet schedule ", "planet log ")):
        raise Refused(f"no trace yet, make that with: planet replay {words.file}, {words.file} line 1")
    if text == "":
        raise Refused(f"the file is empty, {words.file}")
    if first != HEAD:
        raise Refused(f"no trace: its first line isn't '{HEAD}', {words.file} line 1")
    return text, f"{text.count(chr(10))} lines"


def explore(words: argparse.Namespace) -> None:
    """Makes the page of a file."""
    trace, said = trace_of(words)
    if len(trace.encode("utf-8")) > LONGEST:
        raise Refused(f"more than {LONGEST >> 20} MB, {words.file}")
    if words.trace:
        write_whole(words.trace, trace)
    out = words.out or os.path.splitext(words.file)[0] + ".html"
    write_whole(out, page.page_text(os.path.basename(words.file), trace))
    print(f"{out}: {said}")


def make(is_check: bool) -> int:
    """Makes what stands in tools/explorer and is made of other files there, or compares it."""
    status = 0
    # the page has the table of forms in it
    for path in ("forms.js", "explorer.html"):
        text = page.made_files()[page.FOLDER / path]
        there = (page.FOLDER / path).read_text("utf-8") if (page.FOLDER / path).exists() else ""
        if is_check and there != text:
            print(f"explore: not what tools/explore --make makes, tools/explorer/{path}", file=sys.stderr)
            status = 1
        elif there != text:
            write_whole(str(page.FOLDER / path), text)
            print(f"tools/explorer/{path}")
    return status


def main(given: Sequence[str]) -> int:
    """Does what the words ask for, and answers the exit status."""
    words = words_of(given)
    try:
        if words.make:
            return make(words.check)
        explore(words)
    except Refused as fault:
        print(f"explore: {fault}", file=sys.stderr)
        return 2
    return 0
