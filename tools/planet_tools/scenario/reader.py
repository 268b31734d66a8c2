"""Reads a scenario: lines of a schedule, and beside them shapes, names, loops, rounds of routes and settling."""
from __future__ import annotations

import difflib
import re
from pathlib import Path
from typing import Callable, Mapping, Optional

from planet_tools.scenario import topology
from planet_tools.scenario.faults import Fault
from planet_tools.scenario.intent import Injection, Intent, Plain, Program, Routes, Settle, Source
from planet_tools.scenario.lines import LOOP_END, Line, Unrolled
from planet_tools.scenario.network import NAME_OF_HOST

HEADER = re.compile(r"planet (?:scenario|schedule) ([12])")
EVENTS_MAX = 50_000
FILE_MAX = 4_194_304
# in arguments: what isn't looked into, and hosts by their names
PIECE = re.compile(r'"(?:[^"\\]|\\.)*"|\'(?:[^\'\\]|\\.)*\'|@([A-Za-z_][A-Za-z0-9_]*)')
PERCENT = re.compile(r"(\d+(?:\.\d+)?)%")
NETWORK_WORDS = ("frames", "host", "name", "link", "program", "events", "set", "for", *topology.WORDS)
EVENT_WORDS = ("inject", "at", "every", "for", "send", "deliver", "lose", "repeat", "tick", "raw", "routes", "settle",
               "set")
INJECTION = "HOST PROGRAM ENTRY BOUND ARGUMENTS"
SOURCE = "[every ROUNDS] [for TIMES] at HOST inject PROGRAM ENTRY BOUND ARGUMENTS"
SETTLE = "settle [lose P%] [repeat P%] [reorder] [seed S] [within EVENTS]"
OF_HOST = {"send": "send HOST DEVICE", "tick": "tick HOST", "raw": "raw HOST DEVICE HEX"}


class Reader:
    """The walk over a scenario's lines, and what they meant so far."""

    def __init__(self, folder: Path, version: int) -> None:
        self.folder = folder
        self.intent = Intent(version)
        self.open_source: Optional[int] = None
        self.network_lines: dict[str, Callable[[Line, list[str]], None]] = {
            "frames": self.frames, "host": self.host, "name": self.name, "link": self.link, "program": self.program,
            "events": self.events, **{word: self.shape for word in topology.WORDS}}
        self.event_lines: dict[str, Callable[[Line, list[str]], None]] = {
            "inject": self.inject, "at": self.source, "every": self.source, "for": self.source, "routes": self.routes,
            "settle": self.settle, "send": self.of_host, "tick": self.of_host, "raw": self.of_host,
            "deliver": self.of_frame, "lose": self.of_frame, "repeat": self.of_frame}

    def line(self, line: Line) -> None:
        """Takes one line."""
        words = line.text.split()
        in_events = self.intent.events_line > 0
        known = self.event_lines if in_events else self.network_lines
        take = known.get(words[0])
        if take is None:
            raise Fault(line.number, self.unknown(line.text, words[0], in_events))
        take(line, words)

    def unknown(self, text: str, word: str, in_events: bool) -> str:
        """Why a first word says nothing here."""
        if text == LOOP_END:
            return f"BadWord: no loop is open that '{LOOP_END}' could end"
        if word in (self.network_lines if in_events else self.event_lines):
            where = "in front of" if in_events else "behind"
            return f"BadWord: '{word}' stands {where} the line 'events'"
        near = difflib.get_close_matches(word, EVENT_WORDS if in_events else NETWORK_WORDS, 1)
        return f"BadWord: no line begins with '{word}'" + (f"; did you mean '{near[0]}'?" if near else "")

    def frames(self, line: Line, words: list[str]) -> None:
        count(line, words, 1, "frames")
        self.intent.frames_line = line.number

    def host(self, line: Line, words: list[str]) -> None:
        if len(words) < 2 or len(words) % 2 or any(word != "without" for word in words[2::2]):
            raise Fault(line.number, "BadWord: a host is 'host NUMBER' or 'host NAME', and then 'without PACKAGE'")
        network = self.intent.network
        if NAME_OF_HOST.fullmatch(words[1]):
            number = network.next_number()
            if words[1] in network.names:
                raise Fault(line.number, f"TwiceNamed: host {network.names[words[1]]} has the name {words[1]} already")
            network.name(line.number, words[1], number)
        else:
            number = whole(line, words[1], 0, 2**32 - 1)
        network.add_host(line.number, number, words[3::2])

    def name(self, line: Line, words: list[str]) -> None:
        count(line, words, 3, "name HOST NAME")
        if not NAME_OF_HOST.fullmatch(words[2]):
            raise Fault(line.number, f"BadWord: the name {words[2]} has other signs than letters, digits and _")
        self.intent.network.name(line.number, words[2], self.intent.network.host(line.number, words[1]))

    def link(self, line: Line, words: list[str]) -> None:
        network = self.intent.network
        if len(words) == 3:
            network.link(line.number, network.host(line.number, words[1]), network.host(line.number, words[2]))
            return
        count(line, words, 5, "link HOST DEVICE HOST DEVICE' or 'link HOST HOST")
        devices = whole(line, words[2], 1, 8), whole(line, words[4], 1, 8)
        network.link(line.number, network.host(line.number, words[1]), network.host(line.number, words[3]), devices)

    def shape(self, line: Line, words: list[str]) -> None:
        topology.add(self.intent.network, line.number, words, self.folder)

    def program(self, line: Line, words: list[str]) -> None:
        if line.program is not None:
            self.add_program(line, words[1], line.program)
            return
        count(line, words, 3, "program NAME' with a text below it, or 'program NAME FILE")
        path = self.folder / words[2]
        try:
            text = path.read_bytes().decode("utf-8")
        except (OSError, UnicodeDecodeError) as fault:
            raise Fault(line.number, f"read fault: no text in UTF-8 is read from {path}") from fault
        if "\nend program\n" in "\n" + text:
            raise Fault(line.number, f"BadArgument: {path} has a line 'end program', which would end it in a schedule")
        self.add_program(line, words[1], text if text.endswith("\n") or not text else text + "\n")

    def add_program(self, line: Line, name: str, text: str) -> None:
        for program in self.intent.programs:
            if program.name == name:
                raise Fault(line.number, f"TwiceNamed: line {program.line} has a program {name} already")
        self.intent.programs.append(Program(name, text, line.number))

    def events(self, line: Line, words: list[str]) -> None:
        count(line, words, 1, "events")
        self.intent.events_line = line.number

    def inject(self, line: Line, words: list[str]) -> None:
        self.intent.statements.append(self.injection(line, line.text.split(None, 5)[1:]))

    def injection(self, line: Line, words: list[str]) -> Injection:
        """What is injected, from HOST PROGRAM ENTRY BOUND and the rest of the line."""
        if len(words) != 5:
            raise Fault(line.number, f"BadWord: an injection is 'inject {INJECTION}', as 'inject 1 p f 5 ()'")
        if all(program.name != words[1] for program in self.intent.programs):
            raise Fault(line.number, f"UnknownProgram: no line above makes a program {words[1]}")
        host = self.intent.network.host(line.number, words[0])
        return Injection(line.number, host, words[1], words[2], words[3], self.with_numbers(line, words[4]))

    def with_numbers(self, line: Line, arguments: str) -> str:
        """The arguments with @NAME written as the number of that host."""
        def numbered(found: re.Match[str]) -> str:
            name: Optional[str] = found.group(1)
            return found.group(0) if name is None else f"@{self.intent.network.host(line.number, name)}"
        return PIECE.sub(numbered, arguments)

    def source(self, line: Line, words: list[str]) -> None:
        """`[every R] [for N] at HOST inject PROGRAM ENTRY BOUND ARGUMENTS`."""
        every, times, rest = 0, 1, line.text
        for word in ("every", "for"):
            if rest.split(None, 1)[0] == word:
                parts = rest.split(None, 2)
                if len(parts) < 3:
                    raise Fault(line.number, f"BadWord: '{word} NUMBER' stands in front of 'at HOST inject ..'")
                number = whole(line, parts[1], 1, EVENTS_MAX)
                every, times = (number, times) if word == "every" else (every, number)
                rest = parts[2]
        parts = rest.split(None, 6)
        if len(parts) != 7 or parts[0] != "at" or parts[2] != "inject":
            raise Fault(line.number, f"BadWord: write '{SOURCE}'")
        injection = self.injection(line, [parts[1], *parts[3:]])
        if words[0] == "every" and "for" not in line.text.split(" at ")[0].split():
            raise Fault(line.number, "BadWord: 'every ROUNDS' needs 'for TIMES' behind it, else it would never end")
        if every:
            self.open_source = line.number
            self.intent.statements.append(Source(line.number, every, times, injection))
        else:
            self.intent.statements.extend([injection] * times)

    def routes(self, line: Line, words: list[str]) -> None:
        if len(words) > 2:
            raise Fault(line.number, "BadWord: write 'routes ROUNDS', or 'routes' for the links of the longest way")
        rounds = whole(line, words[1], 1, EVENTS_MAX) if len(words) == 2 else max(1, self.intent.network.longest_way())
        self.intent.statements.append(Routes(line.number, rounds))

    def settle(self, line: Line, words: list[str]) -> None:
        self.open_source = None
        self.intent.statements.append(settle_of(line, words, self.intent.version))

    def of_host(self, line: Line, words: list[str]) -> None:
        form = OF_HOST[words[0]]
        count(line, words, len(form.split()), form)
        words[1] = str(self.intent.network.host(line.number, words[1]))
        self.intent.statements.append(Plain(line.number, " ".join(words)))

    def of_frame(self, line: Line, words: list[str]) -> None:
        count(line, words, 2, f"{words[0]} FRAME")
        if words[0] == "repeat" and self.intent.version == 1:
            raise Fault(line.number, "BadWord: only frames of version 2 are repeated: begin with 'planet scenario 2'")
        self.intent.statements.append(Plain(line.number, " ".join(words)))


def count(line: Line, words: list[str], wanted: int, form: str) -> None:
    """Refuses a line with another number of words."""
    if len(words) != wanted:
        raise Fault(line.number, f"BadWord: write '{form}'")


def whole(line: Line, word: str, least: int, most: int) -> int:
    """A number in its range, without leading zeros."""
    if not (word.isascii() and word.isdigit() and word == str(int(word)) and least <= int(word) <= most):
        raise Fault(line.number, f"BadNumber: {word} is no number from {least} to {most:,}")
    return int(word)


def settle_of(line: Line, words: list[str], version: int) -> Settle:
    """`settle [lose P%] [repeat P%] [reorder] [seed S] [within EVENTS]`, in any order."""
    said: dict[str, str] = {}
    rest = words[1:]
    while rest:
        word = rest.pop(0)
        is_known = word in ("lose", "repeat", "reorder", "seed", "within") and word not in said
        if not is_known or (word != "reorder" and not rest):
            raise Fault(line.number, f"BadWord: '{word}' can't stand there: write '{SETTLE}'")
        said[word] = "yes" if word == "reorder" else rest.pop(0)
    shares = {}
    for word in ("lose", "repeat"):
        found = PERCENT.fullmatch(said.get(word, "0%"))
        if not found or float(found.group(1)) > 100:
            raise Fault(line.number, f"BadNumber: {said[word]} is no share from 0% to 100%")
        shares[word] = float(found.group(1))
    if shares["repeat"] and version == 1:
        raise Fault(line.number, "BadWord: only frames of version 2 are repeated: begin with 'planet scenario 2'")
    within = whole(line, said.get("within", str(EVENTS_MAX)), 1, EVENTS_MAX)
    return Settle(line.number, shares["lose"], shares["repeat"], "reorder" in said, said.get("seed", "0"), within)


def read(path: Path, given: Mapping[str, str]) -> Intent:
    """Reads a scenario's file, with the values that are given in place of those which it sets."""
    try:
        held = path.read_bytes()
    except OSError as fault:
        raise Fault(0, f"read fault: {fault.strerror}") from fault
    if len(held) > FILE_MAX:
        raise Fault(0, f"TooLong: a scenario has at most {FILE_MAX:,} bytes")
    try:
        lines = held.decode("utf-8").split("\n")
    except UnicodeDecodeError as fault:
        raise Fault(held[:fault.start].count(b"\n") + 1, "BadChar: the line is no text in UTF-8") from fault
    header = HEADER.fullmatch(lines[0])
    if not header:
        raise Fault(1, "BadHeader: the first line is 'planet scenario 1' or 'planet scenario 2'")
    reader = Reader(path.parent, int(header.group(1)))
    for line in Unrolled(lines, dict(given)).walk():
        reader.line(line)
    if not reader.intent.events_line:
        raise Fault(len(lines), "BadWord: no line 'events' ends the network")
    if reader.open_source is not None:
        raise Fault(reader.open_source, "BadWord: no 'settle' behind this line gives it rounds")
    return reader.intent
