"""Moves a network on by rounds: each sends all that is queued, and then delivers all that is on the wire.

What a visit sends is known from the program's trace alone. So rounds are planned ahead by a guess at what packets
will do, and one replay tries them all: they stand up to the first after which the trace has other queues than the
guess. A guess that is wrong costs a replay, and changes nothing of what is made."""
from __future__ import annotations

import random
import sys
import time
from dataclasses import dataclass, field
from typing import Union

from planet_tools.scenario.board import WIRE_MAX, Board, Frame
from planet_tools.scenario.faults import Fault
from planet_tools.scenario.guess import Guess
from planet_tools.scenario.intent import Injection, Intent, Plain, Routes, Settle, Source
from planet_tools.scenario.network import End
from planet_tools.scenario.reading import Reading
from planet_tools.scenario.schedule import EVENTS_MAX, Replays, Schedule, begun

# bytes of a trace beyond which replays go on without the bytes of frames, and so without a guess
TRACE_MAX = 64 * 2**20
AHEAD_LEAST, AHEAD_MOST = 8, 512
TELL_AFTER = 1.0
Counts = tuple[frozenset[tuple[End, int]], frozenset[int]]


@dataclass
class Round:
    """A round's number, its events with their lines, and what the guess says that moves behind it."""

    number: int
    events: list[tuple[str, int]] = field(default_factory=list)
    counts: Counts = (frozenset(), frozenset())


@dataclass(frozen=True)
class Step:
    """Something of a scenario with the rounds that it took, or an injection with the round of its `settle`."""

    what: Union[Injection, Routes, Settle]
    rounds: int


class Made:
    """A scenario as far as it was made: its schedule, and what moves at its end."""

    def __init__(self, intent: Intent, planet: str) -> None:
        self.intent = intent
        self.schedule: Schedule = begun(intent)
        self.replays = Replays(planet, intent.events_line)
        self.board = Board(intent.network.other_end)
        self.guess = Guess(intent.network.ways())
        self.steps: list[Step] = []
        self.sources: list[Source] = []
        self.read_events = 0
        self.read_bytes = 0
        self.sees_frames = True
        self.begun_at = time.monotonic()

    def make(self) -> bytes:
        """Makes all statements, and answers the trace of the whole."""
        for statement in self.intent.statements:
            if isinstance(statement, Routes):
                self.routes(statement)
            elif isinstance(statement, Settle):
                self.settle(statement)
            elif isinstance(statement, Source):
                self.sources.append(statement)
            elif isinstance(statement, Plain):
                self.schedule.add(statement.text, statement.line)
            else:
                self.schedule.add(statement.event(), statement.line)
                self.steps.append(Step(statement, 0))
        return self.replays.trace(self.schedule, self.schedule.shows_frames)

    def routes(self, statement: Routes) -> None:
        """Rounds in which each host ticks first, and nothing is lost."""
        self.catch_up()
        done = 0
        while done < statement.rounds:
            board, planned = self.board.copy(), []
            for number in range(done, min(statement.rounds, done + AHEAD_MOST)):
                planned.append(self.round_of_ticks(board, number, statement))
            done += self.try_rounds(planned)
        self.steps.append(Step(statement, statement.rounds))

    def round_of_ticks(self, board: Board, number: int, statement: Routes) -> Round:
        """Plans a round in which each host ticks."""
        planned = Round(number)
        for host in self.intent.network.without:
            planned.events.append((f"tick {host}", statement.line))
            for device, _ in self.intent.network.neighbours(host):
                board.push((host, device), Frame(True))
        self.move(board, planned, Settle(statement.line))
        return planned

    def settle(self, statement: Settle) -> None:
        """Rounds until nothing moves and each source has injected all that it should."""
        self.catch_up()
        last = min(len(self.schedule.events) + statement.within, EVENTS_MAX)
        done, ahead = 0, AHEAD_LEAST
        while True:
            planned = self.plan(statement, done, ahead)
            if not planned:
                break
            room = last - len(self.schedule.events)
            fitting = fit(planned, room)
            if not fitting:
                raise Fault(statement.line, f"TooMany: settle doesn't end within {statement.within:,} events, and "
                            f"{EVENTS_MAX:,} of all: behind {done:,} rounds {self.board.moving():,} frames still move")
            stood = self.try_rounds(fitting)
            done = fitting[stood - 1].number + 1
            ahead = min(ahead * 4, AHEAD_MOST) if stood == len(planned) else AHEAD_LEAST
        for source in self.sources:
            self.steps.extend(Step(source.injection, turn * source.every) for turn in range(source.times))
        self.sources = []
        self.steps.append(Step(statement, done))

    def plan(self, statement: Settle, done: int, ahead: int) -> list[Round]:
        """The next rounds as the guess has them, so many at most."""
        board, number = self.board.copy(), done
        planned: list[Round] = []
        while len(planned) < ahead:
            if not board.moving():
                due = [turn for turn in map(lambda source: next_turn(source, number), self.sources) if turn >= 0]
                if not due:
                    break
                number = min(due)
            each = Round(number)
            self.move(board, each, statement)
            planned.append(each)
            number += 1
        return planned

    def move(self, board: Board, planned: Round, statement: Settle) -> None:
        """Plans the sends, the deliveries and the injections of a round."""
        for end in sorted(board.queues):
            for _ in range(min(len(board.queues[end]), WIRE_MAX - len(board.wire))):
                planned.events.append((f"send {end[0]} {end[1]}", statement.line))
                board.send(end)
        arrived = set()
        for word, number in deliveries(sorted(board.wire), statement, planned.number):
            planned.events.append((f"{word} {number}", statement.line))
            frame, end = board.wire[number] if word == "repeat" else board.wire.pop(number)
            if word != "lose" and number not in arrived:
                for device, sent in self.guess.of_arrival(end, frame):
                    board.push((end[0], device), sent)
            arrived.add(number)
        for source in self.sources:
            if next_turn(source, planned.number) == planned.number:
                event = source.injection.event()
                planned.events.append((event, source.line))
                for device, sent in self.guess.injections.guess(event):
                    board.push((source.injection.host, device), sent)
        planned.counts = board.counts()

    def catch_up(self) -> None:
        """Reads what the events did that were added since the trace was read."""
        if self.read_events < len(self.schedule.events):
            self.try_rounds([])

    def try_rounds(self, rounds: list[Round]) -> int:
        """Adds the events of these rounds as far as they come as planned, and answers how many did."""
        bounds = [len(self.schedule.events)]
        for planned in rounds:
            for text, line in planned.events:
                self.schedule.add(text, line)
            bounds.append(len(self.schedule.events))
        trace = self.replays.trace(self.schedule, self.sees_frames)
        stood = self.read(trace, bounds, rounds)
        del self.schedule.events[bounds[stood]:]
        del self.schedule.event_lines[bounds[stood]:]
        if self.sees_frames and len(trace) > TRACE_MAX:
            self.sees_frames, self.read_bytes = False, 0
        if time.monotonic() - self.begun_at > TELL_AFTER and sys.stderr.isatty():
            print(f"\rscenario: {len(self.schedule.events):,} events ", end="", file=sys.stderr, flush=True)
        return stood

    def read(self, trace: bytes, bounds: list[int], rounds: list[Round]) -> int:
        """Moves the board along a trace up to the first round that came otherwise; answers how many rounds stand."""
        reading = Reading(self.board, self.guess, self.schedule.events)
        at, number, stood = self.read_bytes, self.read_events, 0
        while True:
            behind = trace.index(b"\n", at)
            words = trace[at:behind].split(b" ")
            event = int(words[0]) if words[0].isdigit() else (0 if words[0] == b"planet" else -1)
            if event != number and number > self.read_events:
                reading.event_ends(number)
                while stood < len(rounds) and bounds[stood + 1] == number:
                    stood += 1
                    if self.board.counts() != rounds[stood - 1].counts:
                        event = -1
            if event < 0:
                break
            if event > self.read_events:
                reading.line(words)
                number = event
            at = behind + 1
        self.read_events, self.read_bytes = number, at
        return stood


def next_turn(source: Source, number: int) -> int:
    """The first round from a number on in which a source injects, or -1."""
    turn = -(-number // source.every)
    return turn * source.every if turn < source.times else -1


def fit(planned: list[Round], room: int) -> list[Round]:
    """The first of these rounds that have room."""
    for place, each in enumerate(planned):
        room -= len(each.events)
        if room < 0:
            return planned[:place]
    return planned


def deliveries(numbers: list[int], statement: Settle, number: int) -> list[tuple[str, int]]:
    """What becomes of the frames on the wire: by the seed and the round alone, so that each plan has the same."""
    if not (statement.lose or statement.repeat or statement.reorder):
        return [("deliver", frame) for frame in numbers]
    chance = random.Random(f"{statement.seed} {number}")
    if statement.reorder:
        chance.shuffle(numbers)
    steps: list[tuple[str, int]] = []
    for frame in numbers:
        if chance.random() * 100 < statement.lose:
            steps.append(("lose", frame))
        elif chance.random() * 100 < statement.repeat:
            steps.insert(chance.randint(0, len(steps)) if statement.reorder else len(steps), ("repeat", frame))
            steps.append(("deliver", frame))
        else:
            steps.append(("deliver", frame))
    return steps
