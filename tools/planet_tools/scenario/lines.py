"""The lines of a scenario, with its loops unrolled and its values put in. Texts of programs stay as they are."""
from __future__ import annotations

import re
from dataclasses import dataclass, field
from typing import Iterator, Optional

from planet_tools.scenario.faults import Fault
from planet_tools.values import NoValues, values_of

NAME = re.compile(r"[A-Za-z][A-Za-z0-9_]*")
USE = re.compile(r"\$(?:\$|([A-Za-z][A-Za-z0-9_]*)|\{([A-Za-z][A-Za-z0-9_]*)\})?")
LOOP_END = "end for"
PROGRAM_END = "end program"
# more lines than a schedule of 50,000 events needs
MOST_LINES = 200_000


@dataclass
class Line:
    """A line with its values put in; a program's line has its text."""

    number: int
    text: str
    program: Optional[str] = None


@dataclass
class Unrolled:
    """The walk over the lines of a file: which values stand, and which were given from outside."""

    lines: list[str]
    given: dict[str, str]
    values: dict[str, str] = field(default_factory=dict)
    taken: set[str] = field(default_factory=set)
    made: int = 0

    def walk(self) -> Iterator[Line]:
        """All lines that say something, in the order in which they come."""
        yield from self.walk_block(1, len(self.lines))
        for name in self.given:
            if name not in self.taken:
                raise Fault(1, f"no line sets {name}: write 'set {name} VALUE' where the scenario begins")

    def walk_block(self, first: int, behind: int) -> Iterator[Line]:
        """The lines from number first + 1 on, up to the one numbered behind."""
        at = first
        while at < behind:
            at += 1
            text = self.lines[at - 1].strip()
            if not text or text.startswith("#"):
                continue
            self.made += 1
            if self.made > MOST_LINES:
                raise Fault(at, f"TooMany: the loops make more than {MOST_LINES:,} lines")
            words = text.split()
            if words[0] == "program" and len(words) == 2:
                end = self.end_of_program(at)
                yield Line(at, text, "".join(line + "\n" for line in self.lines[at:end - 1]))
                at = end
            elif words[0] == "for" and len(words) > 2 and words[2] == "in":
                end = self.end_of_loop(at, behind)
                yield from self.walk_loop(at, end, self.put_in(at, text).split())
                at = end
            elif words[0] == "set":
                self.set(at, self.put_in(at, text).split())
            else:
                yield Line(at, self.put_in(at, text))

    def walk_loop(self, at: int, end: int, words: list[str]) -> Iterator[Line]:
        """The lines of a loop, once for each of its values."""
        if len(words) != 4 or not NAME.fullmatch(words[1]):
            raise Fault(at, "BadWord: a loop is 'for NAME in VALUES', as 'for x in 1..9' or 'for x in near,far'")
        outer = self.values.get(words[1])
        try:
            values = values_of(words[3])
        except NoValues as no:
            raise Fault(at, f"BadWord: {no}") from no
        for value in values:
            self.values[words[1]] = value
            yield from self.walk_block(at, end - 1)
        del self.values[words[1]]
        if outer is not None:
            self.values[words[1]] = outer

    def set(self, at: int, words: list[str]) -> None:
        """Sets a value, unless one was given from outside."""
        if len(words) != 3 or not NAME.fullmatch(words[1]):
            raise Fault(at, "BadWord: a value is set by 'set NAME VALUE'")
        self.taken.add(words[1])
        self.values[words[1]] = self.given.get(words[1], words[2])

    def put_in(self, at: int, text: str) -> str:
        """The text with each $NAME replaced by its value, and $$ by one sign."""
        def value(found: re.Match[str]) -> str:
            name = found.group(1) or found.group(2)
            if found.group(0) == "$$":
                return "$"
            if name not in self.values:
                raise Fault(at, f"UnknownValue: nothing sets {name or '$'}: 'set NAME VALUE' does, and $$ is one sign")
            return self.values[name]
        return USE.sub(value, text) if "$" in text else text

    def end_of_program(self, at: int) -> int:
        """The number of the line that ends the program which begins at a line."""
        for number in range(at + 1, len(self.lines) + 1):
            if self.lines[number - 1] == PROGRAM_END:
                return number
        raise Fault(at, f"BadWord: no line '{PROGRAM_END}' ends this program")

    def end_of_loop(self, at: int, behind: int) -> int:
        """The number of the line that ends the loop which begins at a line."""
        depth, number = 1, at
        while number < behind:
            number += 1
            words = self.lines[number - 1].split()
            if words[:1] == ["program"] and len(words) == 2:
                number = self.end_of_program(number)
            elif words[:1] == ["for"] and words[2:3] == ["in"]:
                depth += 1
            elif " ".join(words) == LOOP_END:
                depth -= 1
                if depth == 0:
                    return number
        raise Fault(at, f"BadWord: no line '{LOOP_END}' ends this loop")
