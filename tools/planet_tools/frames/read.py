"""Reads bytes as a node does: fields from the left, and the first that is wrong is the fault, with its place."""
from __future__ import annotations

import re
import struct
from typing import Callable, Dict, List, Optional, Tuple, TypeVar

from planet_tools.frames.trees import (
    BASE_TYPES, EXPRESSION, FORMS, LIST_TYPE, OPERATORS, RESERVED, TUPLE_TYPE, VALUE, Advert, Ask, Chunk, Clause, Expr,
    Frame, Function, Packet, Part, Program, Service, Stamp, Type, Value,
)

MAGIC = b"PLAN"
# the bytes of a head: the magic, the version and the kind; under version 2 with the stamp behind them
HEAD, STAMPED_HEAD = 6, 22
FRAME_MAX, CODE_MAX, WEIGHT_MAX, BOUND_MAX, COST_MAX = 16_512, 16_000, 16_384, 65_535, 65_535
NAME_MAX, ROWS_MAX, NODES_MAX, DEPTH_MAX, TYPE_MAX, VALUE_MAX, NESTING_MAX = 32, 32, 4_096, 64, 8, 8, 4
WORD = re.compile(rb"[A-Za-z][A-Za-z0-9_]*")
PACKET, ADVERT, ASK, HANDLED = 1, 2, 3, 4
# the kinds of frames of each version
KINDS = {1: (PACKET, ADVERT, ASK), 2: (PACKET, ADVERT, HANDLED)}
SCALAR_MAX, SURROGATES = 0x10FFFF, range(0xD800, 0xE000)
LITERALS = len(BASE_TYPES) - 1
T = TypeVar("T")


class Fault(Exception):
    """Why bytes are no frame, in the words of `planet show`, and the byte where they aren't any more."""

    def __init__(self, name: str, at: Optional[int] = None, says_place: bool = True) -> None:
        super().__init__(f"{name} {at}" if says_place and at is not None else name)
        self.name, self.at = name, at


class Reader:
    """All bytes, how many of them were read, the expressions of the program so far, and the chunks about this place."""

    def __init__(self, held: bytes, at: int = 0, inside: int = 0) -> None:
        self.held, self.at, self.inside, self.nodes = held, at, inside, 0

    # ---- fields

    def take(self, count: int) -> bytes:
        """The next bytes."""
        end = self.at + count
        if end > len(self.held):
            raise Fault("Truncated", self.at)
        taken, self.at = self.held[self.at:end], end
        return taken

    def number(self, count: int) -> int:
        """A number of so many bytes."""
        return int.from_bytes(self.take(count), "big")

    def name(self) -> str:
        """A name."""
        at, length = self.at, self.number(1)
        if not 1 <= length <= NAME_MAX:
            raise Fault("BadName", at)
        word = self.take(length)
        if not WORD.fullmatch(word) or word.decode() in RESERVED:
            raise Fault("BadName", at)
        return word.decode()

    def count(self, least: int, most: int, what: str) -> int:
        """A count in one byte."""
        at, count = self.at, self.number(1)
        if count < least:
            raise Fault("BadTag", at)
        if count > most:
            raise Fault(f"OverLimit {what}", at)
        return count

    def many(self, count: int, one: Callable[[], T]) -> Tuple[T, ...]:
        """So many of them."""
        return tuple(one() for _ in range(count))

    def type(self, depth: int = 1) -> Type:
        """A type that stands at this depth."""
        at, tag = self.at, self.number(1)
        if tag > TUPLE_TYPE:
            raise Fault("BadTag", at)
        if depth > TYPE_MAX:
            raise Fault("OverLimit type", at)
        if tag < LIST_TYPE:
            return Type(BASE_TYPES[tag])
        if tag == LIST_TYPE:
            return Type("list", (self.type(depth + 1),))
        return Type("tuple", self.many(self.count(2, 8, "parts"), lambda: self.type(depth + 1)))

    # ---- literals, which values and expressions share

    def truth(self) -> bool:
        """A truth value."""
        at, value = self.at, self.number(1)
        if value > 1:
            raise Fault("BadTag", at)
        return value == 1

    def integer(self) -> int:
        """An int in two's complement."""
        value: int = struct.unpack(">q", self.take(8))[0]
        return value

    def char(self) -> int:
        """A Unicode scalar."""
        at, value = self.at, self.number(4)
        if value > SCALAR_MAX or value in SURROGATES:
            raise Fault("BadUtf8", at)
        return value

    def text(self) -> str:
        """A text."""
        length, at = self.number(2), self.at
        try:
            return self.take(length).decode("utf-8")
        except UnicodeDecodeError:
            raise Fault("BadUtf8", at) from None

    def blob(self) -> bytes:
        """A blob."""
        return self.take(self.number(2))

    def place(self) -> int:
        """A host or a device."""
        return self.number(4)

    def literal(self, form: str) -> Part:
        """What stands behind the tag of a literal."""
        return LITERAL_READERS[form](self) if form != "unit" else None

    # ---- expressions and programs

    def expression(self, depth: int = 0) -> Expr:
        """An expression below so many others."""
        at, tag = self.at, self.number(1)
        is_literal = EXPRESSION <= tag < EXPRESSION + LITERALS
        if not is_literal and tag not in FORMS:
            raise Fault("BadTag", at)
        self.nodes += 1
        if self.nodes > NODES_MAX:
            raise Fault("OverLimit nodes", at)
        if depth >= DEPTH_MAX:
            raise Fault("OverLimit depth", at)
        if is_literal:
            form = BASE_TYPES[tag - EXPRESSION]
            return Expr(form, (self.literal(form),))
        form, letters = FORMS[tag]
        return Expr(form, tuple(self.part(letter, depth + 1) for letter in letters))

    def part(self, letter: str, depth: int) -> Part:
        """A part of an expression, by its letter."""
        if letter == "e":
            return self.expression(depth)
        if letter == "n":
            return self.name()
        if letter in "tl":
            return self.type(1 if letter == "t" else 2)
        if letter in "AP":
            count = self.count(0, 8, "arguments") if letter == "A" else self.count(2, 8, "parts")
            return self.many(count, lambda: self.expression(depth))
        if letter == "C":
            return self.clauses(depth)
        return self.operator() if letter == "o" else self.count(1, 8, "parts")

    def operator(self) -> str:
        """An operator."""
        at, value = self.at, self.number(1)
        if value >= len(OPERATORS):
            raise Fault("BadTag", at)
        return OPERATORS[value]

    def clauses(self, depth: int) -> Tuple[Clause, ...]:
        """The clauses of a try, of which only the last one may catch all."""
        count = self.count(1, 8, "clauses")
        found: List[Clause] = []
        while len(found) < count:
            at, tag = self.at, self.number(1)
            if tag > 1 or tag == 0 and len(found) < count - 1:
                raise Fault("BadTag", at)
            name = self.name() if tag == 1 else None
            found.append((name, self.expression(depth)))
        return tuple(found)

    def service(self) -> Service:
        """A declared service."""
        return Service(self.name(), self.many(self.count(0, 8, "parameters"), self.type), self.type())

    def function(self) -> Function:
        """A function."""
        name = self.name()
        parameters = self.many(self.count(0, 8, "parameters"), lambda: (self.name(), self.type()))
        return Function(name, parameters, self.type(), self.expression())

    def services(self) -> Tuple[Service, ...]:
        """The services of a program."""
        return self.many(self.count(0, 64, "services"), self.service)

    def exceptions(self) -> Tuple[str, ...]:
        """Its exceptions."""
        return self.many(self.count(0, 64, "exceptions"), self.name)

    def functions(self) -> Tuple[Function, ...]:
        """Its functions."""
        self.nodes = 0
        return self.many(self.count(1, 64, "functions"), self.function)

    def program(self) -> Program:
        """A program."""
        first = self.at
        program = Program(self.services(), self.exceptions(), self.functions())
        if self.at - first > CODE_MAX:
            raise Fault("OverLimit code", first)
        return program

    # ---- chunks and values

    def arguments(self) -> Tuple[Value, ...]:
        """The arguments of a chunk."""
        return self.many(self.count(0, 8, "arguments"), self.value)

    def chunk(self) -> Chunk:
        """A chunk without a tag; with one it weighs a byte more."""
        first = self.at
        chunk = Chunk(self.program(), self.name(), self.arguments())
        if self.inside == 0 and self.at - first + 1 > WEIGHT_MAX:
            raise Fault("OverLimit weight", first)
        return chunk

    def value(self, depth: int = 0) -> Value:
        """A value inside so many lists and tuples."""
        at, tag = self.at, self.number(1)
        if VALUE <= tag < VALUE + LITERALS:
            form = BASE_TYPES[tag - VALUE]
            return Value(form, self.literal(form))  # type: ignore[arg-type]
        if tag == VALUE + LITERALS:
            if self.inside + 1 >= NESTING_MAX:
                raise Fault("OverLimit nesting", at)
            self.inside += 1
            chunk = self.chunk()
            self.inside -= 1
            return Value("chunk", chunk)
        if tag not in (VALUE + LIST_TYPE, VALUE + TUPLE_TYPE):
            raise Fault("BadTag", at)
        if depth >= VALUE_MAX:
            raise Fault("OverLimit depth", at)
        if tag == VALUE + LIST_TYPE:
            element = self.type(2)
            return Value("list", self.many(self.number(2), lambda: self.value(depth + 1)), element)
        return Value("tuple", self.many(self.count(2, 8, "parts"), lambda: self.value(depth + 1)))

    # ---- frames

    def bound(self) -> int:
        """A bound."""
        at, bound = self.at, self.number(4)
        if bound > BOUND_MAX:
            raise Fault("BoundTooLarge", at, False)
        return bound

    def packet(self, has_handler: bool) -> Packet:
        """A packet behind its stamp."""
        source, serial, destination = self.number(4), self.number(8), self.number(4)
        bound, route = self.bound(), self.name()
        handler = self.name() if has_handler else None
        return Packet(source, serial, destination, bound, route, self.chunk(), handler)

    def advert(self) -> Advert:
        """An advert behind its stamp."""
        host, at, count = self.number(4), self.at, self.number(2)
        if count > ROWS_MAX:
            raise Fault("OverLimit hosts", at)
        rows: List[Tuple[int, int]] = []
        while len(rows) < count:
            rows.append(self.row(rows[-1][0] if rows else -1))
        return Advert(host, tuple(rows))

    def row(self, before: int) -> Tuple[int, int]:
        """A row of an advert, whose host is above the one before."""
        at, host = self.at, self.number(4)
        if host <= before:
            raise Fault("BadOrder", at)
        cost_at, cost = self.at, self.number(4)
        if cost > COST_MAX:
            raise Fault("OverLimit cost", cost_at)
        return host, cost

    def frame(self) -> Frame:
        """A frame, up to its last byte."""
        if len(self.held) > FRAME_MAX:
            raise Fault("TooLong", 0, False)
        if self.take(4) != MAGIC:
            raise Fault("BadMagic", 0, False)
        at, version = self.at, self.number(1)
        if version not in KINDS:
            raise Fault("BadVersion", at, False)
        at, kind = self.at, self.number(1)
        if kind not in KINDS[version]:
            raise Fault("BadKind", at, False)
        stamp = Stamp(self.number(8), self.number(8)) if version == 2 else None
        if kind == ADVERT:
            frame = Frame(self.advert(), stamp)
        elif kind == ASK:
            frame = Frame(Ask(self.bound(), self.chunk()), stamp)
        else:
            frame = Frame(self.packet(kind == HANDLED), stamp)
        if self.at < len(self.held):
            raise Fault("Trailing", self.at)
        return frame


# what reads behind the tag of each literal but unit, which has nothing there
LITERAL_READERS: Dict[str, Callable[[Reader], Part]] = {
    "bool": Reader.truth, "int": Reader.integer, "char": Reader.char, "string": Reader.text, "blob": Reader.blob,
    "host": Reader.place, "dev": Reader.place,
}
