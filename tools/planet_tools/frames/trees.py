"""The trees of types, values, expressions, programs, chunks and frames, and their tags."""
from __future__ import annotations

from dataclasses import dataclass
from typing import Dict, Optional, Tuple, Union

BASE_TYPES = ("unit", "bool", "int", "char", "string", "blob", "host", "dev", "chunk")
LIST_TYPE, TUPLE_TYPE = 0x09, 0x0A
# values have the tags of their types behind this one, and expressions those of their literals
VALUE, EXPRESSION = 0x10, 0x20
OPERATORS = ("+", "-", "*", "/", "mod", "^", "=", "<>", "<", "<=", ">", ">=", "::")
RESERVED = frozenset(
    "and blob bool char chunk dev else end eval exception false foldl foldr fun handle host if in int let list mod not "
    "OnNeighbor OnRemote or raise string svc then true try unit val".split()
)
BUILT_IN = frozenset(
    "Overflow DivByZero Empty BadIndex TooLarge NoBound NoService NoRoute NotNeighbor TableFull NotFound".split()
)
DEFAULT_ROUTE = "defaultRoute"
# the forms of expressions behind the literals, with the letters of their parts: n a name, t a type, l a type of items,
# e an expression, A arguments, P parts of a tuple, C clauses, o an operator, p the number of a part
FORMS: Dict[int, Tuple[str, str]] = {
    0x28: ("empty", "l"), 0x29: ("variable", "n"), 0x2A: ("tuple", "P"), 0x2B: ("call", "nA"), 0x2C: ("if", "eee"),
    0x2D: ("let", "ntee"), 0x2E: ("then", "ee"), 0x2F: ("and", "ee"), 0x30: ("or", "ee"), 0x31: ("not", "e"),
    0x32: ("operator", "oee"), 0x33: ("part", "pe"), 0x34: ("raise", "nt"), 0x35: ("try", "eC"),
    0x36: ("foldl", "nee"), 0x37: ("foldr", "nee"), 0x38: ("chunk", "nA"), 0x39: ("eval", "e"),
    0x3A: ("OnRemote", "eeen"), 0x3B: ("OnNeighbor", "eeee"),
}
LETTERS = {form: letters for form, letters in FORMS.values()}
TAGS = {form: tag for tag, (form, _) in FORMS.items()}


@dataclass(frozen=True)
class Type:
    """A type: its form, which is a base type's word, `list` or `tuple`, and its parts."""

    form: str
    parts: Tuple["Type", ...] = ()


UNIT, BOOL, INT, CHAR, STRING, BLOB, HOST, DEV, CHUNK = map(Type, BASE_TYPES)


def list_of(item: Type) -> Type:
    """The type of a list of such items."""
    return Type("list", (item,))


@dataclass(frozen=True)
class Value:
    """A value: its form, a type's, and what it holds: `element` is the type of a list's items.

    unit has nothing, bool a bool, int, host and dev a number, char its scalar, string a str, blob bytes, chunk a Chunk,
    list and tuple their values."""

    form: str
    held: Union[None, bool, int, str, bytes, "Chunk", Tuple["Value", ...]] = None
    element: Optional[Type] = None


# a clause of a try: the exception that it catches, or none for `_`, and its expression
Clause = Tuple[Optional[str], "Expr"]
Part = Union[None, bool, int, str, bytes, Type, "Expr", Tuple["Expr", ...], Tuple[Clause, ...]]


@dataclass(frozen=True)
class Expr:
    """An expression: its form, and its parts by the letters of that; a literal has its value's form and one part."""

    form: str
    parts: Tuple[Part, ...] = ()


@dataclass(frozen=True)
class Service:
    """A declared service."""

    name: str
    parameters: Tuple[Type, ...]
    result: Type


@dataclass(frozen=True)
class Function:
    """A function, with the names and types of its parameters."""

    name: str
    parameters: Tuple[Tuple[str, Type], ...]
    result: Type
    body: Expr

    @property
    def types(self) -> Tuple[Type, ...]:
        """The types of the parameters."""
        return tuple(kind for _, kind in self.parameters)


@dataclass(frozen=True)
class Program:
    """A program's services, exceptions and functions."""

    services: Tuple[Service, ...]
    exceptions: Tuple[str, ...]
    functions: Tuple[Function, ...]


@dataclass(frozen=True)
class Chunk:
    """A program, the name of its entry, and the arguments."""

    program: Program
    entry: str
    arguments: Tuple[Value, ...] = ()


@dataclass(frozen=True)
class Stamp:
    """When the sender began, and the frame's number on the device that sent it."""

    boot: int
    link: int


@dataclass(frozen=True)
class Packet:
    """A packet of either version."""

    source: int
    serial: int
    destination: int
    bound: int
    route: str
    chunk: Chunk
    handler: Optional[str] = None


@dataclass(frozen=True)
class Advert:
    """An advert: its host, and rows of a host and the cost of the route to it."""

    host: int
    rows: Tuple[Tuple[int, int], ...]


@dataclass(frozen=True)
class Ask:
    """An owner's request."""

    bound: int
    chunk: Chunk


@dataclass(frozen=True)
class Frame:
    """A frame, with its stamp under version 2."""

    what: Union[Packet, Advert, Ask]
    stamp: Optional[Stamp] = None
