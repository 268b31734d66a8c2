"""Judges the types of chunks and handlers, which a node looks at once a frame was read."""
from __future__ import annotations

from dataclasses import dataclass
from typing import Dict, Mapping, Optional, Sequence, Tuple

from planet_tools.frames.read import TYPE_MAX, Fault, Reader
from planet_tools.frames.texts import frame_text
from planet_tools.frames.trees import (
    BLOB, BOOL, BUILT_IN, CHAR, CHUNK, DEV, HOST, INT, STRING, UNIT, Advert, Chunk, Expr, Frame, Function, Packet, Part,
    Program, Service, Type, Value, list_of,
)

Found = Optional[Type]
Types = Tuple[Found, ...]
Scope = Mapping[str, Type]
# primitives with the types of their parameters and of what they give; a list of any type has rules of its own
PRIMITIVES: Dict[str, Tuple[Tuple[Type, ...], Type]] = {
    "intToString": ((INT,), STRING), "hostToString": ((HOST,), STRING), "stringToBlob": ((STRING,), BLOB),
    "blobLength": ((BLOB,), INT), "blobPart": ((BLOB, INT, INT), BLOB),
}
OF_LISTS = ("hd", "tl", "length")
# forms whose parts have these types, and what they give
FIXED: Dict[str, Tuple[Tuple[Type, ...], Type]] = {
    "and": ((BOOL, BOOL), BOOL), "or": ((BOOL, BOOL), BOOL), "not": ((BOOL,), BOOL), "eval": ((CHUNK,), UNIT),
    "OnRemote": ((CHUNK, HOST, INT), UNIT), "OnNeighbor": ((CHUNK, HOST, INT, DEV), UNIT),
}


@dataclass
class Code:
    """The declarations of a program, and its functions that stand before the one that is judged."""

    services: Dict[str, Service]
    exceptions: frozenset[str]
    functions: Dict[str, Function]
    earlier: Dict[str, Function]


def depth_of(kind: Type) -> int:
    """How deep a type is."""
    return 1 + max(map(depth_of, kind.parts), default=0)


def operator_type(sign: str, left: Found, right: Found) -> Found:
    """What an operator gives."""
    if left is None or right is None:
        return None
    if sign == "::":
        return right if right == list_of(left) else None
    if left != right:
        return None
    if sign in ("=", "<>"):
        return BOOL
    if sign in ("<", "<=", ">", ">="):
        return BOOL if left in (INT, CHAR, STRING) else None
    if sign == "^":
        return left if left in (STRING, BLOB) else None
    return INT if left == INT else None


def part_of(whole: Found, place: Part) -> Found:
    """The type of a part of a tuple, counted from 1."""
    if whole is None or whole.form != "tuple" or not isinstance(place, int) or place > len(whole.parts):
        return None
    return whole.parts[place - 1]


class Judge:
    """Finds the types of expressions in a code."""

    def __init__(self, code: Code) -> None:
        self.code = code

    def type(self, it: Expr, scope: Scope) -> Found:
        """The type of an expression, or nothing."""
        found = self.rule(it, scope)
        return found if found is not None and depth_of(found) <= TYPE_MAX else None

    def types(self, parts: Sequence[Part], scope: Scope) -> Types:
        """The types of those parts that are expressions."""
        return tuple(self.type(it, scope) for it in parts if isinstance(it, Expr))

    def rule(self, it: Expr, scope: Scope) -> Found:
        """What the rule of a form gives."""
        form, parts = it.form, it.parts
        if form == "let":
            return self.let(it, scope)
        if form in ("call", "chunk", "tuple", "try"):
            return self.of_list(it, scope)
        types = self.types(parts, scope)
        if form in FIXED:
            return FIXED[form][1] if types == FIXED[form][0] else None
        if form == "variable":
            return scope.get(str(parts[0]))
        if form == "empty":
            return list_of(parts[0]) if isinstance(parts[0], Type) else None
        if form == "if":
            return types[1] if types[0] == BOOL and types[1] == types[2] else None
        if form == "then":
            return types[1] if types[0] == UNIT else None
        if form == "operator":
            return operator_type(str(parts[0]), *types)
        if form == "part":
            return part_of(types[0], parts[0])
        if form == "raise":
            return parts[1] if isinstance(parts[1], Type) and self.is_exception(str(parts[0])) else None
        if form in ("foldl", "foldr"):
            return self.fold(form == "foldl", str(parts[0]), *types)
        return Type(form)

    def is_exception(self, name: str) -> bool:
        """Whether an exception is built in or declared."""
        return name in BUILT_IN or name in self.code.exceptions

    def let(self, it: Expr, scope: Scope) -> Found:
        """A let gives what its body does, where what is bound has its type."""
        name, kind, bound, body = it.parts
        assert isinstance(kind, Type) and isinstance(bound, Expr) and isinstance(body, Expr)
        given, found = self.type(bound, scope), self.type(body, {**scope, str(name): kind})
        return found if given == kind else None

    def of_list(self, it: Expr, scope: Scope) -> Found:
        """Forms with a list of parts."""
        inner = it.parts[-1]
        assert isinstance(inner, tuple)
        if it.form == "try":
            return self.caught(it, scope)
        types = self.types(inner, scope)  # type: ignore[arg-type]
        if it.form == "tuple":
            return None if None in types else Type("tuple", types)  # type: ignore[arg-type]
        name = str(it.parts[0])
        if it.form == "chunk":
            entry = self.code.functions.get(name)
            return CHUNK if entry and types == entry.types else None
        return self.call(name, types)

    def caught(self, it: Expr, scope: Scope) -> Found:
        """A try gives what all of it does, where its clauses name exceptions."""
        body, clauses = it.parts
        assert isinstance(body, Expr) and isinstance(clauses, tuple)
        found = self.type(body, scope)
        for clause in clauses:
            assert isinstance(clause, tuple)
            name, caught = clause
            if name is not None and not self.is_exception(name) or self.type(caught, scope) != found:
                return None
        return found

    def call(self, name: str, types: Types) -> Found:
        """A primitive, a function that stands before, or a service."""
        if name in OF_LISTS:
            kind = types[0] if len(types) == 1 else None
            if kind is None or kind.form != "list":
                return None
            return {"hd": kind.parts[0], "tl": kind, "length": INT}[name]
        if name in PRIMITIVES:
            wanted, result = PRIMITIVES[name]
        elif name in self.code.earlier:
            wanted, result = self.code.earlier[name].types, self.code.earlier[name].result
        elif name in self.code.services:
            wanted, result = self.code.services[name].parameters, self.code.services[name].result
        else:
            return None
        return result if types == wanted else None

    def fold(self, is_left: bool, name: str, start: Found, items: Found) -> Found:
        """A fold gives what it starts with."""
        function = self.code.earlier.get(name)
        if not function or start is None or items is None or items.form != "list":
            return None
        given = (start, items.parts[0]) if is_left else (items.parts[0], start)
        return start if function.types == given and function.result == start else None


def code_of(program: Program) -> Optional[Code]:
    """The declarations of a typed program, or nothing where it isn't one."""
    names = [*PRIMITIVES, *OF_LISTS, *(it.name for it in program.services), *(it.name for it in program.functions)]
    exceptions = [*BUILT_IN, *program.exceptions]
    if len(set(names)) < len(names) or len(set(exceptions)) < len(exceptions):
        return None
    code = Code(
        {it.name: it for it in program.services}, frozenset(program.exceptions),
        {it.name: it for it in program.functions}, {},
    )
    judge = Judge(code)
    for it in program.functions:
        scope = dict(it.parameters)
        if len(scope) < len(it.parameters) or judge.type(it.body, scope) != it.result:
            return None
        code.earlier[it.name] = it
    return code


def value_type(value: Value) -> Found:
    """The type of a value, or nothing where a chunk in it is ill typed, or a list's items have other types."""
    held = value.held
    if isinstance(held, Chunk):
        return CHUNK if ill_of(held) is None else None
    if not isinstance(held, tuple):
        return Type(value.form)
    types = tuple(map(value_type, held))
    if value.form == "tuple":
        return None if None in types else Type("tuple", types)  # type: ignore[arg-type]
    return list_of(value.element) if value.element and all(it == value.element for it in types) else None


def ill_of(chunk: Chunk) -> Optional[str]:
    """What is wrong with the types of a chunk, or nothing."""
    code = code_of(chunk.program)
    if code is None:
        return "Code"
    entry = code.functions.get(chunk.entry)
    if entry is None:
        return "Entry"
    if len(entry.parameters) != len(chunk.arguments):
        return "Count"
    for place, (value, kind) in enumerate(zip(chunk.arguments, entry.types)):
        if value_type(value) != kind:
            return f"Argument {place}"
    return None


def judged(frame: Frame) -> None:
    """Raises what is wrong with the types of a frame."""
    what = frame.what
    if isinstance(what, Advert):
        return
    ill = ill_of(what.chunk)
    if ill is not None:
        raise Fault(f"IllTyped {ill}")
    if isinstance(what, Packet) and what.handler is not None:
        found = [it for it in what.chunk.program.functions if it.name == what.handler]
        if not found or found[0].types != (STRING,) or found[0].result != UNIT:
            raise Fault("IllTyped Handler")


def frame_of(held: bytes) -> Frame:
    """The typed frame that some bytes are, or the first fault."""
    frame = Reader(held).frame()
    judged(frame)
    return frame


def said_of(held: bytes) -> str:
    """What `planet show` says of some bytes: the frame's text, or its first fault without a line feed."""
    try:
        return frame_text(frame_of(held))
    except Fault as fault:
        return str(fault)
