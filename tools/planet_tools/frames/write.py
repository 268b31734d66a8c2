"""Writes trees as bytes. Limits aren't looked at, so that frames which no node takes can be written too."""
from __future__ import annotations

import struct
from typing import Callable, Dict, Iterable, Sequence

from planet_tools.frames.trees import (
    BASE_TYPES, EXPRESSION, LETTERS, LIST_TYPE, OPERATORS, TAGS, TUPLE_TYPE, VALUE, Chunk, Clause, Expr, Function, Part,
    Program, Service, Type, Value,
)


def number(value: int, count: int) -> bytes:
    """A number in so many bytes."""
    return value.to_bytes(count, "big")


def name_bytes(word: str) -> bytes:
    """A name."""
    held = word.encode("utf-8")
    return number(len(held), 1) + held


def counted(items: Sequence[bytes], count: int = 1) -> bytes:
    """Items behind their number."""
    return number(len(items), count) + b"".join(items)


def type_bytes(kind: Type) -> bytes:
    """A type."""
    if kind.form == "list":
        return bytes([LIST_TYPE]) + type_bytes(kind.parts[0])
    if kind.form == "tuple":
        return bytes([TUPLE_TYPE]) + counted(list(map(type_bytes, kind.parts)))
    return bytes([BASE_TYPES.index(kind.form)])


def literal_bytes(form: str, held: object) -> bytes:
    """What stands behind a literal's tag."""
    if isinstance(held, str):
        text = held.encode("utf-8")
        return number(len(text), 2) + text
    if isinstance(held, bytes):
        return number(len(held), 2) + held
    if held is None:
        return b""
    assert isinstance(held, int)
    if form == "int":
        return struct.pack(">q", held)
    return number(held, 1 if form == "bool" else 4)


def value_bytes(value: Value) -> bytes:
    """A value, with its tag."""
    held = value.held
    if isinstance(held, Chunk):
        return bytes([VALUE + BASE_TYPES.index("chunk")]) + chunk_bytes(held)
    if not isinstance(held, tuple):
        return bytes([VALUE + BASE_TYPES.index(value.form)]) + literal_bytes(value.form, held)
    items = list(map(value_bytes, held))
    if value.form == "tuple":
        return bytes([VALUE + TUPLE_TYPE]) + counted(items)
    return bytes([VALUE + LIST_TYPE]) + type_bytes(value.element or Type("unit")) + counted(items, 2)


def clause_bytes(clause: Clause) -> bytes:
    """A clause of a try."""
    return (b"\x00" if clause[0] is None else b"\x01" + name_bytes(clause[0])) + expression_bytes(clause[1])


# of the letters of a form: what writes a part
WRITERS: Dict[str, Callable[[Part], bytes]] = {
    "n": lambda part: name_bytes(str(part)),
    "t": lambda part: type_bytes(part),  # type: ignore[arg-type]
    "l": lambda part: type_bytes(part),  # type: ignore[arg-type]
    "e": lambda part: expression_bytes(part),  # type: ignore[arg-type]
    "A": lambda part: counted([expression_bytes(it) for it in part]),  # type: ignore
    "P": lambda part: counted([expression_bytes(it) for it in part]),  # type: ignore
    "C": lambda part: counted([clause_bytes(it) for it in part]),  # type: ignore
    "o": lambda part: bytes([OPERATORS.index(str(part))]),
    "p": lambda part: number(int(part), 1),  # type: ignore[arg-type]
}


def expression_bytes(expression: Expr) -> bytes:
    """An expression, with its tag."""
    form, parts = expression.form, expression.parts
    if form in LETTERS:
        return bytes([TAGS[form]]) + b"".join(WRITERS[letter](part) for letter, part in zip(LETTERS[form], parts))
    return bytes([EXPRESSION + BASE_TYPES.index(form)]) + literal_bytes(form, parts[0] if parts else None)


def service_bytes(it: Service) -> bytes:
    """A declared service."""
    return name_bytes(it.name) + counted(list(map(type_bytes, it.parameters))) + type_bytes(it.result)


def function_bytes(it: Function) -> bytes:
    """A function."""
    parameters = counted([name_bytes(name) + type_bytes(kind) for name, kind in it.parameters])
    return name_bytes(it.name) + parameters + type_bytes(it.result) + expression_bytes(it.body)


def services_bytes(services: Iterable[Service]) -> bytes:
    """The services of a program."""
    return counted(list(map(service_bytes, services)))


def exceptions_bytes(exceptions: Iterable[str]) -> bytes:
    """Its exceptions."""
    return counted(list(map(name_bytes, exceptions)))


def functions_bytes(functions: Iterable[Function]) -> bytes:
    """Its functions."""
    return counted(list(map(function_bytes, functions)))


def program_bytes(it: Program) -> bytes:
    """A program."""
    return services_bytes(it.services) + exceptions_bytes(it.exceptions) + functions_bytes(it.functions)


def arguments_bytes(arguments: Iterable[Value]) -> bytes:
    """The arguments of a chunk."""
    return counted(list(map(value_bytes, arguments)))


def chunk_bytes(chunk: Chunk) -> bytes:
    """A chunk, without a tag."""
    return program_bytes(chunk.program) + name_bytes(chunk.entry) + arguments_bytes(chunk.arguments)
