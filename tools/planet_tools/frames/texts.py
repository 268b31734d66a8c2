"""Prints trees as `planet show` does."""
from __future__ import annotations

from typing import Dict, Optional

from planet_tools.frames.trees import (
    Advert, Ask, Chunk, Clause, Expr, Frame, Function, Packet, Part, Program, Service, Stamp, Type, Value,
)
from planet_tools.frames.write import chunk_bytes

# how each form is printed; {0} is its first part
PRINTED = {
    "empty": "[:{0}]", "variable": "{0}", "tuple": "({0})", "call": "{0}({1})", "if": "(if {0} then {1} else {2})",
    "let": "let val {0} : {1} = {2} in {3} end", "then": "({0}; {1})", "and": "({0} and {1})", "or": "({0} or {1})",
    "not": "(not {0})", "operator": "({1} {0} {2})", "part": "(#{0} {1})", "raise": "raise[:{1}] {0}",
    "try": "try {0} handle {1} end", "foldl": "foldl({0}, {1}, {2})", "foldr": "foldr({0}, {1}, {2})",
    "chunk": "|{0}|({1})", "eval": "eval({0})", "OnRemote": "OnRemote({0}, {1}, {2}, {3})",
    "OnNeighbor": "OnNeighbor({0}, {1}, {2}, {3})",
}
ESCAPES: Dict[str, str] = {"\n": "\\n", "\t": "\\t", "\r": "\\r", "\\": "\\\\"}


def type_text(kind: Type) -> str:
    """A type."""
    if kind.form == "list":
        return type_text(kind.parts[0]) + " list"
    if kind.form == "tuple":
        return "(" + " * ".join(map(type_text, kind.parts)) + ")"
    return kind.form


def quoted(text: str, quote: str) -> str:
    """A text between quotes of one kind."""
    return quote + "".join(escaped(it, quote) for it in text) + quote


def escaped(char: str, quote: str) -> str:
    """A char inside such quotes."""
    if char == quote:
        return "\\" + quote
    return ESCAPES.get(char) or (f"\\x{ord(char):02x}" if char < " " or char == "\x7f" else char)


def literal_text(form: str, held: object) -> str:
    """A literal, by its form and what it holds."""
    if form == "unit":
        return "()"
    if form == "bool":
        return "true" if held else "false"
    if isinstance(held, str):
        return quoted(held, '"')
    if isinstance(held, bytes):
        return f'#"{held.hex()}"'
    assert isinstance(held, int)
    if form == "char":
        return quoted(chr(held), "'")
    return {"int": "", "host": "@", "dev": "%"}[form] + str(held).replace("-", "~")


def value_text(value: Value) -> str:
    """A value; a chunk shows its entry and its weight alone."""
    held = value.held
    if isinstance(held, Chunk):
        return f"<chunk {held.entry} {len(chunk_bytes(held)) + 1}>"
    if not isinstance(held, tuple):
        return literal_text(value.form, held)
    inner = ", ".join(map(value_text, held))
    if value.form == "tuple":
        return f"({inner})"
    return f"[{inner}]" if held else f"[:{type_text(value.element or Type('unit'))}]"


def clause_text(clause: Clause) -> str:
    """A clause of a try."""
    return f"{clause[0] or '_'} => {expression_text(clause[1])}"


def part_text(form: str, part: Part) -> str:
    """A part of an expression of this form."""
    if isinstance(part, Expr):
        return expression_text(part)
    if isinstance(part, Type):
        return type_text(part)
    if isinstance(part, tuple):
        if form == "try":
            return " | ".join(clause_text(it) for it in part)  # type: ignore[arg-type]
        return ", ".join(expression_text(it) for it in part)  # type: ignore[arg-type]
    return str(part)


def expression_text(expression: Expr) -> str:
    """An expression."""
    form = expression.form
    if form not in PRINTED:
        return literal_text(form, expression.parts[0])
    return PRINTED[form].format(*(part_text(form, part) for part in expression.parts))


def service_text(it: Service) -> str:
    """A declared service."""
    return f"svc {it.name} : ({', '.join(map(type_text, it.parameters))}) -> {type_text(it.result)}"


def function_text(it: Function) -> str:
    """A function."""
    parameters = ", ".join(f"{name} : {type_text(kind)}" for name, kind in it.parameters)
    return f"fun {it.name}({parameters}) : {type_text(it.result)} = {expression_text(it.body)}"


def program_text(program: Program) -> str:
    """A program, a declaration a line."""
    lines = [*map(service_text, program.services), *(f"exception {it}" for it in program.exceptions)]
    return "".join(f"{line}\n" for line in [*lines, *map(function_text, program.functions)])


def chunk_text(chunk: Chunk) -> str:
    """The call that a chunk stands for, and its program."""
    return f"|{chunk.entry}|({', '.join(map(value_text, chunk.arguments))})\n{program_text(chunk.program)}"


def stamp_text(stamp: Optional[Stamp]) -> str:
    """What the first line says of a stamp."""
    return f" boot {stamp.boot} link {stamp.link}" if stamp else ""


def frame_text(frame: Frame) -> str:
    """What `planet show` writes of a frame."""
    what = frame.what
    if isinstance(what, Packet):
        family = f"packet {what.source}.{what.serial} dest @{what.destination} bound {what.bound} route {what.route}"
        handler = f" handler {what.handler}" if what.handler else ""
        return f"{family}{stamp_text(frame.stamp)}{handler}\n{chunk_text(what.chunk)}"
    if isinstance(what, Ask):
        return f"ask bound {what.bound}\n{chunk_text(what.chunk)}"
    assert isinstance(what, Advert)
    rows = "".join(f"@{host} {cost}\n" for host, cost in what.rows)
    return f"advert @{what.host}{stamp_text(frame.stamp)}\n{rows}"
