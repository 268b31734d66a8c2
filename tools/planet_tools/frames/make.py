"""Values of Python as values and literals of PLAN."""
from __future__ import annotations

from typing import Dict, Optional, Tuple, Union

from planet_tools.frames.trees import BASE_TYPES, Chunk, Expr, Program, Type, Value

INT_MIN, INT_MAX, NUMBER_MAX = -(1 << 63), (1 << 63) - 1, (1 << 32) - 1


class Host(int):
    """The number of a host."""


class Dev(int):
    """The number of a device."""


class Char(str):
    """One character."""


Native = Union[Value, Chunk, None, bool, int, str, bytes, Host, Dev, Char, list, tuple]  # type: ignore[type-arg]
FORMS: Dict[type, str] = {bool: "bool", int: "int", str: "string", bytes: "blob", Host: "host", Dev: "dev"}


def value_of(it: Native) -> Value:
    """A value: None and () are unit, a list has the type of its first item; other things aren't values."""
    if isinstance(it, Value):
        return it
    if it is None or it == ():
        return Value("unit")
    if isinstance(it, Chunk):
        return Value("chunk", it)
    if isinstance(it, Char):
        if len(it) != 1:
            raise ValueError(f"a char is one character, not {str(it)!r}")
        return Value("char", ord(it))
    if isinstance(it, list):
        if not it:
            raise ValueError("an empty list needs its type, as in empty_list(INT)")
        items = tuple(map(value_of, it))
        return Value("list", items, type_of(items[0]))
    if isinstance(it, tuple):
        return Value("tuple", tuple(map(value_of, it)))
    form = FORMS.get(type(it))
    if form is None:
        raise ValueError(f"{it!r} is no value")
    return Value(form, in_range(form, it))


def in_range(form: str, it: Union[bool, int, str, bytes]) -> Union[bool, int, str, bytes]:
    """What a literal holds, where its bytes have room for it."""
    if isinstance(it, int):
        least, most = (INT_MIN, INT_MAX) if form == "int" else (0, NUMBER_MAX)
        if not least <= it <= most:
            raise ValueError(f"{it} is out of the range of {form}")
        return it if isinstance(it, bool) else int(it)
    if len(it if isinstance(it, bytes) else it.encode("utf-8")) > 0xFFFF:
        raise ValueError(f"a {form} has at most {0xFFFF} bytes")
    return it


def empty_list(element: Type) -> Value:
    """The empty list of this type of items."""
    return Value("list", (), element)


def type_of(value: Value) -> Type:
    """The type of a value; that of its first item decides for a list."""
    if value.form == "list":
        return Type("list", (value.element or Type("unit"),))
    if isinstance(value.held, tuple):
        return Type("tuple", tuple(map(type_of, value.held)))
    return Type(value.form)


def literal(it: Native) -> Expr:
    """A literal of an expression."""
    value = value_of(it)
    if value.form not in BASE_TYPES[:-1]:
        raise ValueError(f"{it!r} is no literal")
    assert not isinstance(value.held, (Chunk, tuple))
    return Expr(value.form, (value.held,))


def chunk_of(program: Program, entry: Optional[str] = None, arguments: Tuple[Native, ...] = ()) -> Chunk:
    """A chunk of a program: by the name of its entry, or of its last function."""
    return Chunk(program, entry or program.functions[-1].name, tuple(map(value_of, arguments)))
