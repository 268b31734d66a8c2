"""Values and types of the language as they are written, and where arguments don't fit the parameters of a function."""
from __future__ import annotations

import re

TOKEN = re.compile(
    r"""\s+|\(\*|\*\)|\#"[0-9a-fA-F]*"|"(?:[^"\\\n]|\\.)*"|'(?:[^'\\\n]|\\.[0-9a-fA-F]{0,2})'"""
    r"|[@%~#]?[0-9]+|[A-Za-z][A-Za-z0-9_]*|::|<>|<=|>=|->|=>|.", re.S)
RESERVED = frozenset(
    "and blob bool char chunk dev else end eval exception false foldl foldr fun handle host if in int let list mod not "
    "OnNeighbor OnRemote or raise string svc then true try unit val".split())
FUNCTION = re.compile(r"\bfun\s+(\w+)\s*\(((?:[^()]|\([^()]*(?:\([^()]*\)[^()]*)*\))*)\)\s*:")
LITERALS = ((r"~?[0-9]+", "int"), (r"@[0-9]+", "host"), (r"%[0-9]+", "dev"), ('".*"', "string"), ("'.*'", "char"),
            ('#".*"', "blob"))
COMMENT = re.compile(r"\(\*.*?\*\)", re.S)


class Misfit(Exception):
    """Why arguments don't fit: where they begin not to, and a sentence."""

    def __init__(self, begin: int, end: int, say: str) -> None:
        super().__init__(say)
        self.begin, self.end, self.say = begin, end, say


def blanked(text: str) -> str:
    """Returns a program's text with its comments blank, each byte in its place."""
    return COMMENT.sub(lambda it: re.sub(r"[^\n]", " ", it[0]), text)


def functions(text: str) -> dict[str, list[tuple[str, str]]]:
    """Returns the functions of a program with the names and types of their parameters."""
    found: dict[str, list[tuple[str, str]]] = {}
    for name, params in FUNCTION.findall(blanked(text)):
        parts = [it.partition(":") for it in split_at_commas(params)]
        found[name] = [(it[0].strip(), plain_type(it[2])) for it in parts if it[1]]
    return found


def split_at_commas(text: str) -> list[str]:
    """Returns what stands between the commas that stand in no bracket."""
    parts, depth = [""], 0
    for token in TOKEN.findall(text):
        depth += (token in "([") - (token in ")]")
        if token == "," and not depth:
            parts.append("")
        else:
            parts[-1] += token
    return [it for it in parts if it.strip()]


def plain_type(text: str) -> str:
    """Returns a type as it is printed."""
    words = " ".join(re.findall(r"\w+|[()*]", text))
    return words.replace("( ", "(").replace(" )", ")")


class Reader:
    """Reads values from a text, and says of what type they are."""

    def __init__(self, text: str) -> None:
        self.tokens = [(it.start(), it[0]) for it in TOKEN.finditer(text) if not it[0].isspace()]
        self.tokens.append((len(text), ""))
        self.at = 0

    @property
    def token(self) -> str:
        return self.tokens[self.at][1]

    @property
    def begin(self) -> int:
        return self.tokens[self.at][0]

    def wrong(self, say: str) -> Misfit:
        return Misfit(self.begin, self.begin + max(len(self.token), 1), say)

    def take(self, token: str) -> None:
        if self.token != token:
            raise self.wrong(f"`{token}` must stand here")
        self.at += 1

    def items(self, end: str) -> list[str]:
        """Reads values parted by commas up to a token, and returns their types."""
        found: list[str] = []
        while self.token != end:
            if found:
                self.take(",")
            found.append(self.value())
        self.at += 1
        return found

    def value(self) -> str:
        """Reads a value and returns its type."""
        token = self.token
        if token == "(":
            self.at += 1
            parts = self.items(")")
            return "unit" if not parts else parts[0] if len(parts) == 1 else "(" + " * ".join(parts) + ")"
        if token == "[":
            return self.list_value()
        self.at += 1
        kind = kind_of(token)
        if not kind:
            self.at -= 1
            is_minus = token == "-"
            raise self.wrong("a negative number is written with `~`, as ~1" if is_minus else "a value must stand here")
        return kind

    def list_value(self) -> str:
        """Reads a list and returns its type."""
        self.at += 1
        if self.token != ":":
            parts = self.items("]")
            if not parts:
                self.at -= 1
                raise self.wrong("an empty list is written with its type, as [:int]")
            return parts[0] + " list"
        words = []
        self.at += 1
        while self.token not in ("]", ""):
            words.append(self.token)
            self.at += 1
        self.take("]")
        return plain_type(" ".join(words)) + " list"


def kind_of(token: str) -> str:
    """Returns the type of a literal, or nothing."""
    if token in ("true", "false"):
        return "bool"
    for pattern, kind in LITERALS:
        if re.fullmatch(pattern, token, re.S):
            return kind
    return ""


def misfit(text: str, name: str, params: list[tuple[str, str]]) -> Misfit | None:
    """Returns where arguments don't fit the parameters of a function, if that is seen."""
    reader = Reader(text)
    wanted = ", ".join(f"{name} : {kind}" for name, kind in params)
    count = f"{len(params)} argument{'s' * (len(params) != 1)}"
    try:
        if reader.token != "(":
            raise reader.wrong("arguments stand in round brackets, `()` where there are none")
        reader.at += 1
        for number, (param, kind) in enumerate(params):
            if number and reader.token == ",":
                reader.at += 1
            if reader.token in (")", ""):
                raise reader.wrong(f"`{name}` takes {count} ({wanted}), not {number}")
            begin = reader.begin
            given = reader.value()
            if given != kind:
                raise Misfit(begin, reader.tokens[reader.at - 1][0] + len(reader.tokens[reader.at - 1][1]),
                             f"`{param}` of `{name}` is of type {kind}, and this is of type {given}")
        if reader.token != ")":
            raise reader.wrong(f"`{name}` takes {count} ({wanted}), and no more" if reader.token == ","
                               else "`)` must stand here")
        reader.at += 1
        if reader.token:
            raise reader.wrong("nothing may stand behind the arguments")
    except Misfit as found:
        return found
    return None
