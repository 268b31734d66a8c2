"""Reads sources in Rattle, `src/*.rt`: functions with their comments, signatures and clauses, and the types declared.

A source is formatted, so an item begins a line without a blank, and a member of an item one behind four. What a
signature and its clauses are is found by brackets alone: they end where a body begins, or at a `;` outside of all
brackets."""
from __future__ import annotations

import dataclasses
import pathlib
import re
import typing

CLAUSE = re.compile(r"\b(ensures|requires)(?: +(\w+))?\s*$")
FUNCTION = re.compile(r"(?P<blank> {4})?(?P<pub>pub (?!\())?(?:pub\(\w+\) )?(?:const |unsafe )*fn (?P<name>\w+)")
OWNER = re.compile(r"(?P<word>pub trait|trait|impl)\b")
TYPE = re.compile(r"(?P<pub>pub(?:\(crate\))? )?(?P<word>struct|enum|trait|type) (?P<name>\w+)")
GHOST = re.compile(r" {4}ghost (\w+): \{")


@dataclasses.dataclass
class Owner:
    """What a member stands in: a trait, an implementation of one, or an implementation of a type's own functions."""
    word: str
    trait: str
    of: str
    head: str


@dataclasses.dataclass
class Clause:
    """One clause: `ensures` or `requires`, its name if it has one, and its term."""
    word: str
    name: str
    term: str


@dataclasses.dataclass
class Function:
    """A function: where it stands, its comment, its head up to its body, and its clauses."""
    name: str
    line: int
    is_pub: bool
    owner: Owner | None
    comment: list[str]
    head: list[str]
    clauses: list[Clause]


@dataclasses.dataclass
class Type:
    """A type that a source declares, with its comment and its text."""
    name: str
    word: str
    line: int
    is_pub: bool
    comment: list[str]
    text: list[str]


class Source:
    """A source file."""

    def __init__(self, path: pathlib.Path) -> None:
        self.path = path
        self.text = path.read_text("utf-8")
        self.lines = self.text.split("\n")
        self.functions: list[Function] = []
        self.types: list[Type] = []
        self.ghosts: list[tuple[Owner, str]] = []
        self._read()

    def _read(self) -> None:
        owner: Owner | None = None
        comment: list[str] = []
        place = 0
        for number, line in enumerate(self.lines, 1):
            begin = place
            place += len(line) + 1
            text = line.strip()
            if text.startswith("//"):
                comment = comment + [text] if text.startswith("///") else []
                continue
            if text.startswith("#"):
                continue
            if line[:1].strip() and line[0] not in "})>" and not line.startswith("where"):
                owner = owner_of(self.text[begin:]) if OWNER.match(line) else None
            self._take(line, number, begin, owner, comment)
            comment = []

    def _take(self, line: str, number: int, begin: int, owner: Owner | None, comment: list[str]) -> None:
        """Keeps what a line begins, if anything."""
        function, declared = FUNCTION.match(line), TYPE.match(line)
        if function and bool(function["blank"]) == (owner is not None):
            head, clauses = head_of(self.text, begin)
            self.functions.append(Function(function["name"], number, bool(function["pub"]), owner, comment,
                                           head.split("\n"), clauses))
        elif declared and declared["word"] != "trait":
            text = self.text[begin:end_of_item(self.text, begin)]
            self.types.append(Type(declared["name"], declared["word"], number, declared["pub"] == "pub ", comment,
                                   text.split("\n")))
        elif owner and owner.word != "impl" and GHOST.match(line):
            self.ghosts.append((owner, "\n".join([*comment, self.text[begin:end_of_item(self.text, begin)].strip()])))


def skip(text: str, at: int) -> int:
    """Returns the place behind a comment or a string that begins here, or the next place."""
    if text.startswith("//", at):
        end = text.find("\n", at)
        return len(text) if end < 0 else end
    if text[at] == '"':
        found = re.compile(r'"(?:\\.|[^"\\])*"', re.S).match(text, at)
        return found.end() if found else at + 1
    if text[at] == "'":
        found = re.compile(r"'(?:\\.[^']*|[^'\\])'").match(text, at)
        return found.end() if found else at + 1
    return at + 1


def closing(text: str, at: int) -> int:
    """Returns the place behind the bracket that closes the one at a place."""
    depth = 0
    while at < len(text):
        if text[at] in "([{":
            depth += 1
        elif text[at] in ")]}":
            depth -= 1
            if depth == 0:
                return at + 1
        at = skip(text, at)
    raise ValueError("a bracket isn't closed")


def head_of(text: str, begin: int) -> tuple[str, list[Clause]]:
    """Returns the text of a function up to its body, and its clauses."""
    at, clauses = text.index("fn ", begin), []
    while True:
        found = CLAUSE.search(text, begin, at) if text[at] == "{" else None
        if text[at] in "([" or found:
            end = closing(text, at)
            if found:
                clauses.append(Clause(found[1], found[2] or "", text[at + 1:end - 1].strip()))
            at = end
        elif text[at] in "{;":
            return text[begin:at + (text[at] == ";")].rstrip(), clauses
        else:
            at = skip(text, at)


def end_of_item(text: str, begin: int) -> int:
    """Returns the place behind an item that ends with a `;` or with a block."""
    at = begin
    while text[at] not in ";{":
        at = closing(text, at) if text[at] in "([" else skip(text, at)
    if text[at] == ";":
        return at + 1
    end = closing(text, at)
    return end + (text[end:end + 1] == ";")


def without_generics(text: str) -> str:
    """Returns a text without what stands in angle brackets."""
    plain, depth = "", 0
    for at, sign in enumerate(text):
        is_arrow = sign == ">" and text[at - 1:at] in ("-", "=")
        depth += (sign == "<") - (sign == ">" and not is_arrow)
        if depth == 0 and not (sign == ">" and not is_arrow):
            plain += sign
    return plain


def owner_of(text: str) -> Owner:
    """Returns what a block of members is, whose text begins here."""
    head = text[:text.index("{")].strip()
    plain = re.sub(r"\s+", " ", without_generics(head)).partition(" where ")[0]
    found = re.match(r"(pub trait|trait|impl) ?(?:(.*?) for )?([^:]*)", plain)
    if not found:
        raise ValueError(f"no owner: {head}")
    of = re.sub(r"[&'\[\]]|\bmut\b", "", found[3]).strip().rpartition("::")[2]
    return Owner(found[1], (found[2] or "").rpartition("::")[2], of, re.sub(r"\s+", " ", head))


def exported(lib: str) -> set[str]:
    """Returns the names that the root of a crate exports."""
    names: set[str] = set()
    for found in re.findall(r"^pub use ([^;]*);", lib, re.M):
        inner = re.sub(r"^[\w:]*::(?=[\w{])", "", found)
        names.update(it.split(" as ")[-1].strip() for it in re.sub(r"[{}\s]+", " ", inner).split(",") if it.strip())
    names.update(re.findall(r"^pub (?:const )?(?:fn|struct|enum|trait|type) (\w+)", lib, re.M))
    return names


def is_shown(it: Function, names: set[str]) -> bool:
    """Whether a function can be called from outside its crate, or is an implementation with clauses of its own."""
    owner = it.owner
    if owner is None:
        return it.is_pub and it.name in names
    if owner.trait:
        return bool(it.clauses) and bool({owner.of, owner.trait} & names)
    return owner.of in names and (it.is_pub or owner.word == "pub trait")


def sources_of(folder: pathlib.Path) -> typing.Iterator[Source]:
    """Yields the sources of a crate."""
    for path in sorted((folder / "src").rglob("*.rt")):
        yield Source(path)
