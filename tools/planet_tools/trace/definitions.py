"""Compares the table of forms with the definitions of lines: which texts these can give, with holes for what varies.

A definition is read as far as texts need it: equations over strings, lists of words, numbers and other definitions. A
condition gives both its sides, an argument that isn't known each equation, and a list of unknown items one of them."""
from __future__ import annotations

import itertools
import re
from dataclasses import dataclass, field
from pathlib import Path
from typing import Dict, FrozenSet, Iterator, List, Optional, Sequence, Set, Tuple, Union

from planet_tools.trace.forms import FieldType, Form, forms_of

# the definitions of whole texts, by what is written: a run, the trace of one node, a log
ROOTS = {"trace": ("run_text", "whole_trace"), "log": ("log_text",)}
# what prints a field, and the hole that it is
HOLES = {"decimal": "{number}", "encode_lower": "{hex}", "value_text": "{value}"}
# what the definitions print for the sake of completeness, and no run writes
NEVER = {
    "{number} drop @{number} Fresh {number}.{number} bound {number}": "a fresh frame isn't dropped",
    "{number} drop @{number} Fresh advert": "a fresh frame isn't dropped",
    "{number} drop @{number} BadFrame NoMemory": "a refusal of bytes is never want of memory",
}
WORD = r"[^\s()\[\]{},=.:\"∷λ]+"
TOKEN = re.compile(rf'\s*("(?:[^"\\]|\\.)*"|∷|\+\+|λ|[()\[\]{{}},=.:]|{WORD}(?:\.{WORD})*)')
SIGNATURE = re.compile(r"^(?:unfoldable |abbrev )?(?:pub )?([\w'-]+) :")
USE = re.compile(r"^use (?:Rattle\.)?([\w.]+)\.\{(.*)\}$", re.M)
# a value: texts and lists of words that it may be; what isn't known is nothing
Text = Union[str, Tuple[str, ...]]
Texts = Optional[FrozenSet[Text]]
Tree = Union[str, List["Tree"]]


class Unread(Exception):
    """What of a definition this reader doesn't know."""


@dataclass
class Module:
    """A file of definitions: what it uses of others, and its equations by name."""

    path: Path
    uses: Dict[str, Tuple[str, str]] = field(default_factory=dict)
    equations: Dict[str, List[str]] = field(default_factory=dict)


def statements_of(text: str) -> Iterator[str]:
    """The statements of a file, each with its further lines, which are set in."""
    held: List[str] = []
    for line in text.split("\n"):
        if line.lstrip().startswith("--") or not line.strip():
            continue
        if line[0] not in " \t" and held:
            yield " ".join(held)
            held = []
        held.append(line.strip())
    if held:
        yield " ".join(held)


def module_of(path: Path) -> Module:
    """Reads the uses and the equations of a file."""
    module = Module(path)
    for said in statements_of(path.read_text("utf-8")):
        use = USE.match(said)
        if use:
            for word in use[2].split(", "):
                name, _, alias = word.partition(" as ")
                module.uses[alias or name] = use[1], name
        elif " = " in said and not SIGNATURE.match(said):
            module.equations.setdefault(said.split(" ", 1)[0], []).append(said)
    return module


class Reader:
    """Reads an expression: applications are lists, `∷`, `++` and `if` lists that begin with their sign."""

    def __init__(self, tokens: Sequence[str]) -> None:
        self.tokens, self.at = list(tokens), 0

    def peek(self) -> str:
        return self.tokens[self.at] if self.at < len(self.tokens) else ""

    def take(self) -> str:
        self.at += 1
        return self.tokens[self.at - 1] if self.at <= len(self.tokens) else ""

    def wants(self, token: str) -> None:
        if self.take() != token:
            raise Unread(f"{token} wanted at {' '.join(self.tokens[max(0, self.at - 4):self.at + 2])}")

    def expression(self) -> Tree:
        if self.peek() == "if":
            self.take()
            condition = self.expression()
            self.wants("then")
            good = self.expression()
            self.wants("else")
            return ["if", condition, good, self.expression()]
        if self.peek() == "λ":
            self.take()
            name = self.take()
            self.wants(".")
            return ["λ", name, self.expression()]
        first = self.application()
        if self.peek() in ("∷", "++"):
            return [self.take(), first, self.expression()]
        return first

    def application(self) -> Tree:
        items = [self.atom()]
        while self.peek() and self.peek() not in (")", "]", "∷", "++", "then", "else", ",", "="):
            items.append(self.atom())
        return items[0] if len(items) == 1 else items

    def atom(self) -> Tree:
        token = self.take()
        if token == "[":
            self.wants("]")
            return "[]"
        if token != "(":
            return token
        inner: List[Tree] = [self.expression()]
        while self.peek() == ",":
            self.take()
            inner.append(self.expression())
        self.wants(")")
        return inner[0] if len(inner) == 1 else [",", *inner]


def equation_of(said: str) -> Tuple[List[Tree], Tree]:
    """The patterns and the right side of an equation."""
    reader = Reader(TOKEN.findall(said))
    reader.take()
    patterns = []
    while reader.peek() != "=":
        patterns.append(reader.atom())
    reader.take()
    right = reader.expression()
    if reader.peek():
        raise Unread(f"{reader.peek()} isn't wanted")
    return patterns, right


# ---- what an expression may be


@dataclass(frozen=True)
class Closure:
    """An expression whose value isn't wanted yet: the module in which it stands, and what its names are."""

    path: Path
    tree: Tree
    names: Dict[str, "Held"]


Held = Union[Closure, Texts]


def joined(left: Texts, right: Texts) -> Texts:
    """Each of the left texts in front of each of the right ones; what isn't known is the bytes of a name."""
    made: Set[Text] = set()
    for a, b in itertools.product(left or {"{name}"}, right or {"{name}"}):
        if isinstance(a, str) and isinstance(b, str):
            made.add(a + b)
        else:
            made.add(listed(a) + listed(b))
    return frozenset(made)


def listed(text: Text) -> Tuple[str, ...]:
    """A list of words; the empty text is the empty one."""
    if isinstance(text, str) and text:
        raise Unread(f"{text!r} in place of a list")
    return text if isinstance(text, tuple) else ()


def word_of(text: Text) -> str:
    """A word of a list."""
    if not isinstance(text, str):
        raise Unread(f"{text!r} in place of a word")
    return text


def either(values: Sequence[Texts]) -> Texts:
    """What is one of these; where none is known, it isn't either."""
    known = [it for it in values if it is not None]
    return frozenset().union(*known) if known else None


def each_of(value: Texts) -> List[Texts]:
    """Each thing that a value may be, alone."""
    return [None] if value is None else [frozenset({one}) for one in value]


def many(value: Texts) -> Texts:
    """A list of words like this one, as one word of another hole."""
    return frozenset((f"{str(one)[:-1]}s}}",) for one in value or ())


def bound_by(pattern: Tree, value: Texts) -> Optional[Dict[str, Held]]:
    """The names that a pattern binds to parts of a value, or nothing where it doesn't match."""
    if isinstance(pattern, str):
        if pattern == "[]":
            return {} if value is None or not listed(next(iter(value))) else None
        return {pattern: value}
    if pattern[0] == "∷" and value is not None:
        words = listed(next(iter(value)))
        head, tail = pattern[1], pattern[2]
        assert isinstance(head, str) and isinstance(tail, str)
        return {head: frozenset({words[0]}), tail: frozenset({words[1:]})} if words else None
    inner: Dict[str, Held] = {}
    for part in pattern:
        inner.update(bound_by(part, None) or {})
    return inner


class Definitions:
    """All definitions of a folder of crates, and the texts that they can give."""

    def __init__(self, crates: Path) -> None:
        self.crates = crates
        self.modules: Dict[Path, Module] = {}

    def module(self, path: Path) -> Module:
        """A file of definitions, read once."""
        if path not in self.modules:
            self.modules[path] = module_of(path)
        return self.modules[path]

    def root(self, name: str) -> Path:
        """The one file that defines a name, wherever its crate stands."""
        pattern = re.compile(rf"^(?:unfoldable |abbrev )?(?:pub )?{name} :", re.M)
        found = [it for it in sorted(self.crates.glob("*/specs/**/*.antt")) if pattern.search(it.read_text("utf-8"))]
        if len(found) != 1:
            raise Unread(f"{name} is defined {len(found)} times in {self.crates}/*/specs")
        return found[0]

    def found(self, path: Path, name: str) -> Optional[Tuple[Path, List[str]]]:
        """The file and the equations of a name that is used in a file."""
        module = self.module(path)
        if name in module.equations:
            return path, module.equations[name]
        if name not in module.uses:
            return None
        crate, *inner = module.uses[name][0].split(".")
        there = self.crates.joinpath(crate, *inner).with_suffix(".antt")
        return self.found(there, module.uses[name][1]) if there.exists() else None

    def value(self, held: Held) -> Texts:
        """What a name or an expression may be."""
        if not isinstance(held, Closure):
            return held
        tree = held.tree
        if isinstance(tree, str):
            return self.word(tree, held)
        inner = [Closure(held.path, part, held.names) for part in tree[1:]]
        sign = tree[0]
        if sign == "if":
            return either([self.value(inner[1]), self.value(inner[2])])
        if sign == "++":
            return joined(self.value(inner[0]), self.value(inner[1]))
        if sign == "∷":
            return self.consed(inner[0], inner[1])
        return None if sign == "," else self.called(Closure(held.path, sign, held.names), inner)

    def word(self, word: str, held: Closure) -> Texts:
        """What a word may be: a string, a byte, the empty list, a name, or a definition."""
        if word.startswith('"'):
            return frozenset({word[1:-1].replace("\\n", "\n").replace('\\"', '"')})
        if word.isdigit():
            return frozenset({chr(int(word))})
        if word == "[]":
            return frozenset({""})
        if word in held.names:
            return self.value(held.names[word])
        return self.called(held, []) if self.found(held.path, word) else None

    def consed(self, head: Closure, tail: Closure) -> Texts:
        """A byte in front of a text, or a word in front of others."""
        if isinstance(head.tree, str) and head.tree.isdigit():
            return joined(self.value(head), self.value(tail))
        words = self.value(head) or frozenset({"{name}"})
        return joined(frozenset((word_of(it),) for it in words), self.value(tail))

    def called(self, function: Closure, given: Sequence[Held]) -> Texts:
        """What a function gives for what it is given."""
        tree = function.tree
        if isinstance(tree, list):
            if tree[0] == "λ":
                assert isinstance(tree[1], str)
                return self.value(Closure(function.path, tree[2], {**function.names, tree[1]: given[0]}))
            inner = [Closure(function.path, part, function.names) for part in tree[1:]]
            return self.called(Closure(function.path, tree[0], function.names), [*inner, *given])
        if tree in HOLES:
            return frozenset({HOLES[tree]})
        if tree == "codes":
            return self.value(given[0])
        if tree in ("flat_map", "map"):
            assert isinstance(given[0], Closure)
            one = self.called(given[0], [None])
            return either([one, frozenset({""})]) if tree == "flat_map" else many(one)
        bound = function.names.get(tree)
        if isinstance(bound, Closure):
            return self.called(bound, given)
        found = self.found(function.path, tree)
        if not found:
            raise Unread(f"{tree} isn't defined where {function.path} uses it")
        return either([self.equation(found[0], said, given) for said in found[1]])

    def equation(self, path: Path, said: str, given: Sequence[Held]) -> Texts:
        """What one equation gives, or nothing where it isn't for what is given."""
        try:
            patterns, right = equation_of(said)
        except Unread as fault:
            raise Unread(f"{said.split(' ', 1)[0]} of {path}: {fault}") from fault
        if len(patterns) != len(given):
            raise Unread(f"{said.split(' ', 1)[0]} of {path} isn't given {len(patterns)} arguments")
        wanted = [self.value(it) if needs_value(pattern) else None for pattern, it in zip(patterns, given)]
        results = []
        for values in itertools.product(*map(each_of, wanted)):
            names: Dict[str, Held] = {}
            for pattern, value, held in zip(patterns, values, given):
                is_name = isinstance(pattern, str) and pattern != "[]"
                more = {str(pattern): held} if is_name else bound_by(pattern, value)
                if more is None:
                    break
                names.update(more)
            else:
                results.append(self.value(Closure(path, right, names)))
        return either(results) if results else frozenset()


def needs_value(pattern: Tree) -> bool:
    """Whether a pattern looks at a list."""
    return pattern == "[]" or isinstance(pattern, list) and pattern[0] == "∷"


def written_lines(crates: Path, file: str) -> Set[str]:
    """All lines that the definitions of a file's text can give."""
    definitions, lines = Definitions(crates), set()
    for root in ROOTS[file]:
        path = definitions.root(root)
        patterns = equation_of(definitions.module(path).equations[root][0])[0]
        for text in definitions.called(Closure(path, root, {}), [None] * len(patterns)) or ():
            if not isinstance(text, str) or text and not text.endswith("\n"):
                raise Unread(f"{root} gives {text!r}, which doesn't end a line")
            lines.update(text.split("\n")[:-1])
    return lines


# ---- the table


def spelled(kind: FieldType) -> List[str]:
    """What a field of a type may be, with the same holes."""
    if kind.words:
        return list(kind.words)
    known = {"host": "@{number}", "device": "%{number}", "family": "{number}.{number}"}
    return [known.get(kind.name, f"{{{kind.name}}}")]


def table_lines(form: Form) -> List[str]:
    """The lines of a form, one for each choice of its words."""
    choices = [[word] if isinstance(word, str) else spelled(word[1]) for word in form.words]
    return [" ".join(chosen) for chosen in itertools.product(*choices)]


def differences(crates: Path) -> Iterator[str]:
    """What the table and the definitions say otherwise, a line each."""
    forms = forms_of()
    for file in sorted(ROOTS):
        table = {line for form in forms[file] if form.part != "any" for line in table_lines(form)}
        written = written_lines(crates, file) - set(NEVER)
        for line in sorted(written - table):
            yield f"the definitions of a {file} give a line that the table lacks: {line}"
        for line in sorted(table - written):
            yield f"the table has a line of a {file} that no definition gives: {line}"
