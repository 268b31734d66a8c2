"""The syntax of programs and of files of lines as rules, written as grammars of TextMate and of Sublime Text."""
from __future__ import annotations

import dataclasses
import json
import re
from typing import Any, Iterable, Union

from planet_tools.editor import words

# by kind of word, the scope that themes know
SCOPES = {
    "declaration": "keyword.declaration", "control": "keyword.control", "operator": "keyword.operator.word",
    "form": "support.function.form", "type": "storage.type", "constant": "constant.language",
    "primitive": "support.function.primitive", "service": "support.function.service",
    "exceptions": "support.class.exception",
}
PROGRAM, LINES = "source.plan", "source.planet"
ESCAPE = r"\\(?:[ntr\"'\\]|x[0-7][0-9a-fA-F])"
NOT_AFTER_WORD, NOT_IN_WORD = r"(?<![A-Za-z0-9_])", r"(?![A-Za-z0-9_])"


@dataclasses.dataclass(frozen=True)
class Rule:
    """What is coloured: a match, or what stands between a beginning and an end with rules of its own."""

    scope: str
    match: str
    end: str = ""
    captures: dict[int, str] = dataclasses.field(default_factory=dict)
    inside: tuple["Item", ...] = ()


@dataclasses.dataclass(frozen=True)
class Group:
    """The rules of a group, by its name."""

    name: str


Item = Union[Rule, Group]


@dataclasses.dataclass(frozen=True)
class Grammar:
    """A grammar: what it is for, and its rules by group, `main` first."""

    name: str
    scope: str
    endings: tuple[str, ...]
    first_line: str
    groups: dict[str, tuple[Item, ...]]


def any_of(texts: Iterable[str]) -> str:
    """Returns what matches one of these words, whole."""
    return f"{NOT_AFTER_WORD}(?:{'|'.join(texts)}){NOT_IN_WORD}"


def literals() -> tuple[Item, ...]:
    """Returns the rules of literals, which stand in programs and in lines."""
    escapes = Rule("constant.character.escape", ESCAPE), Rule("invalid.illegal", r"\\.")
    return (
        Rule("string.other.blob", '#"[0-9a-fA-F]*"'),
        Rule("string.quoted.double", '"', '"|$', inside=escapes),
        Rule("string.quoted.single", rf"'(?:{ESCAPE}|[^\\'])'"),
        Rule("constant.other.host", f"@[0-9]+{NOT_IN_WORD}"),
        Rule("constant.other.device", f"%[0-9]+{NOT_IN_WORD}"),
        Rule("constant.other.part", f"#[1-8]{NOT_IN_WORD}"),
        Rule("constant.numeric", f"(?:~|{NOT_AFTER_WORD})[0-9]+{NOT_IN_WORD}"),
    )


def of_programs() -> Grammar:
    """Returns the grammar of programs."""
    bar = "punctuation.definition.chunk"
    named = tuple(Rule(SCOPES[kind], any_of(known)) for kind, known in words.kinds().items() if kind != "operator")
    groups: dict[str, tuple[Item, ...]] = {
        "main": (Group("comment"), Group("literals"), Group("declared"), Group("words"), Group("signs")),
        "comment": (Rule("comment.block", r"\(\*", r"\*\)", inside=(Group("comment"),)),),
        "literals": literals(),
        "declared": (
            Rule("", rf"{NOT_AFTER_WORD}(fun|svc|exception)\s+([A-Za-z][A-Za-z0-9_]*)",
                 captures={1: SCOPES["declaration"], 2: "entity.name.function"}),
            Rule("", r"(\|)\s*([A-Za-z][A-Za-z0-9_]*)\s*(\|)",
                 captures={1: bar, 2: "entity.name.function.chunk", 3: bar}),
        ),
        "words": (*named, Rule(SCOPES["operator"], any_of(words.KINDS["operator"].split()))),
        "signs": (Rule("keyword.operator", "::|->|=>|<>|<=|>=|[-=<>+*/^]"),),
    }
    return Grammar("PLAN", PROGRAM, ("plan",), "", groups)


def literal(header: str) -> str:
    """Returns the name of the group of a header."""
    return header.replace("planet ", "").replace(" ", "-")


def of_header(header: str, first: list[str], behind: list[str]) -> tuple[Item, ...]:
    """Returns the rules of the lines of files that have this header."""
    found: list[Item] = [Rule("comment.line", "^#.*$")]
    if "program" in first:
        head = {1: "keyword.control.line", 2: "entity.name.section"}
        found.append(Rule("", "^(program)((?: [A-Za-z0-9_]+)?)$", "^end program$", head, (Group("program"),)))
    found.append(Rule("keyword.control.line", f"^(?:{'|'.join(first)})(?= |$)"))
    if behind:
        found.append(Rule("keyword.other.word", f"(?<= )(?:{'|'.join(behind)})(?= |$)"))
    found.append(Rule("invalid.illegal", r"^[^ \n]+|\t| $"))
    return (*found, Group("hex"), Group("literals"))


def of_traces() -> tuple[Item, ...]:
    """Returns the rules of traces and their ledgers."""
    acts, behind = words.trace_words()
    return (
        Rule("comment.line", "^#.*$"),
        Rule("", rf"^([0-9]+) ({'|'.join(acts)})(?= |$)", "", {1: "constant.numeric.event", 2: "keyword.control.line"}),
        Rule("keyword.control.line", "^(?:ledger|end)$"),
        Rule("entity.name.section.family", r"(?<![^ ])[0-9]+\.[0-9]+(?= |$)"),
        Rule("keyword.other.word", f"(?<= )(?:{'|'.join(behind)})(?= |$)"),
        Group("hex"), Group("literals"),
    )


def of_lines() -> Grammar:
    """Returns the grammar of files of lines, whose first line says of what kind they are."""
    kinds: dict[str, tuple[Item, ...]] = {literal(it): of_header(it, *words.line_words(it)) for it in words.headers()}
    kinds["trace-1"] = of_traces()
    begun = tuple(Rule("", rf"\A(planet {name.replace('-', ' ')})$", "(?!)", {1: "entity.name.section"}, (Group(name),))
                  for name in kinds)
    programs = of_programs().groups
    groups: dict[str, tuple[Item, ...]] = {
        "main": begun, **kinds, "program": programs["main"],
        **{name: rules for name, rules in programs.items() if name != "main"},
        "hex": (Rule("string.other.hex", r"(?<= )(?:[0-9a-fA-F]{2}){4,}(?= |$)"),),
    }
    first = f"^planet ({'|'.join(dict.fromkeys(it.split('-')[0] for it in kinds))}) [12]$"
    return Grammar("planet", LINES, ("schedule", "audit"), first, groups)


def textmate_item(item: Item, scope: str) -> dict[str, Any]:
    if isinstance(item, Group):
        return {"include": f"#{item.name}"}
    found: dict[str, Any] = {"name": f"{item.scope}.{scope}"} if item.scope else {}
    captures = {str(number): {"name": f"{name}.{scope}"} for number, name in item.captures.items()}
    if not item.end:
        return {**found, "match": item.match, **({"captures": captures} if captures else {})}
    found |= {"begin": item.match, "end": item.end}
    if captures:
        found["beginCaptures"] = captures
        found["endCaptures"] = {"0": {"name": f"keyword.control.line.{scope}"}}
    return {**found, "patterns": [textmate_item(it, scope) for it in item.inside]}


def textmate(grammar: Grammar) -> str:
    """Returns a grammar as TextMate reads it, in JSON."""
    scope = grammar.scope.rpartition(".")[2]
    groups = {name: {"patterns": [textmate_item(it, scope) for it in items]} for name, items in grammar.groups.items()}
    head: dict[str, Any] = {"name": grammar.name, "scopeName": grammar.scope, "fileTypes": list(grammar.endings)}
    if grammar.first_line:
        head["firstLineMatch"] = grammar.first_line
    main = groups.pop("main")
    return json.dumps({**head, **main, "repository": groups}, indent=1) + "\n"


def sublime_item(item: Item, scope: str) -> dict[str, Any]:
    if isinstance(item, Group):
        return {"include": item.name}
    found: dict[str, Any] = {"match": item.match}
    if item.captures:
        found["captures"] = {number: f"{name}.{scope}" for number, name in item.captures.items()}
    if not item.end:
        return {**found, **({"scope": f"{item.scope}.{scope}"} if item.scope else {})}
    inside: list[dict[str, Any]] = [{"meta_scope": f"{item.scope}.{scope}"}] if item.scope else []
    ending: dict[str, Any] = {"match": item.end, "pop": True}
    if item.captures:
        ending["scope"] = f"keyword.control.line.{scope}"
    return {**found, "push": [*inside, ending, *(sublime_item(it, scope) for it in item.inside)]}


def sublime(grammar: Grammar) -> str:
    """Returns a grammar as Sublime Text and bat read it: YAML, of which JSON is a part."""
    scope = grammar.scope.rpartition(".")[2]
    head: dict[str, Any] = {"name": grammar.name, "scope": grammar.scope, "file_extensions": list(grammar.endings)}
    if grammar.first_line:
        head["first_line_match"] = grammar.first_line
    contexts = {name: [sublime_item(it, scope) for it in items] for name, items in grammar.groups.items()}
    text = json.dumps({**head, "contexts": contexts}, indent=1)
    return "%YAML 1.2\n---\n" + re.sub(r'^( +)"([0-9]+)":', r"\1\2:", text, flags=re.M) + "\n"
