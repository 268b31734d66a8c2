"""The forms of lines of files, and the words of a line that aren't as its form wants them."""
from __future__ import annotations

import dataclasses
import difflib
import json
import pathlib
import re
from typing import Any, Iterable, Iterator

FORMS: dict[str, Any] = json.loads(pathlib.Path(__file__).with_name("forms.json").read_text("utf-8"))
NAME = re.compile(r"[A-Za-z][A-Za-z0-9_]{0,31}")
# of kinds whose own name isn't shown
SHOWN = {
    "queue": "DEVICE", "raw_hex": "HEX", "chunk_hex": "HEX", "message_hex": "HEX", "body_hex": "HEX", "peer": "PORT",
    "note_port": "PORT", "shared_bound": "BOUND", "message": "NUMBER", "own": "HOST", "hosts": "HOST ..",
    "arguments": "ARGS", "handler": "NAME",
}
SLOT = re.compile(r"\{(\w+)([!?]?)\}|\[(.*?)\](\*?)|(\S+)")


@dataclasses.dataclass(frozen=True)
class Slot:
    """A place in a form: a word as it stands, or one of a kind; `sign` is ! for a new one, ? for a known one."""

    kind: str
    sign: str = ""
    is_literal: bool = False


@dataclasses.dataclass(frozen=True)
class Option:
    """Slots that may be left out, or stand several times."""

    slots: tuple[Slot, ...]
    is_repeated: bool


@dataclasses.dataclass(frozen=True)
class Form:
    """A line: its text as it is shown, its slots, and whether it may be missing or stand several times."""

    shown: str
    first: str
    slots: tuple[Slot | Option, ...]
    is_many: bool
    may_lack: bool


@dataclasses.dataclass(frozen=True)
class Part:
    """A part of a file: its lines, whether they stand in their order, and the line that ends it."""

    forms: tuple[Form, ...]
    is_ordered: bool
    until: str


@dataclasses.dataclass(frozen=True)
class Word:
    """A word of a line, with its column from 0."""

    text: str
    at: int


@dataclasses.dataclass(frozen=True)
class Wrong:
    """What may be wrong with a line: the reason that it would be, its columns from 0, and a sentence."""

    reason: str
    begin: int
    end: int
    say: str = ""


def slots_of(text: str) -> Iterator[Slot | Option]:
    """Yields the slots of a form."""
    for kind, sign, inner, star, word in SLOT.findall(text):
        if kind:
            yield Slot(kind, sign)
        elif inner:
            yield Option(tuple(it for it in slots_of(inner) if isinstance(it, Slot)), bool(star))
        else:
            yield Slot(word, is_literal=True)


def shown_kind(kind: str) -> str:
    """Returns the word that stands for a kind where a form is shown."""
    return SHOWN.get(kind, kind.upper())


def form_of(text: str) -> Form:
    """Returns the form that a text says."""
    body, mark = (text[:-2], text[-1]) if text.endswith((" +", " ?")) else (text, "")
    shown = re.sub(r"\{(\w+)[!?]?\}", lambda it: shown_kind(it[1]), body).replace("]*", "]..")
    return Form(shown, body.split(" ")[0], tuple(slots_of(body)), mark == "+", bool(mark))


def parts_of(header: str) -> tuple[Part, ...]:
    """Returns the parts of the files that have this header."""
    return tuple(
        Part(tuple(map(form_of, it["lines"])), bool(it.get("ordered")), it.get("until", ""))
        for it in FORMS["files"][header]
    )


def words_of(line: str) -> list[Word]:
    """Returns the words of a line: what stands between single spaces."""
    found, at = [], 0
    for text in line.split(" "):
        found.append(Word(text, at))
        at += len(text) + 1
    return found


def near(word: str, words: Iterable[str]) -> str:
    """Returns the word that is most like this one, or nothing."""
    return next(iter(difflib.get_close_matches(word, list(words), 1, 0.6)), "")


def oddity(word: str, is_last: bool) -> str:
    """Says what can't be seen of a word, if anything."""
    if word.endswith("\r"):
        return "a carriage return stands at the end of the line, as Windows ends lines; take them away, as by dos2unix"
    if word == "":
        doubled = "two spaces stand here, or one at the beginning; leave one"
        return "a space stands at the end of the line; take it away" if is_last else doubled
    if "\t" in word:
        return "a tab stands here; words are parted by single spaces"
    return ""


def number_fault(text: str, kind: str) -> str:
    """Says why a word is no number of this kind; nothing where it is one."""
    low, high = FORMS["numbers"][kind]
    if not re.fullmatch(r"[0-9]+", text):
        bare = text.strip("@%~-+")
        if bare.isdigit():
            return f"a number here is digits alone, so without `{text.replace(bare, '', 1)}`; from {low} to {high}"
        return f"a number from {low} to {high} must stand here"
    if len(text) > 1 and text[0] == "0":
        return f"a number has no zeros in front: write {text.lstrip('0') or '0'}"
    if not low <= int(text) <= high:
        return f"{shown_kind(kind)} is a number from {low} to {high}"
    return ""


def hex_fault(text: str, most: int) -> tuple[int, str] | None:
    """Returns where a word is no hex of 1 to `most` bytes, and why."""
    bad = re.search(r"[^0-9a-fA-F]", text)
    if bad:
        return bad.start(), f"`{bad[0]}` is no hex digit"
    if not text:
        return 0, "no byte stands here: bytes are hex digits, two a byte"
    if len(text) % 2:
        return len(text) - 1, f"there are {len(text)} hex digits, an odd number; a byte has two"
    if len(text) > 2 * most:
        return 2 * most, f"there are {len(text) // 2} bytes, and at most {most} may stand here"
    return None
