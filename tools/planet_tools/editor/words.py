"""The words of programs and of files of lines, as the definitions below crates/*/specs have them."""
from __future__ import annotations

import json
import pathlib
import re
from typing import Iterable, Iterator

from planet_tools.explain import pages, programs, values
from planet_tools.explain.forms import FORMS, Option, Slot, parts_of

TOOLS = pathlib.Path(__file__).resolve().parents[2]
CRATES = TOOLS.parent / "crates"
CODES = re.compile(r'codes "([^"\\]*)"')
# the kinds of the words that the language keeps for itself
KINDS = {
    "declaration": "exception fun svc val",
    "control": "if then else let in end try handle raise",
    "operator": "and or not mod",
    "form": "eval foldl foldr OnNeighbor OnRemote",
    "type": "blob bool char chunk dev host int list string unit",
    "constant": "true false",
}
SHARED = ("line_reader/specs/Packages.antt", "line_reader/specs/Handlers.antt")
# by the first words of a header, the files whose definitions read these lines
READERS = {
    "schedule": ("schedule_text/specs/Schedules.antt", *SHARED),
    "node": ("node_files/specs/Configs.antt", "node_files/specs/Nodes.antt", *SHARED),
    "inject": ("node_files/specs/Asks.antt",),
    "fleet": ("node_files/specs/Fleets.antt",),
    "log": ("node_files/specs/Logs.antt", "node_files/specs/Nodes.antt", *SHARED),
    "cut": ("command_files/specs/Cuts.antt",),
    "port": ("command_files/specs/PortFiles.antt",),
    "audit": ("command_files/specs/AuditFiles.antt",),
}


class Unlike(Exception):
    """How a table of words differs from the definitions."""


def definition(file: str, name: str) -> str:
    """Returns the lines of a definition, up to the next empty one."""
    text = (CRATES / file).read_text("utf-8")
    found = re.search(rf"^{name}\b[^:\n]*=.*?(?=\n\n|\Z)", text, re.M | re.S)
    if not found:
        raise Unlike(f"crates/{file} has no definition {name}")
    return found[0]


def reserved() -> set[str]:
    """Returns the words that the language keeps for itself."""
    return set(CODES.findall(definition("plan_base/specs/Words.antt", "reserved_words")))


def primitives() -> list[str]:
    return CODES.findall(definition("plan_types_spec/specs/TypingNames.antt", "prim_of"))


def exceptions() -> list[str]:
    return CODES.findall(definition("plan_types_spec/specs/TypingNames.antt", "built_in"))


def services() -> list[str]:
    text = (CRATES / "service_registry_spec/specs/Offered.antt").read_text("utf-8")
    return re.findall(r'^name_of \w+ = codes "(\w+)"', text, re.M)


def kinds() -> dict[str, list[str]]:
    """Returns the words of programs by their kind."""
    known = {kind: words.split() for kind, words in KINDS.items()}
    listed = {word for words in known.values() for word in words}
    if listed != reserved():
        raise Unlike(f"KINDS of planet_tools/editor/words.py and reserved_words differ: {sorted(listed ^ reserved())}")
    return {**known, "primitive": primitives(), "service": services(), "exceptions": exceptions()}


def check_explained() -> None:
    """Compares the words that refusals are explained by with the definitions."""
    tables: dict[str, tuple[Iterable[str], Iterable[str]]] = {
        "RESERVED": (values.RESERVED, reserved()), "PRIMITIVES": (programs.PRIMITIVES, primitives()),
        "EXCEPTIONS": (programs.EXCEPTIONS, exceptions()), "services": (pages.services(), services()),
    }
    for name, (known, read) in tables.items():
        if set(known) != set(read):
            differ = sorted(set(known) ^ set(read))
            raise Unlike(f"{name} of planet_tools/explain and the definitions differ: {differ}")


def slots_of(header: str) -> Iterator[tuple[str, list[Slot]]]:
    """Yields the first word of each line of a file with this header, and its slots, those too that may be left out."""
    for part in parts_of(header):
        for form in part.forms:
            found: list[Slot] = []
            for slot in form.slots:
                found += slot.slots if isinstance(slot, Option) else [slot]
            yield form.first, found


def line_words(header: str) -> tuple[list[str], list[str]]:
    """Returns the first words of the lines under a header, and the words that stand behind them as they are."""
    first, behind = [], []
    for word, slots in slots_of(header):
        first.append(word)
        behind += [it.kind for it in slots[1:] if it.is_literal]
        behind += [it for slot in slots for it in FORMS["words"].get(slot.kind, []) if not slot.is_literal]
    return list(dict.fromkeys(first)), list(dict.fromkeys(behind))


def headers() -> list[str]:
    return list(FORMS["files"])


def check_lines() -> None:
    """Compares the words of lines with those that the definitions of their readers name."""
    for kind, files in READERS.items():
        read = {it for file in files for it in CODES.findall((CRATES / file).read_text("utf-8"))}
        read = {it for it in read if not it.startswith(("planet ", "end "))}
        alike = [header for header in headers() if header.split()[1] == kind]
        known = {it for header in alike for words in line_words(header) for it in words}
        if read - {"1", "2"} != known:
            raise Unlike(f"lines of `planet {kind}` and {', '.join(files)} differ: {sorted(read ^ known)}")
    others = {it.split()[1] for it in headers()} - set(READERS)
    if others:
        raise Unlike(f"READERS of planet_tools/editor/words.py lacks {sorted(others)}")


def trace_words() -> tuple[list[str], list[str]]:
    """Returns the words with which acts begin in a trace, and those that stand behind them as they are."""
    table = json.loads((TOOLS / "planet_tools/trace_forms.json").read_text("utf-8"))
    acts, behind = [], []
    for form in table["files"]["trace"]:
        words = form["line"].split(" ")
        if form["part"] == "event":
            acts.append(words[1])
        behind += words[2 if form["part"] == "event" else 1:]
    behind += [it for kind in table["types"].values() for it in kind.get("words", [])]
    behind = [it for it in behind if it.isalnum() and not it.isdigit()]
    return list(dict.fromkeys(acts)), list(dict.fromkeys(behind))
