"""The commands, as docs/use/commands.md says them, the one source of help, manual, usage and completion."""
from __future__ import annotations

import dataclasses
import pathlib
import re

PAGE = pathlib.Path(__file__).resolve().parents[3] / "docs/use/commands.md"
SECTION = re.compile(r"^### `([a-z]+)([^`]*)`\n\n(.*?)(?=^##)", re.M | re.S)
LINK = re.compile(r"\[([^\]]+)\]\([^)]*\)")
OPTION = re.compile(r"^\| ((?:`[^`]+`(?:, )?)+) \| (.+) \|$", re.M)


@dataclasses.dataclass(frozen=True)
class Command:
    """A command: its name, the words behind it, what it does, and its lines by their kind."""

    name: str
    takes: tuple[str, ...]
    about: str
    lines: dict[str, str]

    @property
    def shown(self) -> str:
        return " ".join([self.name, *self.takes])

    @property
    def brief(self) -> str:
        """What it does, in its first sentence and without brackets."""
        return re.sub(r" \([^)]*\)", "", self.about).partition(". ")[0].rstrip(".")


def plain(text: str) -> str:
    """Returns a text of the page without its links."""
    return LINK.sub(lambda it: it[1], text)


def page() -> str:
    return PAGE.read_text("utf-8")


def commands() -> list[Command]:
    """Returns the commands in the order of the page."""
    found = []
    for name, takes, body in SECTION.findall(page()):
        lines = dict(re.findall(r"^- ([A-Z][a-z ]+): (.+)$", body, re.M))
        about = " ".join(plain(body.partition("\n- ")[0]).split())
        found.append(Command(name, tuple(takes.split()), about, lines))
    return found


def options() -> dict[str, str]:
    """Returns the words that the launcher takes itself, with what they do."""
    part = page().partition("## Words of the launcher\n")[2].partition("\n## ")[0]
    return {words.replace("`", ""): plain(about) for words, about in OPTION.findall(part)}


def statuses() -> dict[int, str]:
    """Returns the exit codes with what they mean."""
    part = page().partition("## How it ends\n")[2].partition("\n## ")[0]
    return {int(code): plain(about) for code, about in re.findall(r"^\| (\d+) \| (.+) \|$", part, re.M)}


def usage_note() -> str:
    """Returns the note of a call whose words are no command."""
    return "planet: usage: " + " | ".join(it.shown for it in known_order())


def known_order() -> list[Command]:
    """Returns the commands in the order of the usage note."""
    order = "check show replay node inject fleet grow cut gather port audit".split()
    return sorted(commands(), key=lambda it: order.index(it.name) if it.name in order else len(order))
