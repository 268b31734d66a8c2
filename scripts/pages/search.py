"""A second way of finding the definitions that clauses reach: a search for words.

It reads a file of definitions by its paragraphs, where `antt` reads it by its indentation, and knows no scopes: a word
that is the name of a definition cites it, be it the name of a variable. So it may find more, but nothing less."""
from __future__ import annotations

import re
import typing

from reach import CRATES

Key = typing.Tuple[str, str, str]
HEAD = r"^ *(?:(?:unfoldable|abbrev) (?:pub )?|pub (?:record|data) )"
DEFINITION = re.compile(HEAD + r"(◌\S*◌|[^\s:(){}=,;.]+)(?= *[:({])", re.M)
IMPORT = re.compile(r"^use Rattle\.([\w.-]+?)(?:\.\{(.*)\}| as (\w+))$", re.M)


class Text:
    """A file of definitions: its paragraphs by the names that they define, and where imported names come from."""

    def __init__(self, crate: str, module: str) -> None:
        path = CRATES / crate / "specs" / (module.replace(".", "/") + ".antt")
        text = re.sub(r"^ *--.*\n", "", path.read_text("utf-8"), flags=re.M) if path.exists() else ""
        self.paragraphs: dict[str, str] = {}
        for paragraph in re.split(r"\n\s*\n", text):
            plain = re.sub(r'"[^"]*"', "", paragraph)
            for name in DEFINITION.findall(plain):
                self.paragraphs[name] = self.paragraphs.get(name, "") + plain
        self.imports: dict[str, tuple[str, str, str | None]] = {}
        for where, names, alias in IMPORT.findall(text):
            crate, *parts = where.split(".")
            for name in names.split(", ") if names else []:
                self.imports[name.split(" as ")[-1]] = crate, ".".join(parts[1:]), name.split(" as ")[0]
            if alias:
                self.imports[alias] = crate, ".".join(parts[1:]), None

    def words(self, name: str) -> typing.Iterator[str]:
        """Yields the words of a definition, the operators among them, and `◌>>=◌` for a `do` block."""
        text = self.paragraphs[name]
        yield from set(re.findall(r"(?<![.\w'-])[\w'«»-]+", text))
        for sign in [*self.imports, *self.paragraphs]:
            parts = [it for it in sign.split("◌") if it] if "◌" in sign else []
            if any(re.search(rf"(?<!\S){re.escape(it)}(?!\S)", text) for it in parts):
                yield sign
        if re.search(r"\bdo\b", text):
            yield "◌>>=◌"


def found_from(roots: typing.Iterable[Key]) -> set[Key]:
    """Returns the definitions that a search finds from these on."""
    texts: dict[tuple[str, str], Text] = {}
    found: set[Key] = set()
    waiting = list(roots)
    while waiting:
        crate, module, name = waiting.pop()
        if (crate, module) not in texts:
            texts[crate, module] = Text(crate, module)
        text = texts[crate, module]
        if name not in text.paragraphs or (crate, module, name) in found:
            continue
        found.add((crate, module, name))
        for word in text.words(name):
            if word in text.imports:
                there, path, named = text.imports[word]
                fields = re.findall(rf"\b{word}\.([\w-]+)", text.paragraphs[name])
                waiting += [(there, path, it) for it in ([named] if named else fields)]
            elif word in text.paragraphs:
                waiting.append((crate, module, word))
    return found
