"""The parts of the book: definitions, types and contracts as HTML in which each name is a link to its place."""
from __future__ import annotations

import dataclasses
import html
import re
import typing

from antt import Cited, Definition, Origin, bound_by, origins_of, tokens_of, words_used
from rattle import Function, Source, Type
from reach import Graph, Nowhere, Place

Mark = typing.Tuple[int, int, str]
MOST_CITING = 24


@dataclasses.dataclass
class Part:
    """A heading of the book with its anchor, and the HTML below it."""
    title: str
    anchor: str
    html: str


def anchor_of(it: Place) -> str:
    """Returns the anchor of a place on the page of its crate, with the codes of signs in place of them."""
    name = f"{it.module}.{it.name}" if it.kind == "definition" else f"type.{it.name}"
    return re.sub(r"[^A-Za-z0-9_.-]", lambda sign: f"-{ord(sign[0]):x}-", name)


def page_of(it: Place) -> str:
    """Returns the place in the book, from its top, of what stands at a place of the repository."""
    return f"definitions/{it.crate}.html#{anchor_of(it)}"


def linked(text: str, marks: typing.Iterable[Mark]) -> str:
    """Returns a text as HTML, with links where the marks say; each is a place, a length and an address."""
    parts, end = [], 0
    for at, length, address in sorted(marks):
        if at >= end:
            parts += [html.escape(text[end:at], quote=False),
                      f'<a href="{html.escape(address)}">{html.escape(text[at:at + length], quote=False)}</a>']
            end = at + length
    return "".join(parts) + html.escape(text[end:], quote=False)


class Book:
    """What the parts of the book are made from: all definitions, and which of them cite which."""

    def __init__(self, graph: Graph) -> None:
        self.graph = graph
        self.kept: set[Place] = set()
        self._citing: dict[Place, list[Place]] = {}

    def keep(self, it: Place) -> None:
        """Keeps what the book has a place for, so that it can be linked, and what it cites."""
        self.kept.add(it)
        for cited in dict.fromkeys(self.graph.cited(it)):
            if cited.kind != "outside" and cited != it:
                self._citing.setdefault(cited, []).append(it)

    def _address(self, cited: Place | None) -> str | None:
        return f"../{page_of(cited)}" if cited in self.kept and cited else None

    def _place(self, here: Definition, cited: str | Origin) -> Place | None:
        if isinstance(cited, str):
            return Place("definition", here.crate, here.module, cited)
        return self.graph.place_of(cited)

    def _footer(self, it: Place, path: str, line: int) -> str:
        links = [f'<a href="../{html.escape(page_of(one))}">{html.escape(one.name)}</a>'
                 for one in self._citing.get(it, [])]
        more = f" and {len(links) - MOST_CITING} more" if len(links) > MOST_CITING else ""
        citing = f"; cited by {', '.join(links[:MOST_CITING])}{more}" if links else ""
        return f'<p class="where">{html.escape(path)}, line {line}{citing}</p>'

    def definition(self, it: Place) -> Part:
        """Returns a definition with its comment."""
        here = self.graph.definition(it)
        file = self.graph.file(it.crate, it.module)
        text = "\n".join(here.text)
        marks = []
        for at, length, cited in Cited(here, file).marks:
            address = self._address(self._place(here, cited))
            if address and cited != it.name:
                marks.append((at, length, address))
        around = "".join(f"<p class=\"where\">within <code>{html.escape(one)}</code></p>" for one in here.around)
        path = f"specs/{it.module.replace('.', '/')}.antt"
        return Part(it.name, anchor_of(it), f"<p>{html.escape(' '.join(here.comment))}</p>{around}"
                    f"<pre>{linked(text, marks)}</pre>{self._footer(it, path, here.line)}")

    def type(self, it: Place) -> Part:
        """Returns a type of the code, or a constant, with the value of its model if it has one."""
        code = self.graph.code(it.crate)
        path = f"src/{it.module.replace('.', '/')}.rt"
        if it.name not in code.types:
            return Part(it.name, anchor_of(it), self._footer(it, path, self.graph.line_of(it)))
        _, declared = code.types[it.name]
        comment = " ".join(line.lstrip("/ ") for line in declared.comment)
        text = "\n".join(declared.text) or f"pub trait {it.name}"
        model = ""
        if it.name in code.models:
            value = re.search(r"ghost Value = \{.*?\};", code.models[it.name], re.S)
            shown = html.escape(value[0] if value else "")
            model = f"<p>To a clause it is the value of its model:</p><pre>{shown}</pre>"
        marks = self._marks_of_code(code.crate, it.module, text, {}, it.name)
        return Part(it.name, anchor_of(it), f"<p>{html.escape(comment)}</p><pre>{linked(text, marks)}</pre>{model}"
                    f"{self._footer(it, path, declared.line)}")

    def _marks_of_code(self, crate: str, module: str, text: str, imports: dict[str, Origin], own: str) -> list[Mark]:
        """Returns the links of a text of the code: names that its file imports for clauses, and types."""
        code = self.graph.code(crate)
        plain = re.sub(r"//[^\n]*", lambda it: " " * len(it[0]), text)
        tokens = tokens_of(plain)
        bound = bound_by(tokens)
        operators = {it.strip("◌"): it for it in imports if "◌" in it}
        marks = []
        for token, field in words_used(tokens):
            name = operators.get(token, str(token))
            if name in imports and name not in bound:
                origin = imports[name]
                origin = Origin(origin.path, str(field) or None) if origin.name is None else origin
                place = self._found(origin)
            else:
                place = self.graph.type_of(code, module, name) if name[0].isupper() and name != own else None
            address = self._address(place)
            if address:
                marks.append((token.at, len(token), address))
        return marks

    def _found(self, origin: Origin) -> Place | None:
        try:
            return self.graph.place_of(origin)
        except Nowhere:
            return None

    def clauses(self, source: Source, text: str) -> str:
        """Returns a text with clauses of a source as HTML."""
        uses = re.findall(r"^\s*ghost (use [^;]*);", source.text, re.M)
        imports = {name: it for line in uses for name, it in origins_of(line)}
        crate = source.path.parts[-3]
        return linked(text, self._marks_of_code(crate, source.path.stem, text, imports, ""))

    def function(self, source: Source, it: Function, title: str) -> Part:
        """Returns an exported call with its clauses."""
        cut = 4 if it.owner else 0
        text = "\n".join(line[cut:] for line in it.head)
        comment = " ".join(line.lstrip("/ ") for line in it.comment)
        where = f'<p class="where">src/{source.path.name}, line {it.line}</p>'
        anchor = f"{source.path.stem}.{title}".replace(" ", "-")
        return Part(title, anchor, f"<p>{html.escape(comment)}</p><pre>{self.clauses(source, text)}</pre>{where}")


def types_of(graph: Graph, crate: str) -> list[Place]:
    """Returns the types of a crate that others may name."""
    found: list[tuple[str, Type]] = list(graph.code(crate).types.values())
    return [Place("type", crate, module, it.name) for module, it in found if it.is_pub]
