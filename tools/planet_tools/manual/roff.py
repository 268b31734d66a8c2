"""Writes the text of a page in Markdown as the body of a manual page, in the macros of man(7) and tbl(1)."""
from __future__ import annotations

import re
import textwrap
from typing import Iterator

WIDTH = 76
PROSE = str.maketrans({"\\": "\\e", "`": "\\(ga", "^": "\\(ha", "~": "\\(ti"})
CODE = {**PROSE, **str.maketrans({"-": "\\-", "'": "\\(aq"})}
SENTENCE = re.compile(r"(?<=[a-z)`\d][.:]) (?=[A-Z`])")
LINK = re.compile(r"!?\[((?:[^\]`]|`[^`]*`)+)\]\(([^)]*)\)")
SPAN = re.compile(r"`([^`]+)`|\*\*([^*]+)\*\*")
ITEM = re.compile(r"^( *)(?:-|\d+\.) (.*)$")
SPECIAL = re.compile(r"<!--.*?-->|<a id=\"[^\"]*\"></a>", re.S)


def plain(text: str) -> str:
    """Returns a text whose characters stand for themselves."""
    return text.translate(CODE)


def code(text: str) -> str:
    return plain(text.replace("\\|", "|"))


def cite(text: str, cited: dict[str, str]) -> str:
    """Returns a text with its links as words; one to a page of the manual has that page's name behind it."""
    def told(link: re.Match[str]) -> str:
        page = cited.get(link[2].partition("#")[0].rpartition("/")[2])
        return f"{link[1]}, **{page}**," if page else link[1]
    return re.sub(r",,|,\.|, \.|,(?=[;:)])", lambda it: it[0][-1], LINK.sub(told, SPECIAL.sub("", text)))


def spans(text: str) -> str:
    """Returns a text with what is code or strong in bold."""
    found, end = "", 0
    for it in SPAN.finditer(text):
        found += prose(text[end:it.start()]) + "\\fB" + code(it[1] or it[2]) + "\\fR"
        end = it.end()
    return found + prose(text[end:])


def prose(text: str) -> str:
    return text.replace("\\|", "|").translate(PROSE)


def filled(text: str) -> list[str]:
    """Returns the lines of a sentence, none of which begins as a request does."""
    lines = textwrap.wrap(spans(" ".join(text.split())), WIDTH, break_long_words=False, break_on_hyphens=False)
    return ["\\&" + it if it[:1] in ".'" else it for it in lines]


def sentences(lines: list[str], cited: dict[str, str]) -> list[str]:
    """Returns the lines of a paragraph, of which each begins a sentence of its own."""
    return [it for line in lines for part in SENTENCE.split(cite(line, cited)) for it in filled(part)]


def shown(lines: list[str]) -> list[str]:
    """Returns lines that stand as they are."""
    kept = ["\\&" + it if it[:1] in (".", "\\") and it.startswith(".") else it for it in map(code, lines)]
    return [".PP", ".RS 4", ".nf", *kept, ".fi", ".RE"]


def cells(line: str) -> list[str]:
    return [it.strip() for it in re.split(r"(?<!\\)\|", line.strip()[1:-1])]


def table(lines: list[str], cited: dict[str, str]) -> list[str]:
    """Returns a table: of two columns a list of words with what is said of them, else one of tbl."""
    head, *rows = [cells(line) for line in lines if not re.fullmatch(r"[|:\- ]+", line)]
    if len(head) == 2:
        found: list[str] = []
        for first, second in rows:
            found += [".TP", *filled(cite(first, cited)), *sentences([second], cited)]
        return found
    blocks = []
    for row in [head, *rows]:
        blocks.append("|".join("T{\n" + "\n".join(sentences([it], cited) or ["\\&"]) + "\nT}" for it in row))
    wide = len(head) - 1
    return [".TS", "tab(|);", "lb " * wide + "lbx", "l " * wide + "lx.", *"\n".join(blocks).split("\n"), ".TE"]


def listed(lines: list[str], cited: dict[str, str]) -> list[str]:
    """Returns a list, whose items may have lines of their own."""
    found: list[str] = []
    for line in lines:
        item = ITEM.match(line)
        if item:
            found.append(".IP \\(bu 2")
        found += sentences([item[2] if item else line.strip()], cited)
    return found


def blocks(text: str) -> Iterator[tuple[str, list[str]]]:
    """Yields the blocks of a page: their kind, and their lines."""
    held: list[str] = []
    kind = ""
    for line in text.split("\n"):
        if kind == "fence":
            if line.startswith("```"):
                yield "code", held
                kind, held = "", []
            else:
                held.append(line)
            continue
        now = kind_of(line, kind)
        if now != kind and held:
            yield kind, held
            held = []
        kind = now
        if kind and kind != "fence":
            held.append(line[4:] if kind == "code" else line)
    if held:
        yield kind, held


def kind_of(line: str, before: str) -> str:
    """Returns the kind of a line, by the one before it."""
    if line.startswith("```"):
        return "fence"
    if not line.strip():
        return ""
    if line.startswith("#"):
        return "heading"
    if line.startswith("|"):
        return "table"
    if ITEM.match(line) or (before == "list" and line.startswith("  ")):
        return "list"
    return "code" if line.startswith("    ") else "text"


def heading(line: str) -> list[str]:
    marks, _, title = line.partition(" ")
    title = spans(LINK.sub(lambda it: it[1], title)).replace("\\fB", "").replace("\\fR", "")
    return [f".SH {title.upper()}" if len(marks) == 2 else f".SS {title}"]


def without(text: str, left_out: tuple[str, ...]) -> str:
    """Returns a page without its title, the sentence on the glossary, and sections of these names."""
    first, *parts = re.split(r"^(?=## )", text.partition("\n")[2], flags=re.M)
    kept = [first.replace("[The glossary](../language/glossary.md) has each term.", "")
            .replace("[The glossary](glossary.md) has each term.", "")]
    kept += [it for it in parts if it.partition("\n")[0][3:] not in left_out]
    return "".join(kept)


def body(text: str, left_out: tuple[str, ...], cited: dict[str, str]) -> list[str]:
    """Returns the lines of a page of the manual behind its description's heading."""
    found: list[str] = []
    is_first = True
    for kind, lines in blocks(without(text, left_out)):
        if kind == "heading":
            found += heading(lines[0])
        elif kind == "table":
            found += [*([] if is_first or len(cells(lines[0])) == 2 else [".PP"]), *table(lines, cited)]
        elif kind == "list":
            found += listed(lines, cited)
        elif kind == "code":
            found += shown(lines)[is_first:]
        else:
            found += [*([] if is_first else [".PP"]), *sentences(lines, cited)]
        is_first = kind == "heading"
    return found
