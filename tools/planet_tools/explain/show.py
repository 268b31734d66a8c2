"""Writes what is told of a note: the place, the line with its word marked, and the sentences."""
from __future__ import annotations

import textwrap
from typing import Iterator

from planet_tools.explain.notes import Place, Told

WIDTH, SEEN = 100, 96
BOLD, RED, BLUE, PLAIN = "\033[1m", "\033[1;31m", "\033[34m", "\033[0m"


def seen(place: Place) -> tuple[str, int, int]:
    """Returns as much of the line as is shown, and from where to where it is marked."""
    text = "".join(it if it.isprintable() else " " if it == "\t" else "·" for it in place.text)
    begin, end = place.column - 1, max(place.column, min(place.column - 1 + place.length, len(text)))
    if len(text) <= SEEN:
        return text, begin, end
    cut = max(0, begin - SEEN // 2)
    front, back = "…" if cut else "", "…" if cut + SEEN < len(text) else ""
    begin, end = begin - cut + len(front), min(end - cut, SEEN) + len(front)
    return front + text[cut:cut + SEEN] + back, begin, max(end, begin + 1)


def shown(told: Told, has_colour: bool) -> Iterator[str]:
    """Yields the lines that are written."""
    bold, red, blue, plain = (BOLD, RED, BLUE, PLAIN) if has_colour else ("", "", "", "")
    place = told.place
    if place and place.file.startswith("/proc/self/fd/"):
        place.file = "standard input"
    if place and place.line:
        yield f"{bold}{place.file}:{place.line}:{place.column}: {told.reason}{plain}"
        text, begin, end = seen(place)
        number = str(place.line)
        yield f"{blue}{number:>5} |{plain} {text}"
        yield f"{blue}      |{plain} {' ' * begin}{red}{'^' * (end - begin)}{plain}"
    elif place:
        yield f"{bold}{place.file}: {told.reason}{plain}"
    for say in told.says:
        yield from textwrap.wrap(say, WIDTH, initial_indent="  ", subsequent_indent="  ", break_long_words=False,
                                 break_on_hyphens=False)
