"""A hook of mkdocs: puts the blocks of definitions and contracts into a page once it is made."""
from __future__ import annotations

import functools
import json
import pathlib
import re
import typing


@functools.lru_cache(maxsize=None)
def blocks(path: str) -> dict[str, str]:
    """Returns the blocks that the script `book` wrote, by their names."""
    found: dict[str, str] = json.loads(pathlib.Path(path).read_text("utf-8"))
    return found


def on_page_content(html: str, page: typing.Any, config: typing.Any, files: typing.Any) -> str:
    """Returns the HTML of a page with its blocks."""
    known = blocks(config["extra"]["blocks"])
    return re.sub(r'<div id="(block-\d+)"></div>', lambda it: f'<div class="block">{known[it[1]]}</div>', html)
