"""The sentences of the page of refusals, and the services of the page of services."""
from __future__ import annotations

import pathlib
import re

DOCS = pathlib.Path(__file__).resolve().parents[3] / "docs"
ROW = re.compile(r"^\| `?([^|`]+?)`? \| (.+) \|$", re.M)
SERVICE = re.compile(r"^\| (\w+) \| `(\w+)` \| `([^`]+)` \|", re.M)


def sentences() -> dict[str, dict[str, str]]:
    """Returns for each part of the page of refusals its reasons with their sentences."""
    text = (DOCS / "use/refusals.md").read_text("utf-8")
    found = {}
    for part in text.split("\n## ")[1:]:
        title, _, body = part.partition("\n")
        found[title] = {key: say for key, say in ROW.findall(body) if not say.startswith("What ")}
    return found


def services() -> dict[str, str]:
    """Returns the services with their types."""
    text = (DOCS / "language/services.md").read_text("utf-8")
    return {name: kind for _, name, kind in SERVICE.findall(text)}
