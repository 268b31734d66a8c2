"""Makes pages of the files of tools/explorer: one file that needs no other one, with or without a trace in it."""
from __future__ import annotations

import base64
import hashlib
import json
import re
from pathlib import Path
from typing import Dict, List, Optional

from planet_tools.trace.forms import TABLE, Refused

FOLDER = Path(__file__).resolve().parents[2] / "explorer"
ENTRY = "app.js"
IMPORT = re.compile(r'^import [^;]*? from "\./([\w.]+)";\n', re.M)
EXPORT_LIST = re.compile(r"^export \{[^}]*\};\n", re.M)
EXPORT = re.compile(r"^export ", re.M)
TOP = re.compile(r"^(?:const|let|class|function) (\w+)", re.M)
STYLE = '<link rel="stylesheet" href="style.css">\n'
SCRIPT = '<script type="module" src="app.js"></script>\n'
CHARSET = '<meta charset="utf-8">\n'
FORMS_HEAD = "// Made of tools/planet_tools/trace_forms.json by tools/explore --make.\nexport const FORMS = "


def forms_text() -> str:
    """The table of forms as a module."""
    return f"{FORMS_HEAD}{json.dumps(json.loads(TABLE.read_text('utf-8')), indent=1)};\n"


def modules(entry: str = ENTRY) -> List[str]:
    """The modules that the page needs, each behind those that it imports."""
    order: List[str] = []

    def visit(name: str) -> None:
        for other in IMPORT.findall((FOLDER / name).read_text("utf-8")):
            if other not in order:
                visit(other)
        order.append(name)

    visit(entry)
    return order


def script_text() -> str:
    """All modules as one: what they export has names of its own, so that they stand side by side."""
    owners: Dict[str, str] = {}
    parts = []
    for name in modules():
        text = (FOLDER / name).read_text("utf-8")
        text = EXPORT.sub("", EXPORT_LIST.sub("", IMPORT.sub("", text)))
        for word in TOP.findall(text):
            if word in owners:
                raise Refused(f"the name {word} stands in {owners[word]} too, tools/explorer/{name}")
            owners[word] = name
        parts.append(f"// {name}\n{text}")
    return "\n".join(parts).replace("</script", "<\\/script")


def policy(script: str) -> str:
    """Says that the page runs this script and no other, and asks for nothing elsewhere."""
    digest = base64.b64encode(hashlib.sha256(script.encode("utf-8")).digest()).decode("ascii")
    said = f"default-src 'none'; script-src 'sha256-{digest}'; style-src 'unsafe-inline'"
    return f'<meta http-equiv="Content-Security-Policy" content="{said}">\n'


def held_text(name: str, trace: str) -> str:
    """A trace as the page holds it: data that is no script, in which nothing can end it."""
    data = json.dumps({"name": name, "text": trace}, ensure_ascii=False).replace("<", "\\u003c")
    return f'<script type="application/json" id="trace">{data}</script>\n'


def page_text(name: str = "", trace: Optional[str] = None) -> str:
    """The whole page as one file."""
    page = (FOLDER / "index.html").read_text("utf-8")
    style = (FOLDER / "style.css").read_text("utf-8")
    script = "\n" + script_text()
    held = "" if trace is None else held_text(name, trace)
    for old, new in (
        (CHARSET, CHARSET + policy(script)),
        (STYLE, f"<style>\n{style}</style>\n"),
        (SCRIPT, f'{held}<script type="module">{script}</script>\n'),
    ):
        if page.count(old) != 1:
            raise Refused(f"the line {old.strip()} doesn't stand there once, tools/explorer/index.html")
        page = page.replace(old, new)
    return page


def made_files() -> Dict[Path, str]:
    """The files of tools/explorer that are made of others."""
    return {FOLDER / "forms.js": forms_text(), FOLDER / "explorer.html": page_text()}
