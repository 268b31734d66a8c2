"""The files of tools/editor, by their paths below it."""
from __future__ import annotations

import json

from planet_tools.editor import grammar, vim, words

ABOUT = "Programs in PLAN, and the files of lines of planet"


def package() -> str:
    """Returns what VS Code wants to know of the folder of grammars."""
    known = grammar.of_programs(), grammar.of_lines()
    languages, grammars = [], []
    for it in known:
        name = it.scope.rpartition(".")[2]
        first = {"firstLine": it.first_line} if it.first_line else {}
        languages.append({"id": name, "extensions": [f".{ending}" for ending in it.endings], **first})
        grammars.append({"language": name, "scopeName": it.scope, "path": f"./{name}.tmLanguage.json"})
    about = {"name": "planet-syntax", "version": "1.0.0", "publisher": "planet", "description": ABOUT}
    given = {"engines": {"vscode": "*"}, "contributes": {"languages": languages, "grammars": grammars}}
    return json.dumps({**about, **given}, indent=1) + "\n"


def files() -> dict[str, str]:
    """Returns the texts of the files, or raises `Unlike` where a table of words isn't as the definitions have it."""
    words.check_lines()
    words.check_explained()
    programs, lines = grammar.of_programs(), grammar.of_lines()
    return {
        "vim/ftdetect/planet.vim": vim.detection(),
        "vim/syntax/plan.vim": vim.of_programs(),
        "vim/syntax/planet.vim": vim.of_lines(),
        "textmate/package.json": package(),
        "textmate/plan.tmLanguage.json": grammar.textmate(programs),
        "textmate/planet.tmLanguage.json": grammar.textmate(lines),
        "sublime/plan.sublime-syntax": grammar.sublime(programs),
        "sublime/planet.sublime-syntax": grammar.sublime(lines),
    }
