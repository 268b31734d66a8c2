"""Syntax for editors: grammars that Debian's bat reads, and vim's own."""
from __future__ import annotations

import json
import os
import re
import shutil
import subprocess
from pathlib import Path
from typing import Any, Iterator

import pytest

from planet_tools.editor import grammar, words

FOLDER = Path(__file__).resolve().parents[2] / "editor"
SCHEDULE = """planet schedule 2
# a comment
host 1 without net
hots 2
program p
svc print : (string) -> unit
fun f(x : int) : unit = (* if (* *) *) if x = ~1 then print("a\\n") else OnNeighbor(|f|(1), @2, 2, %1)
end program
events
inject 1 p f 5 handler g (1)
raw 1 1 504c414e0101
"""
TRACE = """planet trace 1
7 queue @2 %1 1.1 bound 8
7 print @2 "bound"
ledger
1.1 granted 5 hops 1 evals 0 live 0 left 4
end
"""


def found(tool: str) -> str:
    path = shutil.which(tool)
    if not path:
        pytest.skip(f"{tool} isn't installed")
    return path


def test_a_word_of_the_code_that_a_table_lacks_is_told(monkeypatch: pytest.MonkeyPatch) -> None:
    monkeypatch.setitem(words.KINDS, "constant", "true")
    with pytest.raises(words.Unlike, match="false"):
        words.kinds()


def test_a_word_of_lines_that_the_code_lacks_is_told(monkeypatch: pytest.MonkeyPatch) -> None:
    monkeypatch.setitem(words.READERS, "fleet", ("node_files/specs/Asks.antt",))
    with pytest.raises(words.Unlike, match="planet fleet"):
        words.check_lines()


def rules_of(tree: Any) -> Iterator[dict[str, Any]]:
    if isinstance(tree, dict):
        yield tree
        for it in tree.values():
            yield from rules_of(it)
    if isinstance(tree, list):
        for it in tree:
            yield from rules_of(it)


@pytest.mark.parametrize("name", ["plan", "planet"])
def test_a_grammar_of_textmate_is_whole(name: str) -> None:
    tree = json.loads((FOLDER / f"textmate/{name}.tmLanguage.json").read_text("utf-8"))
    assert tree["scopeName"] == f"source.{name}"
    rules = list(rules_of(tree))
    assert {it["include"] for it in rules if "include" in it} <= {f"#{it}" for it in tree["repository"]}
    patterns = [it[key] for it in rules for key in ("match", "begin", "end") if isinstance(it.get(key), str)]
    assert len(patterns) > 10
    for it in patterns:
        re.compile(it)


def test_a_grammar_of_sublime_has_the_patterns_of_textmate() -> None:
    both = [
        sorted(set(re.findall(r'"(?:match|begin|end)": ("(?:[^"\\]|\\.)*")', write(grammar.of_lines()))))
        for write in (grammar.textmate, grammar.sublime)
    ]
    assert both[0] == both[1]


@pytest.fixture(scope="module")
def bat(tmp_path_factory: pytest.TempPathFactory) -> dict[str, str]:
    """The environment in which bat knows the grammars."""
    room = tmp_path_factory.mktemp("bat")
    shutil.copytree(FOLDER / "sublime", room / "config/bat/syntaxes")
    known = {**os.environ, "XDG_CONFIG_HOME": str(room / "config"), "XDG_CACHE_HOME": str(room / "cache")}
    subprocess.run([found("batcat"), "cache", "--build"], env=known, check=True, stdout=subprocess.DEVNULL)
    return known


def coloured(known: dict[str, str], language: str, text: str) -> list[tuple[str, str]]:
    """What bat writes: pieces of the text, each with its colour."""
    command = [found("batcat"), "--color=always", "--theme=ansi", "-p", "-l", language, "-"]
    said = subprocess.run(command, env=known, input=text, text=True, capture_output=True, check=True).stdout
    return re.findall(r"\x1b\[(\d+)m([^\x1b]+)\x1b\[0m", said)


def test_bat_colours_a_schedule(bat: dict[str, str]) -> None:
    pieces = coloured(bat, "planet", SCHEDULE)
    by_text = {text.strip(): colour for colour, text in pieces}
    keyword = by_text["fun"]
    assert [by_text[it] for it in ("host", "svc", "if", "inject", "end program", "events", "without")] == [keyword] * 7
    number = by_text["5"]
    assert number != keyword and [by_text[it] for it in ("~1", "@2", "%1")] == [number] * 3
    assert by_text.get("hots") not in (keyword, number)
    assert len({by_text[it] for it in ("fun", "5", "# a comment")}) == 3


def test_bat_colours_a_trace(bat: dict[str, str]) -> None:
    pieces = coloured(bat, "planet", TRACE)
    by_text = {text: colour for colour, text in pieces}
    assert {by_text[it] for it in ("queue", "bound", "print", "ledger", "granted", "left", "end")} == {by_text["queue"]}
    assert by_text['"bound"'] != by_text["queue"]


def vim_names(file: Path, places: list[tuple[int, int]]) -> list[str]:
    """The groups by which vim colours these lines and columns, which are counted from 1."""
    asked = file.with_name("asked.vim")
    out = file.with_name("names")
    shown = ", ".join(f"synIDattr(synID({line}, {column}, 1), 'name')" for line, column in places)
    asked.write_text(f"call writefile([{shown}], '{out}')\nqall!\n", "utf-8")
    command = [found("vim"), "-N", "-u", "NONE", "-i", "NONE", "-n", "-es", "--cmd", f"set runtimepath^={FOLDER}/vim",
               "-c", "filetype on | syntax on", "-c", f"edit {file}", "-S", str(asked)]
    subprocess.run(command, stdin=subprocess.DEVNULL, capture_output=True, timeout=60, check=False)
    return out.read_text("utf-8").splitlines()


def place(text: str, word: str) -> tuple[int, int]:
    at = text.index(word)
    return text.count("\n", 0, at) + 1, at - text.rfind("\n", 0, at)


def test_vim_colours_a_schedule(tmp_path: Path) -> None:
    file = tmp_path / "any.txt"
    file.write_text(SCHEDULE, "utf-8")
    wanted = {
        "planet schedule": "planetHeader", "# a": "planetComment", "host 1": "planetWord", "without": "planetInner",
        "hots": "planetWrong", "svc": "planDeclaration", "(* *)": "planComment", "~1": "planNumber", '"a': "planString",
        "\\n": "planEscape", "OnNeighbor": "planForm", "|f|": "planChunk", "@2": "planHost", "%1": "planDevice",
        "end program": "planetWord", "inject": "planetWord", "handler": "planetInner", "504c": "planetHex",
    }
    assert vim_names(file, [place(SCHEDULE, it) for it in wanted]) == list(wanted.values())


def test_vim_colours_a_trace_and_a_program(tmp_path: Path) -> None:
    file = tmp_path / "any.txt"
    file.write_text(TRACE, "utf-8")
    wanted = {"7": "planetEvent", "queue": "planetWord", "1.1": "planetFamily", "bound 8": "planetInner",
              '"bound"': "planString", "ledger": "planetWord", "granted": "planetInner"}
    assert vim_names(file, [place(TRACE, it) for it in wanted]) == list(wanted.values())
    program = tmp_path / "any.plan"
    program.write_text("fun f() : bool = not true\n", "utf-8")
    assert vim_names(program, [(1, 1), (1, 11), (1, 18), (1, 22)]) == \
        ["planDeclaration", "planType", "planOperator", "planConstant"]
