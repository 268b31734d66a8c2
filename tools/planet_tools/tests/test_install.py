"""What is installed, and that nothing of it is left where it is taken away."""
from __future__ import annotations

import os
import shutil
import subprocess
from pathlib import Path

import pytest

from planet_tools.install import put, tree

BUILT_FROM = "planet 1.0\ncommit: abc\nkit: none\nprogram: proved and built from these sources\n"

SHARED = (
    "man/man1/planet.1", "man/man5/planet-schedule.5", "man/man5/planet-node.5", "man/man7/plan.7", "doc/planet/use",
    "bash-completion/completions/planet", "zsh/site-functions/_planet", "vim/vimfiles/syntax/plan.vim",
    "planet/wireshark/planet.lua", "planet/textmate/package.json", "planet/sublime/plan.sublime-syntax",
)


@pytest.fixture
def entries(tmp_path: Path) -> dict[str, tree.Entry]:
    """What is installed of the repository with a program that tells its words."""
    program = tmp_path / "program"
    program.write_text("#!/bin/sh\necho \"$@\"\n", "utf-8")
    program.chmod(0o755)
    return tree.made(program, BUILT_FROM, "2026-01-02")


def there(folder: Path) -> list[str]:
    return sorted(str(it.relative_to(folder)) for it in folder.rglob("*"))


def said(*words: str | Path) -> str:
    return subprocess.run(words, capture_output=True, text=True, check=True, cwd="/").stdout


def test_it_runs_where_it_is_installed(tmp_path: Path, entries: dict[str, tree.Entry]) -> None:
    prefix = tmp_path / "a prefix"
    put.install(prefix, entries)
    planet = prefix / "bin/planet"
    assert said(planet, "check", "-") == "check /dev/stdin\n"
    assert said(planet, "--version") == BUILT_FROM
    assert said(planet, "help", "gather").startswith("usage: planet gather PORT FILE\n")
    assert {"explore", "trace", "scenario"} <= set(tree.tools())
    for tool in tree.tools():
        assert said(prefix / f"bin/planet-{tool}", "--help").startswith("usage: ")
    for file in SHARED:
        assert (prefix / "share" / file).exists(), file


def test_nothing_is_left(tmp_path: Path, entries: dict[str, tree.Entry]) -> None:
    prefix = tmp_path / "new/er"
    put.install(prefix, entries)
    said(prefix / "bin/planet", "--help")
    put.install(prefix, entries)
    assert put.take_away(prefix)
    assert there(tmp_path) == ["program"]
    assert not put.take_away(prefix)


def test_what_was_there_stays(tmp_path: Path, entries: dict[str, tree.Entry]) -> None:
    prefix = tmp_path / "prefix"
    (prefix / "bin").mkdir(parents=True)
    (prefix / "share/man").mkdir(parents=True)
    (prefix / "bin/mine").write_text("mine", "utf-8")
    before = there(prefix)
    put.install(prefix, entries)
    assert put.take_away(prefix)
    assert there(prefix) == before


def test_a_file_of_others_is_not_written_over(tmp_path: Path, entries: dict[str, tree.Entry]) -> None:
    prefix = tmp_path / "prefix"
    (prefix / "bin").mkdir(parents=True)
    (prefix / "bin/planet").write_text("mine", "utf-8")
    with pytest.raises(put.Refused, match="bin/planet is there already"):
        put.install(prefix, entries)
    assert there(prefix) == ["bin", "bin/planet"]


def test_a_place_that_cannot_be_written_is_left_as_it_was(tmp_path: Path, entries: dict[str, tree.Entry]) -> None:
    (tmp_path / "file").write_text("", "utf-8")
    before = there(tmp_path)
    with pytest.raises(put.Refused, match="give another PREFIX"):
        put.install(tmp_path / "file/prefix", entries)
    missing = {**entries, "share/last": tree.Entry(source=tmp_path / "none")}
    with pytest.raises(put.Refused, match="No such file"):
        put.install(tmp_path / "prefix", missing)
    assert there(tmp_path) == before


def test_one_that_was_moved_can_be_installed_from(tmp_path: Path, entries: dict[str, tree.Entry]) -> None:
    put.install(tmp_path / "first", entries)
    shutil.move(tmp_path / "first", tmp_path / "moved")
    put.install(tmp_path / "second", tree.installed(tmp_path / "moved"))
    assert there(tmp_path / "second") == there(tmp_path / "moved")
    assert said(tmp_path / "second/bin/planet", "grow") == "grow\n"
    assert os.readlink(tmp_path / "second/bin/planet") == "../lib/planet/planet"
