"""Whether a program is of the sources as they stand: by times where nothing changed, by sums where something did."""
from __future__ import annotations

import os
import shutil
import subprocess
import time
from pathlib import Path
from typing import Callable

import pytest

SCRIPT = Path(__file__).resolve().parents[3] / "scripts/build/state"
SOURCE, PROOF = "crates/planet/src/main.rt", "crates/planet/proofs/call/Answers.antt"


class Sources:
    """A tree of one crate, with a program that stands for the built one."""

    def __init__(self, root: Path) -> None:
        self.root = root
        self.script = root / "scripts/build/state"
        self.script.parent.mkdir(parents=True)
        shutil.copy(SCRIPT, self.script)
        for name in ("crates.txt", SOURCE, PROOF, "crates/planet/out/planet"):
            (root / name).parent.mkdir(parents=True, exist_ok=True)
            (root / name).write_text(name)
        (root / "crates/planet/out/planet").chmod(0o755)
        self.age()
        assert self.run("record", "built", self.run("sum", "built").stdout.rstrip("\n")).returncode == 0
        assert self.is_current()

    def age(self) -> None:
        """Waits until what is written from now on has a later time."""
        time.sleep(0.02)

    def run(self, *words: str) -> subprocess.CompletedProcess[str]:
        return subprocess.run([self.script, *words], capture_output=True, text=True, check=False)

    def is_current(self) -> bool:
        done = self.run("current", "built")
        assert done.stdout + done.stderr == ""
        parts = sorted(it.name for it in (self.root / "crates/planet/out").iterdir())
        assert parts == ["planet", "planet.kit", "planet.looked", "planet.sources"]
        return done.returncode == 0

    def edit(self, name: str, text: str) -> None:
        self.age()
        (self.root / name).parent.mkdir(parents=True, exist_ok=True)
        (self.root / name).write_text(text)


@pytest.fixture(name="sources")
def made(tmp_path: Path) -> Sources:
    return Sources(tmp_path)


def removed(sources: Sources) -> None:
    (sources.root / SOURCE).unlink()


def renamed(sources: Sources) -> None:
    (sources.root / SOURCE).rename(sources.root / "crates/planet/src/other.rt")


def replaced(sources: Sources) -> None:
    """Another text under the times of the first."""
    file = sources.root / SOURCE
    held = file.stat()
    file.write_text("something else")
    os.utime(file, ns=(held.st_atime_ns, held.st_mtime_ns))


@pytest.mark.parametrize("change", (
    removed, renamed, replaced,
    lambda sources: sources.edit("crates.txt", "a"),
    lambda sources: sources.edit(PROOF, "a"),
    lambda sources: sources.edit("crates/planet/proofs/other/Answers.antt", "a"),
    lambda sources: sources.edit("crates/planet/out/planet", "a"),
))
def test_another_source_is_seen(sources: Sources, change: Callable[[Sources], None]) -> None:
    sources.age()
    change(sources)
    assert not sources.is_current()
    assert not sources.is_current()


def test_the_same_sources_are_current(sources: Sources) -> None:
    sources.edit(SOURCE, SOURCE)
    sources.edit("crates/planet/out/more", "")
    (sources.root / "crates/planet/out/more").unlink()
    sources.edit("crates/planet/must-fail/one.edit", "")
    assert sources.is_current()
    (sources.root / "crates/planet/out/planet.looked").unlink()
    assert sources.is_current()


def test_a_new_folder_is_looked_at(sources: Sources) -> None:
    (sources.root / "crates/planet/specs").mkdir()
    assert sources.is_current()
    sources.edit("crates/planet/specs/Lib.antt", "a")
    assert not sources.is_current()
