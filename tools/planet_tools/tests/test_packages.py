"""The script that installs what other scripts lack, with stand-ins for the commands that it calls."""
from __future__ import annotations

import os
import subprocess
from pathlib import Path

import pytest

SCRIPT = Path(__file__).resolve().parents[3] / "scripts/test/packages"
UPDATE = "update"
INSTALL = "install -y -o DPkg::Lock::Timeout=120 one two"
ADVICE = "it: NOT RUN: packages are missing, install them with: apt-get install one two\n"


def stand_in(folder: Path, name: str, text: str) -> None:
    """A command of this name that does what the text says."""
    (folder / name).write_text(f"#!/bin/sh\n{text}\n")
    (folder / name).chmod(0o755)


@pytest.mark.parametrize(
    ("user", "fails", "asked", "told", "status"),
    [
        (0, "nothing", [UPDATE, INSTALL], "it: installing one two\n", 0),
        (0, "update", [UPDATE, INSTALL], "it: installing one two\n", 0),
        (0, "install", [UPDATE, INSTALL], f"it: installing one two\n{ADVICE}", 1),
        (1000, "nothing", [], ADVICE, 1),
    ],
)
def test_packages_are_listed_anew_and_installed_or_named(
    user: int, fails: str, asked: list[str], told: str, status: int, tmp_path: Path
) -> None:
    calls = tmp_path / "calls"
    calls.touch()
    stand_in(tmp_path, "id", f"echo {user}")
    stand_in(tmp_path, "apt-get", f'echo "$*" >>{calls}\n[ "$1" != {fails} ]')
    path = f"{tmp_path}:{os.environ['PATH']}"
    done = subprocess.run(
        [SCRIPT, "it", "one", "two"], env={**os.environ, "PATH": path}, capture_output=True, text=True, check=False)
    assert (done.stdout, done.stderr, done.returncode) == ("", told, status)
    assert calls.read_text().splitlines() == asked
