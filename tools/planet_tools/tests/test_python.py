"""A tool goes on with the system's python3 where a package is missing in the one that runs it."""
from __future__ import annotations

import os
import subprocess
import sys
from pathlib import Path

import pytest

from planet_tools import python

TOOLS = Path(__file__).resolve().parents[2]


def test_a_package_that_is_there_is_no_reason_to_go_on() -> None:
    python.need("tool", "os", "none")


def test_a_folder_of_that_name_is_no_package() -> None:
    assert (TOOLS / "explorer").is_dir() and not python.is_there("explorer")


def test_a_missing_package_is_named(capsys: pytest.CaptureFixture[str], monkeypatch: pytest.MonkeyPatch) -> None:
    monkeypatch.setenv(python.GONE_ON, str(os.getpid()))
    with pytest.raises(SystemExit) as end:
        python.need("tool", "no_such_package", "python3-no-such-package")
    assert end.value.code == 2
    told = capsys.readouterr().err
    wanted = "tool: no_such_package is missing, install it with: apt-get install python3-no-such-package"
    assert told == f"{wanted}, {sys.executable}\n"


def test_a_tool_goes_on_with_the_systems_python(tmp_path: Path) -> None:
    """-S hides what is installed beside the standard library, as another python3 that sees no package of Debian's."""
    script = tmp_path / "tool"
    lines = f"import sys\nsys.path.insert(0, {str(TOOLS)!r})\nfrom planet_tools.python import need\n"
    script.write_text(lines + "need('tool', 'networkx', 'python3-networkx')\nimport networkx\nprint(sys.argv[1])\n")
    done = subprocess.run([sys.executable, "-S", str(script), "word"], capture_output=True, text=True)
    assert (done.returncode, done.stdout) == (0, "word\n"), done.stderr


def test_each_launcher_says_what_it_does_from_anywhere(tmp_path: Path) -> None:
    for launcher in sorted(TOOLS.iterdir()):
        if not launcher.is_file() or not os.access(launcher, os.X_OK):
            continue
        link = tmp_path / launcher.name
        link.symlink_to(launcher)
        done = subprocess.run([str(link), "--help"], capture_output=True, text=True, cwd=tmp_path)
        assert done.returncode == 0, done.stderr
        assert done.stdout.startswith("usage: ")
