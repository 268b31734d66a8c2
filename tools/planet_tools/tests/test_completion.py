"""Completion in shells that a terminal drives."""
from __future__ import annotations

import os
import pty
import re
import select
import shutil
import signal
import time
from pathlib import Path
from typing import Iterator

import pytest

FOLDER = Path(__file__).resolve().parents[2] / "completion"
SECONDS = 15.0
# files of each kind, in a folder of their own since folders are offered too
FILES = {
    "runs/a": "planet node 1\n", "runs/b": "planet schedule 2\n", "runs/c": "planet log 1\n", "runs/d.plan": "(* *)\n",
    "runs/e": "504c414e01\n", "runs/f": "none\n", "runs/g": "planet audit 1\n", "runs/h": "planet fleet 1\n",
}


class Shell:
    """A shell behind a terminal."""

    def __init__(self, words: list[str], room: Path) -> None:
        self.process, self.terminal = pty.fork()
        if not self.process:
            os.chdir(room)
            os.execvpe(words[0], words, {**os.environ, "TERM": "dumb", "ZDOTDIR": str(room), "HOME": str(room)})
        self.said = ""

    def read_until(self, pattern: str) -> str:
        """Returns what was written up to what the pattern finds; fails where it doesn't come."""
        end = time.monotonic() + SECONDS
        while not re.search(pattern, self.said):
            assert time.monotonic() < end, f"{pattern} doesn't come: {self.said!r}"
            if select.select([self.terminal], [], [], 0.1)[0]:
                self.said += os.read(self.terminal, 65_536).decode("utf-8", "replace")
        said, self.said = self.said, ""
        return said

    def completes(self, typed: str, wanted: str) -> None:
        """Types words and a tab, and waits for what must stand behind them then."""
        os.write(self.terminal, f"{typed}\t".encode())
        self.read_until(re.escape(typed) + ".*" + re.escape(wanted))
        # the line is cleared for the next words
        os.write(self.terminal, b"\x15")

    def lists(self, typed: str, wanted: str) -> None:
        """Types words and two tabs, and waits for the list of what may stand there."""
        os.write(self.terminal, f"{typed}\t\t".encode())
        said = self.read_until(wanted)
        assert not re.search(r"\b[adefgh] ", said.partition(typed)[2]), said

    def end(self) -> None:
        os.kill(self.process, signal.SIGKILL)
        os.waitpid(self.process, 0)
        os.close(self.terminal)


@pytest.fixture(params=["bash", "zsh"])
def shell(request: pytest.FixtureRequest, tmp_path: Path) -> Iterator[Shell]:
    if not shutil.which(request.param):
        pytest.skip(f"{request.param} isn't installed")
    for name, text in FILES.items():
        (tmp_path / name).parent.mkdir(exist_ok=True)
        (tmp_path / name).write_text(text, "utf-8")
    (tmp_path / ".bashrc").write_text(f"PS1='$ '\n. {FOLDER}/planet.bash\necho ready\n", "utf-8")
    (tmp_path / ".zshrc").write_text(f"PS1='%% '\nunsetopt zle_bracketed_paste 2>/dev/null\nfpath=({FOLDER} $fpath)\n"
                                     "autoload -Uz compinit && compinit -D -u\necho ready\n", "utf-8")
    words = {"bash": ["bash", "--rcfile", str(tmp_path / ".bashrc"), "-i"], "zsh": ["zsh", "-i"]}
    made = Shell(words[request.param], tmp_path)
    try:
        made.read_until(r"ready\r?\n(?s:.*)[$%] ")
        yield made
    finally:
        made.end()


def test_words_and_files_are_completed(shell: Shell) -> None:
    shell.completes("planet rep", "lay ")
    shell.completes("planet --ver", "sion ")
    shell.completes("planet --explain che", "ck ")
    shell.completes("planet help aud", "it ")
    known = {"node": "a", "gather 7": "c", "check": "d.plan", "show": "e", "audit": "g", "fleet": "h"}
    for words, name in known.items():
        shell.completes(f"planet {words} ru", "ns/")
        shell.completes(f"planet {words} runs/", f"{name} ")
    # of two kinds there is one each
    shell.lists("planet replay runs/", r"\bb +c\b")
