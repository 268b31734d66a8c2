"""The files that are installed: the program with its launcher, tools, pages, manual, completion and syntax."""
from __future__ import annotations

import dataclasses
import os
import pathlib
from typing import Iterator

from planet_tools.manual import pages

ROOT = pathlib.Path(__file__).resolve().parents[3]
HOME = "lib/planet"
MANIFEST = f"{HOME}/installed"
# what the launcher calls itself
INSIDE = ("explain", "front")
# what is of use to who changes the repository alone
LEFT_OUT = ("editor", "explorer_test", "tests", "__pycache__")
SCRIPTS = ("eval", "install", "sources.py", "build/together")


@dataclasses.dataclass(frozen=True)
class Entry:
    """A file: its text or where it is copied from, or what a link leads to."""

    text: str = ""
    source: pathlib.Path | None = None
    link: str = ""
    is_run: bool = False


def copied(folder: pathlib.Path, to: str) -> Iterator[tuple[str, Entry]]:
    """Yields the files of a folder, but for what Python keeps."""
    for file in sorted(folder.rglob("*")):
        if file.is_file() and "__pycache__" not in file.parts:
            yield f"{to}/{file.relative_to(folder)}", Entry(source=file, is_run=os.access(file, os.X_OK))


def one(file: str, to: str) -> tuple[str, Entry]:
    return to, Entry(source=ROOT / file, is_run=os.access(ROOT / file, os.X_OK))


def tools() -> list[str]:
    """Returns the names of the tools."""
    known = sorted(it.name for it in (ROOT / "tools").iterdir() if it.is_file() and os.access(it, os.X_OK))
    return [it for it in known if it not in INSIDE]


def packages() -> list[str]:
    """Returns the names of the packages that the tools stand on."""
    known = sorted(it.name for it in (ROOT / "tools/planet_tools").iterdir() if it.is_dir())
    return [it for it in known if it not in LEFT_OUT]


def home(program: pathlib.Path, built_from: str) -> Iterator[tuple[str, Entry]]:
    """Yields what the program and the tools stand on, in a folder of their own."""
    yield f"{HOME}/program", Entry(source=program, is_run=True)
    yield f"{HOME}/built-from", Entry(built_from)
    yield from (one(it, f"{HOME}/{it}") for it in ("planet", "VERSION"))
    yield from (one(f"scripts/{it}", f"{HOME}/scripts/{it}") for it in SCRIPTS)
    yield from (one(f"tools/{it}", f"{HOME}/tools/{it}") for it in (*tools(), *INSIDE))
    for folder in ("explorer", "scapy", "wireshark", *(f"planet_tools/{it}" for it in packages())):
        yield from copied(ROOT / "tools" / folder, f"{HOME}/tools/{folder}")
    for file in sorted((ROOT / "tools/planet_tools").glob("*.*")):
        yield one(f"tools/planet_tools/{file.name}", f"{HOME}/tools/planet_tools/{file.name}")
    for folder in ("use", "language", "pictures"):
        yield from copied(ROOT / "docs" / folder, f"{HOME}/docs/{folder}")


def shared(date: str) -> Iterator[tuple[str, Entry]]:
    """Yields what other programs read: man, shells, editors, Wireshark and scapy."""
    version = (ROOT / "VERSION").read_text("utf-8").strip()
    yield from ((f"share/man/{it.file}", Entry(pages.written(it, date, version))) for it in pages.MANUALS)
    yield one("tools/completion/planet.bash", "share/bash-completion/completions/planet")
    yield one("tools/completion/_planet", "share/zsh/site-functions/_planet")
    yield from copied(ROOT / "tools/editor/vim", "share/vim/vimfiles")
    for folder in ("textmate", "sublime"):
        yield from copied(ROOT / "tools/editor" / folder, f"share/planet/{folder}")
    yield from ((f"share/planet/{it}", Entry(link=f"../../{HOME}/tools/{it}")) for it in ("scapy", "wireshark"))
    yield "share/doc/planet", Entry(link=f"../../{HOME}/docs")


def commands() -> Iterator[tuple[str, Entry]]:
    """Yields the commands, as links to what they run."""
    yield "bin/planet", Entry(link=f"../{HOME}/planet")
    yield "bin/planet-eval", Entry(link=f"../{HOME}/scripts/eval")
    yield from ((f"bin/planet-{it}", Entry(link=f"../{HOME}/tools/{it}")) for it in tools())


def made(program: pathlib.Path, built_from: str, date: str) -> dict[str, Entry]:
    """Returns what is installed of the repository, by its path below the prefix."""
    return {**dict(home(program, built_from)), **dict(shared(date)), **dict(commands())}


def installed(prefix: pathlib.Path) -> dict[str, Entry]:
    """Returns what is installed below a prefix, by its path there."""
    found = {}
    for name in named(prefix):
        file = prefix / name
        found[name] = Entry(link=os.readlink(file)) if file.is_symlink() else \
            Entry(source=file, is_run=os.access(file, os.X_OK))
    return found


def named(prefix: pathlib.Path) -> list[str]:
    """Returns the paths of the files that were installed below a prefix; none where nothing was."""
    try:
        lines = (prefix / MANIFEST).read_text("utf-8").split("\n")
    except (FileNotFoundError, NotADirectoryError):
        return []
    return [it for it in lines if it and not it.endswith("/")]
