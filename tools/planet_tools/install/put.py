"""Puts files below a prefix, and takes them away again, with the folders that were made for them."""
from __future__ import annotations

import os
import pathlib
import shutil

from planet_tools.install.tree import HOME, MANIFEST, Entry, named


class Refused(Exception):
    """Why nothing is installed, with what helps."""


def check_free(prefix: pathlib.Path, entries: dict[str, Entry]) -> None:
    """Raises where a file is there that no earlier installation put there."""
    ours = set(named(prefix))
    for name in entries:
        if name not in ours and os.path.lexists(prefix / name):
            raise Refused(f"{prefix / name} is there already, and no earlier call put it there; take it away first")


def make_folder(folder: pathlib.Path, prefix: pathlib.Path, new: list[str]) -> None:
    """Makes a folder with those above it, and notes each one that wasn't there."""
    if folder.is_dir():
        return
    make_folder(folder.parent, prefix, new)
    folder.mkdir()
    folder.chmod(0o755)
    new.append(os.path.relpath(folder, prefix) + "/")


def put(entry: Entry, to: pathlib.Path) -> None:
    """Puts one file."""
    if entry.link:
        to.symlink_to(entry.link)
        return
    if entry.source:
        shutil.copyfile(entry.source, to)
    else:
        to.write_text(entry.text, "utf-8")
    to.chmod(0o755 if entry.is_run else 0o644)


def install(prefix: pathlib.Path, entries: dict[str, Entry]) -> None:
    """Puts all files below a prefix in the place of an earlier installation; where one can't be put, none is left."""
    check_free(prefix, entries)
    take_away(prefix)
    new: list[str] = []
    done: list[str] = []
    try:
        for name, entry in entries.items():
            make_folder((prefix / name).parent, prefix, new)
            done.append(name)
            put(entry, prefix / name)
        (prefix / MANIFEST).write_text("\n".join([*entries, *new]) + "\n", "utf-8")
    except OSError as error:
        clear(prefix, done, new)
        raise Refused(f"{error.filename or prefix}: {error.strerror}; give another PREFIX, as ~/.local") from error


def clear(prefix: pathlib.Path, files: list[str], folders: list[str]) -> None:
    """Takes files away, and folders that nothing is left in."""
    for name in files:
        (prefix / name).unlink(missing_ok=True)
    if files:
        shutil.rmtree(prefix / HOME, ignore_errors=True)
    # a folder above the prefix isn't found by the prefix once that is gone
    paths = [pathlib.Path(os.path.normpath(prefix / it)) for it in folders]
    for path in sorted(paths, key=lambda it: -len(it.parts)):
        try:
            path.rmdir()
        except OSError:
            pass


def take_away(prefix: pathlib.Path) -> bool:
    """Takes an installation away, and returns whether one was there."""
    files = named(prefix)
    if not files:
        return False
    lines = (prefix / MANIFEST).read_text("utf-8").split("\n")
    try:
        clear(prefix, files, [it for it in lines if it.endswith("/")])
    except OSError as error:
        raise Refused(f"{error.filename}: {error.strerror}") from error
    return True
