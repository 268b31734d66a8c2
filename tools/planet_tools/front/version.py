"""Writes the version: of what commit and kit the program is, and whether it is proved."""
from __future__ import annotations

import os
import subprocess
import sys

# without pathlib, which takes half the time of this command
ROOT = os.path.realpath(os.path.join(os.path.dirname(__file__), "../../.."))
KIT = {"built": "crates/planet/out/planet.kit", "unproved": ".kept/planet.kit"}
STATES = {"built": "proved and built from these sources", "unproved": "unproved, compiled from these sources",
          "none": "no program is made of these sources yet"}


def git(*words: str) -> str:
    """Returns what git writes, or nothing where there is no repository."""
    try:
        done = subprocess.run(["git", "-C", ROOT, *words], capture_output=True, text=True, check=False)
    except OSError:
        return ""
    return done.stdout.strip() if done.returncode == 0 else ""


def text_of(name: str) -> str:
    """Returns the text of a file below the root, or nothing where it isn't there."""
    try:
        with open(os.path.join(ROOT, name), encoding="utf-8") as file:
            return file.read()
    except FileNotFoundError:
        return ""


def told(state: str) -> str:
    """Returns the version of a program in this state: built, unproved or none."""
    packed = text_of("built-from")
    if packed:
        return packed
    commit = git("rev-parse", "--short", "HEAD") or "none"
    changed = " and changes" if git("diff", "--name-only", "HEAD", "--", "crates", "crates.txt") else ""
    kit = text_of(KIT[state]).strip() if state in KIT else ""
    return "".join(f"{line}\n" for line in (
        f"planet {text_of('VERSION').strip()}",
        f"commit: {commit}{changed}",
        f"kit: {kit or 'none was used yet'}",
        f"program: {STATES[state]}",
    ))


def main(state: str) -> int:
    sys.stdout.write(told(state))
    return 0
