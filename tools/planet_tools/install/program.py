"""Which program is installed, and of what it was built."""
from __future__ import annotations

import datetime
import hashlib
import pathlib
import subprocess

from planet_tools.front import version
from planet_tools.install.put import Refused
from planet_tools.install.tree import ROOT, Entry, installed, made

BUILT, KEPT = ROOT / "crates/planet/out/planet", ROOT / ".kept/planet"
NOT_BUILT = ("no program is built from these sources: ./planet --build proves and builds it, and --unproved takes one "
             "without a proof")


def is_current(kind: str) -> bool:
    return subprocess.run([ROOT / "scripts/build/state", "current", kind], check=False).returncode == 0


def program(takes_unproved: bool) -> tuple[pathlib.Path, str]:
    """Returns the program, and what it was built from."""
    if is_current("built"):
        path, state = BUILT, "built"
    elif takes_unproved:
        subprocess.run([ROOT / "scripts/build/unproved", "--compile"], check=True)
        path, state = KEPT, "unproved"
    else:
        raise Refused(NOT_BUILT)
    return path, version.told(state) + f"sha256: {hashlib.sha256(path.read_bytes()).hexdigest()}\n"


def date() -> str:
    """Returns the day of the commit, or today's where there is no repository."""
    return version.git("log", "-1", "--format=%cs") or datetime.date.today().isoformat()


def choose(takes_unproved: bool) -> dict[str, Entry]:
    """Returns what is installed: that of the repository, or of the installation which this script stands in."""
    if (ROOT / "built-from").exists():
        return installed(ROOT.parents[1])
    return made(*program(takes_unproved), date())
