"""Packages of Debian that tests need: which of them are missing, installed by scripts/test/packages or named there."""
from __future__ import annotations

import shutil
import subprocess
from typing import List, Mapping

from planet_tools.program import ROOT
from planet_tools.python import SYSTEM

# what builds frames
SCAPY = {"scapy.packet": "python3-scapy"}


def lacking(commands: Mapping[str, str], modules: Mapping[str, str]) -> List[str]:
    """The packages of those commands, and of those modules of the system's python3, that aren't there."""
    found = [package for command, package in commands.items() if not shutil.which(command)]
    for module, package in modules.items():
        done = subprocess.run([SYSTEM, "-c", f"import {module}"], capture_output=True, check=False)
        found += [package] if done.returncode else []
    return list(dict.fromkeys(found))


def has_all(script: str, commands: Mapping[str, str], modules: Mapping[str, str]) -> bool:
    """Whether all is there, or could be installed; what couldn't is named."""
    missing = lacking(commands, modules)
    words = [str(ROOT / "scripts/test/packages"), script, *missing]
    return not missing or subprocess.run(words, check=False).returncode == 0
