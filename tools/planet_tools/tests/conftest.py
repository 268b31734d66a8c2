"""What tests share: the program planet, where it is built."""
from __future__ import annotations

import os

import pytest

from planet_tools import program


@pytest.fixture(scope="session")
def planet() -> str:
    """The program planet: the one that PLANET_PROGRAM names, or the built one."""
    path = os.environ.get("PLANET_PROGRAM", str(program.BUILT))
    if not os.access(path, os.X_OK):
        pytest.skip("no program planet is built: scripts/test/tools takes its path")
    return path
