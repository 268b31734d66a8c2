"""Finds the layer for scapy, tools/scapy/planet.py, by which tools, scripts and tests build frames."""
from __future__ import annotations

import functools
import importlib.util
import logging
import sys
import threading
from pathlib import Path
from typing import Any

from planet_tools.python import need

PLACE = Path(__file__).resolve().parents[2] / "scapy" / "planet.py"
LOADING = threading.Lock()


@functools.lru_cache(None)
def layer(tool: str) -> Any:
    """The module of the layer; without scapy a tool goes on with the system's python3, or names what is missing."""
    need(tool, "scapy", "python3-scapy")
    # scapy warns of a machine without routes
    logging.getLogger("scapy").setLevel(logging.ERROR)
    with LOADING:
        if "planet" in sys.modules:
            return sys.modules["planet"]
        spec = importlib.util.spec_from_file_location("planet", PLACE)
        assert spec and spec.loader
        module = sys.modules["planet"] = importlib.util.module_from_spec(spec)
        spec.loader.exec_module(module)
        return module
