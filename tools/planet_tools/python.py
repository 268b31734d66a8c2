"""Which python3 a tool runs on: the one that was found first, or the system's, which sees Debian's packages."""
from __future__ import annotations

import importlib.util
import os
import sys
from typing import NoReturn, Optional

SYSTEM = "/usr/bin/python3"
# the process that went on already, so that it doesn't go on with itself for ever; its children may
GONE_ON = "PLANET_TOOLS_PYTHON"


def is_there(package: str) -> bool:
    """Whether this python3 can import the package."""
    found = importlib.util.find_spec(package)
    # a folder of that name on the path is no package
    return found is not None and found.origin is not None


def missing(package: str, debian: str) -> Optional[str]:
    """Why the package can't be imported, once the system's python3, with which the tool goes on, hasn't it either."""
    if is_there(package):
        return None
    if os.environ.get(GONE_ON) != str(os.getpid()) and os.access(SYSTEM, os.X_OK):
        os.environ[GONE_ON] = str(os.getpid())
        sys.stdout.flush()
        os.execv(SYSTEM, [SYSTEM, *sys.argv])
    return f"{package} is missing, install it with: apt-get install {debian}"


def need(tool: str, package: str, debian: str) -> None:
    """Sees that the package can be imported: else names it and ends."""
    lacks = missing(package, debian)
    if lacks is not None:
        fail(tool, lacks, sys.executable)


def fail(tool: str, what: str, where: str) -> NoReturn:
    """Ends a tool with its one line: what is wrong, and where."""
    print(f"{tool}: {what}, {where}", file=sys.stderr)
    sys.exit(2)
