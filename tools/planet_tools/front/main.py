"""The words that the launcher takes itself and that need no program."""
from __future__ import annotations

import sys

STATES = "built", "unproved", "none"
USAGE = """usage: front help [COMMAND]
       front version built|unproved|none

Writes help on the commands, and the version. The launcher calls it.
"""


def main(given: list[str]) -> int:
    # each imports what it needs alone, so that it answers at once
    if given[:1] == ["help"]:
        from planet_tools.front import help as helping
        return helping.main(given[1:])
    if given[:1] == ["version"] and len(given) == 2 and given[1] in STATES:
        from planet_tools.front import version
        return version.main(given[1])
    print(USAGE, end="", file=sys.stdout if given == ["--help"] else sys.stderr)
    return 0 if given == ["--help"] else 1
