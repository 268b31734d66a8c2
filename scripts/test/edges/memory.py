"""Little room for addresses: a call is done, or says that there is no memory, and no signal ends it."""
from __future__ import annotations

import os
import resource
import sys
from pathlib import Path
from typing import Callable, Dict, List, Tuple

from edges.room import ROOT, Room, words_of_commands

LEAST, MOST = 2_000_000, 40_000_000
# where the program isn't loaded: by the shell, and by the system's loader
NOT_LOADED = {126, 127}
DEEPEST = ["replay/deepest-nesting", "replay/nested-evals", "check/limits.cases", "show/values.cases"]


def limit(size: int) -> Callable[[], None]:
    """Lets addresses be so many."""
    def prepare() -> None:
        resource.setrlimit(resource.RLIMIT_AS, (size, size))
    return prepare


def deepest(room: Room) -> List[Tuple[str, List[str]]]:
    """Each command, and the rows whose calls stand deepest inside each other."""
    sys.path.insert(0, str(ROOT / "scripts/test"))
    from importlib.machinery import SourceFileLoader
    from importlib.util import module_from_spec, spec_from_loader
    sys.dont_write_bytecode = True
    loader = SourceFileLoader("rows", str(ROOT / "scripts/test/rows"))
    spec = spec_from_loader("rows", loader)
    assert spec is not None
    rows = module_from_spec(spec)
    sys.modules["rows"] = rows
    loader.exec_module(rows)
    found = list(words_of_commands(room))
    for name in DEEPEST[:2]:
        row = rows.folder_row(ROOT / "tests" / name)
        for file, held in row.files.items():
            room.put(f"{Path(name).name}-{file}", held)
            found.append((name, ["replay", f"{Path(name).name}-{file}"]))
    return found


def addresses(room: Room) -> None:
    """Sizes from 2 to 40 MB, for each command and for the deepest inputs."""
    count = int(os.environ.get("EDGE_SIZES", "25"))
    for name, words in deepest(room):
        ends: Dict[int, int] = {}
        for number in range(count):
            size = LEAST + (MOST - LEAST) * number // count
            done = room.call(*words, prepare=limit(size))
            ends[done.status] = ends.get(done.status, 0) + 1
            if done.status < 0 and not room.wants(f"{name} within {size} bytes isn't ended by a signal", False, done.status):
                break
        # a fleet's children have as little memory, and the fleet then tells of them
        answers = {0, 3, 4, 5, 6, 7, 8} | NOT_LOADED
        room.wants(f"{name} within little memory is done or says what it lacked", set(ends) <= answers and 0 in ends, ends)


TESTS = [addresses]
