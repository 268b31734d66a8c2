"""What scripts share: where the repository is, what crates.txt says, and the crates that scripts name."""
from __future__ import annotations

import dataclasses
import pathlib
import sys
import typing

ROOT = pathlib.Path(__file__).resolve().parent.parent
# the programs that a build makes, and the crates that it begins with, with those below them
PROGRAM, CHART = "planet", "trace_chart"
LOWEST = ["plan_base_copy", "plan_base_size", "plan_types_spec"]
BUILT = ROOT / "crates" / PROGRAM / "out" / PROGRAM


@dataclasses.dataclass
class Crate:
    """A crate of crates.txt: its line, and the libraries that it uses, those of the kit too."""

    name: str
    line: str
    uses: list[str]


@dataclasses.dataclass
class Layer:
    """A layer of crates.txt: its name, what is there, and its crates in their order."""

    name: str
    about: str
    crates: list[Crate]


def layers() -> list[Layer]:
    """Returns the layers of crates.txt, lowest first."""
    found: list[Layer] = []
    with open(ROOT / "crates.txt", encoding="utf-8") as lines:
        for line in lines:
            code, _, comment = line.partition("#")
            left, colon, right = code.partition(":")
            if colon:
                found[-1].crates.append(Crate(left.split()[0], line, right.split()))
            elif not code and ": " in comment:
                name, _, about = comment.strip().partition(": ")
                found.append(Layer(name, about, []))
    return found


def crates() -> dict[str, Crate]:
    """Returns the crates by name, each behind those that it uses."""
    return {crate.name: crate for layer in layers() for crate in layer.crates}


def with_all_below(names: typing.Iterable[str]) -> list[Crate]:
    """Returns the crates of these names and all that they stand on, lowest first."""
    known, found, waiting = crates(), set(), list(names)
    while waiting:
        name = waiting.pop()
        if name in known and name not in found:
            found.add(name)
            waiting += known[name].uses
    return [crate for name, crate in known.items() if name in found]


def with_all_above(name: str) -> set[str]:
    """Returns the names of a crate and of all that stand on it."""
    found = {name}
    for crate in crates().values():
        if found & set(crate.uses):
            found.add(crate.name)
    return found


def of_crate(name: str, folder: str, suffix: str) -> list[pathlib.Path]:
    """Returns the files of a folder of a crate (`src`, `specs`, `proofs`) that end so."""
    return sorted((ROOT / "crates" / name / folder).rglob("*" + suffix))


def check_known(script: str, names: typing.Iterable[str]) -> None:
    """Ends the script where a name is no crate's."""
    for name in names:
        if name not in crates():
            print(f"{script}: no crate is named {name}", file=sys.stderr)
            sys.exit(2)
