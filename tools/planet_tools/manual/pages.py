"""The manual: of which page of docs each of its pages is made."""
from __future__ import annotations

import dataclasses
import pathlib

from planet_tools.front.commands import commands
from planet_tools.manual import roff

ROOT = pathlib.Path(__file__).resolve().parents[3]


@dataclasses.dataclass(frozen=True)
class Manual:
    """A page of the manual: its name, section and subject, its page of docs, and the sections left out of it."""

    name: str
    section: int
    about: str
    page: str
    left_out: tuple[str, ...] = ()

    @property
    def file(self) -> str:
        return f"man{self.section}/{self.name}.{self.section}"

    @property
    def cited(self) -> str:
        return f"{self.name}({self.section})"


MANUALS = (
    Manual("planet", 1, "node and tool for PLAN active packets", "docs/use/commands.md",
           ("Which program runs", "The scripts")),
    Manual("planet-schedule", 5, "networks that planet replays", "docs/use/schedules.md"),
    Manual("planet-node", 5, "configurations, requests, fleets and logs of planet", "docs/use/node-files.md"),
    Manual("plan", 7, "Packet Language for Active Networks", "docs/language/language.md"),
)


def synopsis() -> list[str]:
    """Returns the lines of the synopsis of the commands."""
    shown = [it.shown for it in commands()] + ["help [COMMAND]", "--version", "--explain COMMAND .."]
    return [line for it in shown for line in (f".B planet {roff.code(it)}", ".br")][:-1]


def written(manual: Manual, date: str, version: str) -> str:
    """Returns a page of the manual."""
    cited = {it.page.rpartition("/")[2]: it.cited for it in MANUALS if it is not manual}
    text = (ROOT / manual.page).read_text("utf-8").replace("`./planet", "`planet")
    described = roff.body(text, manual.left_out, cited)
    others = ",\n".join(f".BR {it.name} ({it.section})" for it in MANUALS if it is not manual)
    lines = [
        "'\\\" t",
        f'.TH {manual.name.upper()} {manual.section} {date} "planet {version}"',
        ".SH NAME", f"{manual.name} \\- {roff.plain(manual.about)}",
        *([".SH SYNOPSIS", *synopsis()] if manual.section == 1 else []),
        *([] if described[0].startswith(".SH") else [".SH DESCRIPTION"]), *described,
        ".SH SEE ALSO", others, ".PP", "Other pages that are named here stand below share/doc/planet.",
    ]
    return "\n".join(lines) + "\n"
