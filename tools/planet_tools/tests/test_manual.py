"""The manual: what becomes of the forms of Markdown, and that mandoc and man-db have nothing to say of its pages."""
from __future__ import annotations

import shutil
import subprocess
from pathlib import Path

import pytest

from planet_tools.manual import pages, roff


@pytest.mark.parametrize("text, lines", [
    ("One.\nTwo.\n", ["One.", "Two."]),
    (".TH is no request, 'so neither.\n", ["\\&.TH is no request, 'so neither."]),
    ("A `\\n-x` and **strong**, [linked](a.md#b).\n", ["A \\fB\\en\\-x\\fR and \\fBstrong\\fR, linked."]),
    ("See [nodes](../use/node-files.md#logs) too.\n", ["See nodes, \\fBplanet\\-node(5)\\fR, too."]),
    ("- a\n  b\n- c\n", [".IP \\(bu 2", "a", "b", ".IP \\(bu 2", "c"]),
    ("x\n\n```\n.a ~1\n```\n", ["x", ".PP", ".RS 4", ".nf", "\\&.a \\(ti1", ".fi", ".RE"]),
    ("## Some words\n\nx\n", [".SH SOME WORDS", "x"]),
    ("### `check FILE`\n\nx\n", [".SS check FILE", "x"]),
    ("| Code | Meaning |\n|---|---|\n| `a \\| b` | c |\n", [".TP", "\\fBa | b\\fR", "c"]),
    ("| A | B | C |\n|---|---|---:|\n| d | | f |\n",
     [".TS", "tab(|);", "lb lb lbx", "l l lx.", "T{", "A", "T}|T{", "B", "T}|T{", "C", "T}",
      "T{", "d", "T}|T{", "\\&", "T}|T{", "f", "T}", ".TE"]),
])
def test_forms(text: str, lines: list[str]) -> None:
    assert roff.body(f"# Title\n{text}", (), {"node-files.md": "planet-node(5)"}) == lines


def test_a_section_is_left_out() -> None:
    assert roff.body("# T\n\nx\n\n## A\n\na\n\n## B\n\nb\n", ("A",), {}) == ["x", ".SH B", "b"]


@pytest.mark.parametrize("manual", pages.MANUALS, ids=lambda it: str(it.name))
def test_a_page_is_clean(manual: pages.Manual, tmp_path: Path) -> None:
    text = pages.written(manual, "2026-01-02", "1.0")
    file = tmp_path / f"{manual.name}.{manual.section}"
    file.write_text(text, "utf-8")
    assert ".SH NAME\n" in text and ".SH SEE ALSO\n" in text
    if not shutil.which("mandoc"):
        pytest.skip("mandoc isn't installed")
    done = subprocess.run(["mandoc", "-Tlint", "-Wall", str(file)], capture_output=True, text=True, check=False)
    assert (done.returncode, done.stdout, done.stderr) == (0, "", "")


def test_the_synopsis_has_each_command() -> None:
    for shown in ("check FILE", "node FILE TURNS", "grow SEED N", "gather PORT FILE", "audit FILE"):
        assert f".B planet {shown}" in pages.synopsis()
