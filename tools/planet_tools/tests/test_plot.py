"""Plots: points that are worked out by hand, rows that are left out, and what is refused."""
from __future__ import annotations

import subprocess
import xml.etree.ElementTree as Xml
from pathlib import Path

import pytest

from planet_tools.plot.points import BadPlot, Points, Question, points_of
from planet_tools.program import ROOT
from planet_tools.python import is_there

PLOT = str(ROOT / "tools/plot")
TABLE = """way,loss,seed,injected,printed,status,note
2,10%,1,4,1,0,
2,5%,1,4,4,0,
2,10%,2,4,3,0,
10,5%,1,4,2,0,
10,5%,2,,,2,"BadNumber, line 3"
1,5%,1,0,0,0,
1,5
"""


def points(tmp_path: Path, question: Question, text: str = TABLE) -> Points:
    table = tmp_path / "a.csv"
    table.write_text(text)
    return points_of(table, question)


def test_points_are_means_with_their_error(tmp_path: Path) -> None:
    """Shares of 1/4 and 3/4 have the mean 1/2; each is 1/4 off, so the error is the root of 1/8 over the root of 2."""
    found = points(tmp_path, Question("loss", ("printed", "injected"), "way"))
    assert (found.lines(), found.across()) == (["2", "10"], ["5%", "10%"])
    assert {name: {place: (mean.runs, mean.value) for place, mean in line.items()}
            for name, line in found.series.items()} == {"2": {"10%": (2, 0.5), "5%": (1, 1.0)}, "10": {"5%": (1, 0.5)}}
    assert found.series["2"]["10%"].error() == pytest.approx(0.25)
    assert found.series["2"]["5%"].error() == 0
    assert (found.runs, found.left_out()) == (
        4, ["without 1 that failed", "without 1 that divide by 0", "without 1 that are no rows"])


def test_a_column_alone_and_rows_with_some_values(tmp_path: Path) -> None:
    found = points(tmp_path, Question("way", ("printed",), where={"loss": ["5%"], "way": ["2", "10"]}))
    assert {place: mean.value for place, mean in found.series[""].items()} == {"2": 4.0, "10": 2.0}


def test_words_stand_as_they_came(tmp_path: Path) -> None:
    found = points(tmp_path, Question("kind", ("hops",)), "kind,hops\nring,4\ngrid,3\nring,6\n")
    assert found.across() == ["ring", "grid"]
    assert found.series[""]["ring"].value == 5.0


@pytest.mark.parametrize("question, text, what", [
    (Question("los", ("printed",)), TABLE, "no column is 'los'; did you mean 'loss'? The columns are way, loss,"),
    (Question("loss", ("printed",), "ways"), TABLE, "no column is 'ways'; did you mean 'way'?"),
    (Question("loss", ("printed",), where={"x": ["1"]}), TABLE, "no column is 'x'"),
    (Question("loss", ("note",)), TABLE, "'' of the column note is no number, line 2"),
    (Question("loss", ("printed",), where={"way": ["3"]}), TABLE, "no run is left to plot"),
    (Question("loss", ("printed",)), "", "the file is empty"),
    (Question("a", ("b",), "c"), "a,b,c\n" + "".join(f"1,1,{turn}\n" for turn in range(13)), "more than 12 lines"),
])
def test_refused(tmp_path: Path, question: Question, text: str, what: str) -> None:
    with pytest.raises(BadPlot) as bad:
        points(tmp_path, question, text)
    assert what in str(bad.value)


def plotted(tmp_path: Path, *words: str) -> "subprocess.CompletedProcess[str]":
    (tmp_path / "a.csv").write_text(TABLE)
    return subprocess.run([PLOT, *words], cwd=tmp_path, capture_output=True, text=True)


@pytest.mark.skipif(not is_there("matplotlib"), reason="matplotlib is missing")
def test_a_picture(tmp_path: Path) -> None:
    """The texts stand in it, and the same table gives the same bytes."""
    words = ["a.csv", "--x", "loss", "--y", "printed/injected", "--by", "way", "--title", "Pings <home>"]
    done = plotted(tmp_path, *words)
    assert (done.returncode, done.stdout) == (0, "")
    assert done.stderr == (
        "a.svg: 4 runs, without 1 that failed, without 1 that divide by 0, without 1 that are no rows\n")
    picture = (tmp_path / "a.svg").read_bytes()
    texts = {"".join(node.itertext()) for node in Xml.fromstring(picture).iter("{http://www.w3.org/2000/svg}text")}
    assert {"Pings <home>", "loss (%)", "printed / injected", "way", "2", "10"} <= texts
    plotted(tmp_path, *words)
    assert (tmp_path / "a.svg").read_bytes() == picture
    plotted(tmp_path, *words, "-o", "a.png")
    assert (tmp_path / "a.png").read_bytes().startswith(b"\x89PNG")


@pytest.mark.parametrize("words, told", [
    (["a.csv", "--x", "los", "--y", "printed"], "no column is 'los'"),
    (["a.csv", "--x", "loss", "--y", "a/b/c"], "'a/b/c' is neither a column nor COLUMN/COLUMN"),
    (["a.csv", "--x", "loss", "--y", "printed", "--where", "way=2..1"], "names no values"),
    (["a.csv", "--x", "loss", "--y", "printed", "-o", "a.jpg"], "a plot's name ends with .svg, .png, .pdf"),
    (["b.csv", "--x", "loss", "--y", "printed"], "fault of a file: No such file or directory"),
])
def test_the_command_refuses_in_a_line(tmp_path: Path, words: list[str], told: str) -> None:
    done = plotted(tmp_path, *words)
    assert done.returncode == 2
    assert done.stderr.startswith("plot: ") and told in done.stderr and done.stderr.count("\n") == 1
