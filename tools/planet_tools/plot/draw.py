"""Draws the points of a table with matplotlib."""
from __future__ import annotations

from pathlib import Path

from planet_tools.plot.points import Points, Question, is_number, number

# a palette and signs that are told apart without seeing all colours (Okabe and Ito)
COLOURS = ("#0072b2", "#d55e00", "#009e73", "#cc79a7", "#e69f00", "#56b4e9")
SIGNS = "osD^vPX*<>hp"
SIZE = (7.5, 4.6)
GREY = "#666666"


def draw(points: Points, question: Question, title: str, output: Path) -> None:
    """Writes the plot, in the format that the name of the file ends with: the same points give the same bytes."""
    import matplotlib
    from matplotlib.figure import Figure
    matplotlib.rcParams.update({"svg.fonttype": "none", "svg.hashsalt": "planet", "font.family": "sans-serif"})
    figure = Figure(figsize=SIZE, layout="constrained")
    axes = figure.add_subplot()
    across = points.across()
    counted = all(map(is_number, across))
    places = {word: number(word) if counted else float(place) for place, word in enumerate(across)}
    for turn, name in enumerate(points.lines()):
        line = points.series[name]
        words = sorted(line, key=places.__getitem__)
        axes.errorbar([places[word] for word in words], [line[word].value for word in words],
                      yerr=[line[word].error() for word in words], label=name, color=COLOURS[turn % len(COLOURS)],
                      marker=SIGNS[turn], linestyle="-" if turn < len(COLOURS) else "--", markersize=5, linewidth=1.4,
                      capsize=2)
    if not counted:
        axes.set_xticks(list(places.values()), across)
    axes.set_ylim(bottom=min(0, axes.get_ylim()[0]))
    percent = " (%)" if counted and any(word.endswith("%") for word in across) else ""
    axes.set_xlabel(question.across + percent)
    axes.set_ylabel(" / ".join(question.upward))
    axes.grid(color="#dddddd", linewidth=0.6)
    axes.spines[["top", "right"]].set_visible(False)
    if title:
        axes.set_title(title, loc="left", fontsize=11)
    if question.by is not None:
        axes.legend(title=question.by, frameon=False, loc="center left", bbox_to_anchor=(1, 0.5))
    figure.supxlabel(f"{points.runs:,} runs; a point is their mean, a bar its standard error on each side",
                     fontsize=8, color=GREY, x=0.98, ha="right")
    dated = {"Date": None} if output.suffix == ".svg" else {}
    figure.savefig(output, dpi=150, metadata=dated)
