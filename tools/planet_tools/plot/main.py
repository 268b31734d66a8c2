"""The command `plot`."""
from __future__ import annotations

import argparse
import sys
from pathlib import Path
from typing import Sequence

from planet_tools.plot import draw
from planet_tools.plot.points import BadPlot, Question, points_of
from planet_tools.python import fail, need
from planet_tools.values import NoValues, values_of

ABOUT = """Plots the table of a sweep: a column across, another one or the quotient of two upward, and a line for each
value of a third. A point is the mean over all runs that share these values, a bar its standard error."""
FORMATS = (".svg", ".png", ".pdf")


def main(words: Sequence[str]) -> int:
    """Makes what the words ask for, and answers the exit status."""
    asked = words_of(words)
    table: Path = asked.table
    output: Path = asked.output or Path(table.with_suffix(".svg").name)
    if output.suffix not in FORMATS:
        fail("plot", f"a plot's name ends with {', '.join(FORMATS)}", str(output))
    try:
        question = question_of(asked)
        points = points_of(table, question)
        need("plot", "matplotlib", "python3-matplotlib")
        draw.draw(points, question, asked.title, output)
    except BadPlot as bad:
        fail("plot", str(bad), str(table))
    except UnicodeDecodeError:
        fail("plot", "the table is no text in UTF-8", str(table))
    except OSError as fault:
        fail("plot", f"fault of a file: {fault.strerror}", str(fault.filename))
    print(", ".join([f"{output}: {points.runs:,} runs", *points.left_out()]), file=sys.stderr)
    return 0


def words_of(words: Sequence[str]) -> argparse.Namespace:
    """What the words ask for."""
    parser = argparse.ArgumentParser(prog="plot", description=ABOUT)
    parser.add_argument("table", metavar="CSV", type=Path, help="the table, whose first row names its columns")
    parser.add_argument("--x", metavar="COLUMN", required=True, help="what is counted across")
    parser.add_argument("--y", metavar="COLUMN[/COLUMN]", required=True, help="what is counted upward")
    parser.add_argument("--by", metavar="COLUMN", help="a line for each of its values")
    parser.add_argument("--where", metavar="COLUMN=VALUES", action="append", default=[],
                        help="take only rows with these values: A..B, A..B:STEP, A..B%%:STEP or A,B,C")
    parser.add_argument("--title", metavar="TEXT", default="", help="what stands above")
    parser.add_argument("--output", "-o", metavar="FILE", type=Path,
                        help=f"the picture, {', '.join(FORMATS)}; without it CSV's name with .svg")
    return parser.parse_args(words)


def question_of(asked: argparse.Namespace) -> Question:
    """What is asked of the table."""
    upward = tuple(asked.y.split("/"))
    if len(upward) > 2 or not all(upward):
        raise BadPlot(f"'{asked.y}' is neither a column nor COLUMN/COLUMN")
    where: dict[str, list[str]] = {}
    for word in asked.where:
        name, _, values = word.partition("=")
        try:
            where[name] = values_of(values)
        except NoValues as no:
            raise BadPlot(str(no)) from no
    return Question(asked.x, upward, asked.by, where)
