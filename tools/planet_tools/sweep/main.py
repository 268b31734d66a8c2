"""The command `sweep`."""
from __future__ import annotations

import argparse
import os
import shlex
import shutil
import signal
import subprocess
import sys
import tempfile
import time
from pathlib import Path
from typing import Iterator, Sequence

from planet_tools import program
from planet_tools.program import ROOT
from planet_tools.python import fail
from planet_tools.sweep import run
from planet_tools.sweep.grid import BadGrid, Grid, grid_of, ranges_of, runs_of
from planet_tools.sweep.table import BadTable, Table, line_of

ABOUT = """Runs a scenario once for each way to choose values for names that it sets, side by side by GNU parallel, and
writes a table with a row a run. What was done is kept: the same words again run what is missing."""
BATCH_MOST = 200
# as a shell has it of SIGINT
BROKEN_OFF = 130


def main(words: Sequence[str]) -> int:
    """Makes what the words ask for, and answers the exit status."""
    asked = words_of(words)
    if not asked.file.is_file():
        fail("sweep", "no scenario is there", str(asked.file))
    try:
        grid = grid_of(asked.over, run.COLUMNS)
    except BadGrid as bad:
        fail("sweep", str(bad), " ".join(asked.over) or str(asked.file))
    planet = program.find("sweep", asked.planet)
    if asked.runs is not None:
        return make_runs(grid, asked, planet)
    output: Path = asked.output or Path(asked.file.with_suffix(".csv").name)
    if asked.slurm:
        print(array_job(grid, asked, planet, output))
        return 0
    try:
        table = Table(output, [*grid.names(), *run.COLUMNS], len(grid.axes))
    except BadTable as bad:
        fail("sweep", str(bad), str(output))
    if asked.take is not None:
        take(table, asked.take)
    else:
        try:
            sweep(grid, table, asked, planet, output)
        except KeyboardInterrupt:
            clear_progress()
            print("sweep: broken off, the same words again run what is missing", file=sys.stderr)
            told_end(grid, table, output)
            return BROKEN_OFF
    return told_end(grid, table, output)


def words_of(words: Sequence[str]) -> argparse.Namespace:
    """What the words ask for."""
    parser = argparse.ArgumentParser(prog="sweep", description=ABOUT)
    parser.add_argument("file", metavar="FILE", type=Path, help="the scenario")
    parser.add_argument("--over", metavar="NAME=VALUES", action="append", default=[],
                        help="values of a name: A..B, A..B:STEP, A..B%%:STEP or A,B,C; once for each name")
    parser.add_argument("--output", "-o", metavar="CSV", type=Path, help="the table; without it FILE's name with .csv")
    parser.add_argument("--jobs", metavar="N", default="150%",
                        help="runs at a time on each machine; three for two processors, as a run waits for its replay")
    parser.add_argument("--batch", metavar="N", type=int, help="runs that one process makes, one after the other")
    parser.add_argument("--sshlogin", metavar="MACHINE", action="append", default=[],
                        help="machines of GNU parallel, ':' for this one; each has this repository at the same place")
    parser.add_argument("--slurm", action="store_true", help="print an array job of Slurm in place of running")
    parser.add_argument("--take", metavar="DIR", type=Path, help="take the rows that an array job left in DIR")
    parser.add_argument("--runs", metavar="RUNS", help="write the rows of these runs of the grid, as 0-9,20")
    parser.add_argument("--planet", metavar="PATH", help="the program planet; without it the built one")
    return parser.parse_args(words)


def make_runs(grid: Grid, asked: argparse.Namespace, planet: str) -> int:
    """Makes some runs, each row as soon as it is there."""
    try:
        runs = runs_of(asked.runs, grid.size())
    except BadGrid as bad:
        fail("sweep", str(bad), "--runs")
    for number in runs:
        values = dict(zip(grid.names(), grid.values(number)))
        row = line_of(run.row(asked.file, planet, values))
        try:
            sys.stdout.buffer.write(row)
            sys.stdout.buffer.flush()
        except BrokenPipeError:
            # the sweep was ended, and GNU parallel with it
            os.dup2(os.open(os.devnull, os.O_WRONLY), sys.stdout.fileno())
            return 1
    return 0


def command_of(asked: argparse.Namespace, planet: str) -> list[str]:
    """The command that makes some runs, but for which; other machines have a python3 of their own."""
    over = [word for each in asked.over for word in ("--over", each)]
    python = [] if asked.sshlogin or asked.slurm else [sys.executable]
    return [*python, str(ROOT / "tools" / "sweep"), str(asked.file.resolve()), *over, "--planet", planet, "--runs"]


def batches_of(runs: list[int], asked: argparse.Namespace) -> list[str]:
    """The runs in batches: long enough that starting costs little, shorter towards the end, so that all processors end
    together."""
    processors = (os.cpu_count() or 1) * max(1, len(",".join(asked.sshlogin).split(",")))
    if asked.batch is not None and asked.batch < 1:
        fail("sweep", "a batch has at least one run", "--batch")
    batches, first = [], 0
    while first < len(runs):
        size = asked.batch or max(1, min(BATCH_MOST, (len(runs) - first) // (2 * processors)))
        batches.append(ranges_of(runs[first:first + size]))
        first += size
    return batches


def sweep(grid: Grid, table: Table, asked: argparse.Namespace, planet: str, output: Path) -> None:
    """Makes the runs that have no row, side by side."""
    if shutil.which("parallel") is None:
        fail("sweep", "GNU parallel is missing, install it with: apt-get install parallel", "PATH")
    runs = [number for number in range(grid.size()) if grid.values(number) not in table.done]
    if not runs:
        return
    logins = [word for machine in asked.sshlogin for word in ("--sshlogin", machine)]
    # a row is one write of less than a pipe takes at once, so rows made here don't mix; ssh may hand on parts of rows
    output_by = "--line-buffer" if logins else "--ungroup"
    command = ["parallel", "--will-cite", output_by, "--jobs", asked.jobs, "--joblog", f"+{output}.jobs", *logins]
    with tempfile.NamedTemporaryFile("w", prefix="planet-sweep-") as batches:
        batches.write("".join(batch + "\n" for batch in batches_of(runs, asked)))
        batches.flush()
        words = [*command, "--arg-file", batches.name, shlex.join(command_of(asked, planet)) + " {}"]
        child = subprocess.Popen(words, stdin=subprocess.DEVNULL, stdout=subprocess.PIPE, start_new_session=True,
                                 preexec_fn=program.ended_with_parent(signal.SIGTERM))
        try:
            receive(table, child, len(runs))
        except BaseException:
            os.killpg(child.pid, signal.SIGTERM)
            child.wait()
            raise


def receive(table: Table, child: subprocess.Popen[bytes], wanted: int) -> None:
    """Writes each row as it comes, and says how far it is where someone looks on."""
    begun = told = time.monotonic()
    assert child.stdout is not None
    for number, line in enumerate(child.stdout, 1):
        refused = table.add(line.rstrip(b"\n"))
        if refused is not None:
            print(f"sweep: {refused}, a row of GNU parallel", file=sys.stderr)
        now = time.monotonic()
        if now - told > 1 and sys.stderr.isatty():
            left = (now - begun) / number * (wanted - number)
            far = f"{number:,} of {wanted:,} runs, {table.failed:,} failed, some {left:,.0f} seconds left"
            print(f"\r\033[Ksweep: {far}", end="", file=sys.stderr, flush=True)
            told = now
    clear_progress()
    child.wait()


def clear_progress() -> None:
    """Takes the line away that says how far it is."""
    if sys.stderr.isatty():
        print("\r\033[K", end="", file=sys.stderr, flush=True)


def take(table: Table, folder: Path) -> None:
    """Takes the rows of an array job's parts, those that have none yet."""
    parts = sorted(folder.glob("*.rows"))
    if not parts:
        fail("sweep", "no parts of an array job (*.rows) are there", str(folder))
    for line in whole_lines(parts):
        table.add(line)


def whole_lines(parts: list[Path]) -> Iterator[bytes]:
    """The lines of files, those that were cut left out."""
    for part in parts:
        yield from part.read_bytes().split(b"\n")[:-1]


def array_job(grid: Grid, asked: argparse.Namespace, planet: str, output: Path) -> str:
    """The array job of Slurm that makes all runs, a task a batch."""
    size = asked.batch or BATCH_MOST
    parts = shlex.quote(f"{output.resolve()}.parts")
    return "\n".join([
        "#!/bin/sh", "#SBATCH --job-name=sweep", f"#SBATCH --array=0-{(grid.size() - 1) // size}",
        "#SBATCH --cpus-per-task=1", "#SBATCH --output=/dev/null",
        f"# afterwards: tools/sweep with the same words and --take {parts} in place of --slurm",
        f"mkdir -p {parts}", f"first=$((SLURM_ARRAY_TASK_ID * {size}))", f"last=$((first + {size - 1}))",
        f"{shlex.join(command_of(asked, planet))} $first-$last >{parts}/$SLURM_ARRAY_TASK_ID.rows"])


def told_end(grid: Grid, table: Table, output: Path) -> int:
    """Says what the table has, and answers 1 where a run failed or is missing."""
    done = sum(grid.values(number) in table.done for number in range(grid.size()))
    failed = f", {table.failed:,} of them failed" if table.failed else ""
    print(f"sweep: {done:,} of {grid.size():,} runs{failed}, {output}", file=sys.stderr)
    return 0 if done == grid.size() and not table.failed else 1
