"""Sweeps: grids, tables, counts of traces, and runs that fail, are broken off and are taken up again."""
from __future__ import annotations

import csv
import os
import shutil
import signal
import subprocess
import time
from pathlib import Path

import pytest

from planet_tools.program import ROOT
from planet_tools.sweep import main, run
from planet_tools.sweep.grid import BadGrid, grid_of, ranges_of, runs_of
from planet_tools.sweep.table import BadTable, Table, line_of

SWEEP = str(ROOT / "tools/sweep")
needs_parallel = pytest.mark.skipif(shutil.which("parallel") is None, reason="GNU parallel is missing")
SCENARIO = """planet scenario 1
set bound 5
set loss 0%
set seed 1
line 2
program p
svc print : (string) -> unit
svc getRB : () -> int
fun back() : unit = print("back")
fun there(from : host) : unit = OnRemote(|back|(), from, getRB(), defaultRoute)
fun go(to : host) : unit = OnRemote(|there|(@1), to, getRB(), defaultRoute)
end program
events
for 4 at 1 inject p go $bound (@2)
settle lose $loss seed $seed
"""


def test_a_grid_counts_its_last_name_first() -> None:
    grid = grid_of(["a=1,2", "b=0..10%:5"], ["hops"])
    assert grid.size() == 6
    assert [grid.values(number) for number in range(6)] == [
        ("1", "0%"), ("1", "5%"), ("1", "10%"), ("2", "0%"), ("2", "5%"), ("2", "10%")]


@pytest.mark.parametrize("words", [[], ["a"], ["a="], ["a=3..1"], ["a=1,1"], ["a=1", "a=2"], ["hops=1"], ["1=1"]])
def test_no_grid(words: list[str]) -> None:
    with pytest.raises(BadGrid):
        grid_of(words, ["hops"])


def test_numbers_of_runs() -> None:
    assert ranges_of([0, 1, 2, 5, 7, 8]) == "0-2,5,7-8"
    assert runs_of("0-2,5,7-8", 8) == [0, 1, 2, 5, 7]
    with pytest.raises(BadGrid):
        runs_of("1-x", 8)


def test_what_a_trace_counts() -> None:
    """A packet comes and is visited, one is dropped, one is lost; adverts and visits of injections count for none."""
    trace = """planet trace 1
1 inject @1 1.1 bound 9
1 print @1 "a lost b"
1 value @1 1.1 () evals 1 left 2
1 queue @1 %1 1.1 bound 3
2 send @1 %1 1.1
2 wire 1
3 off 1
3 arrive @2 %1
3 port @2 7 (1, 2)
3 raised @2 1.1 NoBound evals 0 left 3
4 off 2
4 lost 1.1 bound 0
5 off 3
5 lost advert
6 off 4
6 arrive @2 %1
6 drop @2 NoRoute 1.1 bound 0
7 tick @1 now 1
7 drop @1 QueueFull advert
8 nothing
ledger
1.1 granted 9 hops 3 evals 1 live 0 left 5
2.1 granted 1 hops 0 evals 0 live 1 left 0
end
"""
    wanted = dict.fromkeys(run.COUNTS, 0)
    wanted.update(injected=1, arrived=1, printed=2, NoRoute=1, lost=1, granted=10, hops=3, evals=1, live=1, left=5)
    assert run.count(trace.encode()) == wanted


def test_a_table_is_taken_up(tmp_path: Path) -> None:
    path = tmp_path / "a.csv"
    columns = ["a", "status", "note"]
    table = Table(path, columns, 1)
    assert table.add(line_of(["1", "0", "x, \"y\"\nz"]).rstrip(b"\n")) is None
    assert table.add(b"1,0,") == "the run of 1 has a row already"
    assert table.add(b"2,0") == "a row has 2 cells in place of 3"
    with pytest.raises(BadTable, match="another sweep"):
        Table(path, columns, 1)
    table.file.close()
    path.write_bytes(path.read_bytes() + b"2,0,cut o")
    table = Table(path, columns, 1)
    assert table.done == {("1",)}
    assert table.add(b"2,2,late") is None
    assert table.failed == 1
    table.file.close()
    assert path.read_text() == 'a,status,note\n1,0,"x, ""y"" z"\n2,2,late\n'
    with pytest.raises(BadTable, match="other columns"):
        Table(path, ["b", "status", "note"], 1)


def swept(tmp_path: Path, planet: str, *words: str) -> tuple[subprocess.CompletedProcess[str], list[dict[str, str]]]:
    """The sweep as it ended, and the rows of its table."""
    scenario = tmp_path / "a.scenario"
    if not scenario.exists():
        scenario.write_text(SCENARIO)
    done = subprocess.run([SWEEP, str(scenario), "--planet", planet, "-o", str(tmp_path / "a.csv"), *words],
                          capture_output=True, text=True)
    with (tmp_path / "a.csv").open() as table:
        return done, list(csv.DictReader(table))


@needs_parallel
def test_rows(tmp_path: Path, planet: str) -> None:
    """A ping there and back takes two hops; with a bound of 1 it gets there, and with 0 it doesn't begin."""
    done, rows = swept(tmp_path, planet, "--over", "bound=0,1,2,9", "--batch", "3")
    assert (done.returncode, done.stderr) == (0, f"sweep: 4 of 4 runs, {tmp_path}/a.csv\n")
    wanted = {"0": ("0", "0", "0", "0"), "1": ("4", "0", "4", "0"), "2": ("8", "4", "8", "0"),
              "9": ("8", "4", "8", "28")}
    got = {row["bound"]: (row["arrived"], row["printed"], row["hops"], row["left"]) for row in rows}
    assert got == wanted
    assert all((row["injected"], row["status"], row["note"]) == ("4", "0", "") for row in rows)


@needs_parallel
def test_runs_that_are_refused_have_rows(tmp_path: Path, planet: str) -> None:
    done, rows = swept(tmp_path, planet, "--over", "bound=5,99999", "--over", "seed=1,2")
    assert done.returncode == 1
    assert done.stderr == f"sweep: 4 of 4 runs, 2 of them failed, {tmp_path}/a.csv\n"
    refused = [row for row in rows if row["bound"] == "99999"]
    assert [(row["status"], row["note"], row["hops"]) for row in refused] == [
        ("2", "BadNumber (refused by planet), line 14", "")] * 2
    _, rows = swept(tmp_path, planet, "--over", "bound=5,99999", "--over", "seed=1,2")
    assert len(rows) == 4


@needs_parallel
def test_a_name_that_nothing_sets_is_told(tmp_path: Path, planet: str) -> None:
    done, rows = swept(tmp_path, planet, "--over", "way=1")
    assert done.returncode == 1
    assert "no line sets way" in rows[0]["note"]


@needs_parallel
def test_a_killed_sweep_goes_on(tmp_path: Path, planet: str) -> None:
    """Killed without a word: no row is lost that was written, and none is made twice."""
    (tmp_path / "a.scenario").write_text(SCENARIO)
    words = [SWEEP, str(tmp_path / "a.scenario"), "--planet", planet, "-o", str(tmp_path / "a.csv"), "--batch", "2",
             "--over", "loss=0..50%:10", "--over", "seed=1..50"]
    child = subprocess.Popen(words, stderr=subprocess.DEVNULL)
    table = tmp_path / "a.csv"
    while not table.exists() or table.read_bytes().count(b"\n") < 20:
        time.sleep(0.05)
    child.send_signal(signal.SIGKILL)
    child.wait()
    before = table.read_bytes()
    before = before[:before.rfind(b"\n") + 1]
    assert 20 <= before.count(b"\n") < 301
    done, rows = swept(tmp_path, planet, "--over", "loss=0..50%:10", "--over", "seed=1..50")
    assert done.returncode == 0, done.stderr
    assert table.read_bytes().startswith(before)
    assert len({(row["loss"], row["seed"]) for row in rows}) == len(rows) == 300


@needs_parallel
@pytest.mark.parametrize("how, told", [
    (signal.SIGINT, "sweep: broken off, the same words again run what is missing\nsweep: "), (signal.SIGTERM, "")])
def test_a_sweep_that_is_ended_leaves_nothing_behind(
        tmp_path: Path, planet: str, how: signal.Signals, told: str) -> None:
    scenario = tmp_path / "a.scenario"
    scenario.write_text("planet scenario 1\nset seed 1\nhost 1\nevents\ntick 1\n")
    table = tmp_path / "a.csv"
    child = subprocess.Popen([SWEEP, str(scenario), "--planet", planet, "-o", str(table), "--batch", "500",
                              "--over", "seed=1..100000"], stderr=subprocess.PIPE, text=True)
    while not table.exists() or table.read_bytes().count(b"\n") < 2:
        time.sleep(0.05)
    child.send_signal(how)
    said = child.communicate()[1]
    assert child.returncode == (130 if how == signal.SIGINT else -how)
    assert said.startswith(told) and "Traceback" not in said
    until = time.monotonic() + 60
    while any(str(tmp_path).encode() in words for words in running()) and time.monotonic() < until:
        time.sleep(0.1)
    assert not [words for words in running() if str(tmp_path).encode() in words]


def running() -> list[bytes]:
    """The words of all processes."""
    found = []
    for entry in Path("/proc").glob("[0-9]*/cmdline"):
        try:
            found.append(entry.read_bytes())
        except OSError:
            continue
    return found


def test_an_array_job(tmp_path: Path, planet: str, capsys: pytest.CaptureFixture[str]) -> None:
    """A task makes its batch into a file of its own; the parts together are the table."""
    scenario = tmp_path / "a.scenario"
    scenario.write_text(SCENARIO)
    words = [str(scenario), "--planet", planet, "-o", str(tmp_path / "a.csv"), "--over", "seed=1..7"]
    assert main.main([*words, "--slurm", "--batch", "3"]) == 0
    job = capsys.readouterr().out
    assert "#SBATCH --array=0-2\n" in job
    for task in ("0", "2"):
        environment = {**os.environ, "SLURM_ARRAY_TASK_ID": task}
        subprocess.run(["sh"], input=job, text=True, check=True, env=environment)
    assert main.main([*words, "--take", str(tmp_path / "a.csv.parts")]) == 1
    assert capsys.readouterr().err == f"sweep: 4 of 7 runs, {tmp_path}/a.csv\n"


def test_what_is_no_sweep_is_named(tmp_path: Path, planet: str) -> None:
    (tmp_path / "a.scenario").write_text(SCENARIO)
    for words, told in ((["none.scenario"], "no scenario is there"), (["a.scenario"], "a grid has runs"),
                        (["a.scenario", "--over", "seed=2..1"], "names no values")):
        done = subprocess.run([SWEEP, *words, "--planet", planet], cwd=tmp_path, capture_output=True, text=True)
        assert done.returncode == 2
        assert done.stderr.startswith("sweep: ") and told in done.stderr and done.stderr.count("\n") == 1
