"""The programs of samples/programs: what they print and what they pay is worked out by hand from their texts."""
from __future__ import annotations

import pytest

from planet_tools.program import ROOT
from planet_tools.scenario.reader import read
from planet_tools.scenario.rounds import Made

SHELF = ROOT / "samples" / "programs"
NEIGHBOURS = "[(@2, %1), (@3, %2), (@4, %3)]"
# each program's prints in order, and its ledger
WANTED = {
    # the way leads over the lowest devices: 1, 2, 3, 6, 9; four hops there, and 1, 2, 3 and 4 back
    "traceroute": (["@1 (1, @2)", "@1 (2, @3)", "@1 (3, @6)", "@1 (4, @9)"],
                   ["1.1 granted 14 hops 14 evals 0 live 0 left 0"]),
    # 64: twice 32, then 31: twice 15, then 14: twice 7, then 6: twice 3; each of six hosts sends to two
    "flood": (["@1 @1", "@2 @2", "@6 @6", "@3 @3", "@5 @5", "@4 @4"],
              ["1.1 granted 64 hops 12 evals 0 live 0 left 52"]),
    # two hosts on the way to the third have a next hop that is new, and then none has
    "monitor": (["@1 2", "@1 0"], [f"1.{turn} granted 10 hops 4 evals 0 live 0 left 6" for turn in (1, 2)]),
    # five cars and the last one pay a hop each, and so does the answer
    "train": (["@1 5"], ["1.1 granted 10 hops 7 evals 0 live 0 left 3"]),
    # from host 2 to the middle of a star and back, before and after a row was put there
    "look": ([f"@2 ({NEIGHBOURS}, (@2, %1), 1, ~1)", f"@2 ({NEIGHBOURS}, (@2, %1), 1, 7)"],
             ["2.1 granted 6 hops 2 evals 0 live 0 left 4", "1.1 granted 1 hops 0 evals 0 live 0 left 1",
              "2.2 granted 6 hops 2 evals 0 live 0 left 4"]),
    # host 3 keeps nothing, host 4 has no tables and is three hops from home; two failures are told of there
    "failures": (['@3 "nothing kept"', '@4 "near enough"', '@1 "NoService"', '@1 "TooFar"'],
                 ["1.1 granted 8 hops 6 evals 0 live 0 left 2", "1.2 granted 8 hops 6 evals 0 live 0 left 2",
                  "1.3 granted 8 hops 3 evals 0 live 0 left 5", "1.4 granted 8 hops 2 evals 0 live 0 left 6"]),
}


def test_the_shelf_is_whole() -> None:
    assert sorted(folder.name for folder in SHELF.iterdir() if folder.is_dir()) == sorted(WANTED)
    for name in WANTED:
        assert sorted(file.name for file in (SHELF / name).iterdir()) == sorted(
            ["about", "picture.svg", "trace", f"{name}.scenario"])


@pytest.mark.parametrize("name", WANTED)
def test_prints_and_ledger(name: str, planet: str) -> None:
    prints, ledger = WANTED[name]
    trace = Made(read(SHELF / name / f"{name}.scenario", {}), planet).make().decode()
    assert trace == (SHELF / name / "trace").read_text()
    lines = trace.split("\n")
    assert [line.split(" print ")[1] for line in lines if " print " in line] == prints
    assert lines[lines.index("ledger") + 1:lines.index("end")] == ledger


@pytest.mark.parametrize("name", WANTED)
def test_programs_are_short(name: str) -> None:
    intent = read(SHELF / name / f"{name}.scenario", {})
    assert 10 <= intent.programs[0].text.count("\n") <= 20


def test_the_scenario_of_the_traceroute_is_short(planet: str) -> None:
    path = SHELF / "traceroute/traceroute.scenario"
    scenario = Made(read(path, {}), planet)
    scenario.make()
    assert path.read_text().count("\n") <= 40
    assert scenario.schedule.text(False).count("\n") == 351


def test_a_train_loses_cars(planet: str) -> None:
    """A car has no bound left on the way. What is told is how many of five weren't lost; it may be lost itself."""
    told = set()
    for seed in range(10):
        given = {"loss": "30%", "seed": str(seed)}
        trace = Made(read(SHELF / "train/train.scenario", given), planet).make().decode()
        came = 5 - trace.count(" lost 1.1 bound 0\n")
        if " print @1 " in trace:
            assert f" print @1 {came}\n" in trace
            told.add(came)
    assert min(told) < 5
