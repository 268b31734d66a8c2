"""What scenarios make: schedules that planet replays, by rounds whose order is worked out by hand."""
from __future__ import annotations

import subprocess
from pathlib import Path

import pytest

from planet_tools.scenario.faults import Fault
from planet_tools.scenario.reader import read
from planet_tools.scenario.rounds import Made
from planet_tools.program import ROOT

PING = """program ping
svc thisHostIs : (host) -> bool
svc getRB : () -> int
svc print : (string) -> unit
fun ack() : unit = print("Success")
fun ping(src : host, dest : host) : unit =
  if not thisHostIs(dest) then
    OnRemote(|ping|(src, dest), dest, getRB(), defaultRoute)
  else OnRemote(|ack|(), src, getRB(), defaultRoute)
end program
"""


def made(tmp_path: Path, planet: str, text: str, sees_frames: bool = True) -> tuple[Made, list[str]]:
    """The scenario as it is made, and the lines of its trace."""
    path = tmp_path / "a.scenario"
    path.write_text(text)
    scenario = Made(read(path, {}), planet)
    scenario.sees_frames = sees_frames
    return scenario, scenario.make().decode().split("\n")


def test_a_ping_settles(tmp_path: Path, planet: str) -> None:
    """A round of routes, and then four rounds, each a send and a delivery."""
    text = "planet scenario 1\nline 3\n" + PING + "events\nroutes 1\ninject 1 ping ping 10 (@1, @3)\nsettle\n"
    scenario, trace = made(tmp_path, planet, text)
    assert scenario.schedule.events == [
        "tick 1", "tick 2", "tick 3", "send 1 1", "send 2 1", "send 2 2", "send 3 1",
        "deliver 1", "deliver 2", "deliver 3", "deliver 4",
        "inject 1 ping ping 10 (@1, @3)", "send 1 1", "deliver 5", "send 2 2", "deliver 6", "send 3 1",
        "deliver 7", "send 2 1", "deliver 8"]
    assert '20 print @1 "Success"' in trace
    assert "1.1 granted 10 hops 4 evals 0 live 0 left 6" in trace


def test_a_schedule_stays_as_it_is(tmp_path: Path, planet: str) -> None:
    """A schedule is a scenario that is its own schedule."""
    for sample in ("ticks-and-ping/ping", "loss-and-order/three", "frames-repeat/repeats", "absent-package/absent"):
        path = ROOT / "samples" / f"{sample}.schedule"
        scenario = Made(read(path, {}), planet)
        assert scenario.make() == (path.parent / "output").read_bytes()


def test_sources_inject_by_rounds(tmp_path: Path, planet: str) -> None:
    """Host 1 injects in rounds 0 and 3, host 2 in rounds 0, 1 and 2; each packet is at home two rounds later."""
    text = ("planet scenario 1\nline 2\n" + PING + "events\nevery 3 for 2 at 1 inject ping ping 5 (@1, @2)\n"
            "every 1 for 3 at 2 inject ping ping 5 (@2, @1)\nsettle\n")
    scenario, trace = made(tmp_path, planet, text)
    short = {"inject 1 ping ping 5 (@1, @2)": "one", "inject 2 ping ping 5 (@2, @1)": "two"}
    assert [short.get(event, event) for event in scenario.schedule.events] == [
        "one", "two",
        "send 1 1", "send 2 1", "deliver 1", "deliver 2", "two",
        "send 1 1", "send 2 1", "send 2 1", "deliver 3", "deliver 4", "deliver 5", "two",
        "send 1 1", "send 2 1", "deliver 6", "deliver 7", "one",
        "send 1 1", "send 1 1", "deliver 8", "deliver 9",
        "send 2 1", "deliver 10"]
    assert sum(" print " in line for line in trace) == 5


LOSSY = ("planet scenario 2\ngrid 3 3\n" + PING + "events\nroutes\nfor a in 1..9\nfor b in 9,5,1\n"
         "at $a inject ping ping 20 (@$a, @$b)\nend for\nend for\nevery 2 for 20 at 3 inject ping ping 20 (@3, @7)\n"
         "settle lose 5% repeat 10% reorder seed 3\n")


def test_a_guess_changes_nothing(tmp_path: Path, planet: str) -> None:
    """Without the bytes of frames there is no guess: more replays, and the same schedule."""
    guessed, trace = made(tmp_path, planet, LOSSY)
    plain, same = made(tmp_path, planet, LOSSY, sees_frames=False)
    assert guessed.schedule.events == plain.schedule.events
    assert trace == same
    assert guessed.replays.made < plain.replays.made
    words = [event.split()[0] for event in guessed.schedule.events]
    assert words.count("lose") > 0 and words.count("repeat") > 0
    assert all(line.split(" ")[1] != "nothing" for line in trace if " " in line)


def test_all_is_lost(tmp_path: Path, planet: str) -> None:
    text = "planet scenario 1\nline 2\n" + PING + "events\nfor 3 at 1 inject ping ping 5 (@1, @2)\nsettle lose 100%\n"
    _, trace = made(tmp_path, planet, text)
    assert sum(" lost 1." in line for line in trace) == 3
    assert not any(" print " in line for line in trace)


def test_two_thousand_packets_settle_in_few_replays(tmp_path: Path, planet: str) -> None:
    """All pings of 32 hosts by all, twice: no more replays than rounds, and far fewer than events."""
    text = ("planet scenario 1\ngrid 4 8\n" + PING + "events\nroutes\nfor turn in 1..2\n"
            "for a in 1..32\nfor b in 1..32\nat $a inject ping ping 40 (@$a, @$b)\nend for\nend for\nend for\nsettle\n")
    scenario, trace = made(tmp_path, planet, text)
    assert sum(" inject " in line for line in trace) == 2_048
    assert len(scenario.schedule.events) > 30_000
    assert scenario.replays.made <= 25


def refusal(tmp_path: Path, planet: str, text: str) -> tuple[int, str]:
    with pytest.raises(Fault) as fault:
        made(tmp_path, planet, text)
    return fault.value.line, fault.value.what


def test_what_planet_refuses_is_refused_at_its_line(tmp_path: Path, planet: str) -> None:
    head = "planet scenario 1\nset x 1\nline 3\n"
    assert refusal(tmp_path, planet, head + PING + "events\nroutes 3\nat 1 inject ping ping 10 (@1)\nsettle\n") == (
        16, "BadArgument (refused by planet)")
    assert refusal(tmp_path, planet, head + "program p\nfun f() : unit = g()\nend program\nevents\n") == (
        4, "ProgramRefused at 17: UnknownName (refused by planet)")
    assert refusal(tmp_path, planet, head + PING + "events\nat 1 inject ping ping 65536 (@1, @2)\n")[0] == 15


def test_settling_has_a_bound(tmp_path: Path, planet: str) -> None:
    text = "planet scenario 1\nline 2\n" + PING + "events\nat 1 inject ping ping 9 (@1, @2)\nsettle within 3\n"
    assert refusal(tmp_path, planet, text) == (
        15, "TooMany: settle doesn't end within 3 events, and 50,000 of all: behind 1 rounds 1 frames still move")


def test_a_schedule_has_a_bound_of_events(tmp_path: Path, planet: str) -> None:
    text = "planet scenario 1\nhost 1\nevents\nfor x in 1..50001\ntick 1\nend for\n"
    assert refusal(tmp_path, planet, text) == (
        5, "TooMany: a schedule has at most 50,000 events, and this line passes them")


def test_the_command_names_file_and_line(tmp_path: Path, planet: str) -> None:
    path = tmp_path / "a.scenario"
    path.write_text("planet scenario 1\nhosts 1\n")
    done = subprocess.run([str(ROOT / "tools/scenario"), str(path), "--planet", planet], capture_output=True, text=True)
    assert (done.returncode, done.stdout) == (2, "")
    assert done.stderr == f"scenario: BadWord: no line begins with 'hosts'; did you mean 'host'?, {path} line 2\n"
