"""Scenarios as fleets: the files that are made, and a run of one."""
from __future__ import annotations

import subprocess
from pathlib import Path

import pytest

from planet_tools.program import ROOT
from planet_tools.scenario import live
from planet_tools.scenario.faults import Fault
from planet_tools.scenario.reader import read
from planet_tools.scenario.rounds import Made

TEXT = """planet scenario 2
line 2
host 5 without resident
link 2 5
program p
svc print : (string) -> unit
fun told(x : string) : unit = print(x)
fun f() : unit = print("f")
end program
program q
svc print : (string) -> unit
fun g(n : int) : unit = print("g")
end program
events
routes 3
at 1 inject p f 5 handler told ()
settle
at 1 inject q g 6 (7)
settle
"""


def planned(tmp_path: Path, planet: str, text: str) -> live.Fleet:
    path = tmp_path / "a.scenario"
    path.write_text(text)
    made = Made(read(path, {}), planet)
    fleet, held = live.plan(made, made.make(), tmp_path / "fleet")
    for each in held:
        each.close()
    return fleet


def test_files(tmp_path: Path, planet: str) -> None:
    """Routes are over after half a second, three periods and a half; a host of one link hears an advert a period."""
    fleet = planned(tmp_path, planet, TEXT)
    live.write(fleet)
    ports = {host: (node.port, node.control) for host, node in fleet.nodes.items()}
    assert len({port for pair in ports.values() for port in pair}) == 6
    folder = tmp_path / "fleet"
    at = 500 + 50 + 300 + 500
    turn = at // 10 + (at // 100 + 1) + 1
    program = TEXT.split("end program\n")[0].split("program p\n")[1]
    assert (folder / "host-1.cfg").read_text() == (
        f"planet node 2\nhost 1\nhosts 1 2 5\nport {ports[1][0]}\ncontrol {ports[1][1]}\nperiod 100\nlog host-1.log\n"
        f"dev 1 2 {ports[2][0]}\nprogram\n{program}end program\nat {turn} inject f 5 handler told ()\n")
    assert (folder / "host-5.cfg").read_text() == (
        f"planet node 2\nhost 5\nhosts 1 2 5\nport {ports[5][0]}\ncontrol {ports[5][1]}\nperiod 100\nlog host-5.log\n"
        f"dev 1 2 {ports[2][0]}\nwithout resident\n")
    assert (folder / "ask-1.txt").read_text() == (
        f"planet inject 1\nto {ports[1][0]}\nfrom {ports[1][1]}\nbound 6\nentry g (7)\nprogram\n"
        "svc print : (string) -> unit\nfun g(n : int) : unit = print(\"g\")\nend program\n")
    assert (folder / "logs.audit").read_text() == (
        "planet audit 1\nlog host-1.log\nlog host-2.log\nlog host-5.log\nlink 1 1 2 1\nlink 2 2 5 1\n")
    assert [line.rsplit(" ", 1)[0] for line in (folder / "fleet.txt").read_text().split("\n")[:4]] == [
        "planet fleet", "node 1 host-1.cfg", "node 2 host-2.cfg", "node 5 host-5.cfg"]


REFUSED = [
    (TEXT.replace("routes 3", "tick 1"), 15, "'tick' is an event of a schedule alone"),
    (TEXT.replace("link 2 5", "link 2 5\nlink 5 2"), 5, "hosts 5 and 2 have another link"),
    (TEXT.replace("q g 6 (7)", "q g 6 handler told (7)").replace("fun g(", "fun told(x : string) : unit = ()\nfun g("),
     19, "so this is a request, which has no handler"),
]


@pytest.mark.parametrize("text, line, what", REFUSED)
def test_refused(tmp_path: Path, planet: str, text: str, line: int, what: str) -> None:
    with pytest.raises(Fault) as fault:
        planned(tmp_path, planet, text)
    assert (fault.value.line, what in fault.value.what) == (line, True), fault.value.what


def test_a_run(tmp_path: Path, planet: str) -> None:
    path = tmp_path / "a.scenario"
    path.write_text(TEXT)
    words = [str(ROOT / "tools/scenario"), str(path), "--planet", planet, "--live", str(tmp_path / "fleet"), "--run"]
    done = subprocess.run(words, capture_output=True, text=True)
    assert done.returncode == 0, done.stdout + done.stderr
    lines = done.stdout.split("\n")
    assert lines[0].startswith("asked ")
    assert lines[1:] == [
        "node @1 status 0", "node @2 status 0", "node @5 status 0", 'print @1 "f"', 'print @1 "g"',
        "prints as in the replay: yes", "planet audit 1", "yes", "1.1 granted 5 hops 0 evals 0 live 0 left 5",
        "1.2 granted 6 hops 0 evals 0 live 0 left 6", "end", ""]


def test_many_hosts_have_no_audit(tmp_path: Path, planet: str) -> None:
    live.write(planned(tmp_path, planet, "planet scenario 1\nring 17\nevents\nroutes 1\n"))
    assert not (tmp_path / "fleet" / "logs.audit").exists()
