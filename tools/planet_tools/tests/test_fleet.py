"""The command `fleet`: what it refuses, what it warns of, what it tells, and that no child outlives it."""
from __future__ import annotations

import os
import re
import signal
import socket
import subprocess
import sys
import time
from pathlib import Path
from typing import Callable, List

import pytest

from planet_tools.fleet.files import Refused, children_of
from planet_tools.fleet.running import Lines, text

FLEET = Path(__file__).resolve().parents[2] / "fleet"
# a program in the place of planet: a node says two lines and serves until it is ended; a request says where it went
STAND_IN = f"""#!{sys.executable}
import os, signal, sys, time
words = sys.argv[1:]
if words[0] == "inject":
    print("asked 7001 bytes 21")
    sys.exit(0)
if words[2] == "13":
    print("planet: link fault", file=sys.stderr)
    sys.exit(5)
if words[2] == "14":
    signal.signal(signal.SIGTERM, signal.SIG_IGN)
print("planet trace 1", flush=True)
print('1 tick @1 now 1\\n2 print @1 "a\\x1b[1m"\\n3 port @1 7 (1, "b")\\n4 value @1 1.1 () evals 0 left 0', flush=True)
if words[2] == "15":
    print("50001 tick @1 now 50001", flush=True)
    os.kill(os.getpid(), signal.SIGKILL)
if words[2] != "12":
    time.sleep(60)
"""
CONFIG = "planet node 1\nhost {host}\nhosts 1 2\nport {port}\ncontrol {control}\nperiod 100\nlog {log}\n"


@pytest.fixture
def room(tmp_path: Path, monkeypatch: pytest.MonkeyPatch) -> Path:
    """A folder with the stand-in and the configurations of two nodes."""
    stand_in = tmp_path / "stand_in"
    stand_in.write_text(STAND_IN)
    stand_in.chmod(0o755)
    for host, name in ((1, "one"), (2, "two")):
        config(tmp_path, f"{name}.cfg", host, f"{name}.log")
    (tmp_path / "ask.txt").write_text(f"planet inject 1\nto {free_port()}\nfrom {free_port()}\nbound 1\n")
    monkeypatch.chdir(tmp_path)
    return tmp_path


def free_port() -> int:
    """A port that nothing has."""
    with socket.socket(socket.AF_INET, socket.SOCK_DGRAM) as made:
        made.bind(("127.0.0.1", 0))
        port = made.getsockname()[1]
    assert isinstance(port, int)
    return port


def config(folder: Path, name: str, host: int, log: str, port: int = 0) -> None:
    """Writes a configuration."""
    (folder / name).write_text(CONFIG.format(host=host, port=port or free_port(), control=free_port(), log=log))


def begun(room: Path, *words: str, lines: str = "node 1 one.cfg 12\n") -> "subprocess.Popen[str]":
    """Starts the command on a fleet of these lines."""
    (room / "fleet.txt").write_text("planet fleet 1\n" + lines)
    command = [sys.executable, str(FLEET), "--planet", "./stand_in", *words, "fleet.txt"]
    return subprocess.Popen(command, cwd=room, stdin=subprocess.DEVNULL, stdout=subprocess.PIPE, stderr=subprocess.PIPE,
                            encoding="utf-8")


def ended(room: Path, *words: str, lines: str = "node 1 one.cfg 12\n") -> "subprocess.CompletedProcess[str]":
    """Runs the command on a fleet of these lines to its end."""
    run = begun(room, *words, lines=lines)
    output, notes = run.communicate(timeout=30)
    return subprocess.CompletedProcess([], run.returncode, output, notes)


def is_there(process: int) -> bool:
    """Whether a process runs."""
    try:
        return Path(f"/proc/{process}/stat").read_text().rpartition(") ")[2][0] != "Z"
    except OSError:
        return False


def all_gone(processes: List[int]) -> bool:
    """Whether none of them runs, a little later at most."""
    last = time.monotonic() + 5
    while any(map(is_there, processes)) and time.monotonic() < last:
        time.sleep(0.05)
    return not any(map(is_there, processes))


@pytest.mark.parametrize("text_of_it, wrong", [
    ("planet fleet 2\nnode 1 one.cfg 1\n", "it doesn't begin with the line 'planet fleet 1', fleet.txt line 1"),
    ("planet fleet 1\n# none\n", "it names no child, fleet.txt"),
    ("planet fleet 1\n\nnode 1 a\n", "it is neither 'node HOST FILE TURNS' nor 'ask HOST FILE', fleet.txt line 3"),
    ("planet fleet 1\nnode 01 one.cfg 1\n", "a host is a number from 0 to 4294967295, not '01', fleet.txt line 2"),
    ("planet fleet 1\nnode 1 one.cfg 0\n", "turns are a number from 1 to 1000000, not '0', fleet.txt line 2"),
    ("planet fleet 1\nask 1 " + "a" * 256 + "\n", "the name of a file has 1 to 255 bytes, fleet.txt line 2"),
    ("planet fleet 1\n" + "ask 1 a\n" * 65, "more than 64 children, fleet.txt line 66"),
])
def test_a_file_that_is_no_fleet_is_refused_at_its_line(room: Path, text_of_it: str, wrong: str) -> None:
    (room / "fleet.txt").write_text(text_of_it)
    with pytest.raises(Refused) as refused:
        children_of("fleet.txt")
    assert str(refused.value) == wrong


def test_what_nodes_say_is_told_and_control_characters_are_not(room: Path) -> None:
    done = ended(room, lines="node 1 one.cfg 12\nask 1 ask.txt\n")
    told = done.stdout.splitlines()
    assert (done.returncode, done.stderr) == (0, "")
    assert re.fullmatch(r"node @1 \(one.cfg\) runs: process \d+, port \d+, log one.log", told[0])
    assert '@1 step 2 print "a\\x1b[1m"' in told and '@1 step 3 port 7 (1, "b")' in told
    assert "ask @1 (ask.txt): asked 7001 bytes 21" in told
    # a request goes out only when the node has bound its port
    assert told.index(next(it for it in told if it.startswith("ask @1 (ask.txt) runs"))) > 0
    assert "node @1 (one.cfg) ended: status 0" in told


def test_a_child_that_fails_is_named_with_its_reason(room: Path) -> None:
    done = ended(room, lines="node 1 one.cfg 13\nnode 2 two.cfg 15\n")
    told = done.stdout.splitlines()
    assert done.returncode == 8
    assert "node @1 (one.cfg) notes: planet: link fault" in told
    assert "node @1 (one.cfg) ended: status 5, its port can't be bound, or its link failed" in told
    assert "node @2 (two.cfg) was ended by the signal KILL" in told
    assert "node @2 (two.cfg): its log has more than the 50,000 entries that a replay takes" in told


@pytest.mark.parametrize("what", [signal.SIGINT, signal.SIGTERM, signal.SIGHUP, signal.SIGKILL])
@pytest.mark.parametrize("turns, prepare", [(100, None), (14, None), (100, signal.SIGSTOP)])
def test_no_child_outlives_it(room: Path, what: signal.Signals, turns: int, prepare: object) -> None:
    run = begun(room, "--grace", "0.5", lines=f"node 1 one.cfg {turns}\nnode 2 two.cfg {turns}\n")
    assert run.stdout is not None
    processes: List[int] = []
    told = ""
    while told.count(" port 7 ") < 2:
        line = run.stdout.readline()
        told += line
        processes += [int(it) for it in re.findall(r"runs: process (\d+)", line)]
    assert len(processes) == 2 and all(map(is_there, processes))
    if isinstance(prepare, signal.Signals):
        os.kill(processes[0], prepare)
    run.send_signal(what)
    assert run.wait(20) == -what
    assert all_gone(processes)


def test_a_signal_shows_how_each_stands(room: Path) -> None:
    run = begun(room, lines="node 1 one.cfg 100\n")
    assert run.stdout is not None
    while " port 7 " not in run.stdout.readline():
        pass
    run.send_signal(signal.SIGUSR1)
    state = run.stdout.readline()
    assert re.search(r"runs: process \d+, port \d+, log one.log, \d+ s, [34] steps, 2 said, 0 bytes of log", state)
    assert run.stdout.readline() == "1 run, 0 ended, 0 wait\n"
    run.terminate()
    run.communicate(timeout=20)


def harm(room: Path, prepare: Callable[[], None], *words: str) -> "subprocess.CompletedProcess[str]":
    """What is told of a fleet of two nodes, once something was prepared."""
    prepare()
    return ended(room, *words, lines="node 1 one.cfg 12\nnode 2 two.cfg 12\n")


def test_ports_that_are_used_twice_or_taken_are_told_of(room: Path) -> None:
    port = free_port()
    config(room, "one.cfg", 1, "one.log", port)
    done = harm(room, lambda: config(room, "two.cfg", 2, "two.log", port))
    twice = f"fleet: port {port} would be bound twice, by node @1 (one.cfg) and by node @2 (two.cfg)"
    none = "fleet: nothing was started (--force starts it all the same, where each file can be read), fleet.txt"
    assert (done.returncode, done.stdout, done.stderr.splitlines()) == (2, "", [twice, none])
    with socket.socket(socket.AF_INET, socket.SOCK_DGRAM) as other:
        other.bind(("127.0.0.1", 0))
        taken = other.getsockname()[1]
        done = harm(room, lambda: config(room, "two.cfg", 2, "two.log", taken), "--check")
    assert done.stderr == f"fleet: port {taken} of node @2 (two.cfg) is taken by another process\n"


@pytest.mark.parametrize("log, wrong", [
    ("two.cfg", "the log of node @2 (two.cfg) is its own configuration, which would be lost"),
    ("./two.cfg", "the log of node @2 (two.cfg) is its own configuration, which would be lost"),
    ("one.cfg", "the log one.cfg of node @2 (two.cfg) is the file of node @1 (one.cfg), which would be lost"),
    ("fleet.txt", "the log fleet.txt of node @2 (two.cfg) is the file of the fleet, which would be lost"),
    ("one.log", "the log one.log would be written by node @1 (one.cfg) and by node @2 (two.cfg)"),
    ("thesis", "the log thesis of node @2 (two.cfg) can't be made: it is a file that is no log, and would be lost"),
    (".", "the log . of node @2 (two.cfg) can't be made: it is no file"),
    ("none/two.log", "the log none/two.log of node @2 (two.cfg) can't be made: no file can be made in none"),
])
def test_a_log_that_would_do_harm_is_told_of_and_nothing_is_started(room: Path, log: str, wrong: str) -> None:
    (room / "thesis").write_text("years of work\n")
    done = harm(room, lambda: config(room, "two.cfg", 2, log))
    assert (done.returncode, done.stdout) == (2, "")
    assert done.stderr.splitlines()[0] == f"fleet: {wrong}"
    assert (room / "thesis").read_text() == "years of work\n"


@pytest.mark.parametrize("held", ["", "planet log 1\n", "planet log 2\nhost 1\n"])
def test_an_old_log_or_an_empty_file_may_be_written_over(room: Path, held: str) -> None:
    (room / "two.log").write_text(held)
    done = harm(room, lambda: None, "--check")
    assert (done.returncode, done.stdout, done.stderr) == (0, "2 children, and nothing is wrong\n", "")


def test_a_missing_file_is_told_of_and_force_does_not_help(room: Path) -> None:
    done = harm(room, (room / "two.cfg").unlink, "--force")
    assert (done.returncode, done.stdout) == (2, "")
    wrong = "fleet: it can't be read (No such file or directory), two.cfg, which node @2 (two.cfg) needs\n"
    assert done.stderr.startswith(wrong)


def test_lines_come_whole_out_of_pieces_and_never_grow_without_an_end() -> None:
    lines = Lines()
    assert list(lines.add(b"a")) == [] and list(lines.add(b"b\nc\nd")) == [b"ab", b"c"]
    assert list(lines.end()) == [b"d"] and list(lines.end()) == []
    assert list(lines.add(b"x" * 3_000_000)) == [] and len(lines.rest) == 1_000_000
    assert text(b"\xff\n") == "\ufffd\\x0a" and text(b"a" * 2_001) == "a" * 2_000 + "..."
