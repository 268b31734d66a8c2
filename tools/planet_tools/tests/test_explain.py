"""Refusals with their places and sentences: a mark stands where the place must be."""
from __future__ import annotations

import os
import socket
import subprocess
from pathlib import Path

import pytest

# a program whose children are killed as they begin
KILLED = """#!/usr/bin/env python3
import os, signal, sys
if sys.argv[1] == "inject":
    os.kill(os.getpid(), signal.SIGKILL)
os.execv({planet!r}, sys.argv)
"""
TOOL = Path(__file__).resolve().parents[2] / "explain"
MARK = "¦"
NETWORK = ("planet schedule 1\nhost 1\nhost 2\nlink 1 1 2 1\nprogram p\nfun f(x : int) : unit = ()\nend program\n"
           "events\n")
NODE = "planet node 1\nhost 1\nhosts 1 2\nport 7001\ncontrol 7002\nperiod 1000\nlog n.log\ndev 1 2 7003\n"
FRAME = "504c414e010100000001000000000000000100000002000000090c64656661756c74526f7574650000010166000020016600"
ASK = "504c414e01030000000a"
PROGRAMS = (
    ("fun f() : int = ¦$", "DOLLAR SIGN"),
    ("svc print : (string) -> unit\nfun f() : unit = print(¦“a”)", "straight ones"),
    ("fun f() : string =\n ¦\"abc\n", "isn't closed on its line"),
    ("fun f() : int = 1\n ¦(* no end", "each `(*` needs a `*)`"),
    ("fun f() : int = ¦9223372036854775808", "out of its range"),
    ("fun ¦" + "a" * 33 + "() : int = 1", "at most 32"),
    ("fun f() : int = ¦-1", "`~`: ~1"),
    ("fun ¦if() : int = 1", "`if` is a word of the language"),
    ("fun f() : ¦integer = 1", "is `int` meant?"),
    ("fun f() : int = 1\n¦val", "a declaration must stand here"),
    ("svc print : (string) -> unit¦", "a function at least"),
    ("fun f() : int = (1 + 2¦", "`)` must still come"),
    ("fun f() : int = if true ¦1 else 2", "closes the condition of an `if`"),
    ("fun f() : bool = true ¦&& false", "`and` in this language"),
    ("fun f() : int = " + "(" * 160 + "¦" + "(" * 10 + "1" + ")" * 170, "nested too deep"),
    ("fun f(a:int,b:int,c:int,d:int,e:int,g:int,h:int,i:int,¦j:int) : int = 1", "at most 8 parameters"),
    ("fun f() : unit = ¦print(\"a\")", "`svc print : (int) -> unit`"),
    ("fun good() : int = 1\nfun f() : int = ¦god()", "is `good` meant?"),
    ("fun f() : int = raise[:int] ¦Overflov", "is `Overflow` meant?"),
    ("fun f() : int = ¦f()", "there is no recursion"),
    ("fun f() : int = ¦true", "of type int must stand here, and this is of type bool"),
    ("fun f(x : int) : int = x + ¦\"a\"", "of type int must stand here, and this is of type string"),
    ("fun g(a : int) : int = a\nfun f() : int = ¦g(1, 2)", "`g` takes 1 argument: (a : int)"),
    ("fun f() : int = length(¦[])", "`[:int]` for an empty list"),
    ("fun f() : int = ¦length(1)", "`length` takes a list"),
    ("fun f() : int = 1\nfun ¦f() : int = 2", "declared above, in line 1"),
    ("fun ¦hd() : int = 1", "a primitive of the language"),
    ("fun f(x : int list list list list list list list) : int = length(x :: ¦[])", "hold fewer lists and tuples"),
    ("¦fun f() : string = \"" + "a" * 15_991 + "\"", "more than 16000 bytes; leave something out"),
)
LINES = (
    ("replay", "¦planet shedule 1\n", "is `planet schedule 1` meant?"),
    ("replay", "¦planet schedule 1\r\nhost 1\r\n", "carriage return"),
    ("node", "¦planet schedule 1\n", "a file for `replay`"),
    ("replay", "planet schedule 1\n¦hots 1\n", "is `host` meant?"),
    ("replay", "planet schedule 1\nhost 1¦ \n", "a space stands at the end of the line"),
    ("replay", "planet schedule 1\nhost ¦ 1\n", "two spaces stand here"),
    ("replay", "planet schedule 1\nhost 1\nlink 1 1¦\n", "HOST is missing"),
    ("replay", NETWORK + "send 1 1 ¦x\n", "`send HOST DEVICE`"),
    ("replay", NETWORK + "¦repeat 1\n", "a word of version 2"),
    ("replay", "planet schedule 1\nhost 1¦\n", "a line `events` must still come"),
    ("replay", "planet schedule 1\nprogram p\nfun f() : int = 1¦\n", "begins at line 2 has no line `end program`"),
    ("replay", "planet schedule 1\nhost ¦@1\n", "without `@`"),
    ("replay", "planet schedule 1\nhost ¦01\n", "no zeros in front: write 1"),
    ("replay", NETWORK + "deliver ¦-1\n", "without `-`"),
    ("replay", "planet schedule 1\nhost 1\nhost 2\nlink 1 ¦9 2 1\n", "DEVICE is a number from 1 to 8"),
    ("replay", NETWORK + "tick ¦3\n", "the hosts so far: 1 and 2"),
    ("replay", NETWORK + "inject 1 ¦q f 5 (1)\n", "no program `q`"),
    ("replay", "planet schedule 1\nhost 1\nhost ¦1\n", "host 1 is named above"),
    ("replay", "planet schedule 1\n" + "".join(f"host {it}\n" for it in range(32)) + "¦host 32\n", "at most 32 hosts"),
    ("replay", "planet schedule 1\nprogram p\nfun f() : int =\n  ¦true\nend program\nevents\n", "of type bool"),
    ("replay", "planet schedule 1\nhost 1\nlink 1 1 ¦1 2\n", "both its ends are at host 1"),
    ("replay", NETWORK + "inject 1 p ¦g 5 (1)\n", "no function `g`"),
    ("replay", NETWORK + "inject 1 p f 5 (¦\"a\")\n", "`x` of `f` is of type int"),
    ("replay", NETWORK + "inject 1 p f 5 (¦x)\n", "a value must stand here"),
    ("replay", NETWORK + "inject 1 p f 5 (¦)\n", "`f` takes 1 argument (x : int), not 0"),
    ("replay", NETWORK + "raw 1 1 ab¦c\n", "an odd number"),
    ("replay", NETWORK + "raw 1 1 a¦g\n", "`g` is no hex digit"),
    ("node", "planet node 1\nhost 1\nhosts 2 ¦1\n", "1 stands behind 2"),
    ("node", "planet node 1\nhost 1\nhosts ¦2 3\n", "the node's own host, 1"),
    ("node", "planet node 1\nhost 1\nhosts 1 2\nport ¦0\n", "from 1 to 65535"),
    ("node", "planet node 1\n¦port 7\n", "`host HOST` must stand in front"),
    ("node", NODE.replace("dev 1 2", "dev 1 ¦1"), "this node itself"),
    ("node", NODE.replace("7003", "¦7001"), "port 7001 is named above"),
    ("node", NODE + "¦at 1 inject f 5 ()\n", "needs a program above"),
    ("fleet", "planet fleet 1¦\n", "a line `node` or `ask`"),
    ("cut", "planet cut 1\ndest 1\nport 7\nkey 5\nbound ¦0\ndata 00\n", "from 1 to 65535"),
    ("audit", "planet audit 1\nlog a\nlog ¦a\n", "the file a is named above"),
)
FRAMES = (
    ("50¦x4", "`x` is no hex digit"),
    ("50¦4", "odd number of digits"),
    ("¦51" + FRAME[2:], "`PLAN`"),
    (FRAME[:8] + "¦07" + FRAME[10:], "01 or 02"),
    (FRAME[:10] + "¦09" + FRAME[12:], "01 a packet"),
    (FRAME[:44] + "¦00010000" + FRAME[52:], "at most 65535"),
    (FRAME[:52] + "¦00" + FRAME[54:], "1 to 32"),
    (FRAME[:92] + "¦ff" + FRAME[94:], "this tag"),
    (FRAME[:98] + "¦", "the bytes end inside"),
    (FRAME + "¦00", "leave them out"),
    (ASK + "00000101660004240001¦ff016600", "no text in UTF-8"),
    ("504c414e01020000000200020000000100000001¦00000001", "the hosts of an advert ascend"),
    ("504c414e010200000002¦0021", "the limit is that of `hosts`"),
)
# a command, its file, the status, and what is said of the whole of it
WHOLES = (
    ("show", ASK + "0000010166000020016700", 2, "what isn't typed is: Entry"),
    ("check", "a" * 65_537, 2, "it has 65537 bytes"),
    ("node", NODE.replace("n.log", "no/n.log"), 4, "there is no folder no"),
    ("node", NODE.replace("n.log", "."), 4, "the log . is a folder"),
    ("fleet", "planet fleet 1\nask 1 missing\n", 8, "(missing) ended with 3: a file can't be read"),
    ("audit", "planet audit 1\nlog missing\n", 3, "missing: No such file or directory"),
    ("frob", "", 1, "there is no command `frob`"),
    ("grwo", "", 1, "is `grow` meant?"),
)


def said(planet: str, folder: Path, command: str, text: str, status: int = 2) -> str:
    """What is written to standard error about a file of this text."""
    (folder / "file").write_bytes(text.encode())
    words = [str(TOOL), planet, command, "file", *(["1"] if command == "node" else [])]
    plain = {**os.environ, "NO_COLOR": "1"}
    done = subprocess.run(words, capture_output=True, text=True, check=False, cwd=folder, env=plain)
    assert done.returncode == status, done
    return done.stderr


def check(planet: str, folder: Path, command: str, marked: str, sentence: str) -> None:
    at = marked.index(MARK)
    wanted = f"file:{marked.count(chr(10), 0, at) + 1}:{at - marked.rfind(chr(10), 0, at)}: "
    lines = said(planet, folder, command, marked.replace(MARK, "")).split("\n")
    assert lines[1].startswith(wanted), lines
    assert sentence in " ".join(it.strip() for it in lines[4:]), lines


@pytest.mark.parametrize("marked, sentence", PROGRAMS)
def test_a_program_is_explained(planet: str, tmp_path: Path, marked: str, sentence: str) -> None:
    check(planet, tmp_path, "check", marked, sentence)


@pytest.mark.parametrize("command, marked, sentence", LINES)
def test_a_line_is_explained(planet: str, tmp_path: Path, command: str, marked: str, sentence: str) -> None:
    check(planet, tmp_path, command, marked, sentence)


@pytest.mark.parametrize("marked, sentence", FRAMES)
def test_a_frame_is_explained(planet: str, tmp_path: Path, marked: str, sentence: str) -> None:
    check(planet, tmp_path, "show", marked, sentence)


@pytest.mark.parametrize("command, text, status, sentence", WHOLES)
def test_a_call_is_explained(planet: str, tmp_path: Path, command: str, text: str, status: int, sentence: str) -> None:
    lines = said(planet, tmp_path, command, text, status).split("\n")
    assert sentence in " ".join(it.strip() for it in lines), lines


def test_a_port_that_is_taken_is_explained(planet: str, tmp_path: Path) -> None:
    with socket.socket(socket.AF_INET, socket.SOCK_DGRAM) as held:
        held.bind(("127.0.0.1", 0))
        port = held.getsockname()[1]
        lines = said(planet, tmp_path, "node", NODE.replace("7001", str(port)), 5).split("\n")
    assert lines[0] == "planet: link fault"
    assert f"port {port}: Address already in use" in lines[1]


def wrapped(folder: Path, text: str) -> str:
    """A script that stands for the program."""
    script = folder / "script"
    script.write_text(text)
    script.chmod(0o755)
    return str(script)


def test_a_lost_child_is_explained(planet: str, tmp_path: Path) -> None:
    program = wrapped(tmp_path, KILLED.format(planet=planet))
    lines = said(program, tmp_path, "fleet", "planet fleet 1\nask 1 a\n", 6).split("\n")
    assert lines[0] == "planet: spawn fault"
    assert "was killed by a signal" in " ".join(it.strip() for it in lines[1:])


def test_want_of_memory_is_explained(planet: str, tmp_path: Path) -> None:
    """Among the sizes of memory with which the program is loaded, some are too small for a long file."""
    text = NETWORK + "tick 1\n" * 40_000
    (tmp_path / "file").write_text(text)
    for size in range(2_000, 40_000, 500):
        program = wrapped(tmp_path, f"#!/bin/sh\nulimit -v {size}\nexec '{planet}' \"$@\"\n")
        done = subprocess.run([program, "replay", "file"], capture_output=True, text=True, check=False, cwd=tmp_path)
        if done.stderr == "planet: no memory\n":
            break
    lines = said(program, tmp_path, "replay", text, 7).split("\n")
    assert lines[0] == "planet: no memory"
    assert "raise what `ulimit -v` allows" in " ".join(it.strip() for it in lines[1:])
