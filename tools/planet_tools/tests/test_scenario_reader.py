"""Scenarios are read as they are meant, and what can't be meant is refused at its line."""
from __future__ import annotations

from pathlib import Path

import pytest

from planet_tools.scenario.faults import Fault
from planet_tools.scenario.intent import Injection, Intent, Plain, Routes, Settle, Source
from planet_tools.scenario.reader import read

PROGRAM = "program p\nfun f(at : host) : unit = ()\nend program\n"


def read_text(tmp_path: Path, text: str, **given: str) -> Intent:
    path = tmp_path / "a.scenario"
    path.write_bytes(text.encode())
    return read(path, given)


def test_a_schedule_is_a_scenario(tmp_path: Path) -> None:
    text = ("planet schedule 1\nhost 4\nhost 2\nlink 4 1 2 3\n" + PROGRAM +
            "events\ninject 4 p f 5 (@2)\nsend 4 1\ndeliver 1\ntick 2\n")
    intent = read_text(tmp_path, text)
    assert intent.version == 1
    assert list(intent.network.without) == [4, 2]
    assert intent.network.links == [((4, 1), (2, 3), 4)]
    assert intent.statements == [Injection(9, 4, "p", "f", "5", "(@2)"), Plain(10, "send 4 1"), Plain(11, "deliver 1"),
                                 Plain(12, "tick 2")]


def test_names_stand_for_hosts(tmp_path: Path) -> None:
    text = ("planet scenario 2\nhost 7\nname 7 old\nhost near without net\nlink near old\n" + PROGRAM +
            "events\nat near inject p f 5 handler g (@old, \"@old\", '@', @9)\ntick near\n")
    intent = read_text(tmp_path, text)
    assert intent.network.names == {"old": 7, "near": 8}
    assert intent.network.without == {7: [], 8: ["net"]}
    assert intent.network.links == [((8, 1), (7, 1), 5)]
    assert intent.statements == [Injection(10, 8, "p", "f", "5", "handler g (@7, \"@old\", '@', @9)"),
                                 Plain(11, "tick 8")]


def test_loops_and_values(tmp_path: Path) -> None:
    text = ("planet scenario 1\nset bound 5\nset some 1,3\nline 3\n" + PROGRAM +
            "events\nfor a in $some\nfor b in 1..2\nat $a inject p f $bound (@${b})\nend for\nend for\n")
    statements = read_text(tmp_path, text, bound="9").statements
    assert [each.event() for each in statements if isinstance(each, Injection)] == [
        "inject 1 p f 9 (@1)", "inject 1 p f 9 (@2)", "inject 3 p f 9 (@1)", "inject 3 p f 9 (@2)"]


def test_rounds(tmp_path: Path) -> None:
    text = ("planet scenario 2\ngrid 3 3\n" + PROGRAM + "events\nroutes 5\nroutes\nfor 2 at 1 inject p f 5 (@1)\n"
            "every 3 for 4 at 1 inject p f 5 (@1)\nsettle seed x lose 2.5% reorder repeat 1% within 100\nsettle\n")
    injection = Injection(9, 1, "p", "f", "5", "(@1)")
    assert read_text(tmp_path, text).statements == [
        Routes(7, 5), Routes(8, 4), injection, injection, Source(10, 3, 4, Injection(10, 1, "p", "f", "5", "(@1)")),
        Settle(11, 2.5, 1.0, True, "x", 100), Settle(12)]


def test_a_program_from_a_file(tmp_path: Path) -> None:
    (tmp_path / "p.plan").write_text("fun f(at : host) : unit = ()")
    intent = read_text(tmp_path, "planet scenario 1\nhost 1\nprogram p p.plan\nevents\n")
    assert intent.programs[0].text == "fun f(at : host) : unit = ()\n"


HEAD = "planet scenario 1\nline 2\n" + PROGRAM + "events\n"
REFUSED = [
    ("", 1, "BadHeader"),
    ("planet scenario 3\n", 1, "BadHeader"),
    ("planet scenario 1\nhosts 3\nevents\n", 2, "did you mean 'host'?"),
    ("planet scenario 1\nline 33\nevents\n", 2, "BadNumber"),
    ("planet scenario 1\ngrid 4 9\nevents\n", 2, "TooMany: a network has at most 32 hosts"),
    ("planet scenario 1\nstar 10\nevents\n", 2, "TooMany: host 1 has 8 links already"),
    ("planet scenario 1\nhost 1\nhost 1\nevents\n", 3, "TwiceNamed: line 2"),
    ("planet scenario 1\nhost a\nhost a\nevents\n", 3, "TwiceNamed"),
    ("planet scenario 1\nline 2\nname 1 a\nname 2 a\nevents\n", 4, "TwiceNamed"),
    ("planet scenario 1\nhost 1 without air\nevents\n", 2, "BadWord: a host is without net"),
    ("planet scenario 1\nhost 1\nlink 1 1\nevents\n", 3, "BadArgument"),
    ("planet scenario 1\nline 2\nlink 1 9 2 9\nevents\n", 3, "BadNumber"),
    ("planet scenario 1\nline 2\nlink 1 1 2 2\nevents\n", 3, "TwiceNamed: device 1 of host 1"),
    ("planet scenario 1\nrandom 5 3 seed 1\nevents\n", 2, "BadArgument"),
    ("planet scenario 1\nrandom 5 2\nevents\n", 2, "BadWord"),
    ("planet scenario 1\ntopology none.dot\nevents\n", 2, "read fault"),
    ("planet scenario 1\nprogram p\nfun f() : unit = ()\nevents\n", 2, "no line 'end program'"),
    ("planet scenario 1\nprogram p none.plan\nevents\n", 2, "read fault"),
    ("planet scenario 1\nprogram p\nend program\nprogram p\nend program\nevents\n", 4, "TwiceNamed: line 2"),
    ("planet scenario 1\nline 2\n", 3, "no line 'events'"),
    ("planet scenario 1\nroutes 2\nevents\n", 2, "'routes' stands behind the line 'events'"),
    (HEAD + "line 3\n", 7, "'line' stands in front of the line 'events'"),
    (HEAD + "inject 3 p f 5 (@1)\n", 7, "UnknownHost"),
    (HEAD + "inject far p f 5 (@1)\n", 7, "UnknownHost"),
    (HEAD + "inject 1 p f 5 (@far)\n", 7, "UnknownHost"),
    (HEAD + "inject 1 q f 5 (@1)\n", 7, "UnknownProgram"),
    (HEAD + "inject 1 p f 5\n", 7, "BadWord: an injection is"),
    (HEAD + "every 3 at 1 inject p f 5 (@1)\nsettle\n", 7, "needs 'for TIMES'"),
    (HEAD + "every 3 for 2 at 1 inject p f 5 (@1)\n", 7, "no 'settle' behind this line"),
    (HEAD + "every 0 for 2 at 1 inject p f 5 (@1)\nsettle\n", 7, "BadNumber"),
    (HEAD + "for 2 inject 1 p f 5 (@1)\n", 7, "BadWord: write"),
    (HEAD + "for x in 1..2\ntick 1\n", 7, "no line 'end for'"),
    (HEAD + "end for\n", 7, "no loop is open"),
    (HEAD + "for x in 2..1\nend for\n", 7, "names no values"),
    (HEAD + "tick $x\n", 7, "UnknownValue"),
    (HEAD + "set x\n", 7, "BadWord: a value is set by"),
    (HEAD + "routes 0\n", 7, "BadNumber"),
    (HEAD + "routes 1 2\n", 7, "BadWord"),
    (HEAD + "settle lose\n", 7, "BadWord: 'lose' can't stand there"),
    (HEAD + "settle lose 5\n", 7, "BadNumber: 5 is no share"),
    (HEAD + "settle lose 101%\n", 7, "BadNumber"),
    (HEAD + "settle lose 1% lose 1%\n", 7, "BadWord: 'lose'"),
    (HEAD + "settle repeat 1%\n", 7, "planet scenario 2"),
    (HEAD + "repeat 1\n", 7, "planet scenario 2"),
    (HEAD + "settle within 0\n", 7, "BadNumber"),
    (HEAD + "send 1\n", 7, "BadWord: write 'send HOST DEVICE'"),
    (HEAD + "for a in 1..200\nfor b in 1..1001\n# nothing\ntick 1\nend for\nend for\n", 10, "TooMany: the loops"),
]


@pytest.mark.parametrize("text, line, what", REFUSED)
def test_refused(tmp_path: Path, text: str, line: int, what: str) -> None:
    with pytest.raises(Fault) as fault:
        read_text(tmp_path, text)
    assert (fault.value.line, what in fault.value.what) == (line, True), fault.value.what


def test_a_value_that_nothing_sets_is_refused(tmp_path: Path) -> None:
    with pytest.raises(Fault, match="no line sets bound"):
        read_text(tmp_path, HEAD, bound="5")


def test_bytes_that_are_no_text_are_refused(tmp_path: Path) -> None:
    path = tmp_path / "a.scenario"
    path.write_bytes(b"planet scenario 1\nhost 1\n\xff\n")
    with pytest.raises(Fault) as fault:
        read(path, {})
    assert (fault.value.line, fault.value.what) == (3, "BadChar: the line is no text in UTF-8")


def test_a_long_file_is_refused(tmp_path: Path) -> None:
    with pytest.raises(Fault, match="TooLong"):
        read_text(tmp_path, "planet scenario 1\n" + "#\n" * 2_097_152)
